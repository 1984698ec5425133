//! What is wrong with each mutant, by subject.

mod areas;
mod batches;
mod files;
mod images;
mod modules;
mod packer;
mod processor;
mod sets;
mod tables;

/// A wrong implementation: the reference with one edit.
pub struct Mutant {
    /// The group of suites that finds it; or demand3, budgets, forms, firsts, sequences, shorts, unpacks: what
    /// it breaks by itself, with no second implementation to compare; or reports, of which nothing is run.
    pub group: &'static str,
    pub name: &'static str,
    pub file: &'static str,
    pub find: &'static str,
    pub put: &'static str,
}

const fn mutant(
    group: &'static str,
    name: &'static str,
    file: &'static str,
    find: &'static str,
    put: &'static str,
) -> Mutant {
    Mutant {
        group,
        name,
        file,
        find,
        put,
    }
}

/// All of them, subject by subject.
pub const SUBJECTS: &[&[Mutant]] = &[
    processor::MUTANTS,
    areas::MUTANTS,
    tables::MUTANTS,
    batches::MUTANTS,
    modules::MUTANTS,
    sets::MUTANTS,
    packer::MUTANTS,
    files::MUTANTS,
    images::MUTANTS,
];
