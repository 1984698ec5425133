//! The comparison of two implementations, suite by suite.

use std::collections::BTreeMap;

use crate::batches::{try_batch, Batches};
use crate::budgets::{self, Budgets};
use crate::call::{agree, perform, Call, Implementation};
use crate::cases::{batches, files, images, listings, modules, processor, rules, sets};
use crate::cuts;
use crate::demand3::follow;
use crate::firsts::{self, Firsts};
use crate::images::{try_call, Images};
use crate::random::Random;
use crate::sets::{try_set, Sets};
use crate::shorts::{self, Shorts};
use crate::shrink::{call_text, returned_text, smallest};

/// Calls of one sort, with the number that is drawn by default.
pub struct Suite {
    pub name: &'static str,
    /// processor, batches, modules, sets, packer, files or images.
    pub group: &'static str,
    pub cases: u32,
    pub make: fn(&mut Random, u32) -> Call,
}

const fn suite(
    name: &'static str,
    group: &'static str,
    cases: u32,
    make: fn(&mut Random, u32) -> Call,
) -> Suite {
    Suite {
        name,
        group,
        cases,
        make,
    }
}

pub const SUITES: [Suite; 24] = [
    suite("cycles", "processor", 400_000, processor::cycle),
    suite("starts", "processor", 20_000, processor::start),
    suite("runs", "processor", 40_000, processor::run),
    suite("large memories", "processor", 24, processor::large),
    suite("batches", "batches", 40_000, batches::batch),
    suite("large batches", "batches", 24, batches::large),
    suite("loads", "modules", 60_000, modules::load),
    suite("first cells", "modules", 60_000, modules::load_first),
    suite("saves", "modules", 60_000, modules::save),
    suite("large modules", "modules", 24, modules::large),
    suite("sets", "sets", 40_000, sets::load_set),
    suite("large sets", "sets", 24, sets::large),
    suite("packs", "packer", 20_000, listings::pack),
    suite("pack files", "packer", 20_000, listings::pack_file),
    suite("list runs", "packer", 60_000, rules::list_run),
    suite("list resumes", "packer", 60_000, rules::list_resume),
    suite("large listings", "packer", 60, listings::large),
    suite("large list runs", "packer", 24, rules::large),
    suite("shortens", "files", 20_000, files::shorten),
    suite("lengthens", "files", 20_000, files::lengthen),
    suite("pack shorts", "files", 20_000, files::pack_short),
    suite("large files", "files", 60, files::large),
    suite("unpacks", "images", 20_000, images::unpack),
    suite("large images", "images", 60, images::large),
];

/// How many rules demand 3 is tried on by default.
pub const RULES: u32 = 20_000;

/// The number of cases, multiplied by the environment variable CASES.
pub fn raised(cases: u32) -> u32 {
    match std::env::var("CASES") {
        Ok(text) => cases.saturating_mul(text.parse().expect("CASES is a number")),
        Err(_) => cases,
    }
}

/// How often each answer came.
pub type Answers = BTreeMap<i32, u32>;

/// A seed of its own for each suite.
fn seed(name: &str) -> u64 {
    name.bytes()
        .fold(1, |seed, byte| (257 * seed + u64::from(byte)) % 1_000_003)
}

/// A case that shows a difference, with words for a call like it.
pub struct Difference {
    pub name: &'static str,
    pub index: u32,
    pub call: Box<Call>,
}

/// A case that breaks a claim that an implementation has to meet by itself, told with what differs.
fn broken(name: &str, index: u32, why: &str, call: &Call) -> String {
    format!("{name}, case {index}: {why}\n{}", call_text(call))
}

/// Compares on a suite; the error is the first case that differs.
pub fn compare(
    suite: &Suite,
    left: &Implementation,
    right: &Implementation,
    cases: u32,
) -> Result<Answers, Difference> {
    let mut random = Random::new(seed(suite.name));
    let mut answers = Answers::new();
    for index in 0..cases {
        let call = (suite.make)(&mut random, index);
        let first = perform(left, &call);
        if !first.margins_kept || first != perform(right, &call) {
            return Err(Difference {
                name: suite.name,
                index,
                call: Box::new(call),
            });
        }
        *answers.entry(first.answer as i32).or_default() += 1;
    }
    Ok(answers)
}

/// The smallest call found that shows a difference, and what both return from it.
pub fn explain(difference: &Difference, left: &Implementation, right: &Implementation) -> String {
    let call = smallest(&difference.call, &|call| !agree(left, right, call));
    let returned = returned_text(&perform(left, &call), &perform(right, &call));
    let Difference { name, index, .. } = difference;
    format!("{name}, case {index}: {}{returned}", call_text(&call))
}

/// What became of the rules that demand 3 was tried on.
#[derive(Default, Debug)]
pub struct Rules {
    pub rules: u32,
    pub items: u64,
    pub longest: u32,
    pub stopped: u32,
    pub outside: u32,
    pub with_areas: u32,
    pub with_table: u32,
}

/// Tries demand 3 on an implementation; the error is the first rule that breaks it.
pub fn try_rules(implementation: &Implementation, rules: u32) -> Result<Rules, Difference> {
    let mut random = Random::new(3);
    let mut tally = Rules::default();
    for index in 0..rules {
        let mut call = rules::rule(&mut random);
        let Ok(followed) = follow(implementation, &call) else {
            return Err(Difference {
                name: "demand 3",
                index,
                call: Box::new(call),
            });
        };
        tally.rules += 1;
        tally.items += u64::from(followed.items);
        tally.longest = tally.longest.max(followed.items);
        tally.stopped += u32::from(followed.stopped);
        tally.outside += u32::from(followed.outside);
        tally.with_areas += u32::from(call.given_areas() != [0; 4]);
        tally.with_table += u32::from(call.table != [0; 2]);
    }
    Ok(tally)
}

/// Tries a claim on calls drawn at random: what became of them, or the first that breaks it.
fn tried<T: Default>(
    name: &str,
    seed: u64,
    cases: u32,
    make: fn(&mut Random, u32) -> Call,
    attempt: impl Fn(&mut Random, &Call, &mut T) -> Result<(), String>,
) -> Result<T, String> {
    let mut random = Random::new(seed);
    let mut tally = T::default();
    for index in 0..cases {
        let call = make(&mut random, index);
        attempt(&mut random, &call, &mut tally).map_err(|why| broken(name, index, &why, &call))?;
    }
    Ok(tally)
}

/// Cuts rules in two, each of which has to be the whole run again. How many were cut.
pub fn try_cuts(implementation: &Implementation, rules: u32) -> Result<u32, String> {
    let rule = |random: &mut Random, _| rules::rule(random);
    tried("cuts", 4, rules, rule, |random, call, tally| {
        let at = random.below(60);
        let was_cut = cuts::cut(implementation, call, at);
        *tally += u32::from(was_cut.map_err(|why| format!("at {at}: {why}"))?);
        Ok(())
    })
}

/// Cuts and raises the budgets of runs.
pub fn try_budgets(implementation: &Implementation, runs: u32) -> Result<Budgets, String> {
    let run = processor::run;
    tried("budgets", 5, runs, run, |random, call, tally| {
        budgets::try_run(implementation, random, call, tally)
    })
}

/// Holds batches against single runs, in other sequences and in parts.
pub fn try_batches(implementation: &Implementation, cases: u32) -> Result<Batches, String> {
    let batch = batches::batch;
    tried("form by form", 10, cases, batch, |random, call, tally| {
        try_batch(implementation, random, call, tally)
    })
}

/// Holds loads that halt against the whole loads.
pub fn try_firsts(implementation: &Implementation, loads: u32) -> Result<Firsts, String> {
    let load = modules::load_first;
    tried("halts", 6, loads, load, |random, call, tally| {
        firsts::try_load(implementation, random, call, tally)
    })
}

/// Holds modules loaded together against single loads, in three sequences.
pub fn try_sets(implementation: &Implementation, cases: u32) -> Result<Sets, String> {
    let set = sets::load_set;
    tried("any sequence", 9, cases, set, |random, call, tally| {
        try_set(implementation, random, call, tally)
    })
}

/// Turns listing files into the other sort and back, and packs both.
pub fn try_shorts(implementation: &Implementation, cases: u32) -> Result<Shorts, String> {
    let file = files::any;
    tried("there and back", 7, cases, file, |_, call, tally| {
        shorts::try_file(implementation, call, tally)
    })
}

/// Reads images and packs what was read; packs listings and reads their images.
pub fn try_images(implementation: &Implementation, cases: u32) -> Result<Images, String> {
    let either = images::image_or_listing;
    tried("packed and read", 8, cases, either, |_, call, tally| {
        try_call(implementation, call, tally)
    })
}

/// The smallest rule found that breaks demand 3, and how.
pub fn explain_rule(difference: &Difference, implementation: &Implementation) -> String {
    let rule = smallest(&difference.call, &|rule| {
        follow(implementation, rule).is_err()
    });
    let why = follow(implementation, &rule).err().unwrap_or_default();
    let Difference { name, index, .. } = difference;
    format!("{name}, rule {index}: {why}\n{}", call_text(&rule))
}
