//! Shows that the comparison can fail: each mutant of the reference is told from the reference by
//! the default number of cases, and the reference is not told from itself.

use beetle_tests::call::{reference, Implementation};
use beetle_tests::compare::{compare, explain, Difference, RULES, SUITES};
use beetle_tests::compare::{try_batches, try_budgets, try_cuts, try_firsts, try_images};
use beetle_tests::compare::{try_rules, try_sets, try_shorts};
use beetle_tests::implementation;
use beetle_tests::worked_batches::{self, Report};

/// Its group, its name, and its calls.
type Mutant = (&'static str, &'static str, Implementation);

/// Its name, and what it makes of the ends of runs.
type WrongReport = (&'static str, Report);

include!(concat!(env!("OUT_DIR"), "/mutants.rs"));

/// What tells the mutant from the reference, if anything does.
fn found(group: &str, mutant: &Implementation) -> Option<Difference> {
    if group == "demand3" {
        return try_rules(mutant, RULES).err();
    }
    let suites = || SUITES.iter().filter(|suite| suite.group == group);
    // The start of each suite first, as most are found there; suites of few, large cases later.
    [100, 10, 1].iter().find_map(|share| {
        let mut suites = suites().filter(|suite| suite.cases >= *share);
        suites.find_map(|suite| {
            let cases = (suite.cases / share).max(12);
            compare(suite, &reference(), mutant, cases).err()
        })
    })
}

#[test]
fn every_mutant_is_found() {
    let mut missed = Vec::new();
    for (group, name, mutant) in mutants() {
        let by = match group {
            "budgets" => try_budgets(&mutant, RULES).err(),
            "forms" => try_batches(&mutant, RULES).err(),
            "firsts" => try_firsts(&mutant, RULES).err(),
            "sequences" => try_sets(&mutant, RULES).err(),
            "shorts" => try_shorts(&mutant, RULES).err(),
            "unpacks" => try_images(&mutant, RULES).err(),
            _ => found(group, &mutant).map(|by| format!("{}, case {}", by.name, by.index)),
        };
        match by {
            Some(by) => println!("{name}: found by {by}"),
            None => missed.push(name),
        }
    }
    assert!(missed.is_empty(), "not found: {missed:?}");
}

/// Cycles that pass 32 bits take too long to be run: the reports worked on paper are to tell these.
#[test]
fn every_wrong_report_is_found() {
    let (all, missed): (Vec<WrongReport>, Vec<WrongReport>) = reports()
        .into_iter()
        .partition(|(_, report)| !worked_batches::reports(*report));
    let missed: Vec<&str> = missed.iter().map(|(name, _)| *name).collect();
    assert!(
        !all.is_empty() && missed.is_empty(),
        "not found: {missed:?}"
    );
}

/// The first mutant shifts A as unsigned: a single cell, FFh or a byte above 7Fh, shows it.
#[test]
fn a_difference_is_made_small() {
    let (group, _, mutant) = mutants()[0];
    let difference = found(group, &mutant).expect("a difference");
    let text = explain(&difference, &reference(), &mutant);
    println!("{text}");
    assert!(text.contains("memory: 1024 bytes; ; 0 more"), "{text}");
}

/// A small call that tells the mutant of this name from the reference, in words.
fn explained(name: &str) -> String {
    let named = mutants().into_iter().find(|mutant| mutant.1 == name);
    let (group, _, mutant) = named.expect("the mutant");
    let difference = found(group, &mutant).expect("a difference");
    let text = explain(&difference, &reference(), &mutant);
    println!("{text}");
    text
}

/// A file goes down to a literal and a branch, the least that shows their operands exchanged.
#[test]
fn a_file_is_made_small() {
    let text = explained("the operands of branches before those of literals");
    assert!(text.contains("  file, 18: 2 0 0 0 0 0 0 0 52 "), "{text}");
}

/// An image goes down to a literal with an operand cell and a branch in the same cell: the branch's EP
/// value is behind both.
#[test]
fn an_image_is_made_small() {
    let text = explained("a branch measured from the cell behind its own");
    assert!(text.contains("  file, 8: 52 "), "{text}");
}

/// A set goes down to two modules at one address: one with no cells, and after it one with a cell.
#[test]
fn a_set_is_made_small() {
    let text = explained("an empty module shares a byte with one after it");
    assert!(text.contains("  file, 28: "), "{text}");
    assert!(text.contains("  modules, 6: 0 0 C 0 C 10\n"), "{text}");
}

/// A batch goes down to one form of one byte and no cycle where its place alone is wrong, and to two forms
/// where something goes over from one to the next.
#[test]
fn a_batch_is_made_small() {
    let text = explained("the form at an address aligned down");
    assert!(text.contains("numbers 21h 1h 1h 0h\n"), "{text}");
    assert!(text.contains("  start: 1024 bytes; ; 0 more\n"), "{text}");
    let text = explained("memory made afresh before the first form only");
    assert!(text.contains("numbers 20h 1h 2h 3h\n"), "{text}");
    assert!(text.contains("  file, 2: "), "{text}");
}

#[test]
fn the_reference_agrees_with_itself() {
    for suite in &SUITES {
        let answers = compare(suite, &reference(), &reference(), suite.cases / 10);
        println!("{}: {:?}", suite.name, answers.as_ref().ok());
        assert!(answers.is_ok());
    }
}

#[test]
fn runs_of_the_reference_can_be_cut() {
    let cut = try_cuts(&reference(), RULES / 4).expect("a cut run");
    assert!(cut > RULES / 16);
}

#[test]
fn budgets_of_the_reference_can_be_cut_and_raised() {
    let runs = try_budgets(&reference(), RULES / 4).expect("budgets");
    println!("{runs:?}");
    for kind in [
        runs.spent_twice,
        runs.stopped_later,
        runs.stopped_at_once,
        runs.refused,
        runs.with_table,
    ] {
        assert!(kind > RULES / 400);
    }
}

#[test]
fn batches_of_the_reference_are_their_single_runs() {
    let batches = try_batches(&reference(), RULES / 4).expect("form by form");
    println!("{batches:?}");
    for kind in [
        batches.run,
        batches.of_no_form,
        batches.in_parts,
        batches.not_a_machine,
        batches.outside,
        batches.too_short,
    ] {
        assert!(kind > RULES / 400);
    }
}

#[test]
fn loads_of_the_reference_can_halt() {
    let loads = try_firsts(&reference(), RULES / 4).expect("halts");
    println!("{loads:?}");
    for kind in [loads.halted, loads.whole, loads.refused] {
        assert!(kind > RULES / 400);
    }
}

#[test]
fn sets_of_the_reference_load_in_any_sequence() {
    let sets = try_sets(&reference(), RULES / 4).expect("any sequence");
    println!("{sets:?}");
    for kind in [
        sets.loaded,
        sets.not_alone,
        sets.not_together,
        sets.without_room,
    ] {
        assert!(kind > RULES / 400);
    }
}

#[test]
fn files_of_the_reference_come_back() {
    let files = try_shorts(&reference(), RULES / 4).expect("there and back");
    println!("{files:?}");
    for kind in [
        files.old_back,
        files.short_back,
        files.packed,
        files.not_packed,
        files.refused,
    ] {
        assert!(kind > RULES / 40);
    }
}

#[test]
fn images_of_the_reference_come_back() {
    let images = try_images(&reference(), RULES / 4).expect("packed and read");
    println!("{images:?}");
    for kind in [
        images.images_back,
        images.listings_back,
        images.not_read,
        images.not_packed,
    ] {
        assert!(kind > RULES / 40);
    }
}

#[test]
fn the_reference_meets_demand_3() {
    let rules = try_rules(&reference(), RULES).ok().expect("demand 3");
    println!("{rules:?}");
    assert!(rules.items > u64::from(RULES) && rules.stopped > 0 && rules.outside > 0);
    assert!(rules.with_areas > RULES / 4);
    assert!(rules.with_table > RULES / 4 && rules.with_table < 3 * RULES / 4);
}
