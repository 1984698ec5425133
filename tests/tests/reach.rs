//! The cases meet the table, batches and sets of modules in every way, and batches, sets, listing files and
//! images with every answer.

use beetle_tests::call::{perform, reference, Call};
use beetle_tests::cases::images::Packed;
use beetle_tests::cases::wrong_images::DAMAGES;
use beetle_tests::cases::{images, processor, rules};
use beetle_tests::compare::{compare, SUITES};
use beetle_tests::random::Random;
use beetle_tests::reach::{tally, Tally};
use beetle_tests::reference::listing::Listing;
use beetle_tests::reference::packer;
use beetle_tests::{reach_batches, reach_sets};

/// Each of these came up so often at least.
fn at_least(tally: &Tally, least: u32, names: &[&str]) {
    println!("{tally:?}");
    for name in names {
        let times = tally.get(name).copied().unwrap_or_default();
        assert!(times >= least, "{name}: {times} times");
    }
}

const ALWAYS: [&str; 4] = [
    "no table",
    "a table that nothing meets",
    "-258 by a throw",
    "-4112",
];

#[test]
fn cycles_meet_tables() {
    let tally = tally(7, 40_000, processor::cycle);
    at_least(&tally, 100, &ALWAYS);
    let writes = [
        "-20 by !",
        "-20 by C!",
        "-20 by +!",
        "-20 by ROLL",
        "-20 by (DO)",
        "-20 by an index",
        "-20 by >R",
        "-20 by a call",
        "-20 by an item written over",
        "-20 before another fault",
        "-258 by a write",
    ];
    at_least(&tally, 5, &writes);
}

#[test]
fn starts_meet_tables() {
    at_least(&tally(8, 10_000, processor::start), 100, &ALWAYS);
}

#[test]
fn runs_meet_tables() {
    for make in [processor::run, rules::list_run, rules::list_resume] {
        let tally = tally(9, 4_000, make);
        at_least(&tally, 40, &ALWAYS);
        at_least(&tally, 15, &["-20"]);
    }
}

#[test]
fn batches_come_in_every_way() {
    let tally = reach_batches::tally(13, 12_000);
    let names: Vec<&str> = tally.keys().copied().collect();
    assert_eq!(names.len(), 76);
    at_least(&tally, 20, &names);
}

#[test]
fn sets_come_in_every_way() {
    let tally = reach_sets::tally(12, 4_000);
    let names: Vec<&str> = tally.keys().copied().collect();
    assert_eq!(names.len(), 27);
    at_least(&tally, 20, &names);
}

#[test]
fn batches_sets_files_and_images_meet_every_answer() {
    let run = &[0, -1, -4101, -4102, -4105, -4111, -4112][..];
    let loaded = &[0, -1, -2, -4101, -4102, -4103, -4104, -4105, -4113][..];
    let shortened = &[0, -4105, -4106, -4107, -4108, -4109][..];
    let lengthened = &[0, -4105, -4106, -4107, -4109, -4119][..];
    let packed = &[lengthened, &[-4102, -4104, -4110]].concat()[..];
    let unpacked = &[0, -4102, -4104, -4105, -4110, -4116][..];
    for (name, expected) in [
        ("batches", run),
        ("sets", loaded),
        ("shortens", shortened),
        ("lengthens", lengthened),
        ("pack shorts", packed),
        ("unpacks", unpacked),
    ] {
        let suite = SUITES.iter().find(|suite| suite.name == name);
        let suite = suite.expect("the suite");
        let answers = compare(suite, &reference(), &reference(), 4_000).ok();
        let answers = answers.expect("no difference");
        println!("{name}: {answers:?}");
        let mut met: Vec<i32> = answers.keys().copied().collect();
        let mut expected = expected.to_vec();
        met.sort();
        expected.sort();
        assert_eq!(met, expected, "{name}");
        assert!(answers.values().all(|times| *times >= 20), "{name}");
    }
}

/// The listing of a call that reads one.
fn packed(call: &Call) -> Option<Packed> {
    let read = perform(&reference(), call);
    let items = (read.answer == 0).then(|| read.lent.out[0] as usize)?;
    let listing = Listing {
        kinds: read.lent.kinds[..items].to_vec(),
        operands: read.lent.operands[..items].to_vec(),
    };
    Some(Packed {
        layout: packer::layout(&listing),
        base: call.numbers[0],
        listing,
    })
}

#[test]
fn images_keep_marks_of_earlier_rounds() {
    let mut random = Random::new(11);
    let calls = (0..4_000).map(|index| images::unpack(&mut random, index));
    let images = calls.filter_map(|call| packed(&call));
    let keeps_mark = |image: &Packed| (0..image.listing.items()).any(|item| image.keeps_mark(item));
    let times = images.filter(keeps_mark).count();
    println!("{times} times");
    assert!(times >= 20, "{times} times");
}

/// Each way to damage an image gives images that no listing packs to.
#[test]
fn every_damage_is_refused() {
    for (number, (name, _)) in DAMAGES.iter().enumerate() {
        let mut random = Random::new(10);
        let damaged = (0..400).map(|_| images::damaged_by(&mut random, number));
        let answers: Vec<i32> = damaged
            .map(|call| perform(&reference(), &call).answer as i32)
            .collect();
        let count = |number| answers.iter().filter(|answer| **answer == number).count();
        let (refused, taken) = (count(-4116), count(0));
        println!("{name}: -4116 {refused} times, 0 {taken} times");
        assert!(refused >= 20, "{name}: {refused} times");
    }
}
