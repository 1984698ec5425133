//! Instructions and nanoseconds a cycle.

use std::hint::black_box;

use crate::loops::{self, Case};
use crate::measure::{instructions, nanoseconds};
use crate::sides::Side;
use crate::tables::{beside, head};

/// The cycles of one timed run.
const CYCLES: u32 = 5_000_000;

/// The cycles of the counted runs.
const COUNTS: [u32; 2] = [100_000, 1_100_000];

/// The instructions a cycle of the case with this number, by each side that has it.
pub fn counted(side: Side, at: usize, case: &Case) -> Option<f64> {
    case.run_of(side)?;
    instructions(side, "loop", at, COUNTS)
}

/// The nanoseconds a cycle by each side that has the case; all have to leave the same machine.
fn timed(case: &Case) -> [Option<f64>; 3] {
    let runs = Side::ALL.map(|side| case.run_of(side));
    let mut left = runs.into_iter().flatten().map(|run| case.run(run, CYCLES));
    let first = left.next();
    assert!(
        left.all(|other| Some(other) == first),
        "one machine is left"
    );
    let acts = runs.map(|run| {
        move || {
            black_box(run.map(|run| case.run(run, CYCLES)));
        }
    });
    let mut times = nanoseconds(acts).into_iter();
    runs.map(|run| {
        let time = times.next()?;
        run.map(|_| time / f64::from(CYCLES))
    })
}

/// A line for each loop and machine.
pub fn table() {
    let columns = [
        "loop",
        "areas",
        "table",
        "instructions a cycle, proved",
        "independent",
        "C",
        "ratio to independent",
        "to C",
        "ns a cycle, proved",
        "independent",
        "C",
        "ratio to independent",
        "to C",
    ];
    head("Cycles of beetle_run", &columns);
    for (at, case) in loops::cases().iter().enumerate() {
        let counts = Side::ALL.map(|side| counted(side, at, case));
        let times = timed(case);
        println!(
            "| {} | {} | {} |",
            case.columns(),
            beside(&counts),
            beside(&times)
        );
    }
    println!();
}
