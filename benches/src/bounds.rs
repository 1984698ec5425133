//! The most instructions that a cycle may take, counted by callgrind.

use std::process::ExitCode;

use crate::cycles::counted;
use crate::loops;
use crate::measure::valgrind_is_installed;
use crate::sides::Side;
use crate::tables::head;

/// Of the first three loops, in every machine: four above what they took before there were tables, and on the first two one more for what
/// today's kit compiles otherwise (docs/PORT.md).
const BOUNDS: [f64; 3] = [37.77, 41.07, 43.25];

/// Counts the loops that have a bound: 0 if none is above it, or if nothing can be counted.
pub fn check() -> ExitCode {
    if !valgrind_is_installed() {
        println!("bounds: skipped, valgrind is not installed");
        return ExitCode::SUCCESS;
    }
    head(
        "Instructions a cycle, proved",
        &["loop", "areas", "table", "counted", "at most"],
    );
    let mut exceeded = false;
    let cases = loops::cases();
    let bounded = cases.iter().enumerate().take(loops::EACH * BOUNDS.len());
    for (at, case) in bounded {
        let count = counted(Side::Proved, at, case).expect("callgrind counts");
        let bound = BOUNDS[at / loops::EACH];
        println!("| {} | {count:.2} | {bound:.2} |", case.columns());
        exceeded |= count > bound;
    }
    println!();
    if exceeded {
        eprintln!("bounds: a cycle takes more instructions than it may");
        return ExitCode::FAILURE;
    }
    ExitCode::SUCCESS
}
