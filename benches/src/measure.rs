//! Times, and instructions counted by callgrind in a child process.

use std::env;
use std::process::Command;
use std::time::Instant;

use crate::sides::Side;

/// How often each act is timed, in turn; the shortest time of each counts.
const TIMES: usize = 31;

/// The shortest of several times of each act, in nanoseconds.
pub fn nanoseconds<const N: usize>(mut acts: [impl FnMut(); N]) -> [f64; N] {
    let mut shortest = [f64::INFINITY; N];
    for _ in 0..TIMES {
        for (act, shortest) in acts.iter_mut().zip(&mut shortest) {
            let start = Instant::now();
            act();
            *shortest = shortest.min(start.elapsed().as_nanos() as f64);
        }
    }
    shortest
}

pub fn valgrind_is_installed() -> bool {
    let version = Command::new("valgrind").arg("--version").output();
    version.is_ok_and(|output| output.status.success())
}

/// Instructions a cycle of a loop, a form of a batch, a load or save of modules, or a call on a listing,
/// if valgrind is installed: the difference between two amounts, so that what is done once does not
/// count.
pub fn instructions(side: Side, what: &str, at: usize, amounts: [u32; 2]) -> Option<f64> {
    let [few, many] = amounts;
    let fewer = counted(side, what, at, few)?;
    let more = counted(side, what, at, many)?;
    Some((more - fewer) as f64 / f64::from(many - few))
}

/// The instructions of a child process that does so much; none without valgrind.
fn counted(side: Side, what: &str, at: usize, amount: u32) -> Option<u64> {
    let program = env::current_exe().expect("this program's own file");
    let output = Command::new("valgrind")
        .args(["--tool=callgrind", "--callgrind-out-file=/dev/null"])
        .arg(program)
        .args(["count", side.name(), what])
        .args([&at.to_string(), &amount.to_string()])
        .output()
        .ok()?;
    let text = String::from_utf8_lossy(&output.stderr);
    assert!(output.status.success(), "the child failed: {text}");
    let line = text.lines().find(|line| line.contains("Collected :"))?;
    line.split_whitespace().last()?.parse().ok()
}
