//! Reports as text: a first line, lines of a key and a value each, always in this order, and a last
//! line, so that one that was cut short shows.

use std::fmt::{self, Display, Formatter};

use super::figures::Figures;

/// The first line of a report, and the last.
pub const FIRST: &str = "beetle batch report 1";
pub const LAST: &str = "end of report";

pub const KEYS: [&str; 11] = [
    "given",
    "forms",
    "stopped with 0",
    "stopped with -258",
    "stopped with -259",
    "stopped with another reason",
    "spent",
    "cycles",
    "largest",
    "mean",
    "remainder",
];

/// The width of the longest key, and two spaces.
const WIDTH: usize = 29;

/// The figures of forms that were given alike, with the digest of what they were given.
#[derive(Clone, Copy, PartialEq, Eq, Debug)]
pub struct Saved {
    pub given: u64,
    pub figures: Figures,
}

impl Saved {
    fn values(&self) -> [String; 11] {
        let Figures {
            forms,
            ends: [zero, stack, handler, other, spent],
            cycles,
            largest,
        } = self.figures;
        let (mean, remainder) = self.figures.mean();
        [
            format!("{:016X}", self.given),
            forms.to_string(),
            zero.to_string(),
            stack.to_string(),
            handler.to_string(),
            other.to_string(),
            spent.to_string(),
            cycles.to_string(),
            largest.to_string(),
            mean.to_string(),
            remainder.to_string(),
        ]
    }
}

impl Display for Saved {
    fn fmt(&self, f: &mut Formatter<'_>) -> fmt::Result {
        writeln!(f, "{FIRST}")?;
        for (key, value) in KEYS.iter().zip(self.values()) {
            writeln!(f, "{key:<WIDTH$}{value}")?;
        }
        writeln!(f, "{LAST}")
    }
}
