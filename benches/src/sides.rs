//! The sides: the proved library, the independent implementation of `tests/`, and the C peer.

use beetle_tests::call::{library, reference, Implementation};

use crate::peer;

/// A run of cycles, as `beetle_run`.
pub type Run = fn(u8, &mut [u8], u32, u32, &mut [u32], u32, &mut [u32]) -> u32;

#[derive(Clone, Copy, PartialEq, Eq, Debug)]
pub enum Side {
    Proved,
    Independent,
    C,
}

impl Side {
    /// In the order of a table's columns.
    pub const ALL: [Side; 3] = [Side::Proved, Side::Independent, Side::C];

    /// Those that have every call.
    pub const WHOLE: [Side; 2] = [Side::Proved, Side::Independent];

    pub fn name(self) -> &'static str {
        match self {
            Side::Proved => "proved",
            Side::Independent => "independent",
            Side::C => "C",
        }
    }

    /// The side with this name.
    pub fn named(name: &str) -> Option<Side> {
        Side::ALL.into_iter().find(|side| side.name() == name)
    }

    /// All calls; the peer has its run alone.
    pub fn calls(self) -> Option<Implementation> {
        match self {
            Side::Proved => Some(library()),
            Side::Independent => Some(reference()),
            Side::C => None,
        }
    }

    /// Its run; none of the peer where there was no C compiler.
    pub fn run(self) -> Option<Run> {
        match self {
            Side::C => peer::run(),
            _ => self.calls().map(|calls| calls.run),
        }
    }
}

/// The calls of the sides that have them all.
pub fn whole() -> [Implementation; 2] {
    Side::WHOLE.map(|side| side.calls().expect("a side with all calls"))
}
