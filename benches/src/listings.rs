//! The listings whose packing is measured.

use beetle_tests::reference::listing;
use beetle_tests::reference::packer;

pub struct Listing {
    pub name: &'static str,
    pub kinds: Vec<u8>,
    pub operands: Vec<u32>,
}

const DUP: u8 = 0x01;
const CALL: u8 = 0x48;
const LITERAL: u8 = 0x52;

/// A literal that fits no immediate form.
const WIDE: u32 = 0x0080_0000;

impl Listing {
    fn new(name: &'static str) -> Self {
        Listing {
            name,
            kinds: Vec::new(),
            operands: Vec::new(),
        }
    }

    fn item(&mut self, kind: u8, operand: u32) {
        self.kinds.push(kind);
        self.operands.push(operand);
    }

    /// The rounds of layout that it takes, counted by the independent packer.
    pub fn rounds(&self) -> usize {
        let listing = listing::accept(&self.kinds, &self.operands).expect("a legal listing");
        packer::layout(&listing).rounds
    }
}

/// Plain items, literals and calls as rules have them; no branch is marked.
pub fn plain(items: u32) -> Listing {
    let mut listing = Listing::new("as rules are");
    for item in 0..items {
        match item % 8 {
            3 => listing.item(LITERAL, item),
            7 => listing.item(CALL, item / 512 * 512),
            _ => listing.item(DUP, 0),
        }
    }
    listing
}

/// Calls in the third byte of their cells, and the cells that they fill.
const CALLS: u32 = 1343;

/// A call in a third byte reaches 127 cells on.
const REACH: u32 = 128;

/// The most rounds found: each call lies one cell within its reach until the calls behind it have
/// been marked, each of which puts an operand cell between it and its target. So each round marks
/// one call, the last call first. The literals at the end have two cells each, as targets.
pub fn most_rounds() -> Listing {
    let mut listing = Listing::new("most rounds found");
    for call in 0..CALLS {
        listing.item(DUP, 0);
        listing.item(DUP, 0);
        listing.item(CALL, target(call));
    }
    for _ in 0..=REACH / 2 {
        listing.item(LITERAL, WIDE);
    }
    listing
}

/// The item that a call leads to.
fn target(call: u32) -> u32 {
    let behind = CALLS - 1 - call;
    if behind >= REACH / 2 {
        3 * (call + 1 + REACH / 2)
    } else {
        3 * CALLS + REACH / 2 - behind
    }
}
