//! What the cases reach of the table: each call is made with its table and without one, by the
//! reference.

use std::collections::BTreeMap;

use crate::call::{perform, reference, Call, Entry, Returned};
use crate::cases::{cell_at, tables};
use crate::random::Random;
use crate::reference::tables::Range;

/// How often each situation came up.
pub type Tally = BTreeMap<&'static str, u32>;

/// A cycle's write, by its opcode. Whoever pushes onto the data stack is not among them: where its push
/// falls into the table, so does the throw's.
fn written(opcode: u8) -> &'static str {
    match opcode {
        0x3A => "-20 by !",
        0x3C => "-20 by C!",
        0x3D => "-20 by +!",
        0x0A => "-20 by ROLL",
        0x4B => "-20 by (DO)",
        0x4C..=0x4F => "-20 by an index",
        0x0C => "-20 by >R",
        0x46..=0x49 => "-20 by a call",
        _ => "-20 by an item written over",
    }
}

/// Whether a cycle threw the code of a bad place: it lies on top, a cell below SP as it was.
fn threw(call: &Call, returned: &Returned) -> bool {
    let sp = returned.lent.registers[2];
    let code = cell_at(&returned.lent, sp) as i32;
    sp == call.registers[2].wrapping_sub(4) && [-3, -4, -5, -6, -9, -23].contains(&code)
}

/// Which stop with -258 is the table's: of a push, or of a throw for another cause.
fn stopped(call: &Call, without: &Returned) -> &'static str {
    match call.entry {
        Entry::Cycle if !threw(call, without) => "-258 by a write",
        _ => "-258 by a throw",
    }
}

/// A call of which it is not known that it ends without a table does not go on for long.
fn shortened(call: &Call, table: Range) -> Returned {
    let mut call = call.clone();
    call.table = table;
    match call.entry {
        Entry::Run => call.numbers[0] = call.numbers[0].min(20_000),
        _ => call.numbers[1] = call.numbers[1].min(5_000),
    }
    perform(&reference(), &call)
}

/// What the table makes of a call: a name, and whether another fault came up without it.
pub fn situation(call: &Call) -> (&'static str, bool) {
    if call.table == tables::NONE {
        return ("no table", false);
    }
    let with = shortened(call, call.table);
    if with.answer as i32 == -4112 {
        return ("-4112", false);
    }
    let without = shortened(call, tables::NONE);
    let (a, b) = (&with.lent, &without.lent);
    if with.answer == without.answer && (&a.memory, &a.registers) == (&b.memory, &b.registers) {
        ("a table that nothing meets", false)
    } else if with.answer == 1 && a.out[0] as i32 == -258 {
        (stopped(call, &without), false)
    } else if call.entry == Entry::Cycle {
        let name = written(call.registers[1] as u8);
        (name, threw(call, &without))
    } else {
        ("-20", false)
    }
}

/// What calls drawn at random reach.
pub fn tally(seed: u64, cases: u32, make: fn(&mut Random, u32) -> Call) -> Tally {
    let mut random = Random::new(seed);
    let mut tally = Tally::new();
    for index in 0..cases {
        let call = make(&mut random, index);
        let (name, other) = situation(&call);
        *tally.entry(name).or_default() += 1;
        *tally.entry("-20 before another fault").or_default() += u32::from(other);
    }
    tally
}
