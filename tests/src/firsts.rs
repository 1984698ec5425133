//! Loads that are told to halt (document 02, (c)): such a load answers as the whole load does, leaves
//! its first cells and every other byte as lent; loaded further, it is the load with no halt before.

use crate::call::{perform, Call, Entry, Implementation, Returned};
use crate::random::Random;

/// What became of the loads.
#[derive(Default, Debug)]
pub struct Firsts {
    pub halted: u32,
    pub whole: u32,
    pub refused: u32,
}

/// The same load, told to halt after so many cells.
fn halting(load: &Call, cells: u32) -> Call {
    let mut load = load.clone();
    load.numbers[1] = cells;
    load
}

/// The same load with no halt.
fn whole_of(load: &Call) -> Call {
    let mut load = load.clone();
    load.entry = Entry::Load;
    load
}

/// The memory of the whole load on its first cells, the lent one elsewhere.
fn first_cells(load: &Call, whole: &Returned, cells: u32) -> Vec<u8> {
    let mut memory = load.memory.clone();
    let at = load.numbers[0] as usize;
    let end = at + 4 * cells as usize;
    memory[at..end].copy_from_slice(&whole.lent.memory[at..end]);
    memory
}

/// The error says what is not the same.
pub fn same(what: &str, good: bool) -> Result<(), String> {
    if good {
        Ok(())
    } else {
        Err(what.to_string())
    }
}

/// A load of a number of cells after the one that halted, in the memory that it left.
fn load_further(
    implementation: &Implementation,
    load: &Call,
    first: &Returned,
    cells: u32,
) -> Result<(), String> {
    let alone = perform(implementation, &halting(load, cells));
    let after = perform(implementation, &halting(&first.lent, cells));
    let good = alone.answer == after.answer
        && alone.lent.memory == after.lent.memory
        && alone.lent.out == after.lent.out;
    same(&format!("loaded further, to {cells} cells"), good)
}

/// Tries a load. The error says what differs.
pub fn try_load(
    implementation: &Implementation,
    random: &mut Random,
    load: &Call,
    tally: &mut Firsts,
) -> Result<(), String> {
    let first = perform(implementation, load);
    let whole = perform(implementation, &whole_of(load));
    same("a margin", first.margins_kept && whole.margins_kept)?;
    same("answer", first.answer == whole.answer)?;
    if first.answer != 0 {
        tally.refused += 1;
        return same("a refusal that writes", first.lent == *load);
    }
    let (asked, all) = (load.numbers[1], whole.lent.out[0]);
    let room = (load.memory.len() as u32 - load.numbers[0]) / 4;
    same("count of the whole load", all <= room)?;
    let cells = asked.min(all);
    same("count", first.lent.out[0] == cells)?;
    same(
        "memory",
        first.lent.memory == first_cells(load, &whole, cells),
    )?;
    tally.halted += u32::from(cells < all);
    tally.whole += u32::from(cells == all);
    load_further(implementation, load, &first, u32::MAX)?;
    let more = random.below(all - cells + 2);
    load_further(implementation, load, &first, asked.saturating_add(more))
}
