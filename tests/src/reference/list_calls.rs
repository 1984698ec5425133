//! The calls of the list machine.

use super::judging::{areas_behind, machine, number, room, OUTSIDE, STOPPED, WENT_ON};
use super::list_machine::{ListMachine, Position, Step};
use super::listing;
use super::packer;

#[allow(clippy::too_many_arguments)]
pub fn list_run(
    order: u8,
    kinds: &[u8],
    operands: &[u32],
    base: u32,
    memory: &mut [u8],
    table: u32,
    table_end: u32,
    pointers: &mut [u32],
    items: u32,
    out: &mut [u32],
) -> u32 {
    list_resume(
        order, kinds, operands, base, memory, table, table_end, 0, 0, pointers, items, out,
    )
}

/// A run of the list machine taken up at an item; `ran` is taken as 1 unless it is 0.
#[allow(clippy::too_many_arguments)]
pub fn list_resume(
    order: u8,
    kinds: &[u8],
    operands: &[u32],
    base: u32,
    memory: &mut [u8],
    table: u32,
    table_end: u32,
    item: u32,
    ran: u8,
    pointers: &mut [u32],
    items: u32,
    out: &mut [u32],
) -> u32 {
    number((|| {
        let areas = areas_behind(2, pointers);
        let lent = machine(order, memory, areas, [table, table_end])?;
        let listing = listing::accept(kinds, operands)?;
        let layout = packer::layout(&listing);
        packer::accept_base(base, &layout)?;
        room(pointers, 6)?;
        room(out, 5)?;
        let position = Position {
            item,
            run_on_into: ran != 0,
            sp: pointers[0],
            rp: pointers[1],
        };
        let mut machine = ListMachine::new(&listing, &layout, base, lent, position);
        let ran = machine.run(items);
        let (answer, reason) = match ran.end {
            Step::WentOn => (WENT_ON, 0),
            Step::Stopped(reason) => (STOPPED, reason),
            Step::Outside(why) => (OUTSIDE, why as u32),
        };
        pointers[..2].copy_from_slice(&[machine.sp, machine.rp]);
        let (low, high) = (ran.cycles as u32, (ran.cycles >> 32) as u32);
        out[..5].copy_from_slice(&[reason, machine.item as u32, ran.items, low, high]);
        Ok(answer)
    })())
}
