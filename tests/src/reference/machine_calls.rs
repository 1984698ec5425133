//! The calls of the processor.

use super::instructions::Registers;
use super::judging::{areas_behind, machine, number, read_registers, room, STOPPED, WENT_ON};
use super::processor::{self, Outcome};

/// The registers that move; the areas stay as they were given.
fn write_registers(lent: &mut [u32], r: &Registers) {
    lent[..4].copy_from_slice(&[r.ep, r.a, r.sp, r.rp]);
}

/// Answer and reason of an outcome.
fn told(outcome: Outcome) -> (u32, u32) {
    match outcome {
        Outcome::WentOn => (WENT_ON, 0),
        Outcome::Stopped(reason) => (STOPPED, reason),
    }
}

#[allow(clippy::too_many_arguments)]
pub fn start(
    order: u8,
    memory: &mut [u8],
    ep: u32,
    handler: u32,
    data_top: u32,
    data_cells: u32,
    return_top: u32,
    return_cells: u32,
    table: u32,
    table_end: u32,
    registers: &mut [u32],
    out: &mut [u32],
) -> u32 {
    let areas = [data_top, data_cells, return_top, return_cells];
    number((|| {
        let mut lent = machine(order, memory, Some(areas), [table, table_end])?;
        room(registers, 8)?;
        room(out, 1)?;
        let (r, outcome) = processor::start(&mut lent, ep, handler, areas);
        write_registers(registers, &r);
        registers[4..8].copy_from_slice(&areas);
        let (answer, reason) = told(outcome);
        out[0] = reason;
        Ok(answer)
    })())
}

pub fn cycle(
    order: u8,
    memory: &mut [u8],
    table: u32,
    table_end: u32,
    registers: &mut [u32],
    out: &mut [u32],
) -> u32 {
    number((|| {
        let areas = areas_behind(4, registers);
        let mut lent = machine(order, memory, areas, [table, table_end])?;
        room(registers, 8)?;
        room(out, 1)?;
        let mut r = read_registers(registers);
        let (answer, reason) = told(processor::run(&mut lent, &mut r, 1).0);
        write_registers(registers, &r);
        out[0] = reason;
        Ok(answer)
    })())
}

pub fn run(
    order: u8,
    memory: &mut [u8],
    table: u32,
    table_end: u32,
    registers: &mut [u32],
    budget: u32,
    out: &mut [u32],
) -> u32 {
    number((|| {
        let areas = areas_behind(4, registers);
        let mut lent = machine(order, memory, areas, [table, table_end])?;
        room(registers, 8)?;
        room(out, 2)?;
        let mut r = read_registers(registers);
        let (outcome, done) = processor::run(&mut lent, &mut r, budget);
        write_registers(registers, &r);
        let (answer, reason) = told(outcome);
        out[..2].copy_from_slice(&[reason, done]);
        Ok(answer)
    })())
}
