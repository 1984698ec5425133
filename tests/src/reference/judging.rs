//! What several calls judge and answer alike.

use super::instructions::Registers;
use super::memory::{Lent, Order};
use super::refusal::{demand, Refusal};
use super::stacks::{Areas, Numbers};
use super::tables::{Range, Table};

pub const WENT_ON: u32 = 0;
pub const STOPPED: u32 = 1;
pub const OUTSIDE: u32 = 2;

/// The answer, or the refusal's number in two's complement.
pub fn number(answer: Result<u32, Refusal>) -> u32 {
    answer.unwrap_or_else(|refusal| refusal.number() as u32)
}

pub fn memory_length(memory: &[u8]) -> Result<(), Refusal> {
    let length = memory.len();
    let good = (1024..=16_777_216).contains(&length) && length.is_multiple_of(4);
    demand(good, Refusal::MemoryLength)
}

pub fn byte_order(order: u8) -> Result<Order, Refusal> {
    Order::from_number(order).ok_or(Refusal::ByteOrder)
}

/// -4105 where an array is shorter than what would be written there.
pub fn room<T>(lent: &[T], needed: usize) -> Result<(), Refusal> {
    demand(lent.len() >= needed, Refusal::ShortOutput)
}

/// The numbers of the areas behind so many registers that move; none where the array is too short
/// to hold them.
pub fn areas_behind(moving: usize, lent: &[u32]) -> Option<Numbers> {
    lent.get(moving..moving + 4)?.try_into().ok()
}

/// What is judged first wherever areas and a table are given: -4101, -4102, -4111, -4112. Areas that
/// an array is too short to hold are not judged; -4105 follows for it.
pub fn machine(
    order: u8,
    memory: &mut [u8],
    areas: Option<Numbers>,
    table: Range,
) -> Result<Lent<'_>, Refusal> {
    memory_length(memory)?;
    let order = byte_order(order)?;
    let length = memory.len() as u32;
    let areas = Areas::accept(areas.unwrap_or_default(), length)?;
    let table = Table::accept(table, length)?;
    Ok(Lent {
        order,
        areas,
        table,
        bytes: memory,
    })
}

pub fn read_registers(lent: &[u32]) -> Registers {
    Registers {
        ep: lent[0],
        a: lent[1],
        sp: lent[2],
        rp: lent[3],
    }
}

/// A file goes to the output.
pub fn give_file(file: &[u8], output: &mut [u8], out: &mut [u32]) -> Result<u32, Refusal> {
    room(output, file.len())?;
    room(out, 1)?;
    output[..file.len()].copy_from_slice(file);
    out[0] = file.len() as u32;
    Ok(WENT_ON)
}
