//! Calls drawn at random, hostile ones among them.

pub mod areas;
pub mod batches;
pub mod files;
pub mod forms;
pub mod images;
pub mod listings;
pub mod modules;
pub mod processor;
pub mod rules;
pub mod sets;
pub mod tables;
pub mod writer;
pub mod wrong_images;
pub mod wrong_layouts;

use crate::call::Call;
use crate::random::Random;
use crate::reference::memory::Order;

/// The greatest length of memory.
pub const GREATEST: u32 = 16_777_216;

/// A cell near a number that matters, or any.
pub fn any_cell(random: &mut Random) -> u32 {
    match random.below(8) {
        0 => random.below(17),
        1 => 0_u32.wrapping_sub(random.below(17)),
        2 => 0x8000_0000_u32
            .wrapping_add(random.below(5))
            .wrapping_sub(2),
        3 => 1_u32 << random.below(32),
        4 => (1_u32 << random.below(32)).wrapping_sub(1),
        5 => random.below(1040),
        6 => 4 * random.below(260),
        _ => random.cell(),
    }
}

/// An address: mostly a cell of memory, else on 0h to Fh, at the ends, unaligned or wrapped.
pub fn pointer(random: &mut Random, length: u32) -> u32 {
    match random.below(18) {
        0 => 4 * random.below(5),
        1 => random.below(17),
        2 => length.wrapping_sub(4 * random.below(5)),
        3 => length.wrapping_add(4 * random.below(4)),
        4 => 0_u32.wrapping_sub(4 * random.below(4)),
        5 => random.below(length.max(1)),
        6 => length.wrapping_sub(random.below(8)),
        7 => any_cell(random),
        8 => any_cell(random) & !3,
        _ => 4 * random.below((length / 4).max(1)),
    }
}

/// The order that a number stands for; bad numbers are drawn too, and refused later.
pub fn order_of(number: u8) -> Order {
    Order::from_number(number).unwrap_or(Order::LeastFirst)
}

/// The cell at an address, or 0 outside memory.
pub fn cell_at(call: &Call, address: u32) -> u32 {
    cell_in(&call.memory, call.order, address)
}

/// The same in any memory.
pub fn cell_in(memory: &[u8], order: u8, address: u32) -> u32 {
    let at = address as usize;
    let bytes = memory.get(at..at.saturating_add(4));
    let bytes = bytes.and_then(|bytes| bytes.try_into().ok());
    bytes.map_or(0, |bytes| order_of(order).cell_of(bytes))
}

/// Writes a cell where it lies inside memory.
pub fn put_cell(call: &mut Call, address: u32, cell: u32) {
    let bytes = order_of(call.order).bytes_of(cell);
    let at = address as usize;
    if let Some(place) = call.memory.get_mut(at..at.saturating_add(4)) {
        place.copy_from_slice(&bytes);
    }
}

/// Some bytes, of any value.
pub fn any_bytes(random: &mut Random, length: usize) -> Vec<u8> {
    (0..length).map(|_| random.byte()).collect()
}

/// Some cells, of any value.
pub fn any_cells(random: &mut Random, length: usize) -> Vec<u32> {
    (0..length).map(|_| random.cell()).collect()
}

/// Memory of this length, its cells near numbers that matter.
pub fn fill_memory(random: &mut Random, call: &mut Call, length: usize) {
    call.memory = Vec::with_capacity(length);
    let order = order_of(call.order);
    while call.memory.len() < length {
        call.memory.extend(order.bytes_of(any_cell(random)));
    }
    call.memory.truncate(length);
}

/// A legal length of memory, mostly the least.
pub fn memory_length(random: &mut Random) -> usize {
    match random.below(16) {
        0 => 1028,
        1 => 2048,
        2 => 4 * random.between(256, 1500) as usize,
        _ => 1024,
    }
}

/// A length of memory that is refused, or just good enough.
fn odd_length(random: &mut Random) -> usize {
    let lengths = [
        0, 1, 4, 1020, 1022, 1023, 1024, 1025, 1026, 1027, 1028, 2050,
    ];
    random.choose(&lengths)
}

/// Damages what is lent beside the input: byte order, memory's length, areas, table, short arrays. Up
/// to three at once, so that the order of refusals shows.
pub fn damage(random: &mut Random, call: &mut Call) {
    for _ in 0..random.between(1, 3) {
        match random.below(7) {
            0 => call.order = random.choose(&[0, 1, 2, 3, 128, 254, 255]),
            1 => {
                let length = odd_length(random);
                call.memory.resize(length, 0x5A);
            }
            2 => {
                let length = random.below(10) as usize;
                call.registers.resize(length, 0x1234_5678);
            }
            3 => {
                let length = random.below(7) as usize;
                call.out.resize(length, 0x8765_4321);
            }
            4 => {
                let bad = areas::bad(random, 1024);
                let numbers = call.given_areas().iter_mut().zip(bad);
                numbers.for_each(|(number, bad)| *number = bad);
            }
            5 => call.table = tables::bad(random, 1024),
            _ => {
                let length = (call.output.len() + 2).saturating_sub(random.below(5) as usize);
                call.output.resize(length, 0x77);
            }
        }
    }
}

/// An `out` with room for so many, and sometimes more.
pub fn out_with_room(random: &mut Random, needed: usize) -> Vec<u32> {
    let length = needed + random.choose(&[0, 0, 1, 3]);
    any_cells(random, length)
}

/// How many cells from 10h on a base may move and still leave room for a rule of so many items,
/// most of the time.
pub fn unused_length(length: u32, items: u32) -> u32 {
    (length / 4).saturating_sub(4 + items * 3 / 2).max(1)
}
