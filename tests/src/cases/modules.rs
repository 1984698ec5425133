//! Calls for object modules.

use super::GREATEST;
use super::{any_bytes, damage, fill_memory, memory_length, order_of, out_with_room, pointer};
use crate::call::{Call, Entry};
use crate::random::Random;

/// A number of cells: few, many, or as many as memory holds.
fn cell_count(random: &mut Random, length: u32) -> u32 {
    match random.below(6) {
        0 => 0,
        1 => length / 4 - random.below(6),
        2 => length / 4 + random.below(2),
        3 => random.below(length / 4),
        _ => random.below(12),
    }
}

/// An address for so many cells: anywhere, or where they just fit, or just do not.
pub(super) fn address(random: &mut Random, length: u32, cells: u32) -> u32 {
    match random.below(4) {
        0 => pointer(random, length),
        1 => length.wrapping_sub(4 * cells),
        2 => length
            .wrapping_sub(4 * cells)
            .wrapping_add(random.choose(&[1, 4, 8]))
            .wrapping_sub(random.choose(&[0, 4])),
        _ => 4 * random.below((length / 4).saturating_sub(cells).max(1)),
    }
}

/// Corrupts a module's file: header, count, or length.
pub(super) fn corrupt(random: &mut Random, file: &mut Vec<u8>) {
    match random.below(6) {
        0 => {
            let length = random.below(file.len() as u32 + 1) as usize;
            file.truncate(length);
        }
        1 => {
            let length = random.below(14) as usize;
            file.truncate(length);
        }
        2 => {
            let more = random.between(1, 9) as usize;
            file.extend(any_bytes(random, more));
        }
        3 => {
            let at = random.below(file.len().min(12) as u32) as usize;
            file[at] = random.choose(&[0, 1, 2, 255, file[at] ^ 0x20, file[at].wrapping_add(1)]);
        }
        4 if file.len() >= 12 => {
            let count = random.choose(&[0x4000_0000, 0x4000_0001, 0xFFFF_FFFF, 0x3FFF_FFFF, 1]);
            let order = order_of(file[7] % 2);
            let old = order.cell_of([file[8], file[9], file[10], file[11]]);
            file[8..12].copy_from_slice(&order.bytes_of(old.wrapping_add(count)));
        }
        _ => {
            let cut = random.between(1, 5) as usize;
            let length = file.len().saturating_sub(cut);
            file.truncate(length);
        }
    }
}

/// The file of so many cells, in either order.
pub(super) fn good_file(random: &mut Random, cells: u32) -> Vec<u8> {
    let mut file = b"BEETLE\0".to_vec();
    let order = random.below(2) as u8;
    file.push(order);
    file.extend(order_of(order).bytes_of(cells));
    file.extend(any_bytes(random, 4 * cells as usize));
    file
}

/// How many cells of so many go in before a load is told to halt.
fn halt(random: &mut Random, cells: u32) -> u32 {
    match random.below(8) {
        0 => 0,
        1 => cells,
        2 => cells.wrapping_sub(1),
        3 => cells + 1,
        4 => random.choose(&[0xFFFF_FFFF, 0x4000_0000, 0x4000_0001, 0x8000_0000]),
        5 => random.cell(),
        _ => random.below(cells.max(1)),
    }
}

/// A load of a good module, or of one that was cut, extended or corrupted, told where to halt.
pub fn load_first(random: &mut Random, _: u32) -> Call {
    let mut call = Call::new(Entry::LoadFirst);
    call.order = random.below(2) as u8;
    let length = memory_length(random);
    fill_memory(random, &mut call, length);
    let cells = cell_count(random, length as u32);
    call.numbers[0] = address(random, length as u32, cells);
    call.numbers[1] = halt(random, cells);
    call.file = good_file(random, cells);
    call.out = out_with_room(random, 1);
    if random.one_in(3) {
        corrupt(random, &mut call.file);
        if random.one_in(4) && !call.file.is_empty() {
            corrupt(random, &mut call.file);
        }
    }
    if random.one_in(10) {
        damage(random, &mut call);
    }
    call
}

/// The same with no halt.
pub fn load(random: &mut Random, index: u32) -> Call {
    let mut call = load_first(random, index);
    call.entry = Entry::Load;
    call.numbers[1] = 0;
    call
}

/// A save, the output long enough, just so, or short.
pub fn save(random: &mut Random, _: u32) -> Call {
    let mut call = Call::new(Entry::Save);
    call.order = random.below(2) as u8;
    let length = memory_length(random);
    fill_memory(random, &mut call, length);
    let cells = cell_count(random, length as u32);
    call.numbers = [address(random, length as u32, cells), cells, 0, 0];
    if random.one_in(12) {
        let counts = [
            0x3FFF_FFFF_u32,
            0x4000_0000,
            0x4000_0001,
            0xFFFF_FFFF,
            0x8000_0000,
        ];
        call.numbers[1] = random.choose(&counts).wrapping_add(random.below(3));
    }
    let room = 12 + 4 * cells as usize;
    let room = match random.below(6) {
        0 => room - 1,
        1 => room + random.below(40) as usize,
        2 => random.below(room as u32) as usize,
        _ => room,
    };
    call.output = any_bytes(random, room);
    call.out = out_with_room(random, 1);
    if random.one_in(10) {
        damage(random, &mut call);
    }
    call
}

/// The greatest length of memory, or a cell more.
pub(super) fn large_length(index: u32) -> u32 {
    if index % 8 < 6 {
        GREATEST
    } else {
        GREATEST + 4
    }
}

/// Loads and saves at the end of the greatest memory, or of one just too long.
pub fn large(random: &mut Random, index: u32) -> Call {
    let mut call = match index % 3 {
        0 => load(random, index),
        1 => load_first(random, index),
        _ => save(random, index),
    };
    let old = call.memory.len() as u32;
    let length = large_length(index);
    call.memory.resize(length as usize, 0x3C);
    call.numbers[0] = call.numbers[0].wrapping_add(length).wrapping_sub(old);
    call
}
