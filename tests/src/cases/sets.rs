//! Calls that load modules together (document 02, (d)): sets that go in, and sets with up to three
//! faults, so that the order of refusals shows.

use super::modules::{address, corrupt, good_file, large_length};
use super::{any_bytes, any_cell, any_cells, fill_memory, memory_length, odd_length};
use super::{out_with_room, GREATEST};
use crate::call::{Call, Entry};
use crate::random::Random;

/// A module that is not yet in the buffer.
struct Part {
    address: u32,
    cells: u32,
    file: Vec<u8>,
}

/// How many modules: few, as many as there may be, more, or none.
fn count(random: &mut Random) -> u32 {
    match random.below(16) {
        0 => 0,
        1 => 1,
        2 | 3 => 16,
        4 => 17,
        5 => random.between(17, 40),
        6..=9 => random.between(1, 16),
        _ => random.between(2, 5),
    }
}

/// The cells of so many modules, 200 in all at most: of any size or of one, and none for some.
fn sizes(random: &mut Random, count: u32) -> Vec<u32> {
    let most = 200 / count.max(1);
    let most = random.choose(&[most, most.min(6), most.min(6)]);
    let (alike, one) = (random.one_in(4), random.between(1, most));
    let mut size = || match random.below(4) {
        0 => 0,
        _ if alike => one,
        _ => random.between(1, most),
    };
    (0..count).map(|_| size()).collect()
}

/// An address about one of the modules: where it begins or ends, or inside; or any.
fn about(random: &mut Random, parts: &[Part], length: u32) -> u32 {
    let part = &parts[random.below(parts.len() as u32) as usize];
    let address = match random.below(4) {
        0 => part.address,
        1 => part.address + 4 * part.cells,
        2 => part.address + 4 * random.below(part.cells + 1),
        _ => 4 * random.below(length / 4),
    };
    address.min(length - 4)
}

/// Modules that share no byte: end to end or a cell apart, from 0h on, up to MEMORY or between. Those of
/// no cells stand anywhere.
fn apart(random: &mut Random, length: u32) -> Vec<Part> {
    let count = count(random);
    let sizes = sizes(random, count);
    let gaps: Vec<u32> = (0..count).map(|_| random.choose(&[0, 0, 1])).collect();
    let free = length / 4 - sizes.iter().chain(&gaps).sum::<u32>();
    let between = random.below(free + 1);
    let mut cell = random.choose(&[0, free, between]);
    let mut parts = Vec::new();
    for (cells, gap) in sizes.into_iter().zip(gaps) {
        let address = 4 * (cell + gap);
        let file = good_file(random, cells);
        parts.push(Part {
            address,
            cells,
            file,
        });
        cell += gap + cells;
    }
    for at in 0..parts.len() {
        if parts[at].cells == 0 {
            parts[at].address = about(random, &parts, length);
        }
    }
    if random.one_in(2) {
        random.shuffle(&mut parts);
    }
    parts
}

/// Moves a module over another: by one cell at either end, to the same address, anywhere inside, or around
/// it.
fn share(random: &mut Random, parts: &mut [Part]) {
    let mut full: Vec<&mut Part> = parts.iter_mut().filter(|part| part.cells > 0).collect();
    random.shuffle(&mut full);
    if let [one, other, ..] = &mut full[..] {
        let first = one.address;
        other.address = match random.below(5) {
            0 => first,
            1 => first.wrapping_add(4 * (one.cells - 1)),
            2 => first.wrapping_sub(4 * (other.cells - 1)),
            3 => first.wrapping_add(4 * random.below(one.cells)),
            _ => first.wrapping_sub(4 * random.below(other.cells)),
        };
    }
}

/// Spoils a module by itself, the last of them half of the time: its file, or its address.
fn spoil(random: &mut Random, parts: &mut [Part], length: u32) {
    let last = parts.len().saturating_sub(1);
    let any = random.below(parts.len() as u32) as usize;
    let chosen = random.choose(&[last, any]);
    let Some(part) = parts.get_mut(chosen) else {
        return;
    };
    match random.below(4) {
        0 => part.address = part.address.wrapping_add(random.between(1, 3)),
        1 => part.address = address(random, length, part.cells),
        _ if part.file.is_empty() => {}
        _ => corrupt(random, &mut part.file),
    }
}

/// Lays the modules into the buffer, with bytes between them, or a module over cells of the one before.
fn lay(random: &mut Random, call: &mut Call, parts: &[Part]) {
    let mut cells_at_end = 0;
    for part in parts {
        let over = match random.below(4) {
            0 => random.below(cells_at_end + 1) as usize,
            _ => {
                let between = random.choose(&[0, 0, 1, 2, 5]);
                call.file.extend(any_bytes(random, between));
                0
            }
        };
        let place = call.file.len() - over;
        let length = part.file.len();
        let end = call.file.len().max(place + length);
        call.file.resize(end, 0);
        call.file[place..place + length].copy_from_slice(&part.file);
        let numbers = [part.address, place as u32, length as u32];
        call.modules.extend(numbers);
        let is_last = end == place + length;
        cells_at_end = u32::from(is_last) * (length as u32).saturating_sub(12);
    }
    let behind = random.choose(&[0, 0, 0, 1, 4, 20]);
    call.file.extend(any_bytes(random, behind));
}

/// The numbers of two modules, not of one.
fn two_of<'c>(random: &mut Random, call: &'c mut Call) -> Option<[&'c mut [u32]; 2]> {
    let mut modules: Vec<&mut [u32]> = call.modules.chunks_exact_mut(3).collect();
    random.shuffle(&mut modules);
    Some([modules.pop()?, modules.pop()?])
}

/// Gives two modules of one length the same bytes.
fn repeat(random: &mut Random, call: &mut Call) {
    if let Some([one, other]) = two_of(random, call) {
        if one[2] == other[2] {
            other[1] = one[1];
        }
    }
}

/// Another place or length for a module, or a shorter buffer: about its end, past 2^32, or somewhat off.
fn misplace(random: &mut Random, call: &mut Call) {
    let size = call.file.len() as u32;
    let modules = (call.modules.len() / 3) as u32;
    let at = 3 * random.below(modules) as usize;
    let Some([_, place, length]) = call.modules.get_mut(at..at + 3) else {
        return;
    };
    let (little, any) = (random.choose(&[0, 1, 2, 4]), any_cell(random));
    match random.below(8) {
        0 => *length = size.wrapping_sub(*place).wrapping_add(little),
        1 => *place = size.wrapping_sub(*length).wrapping_add(little),
        2 => {
            // The sum is as it was, once 2^32 is taken from it.
            let below = random.between(1, 40);
            *length = length.wrapping_add(*place).wrapping_add(below);
            *place = 0_u32.wrapping_sub(below);
        }
        3 => *length = random.choose(&[little, size]).wrapping_sub(*place),
        4 => (*place, *length) = (any, random.choose(&[0, 12, *length])),
        5 => *length = random.choose(&[any, 12, little]),
        6 => *length = length.wrapping_add(little).wrapping_sub(2),
        _ => {
            let cut = random.choose(&[1, 1, 1, 2, 4, 13]);
            call.file.truncate((size as usize).saturating_sub(cut));
        }
    }
}

/// Numbers too many or too few for whole modules.
fn miscount(random: &mut Random, call: &mut Call) {
    let length = match random.below(8) {
        0 => random.below(3) as usize,
        1..=4 => call.modules.len() + random.between(1, 2) as usize,
        _ => call
            .modules
            .len()
            .saturating_sub(random.between(1, 2) as usize),
    };
    call.modules.truncate(length);
    let more = length - call.modules.len();
    call.modules.extend(any_cells(random, more));
}

/// A bad memory, a bad order, no place for the number of cells, or two of these.
fn mislend(random: &mut Random, call: &mut Call) {
    for _ in 0..random.between(1, 2) {
        match random.below(4) {
            0 => {
                let length = odd_length(random);
                call.memory.resize(length, 0x5A);
            }
            1 => call.order = random.choose(&[2, 3, 128, 254, 255]),
            _ => call.out.clear(),
        }
    }
}

/// A set of modules, with no fault or with up to three.
pub fn load_set(random: &mut Random, _: u32) -> Call {
    let mut call = Call::new(Entry::LoadSet);
    call.order = random.below(2) as u8;
    let length = memory_length(random);
    fill_memory(random, &mut call, length);
    let mut parts = apart(random, length as u32);
    let faults = random.choose(&[0, 0, 0, 1, 1, 2, 2, 3]);
    let faults: Vec<u32> = (0..faults).map(|_| random.below(7)).collect();
    for fault in &faults {
        match fault {
            0 | 1 => share(random, &mut parts),
            2 | 3 => spoil(random, &mut parts, length as u32),
            _ => {}
        }
    }
    lay(random, &mut call, &parts);
    call.out = out_with_room(random, 1);
    if random.one_in(2) {
        repeat(random, &mut call);
    }
    for fault in faults {
        match fault {
            4 => misplace(random, &mut call),
            5 => miscount(random, &mut call),
            6 => mislend(random, &mut call),
            _ => {}
        }
    }
    call
}

/// A file twice, which fills the greatest memory; or a cell of it lies over another, or passes the end.
fn filling(random: &mut Random, index: u32) -> Call {
    let mut call = Call::new(Entry::LoadSet);
    call.order = random.below(2) as u8;
    call.memory = vec![0x3C; GREATEST as usize];
    let half = GREATEST / 2;
    call.file = good_file(random, half / 4);
    let length = call.file.len() as u32;
    let second = [half, half - 4, half + 4][index as usize % 3];
    call.modules = vec![second, 0, length, 0, 0, length];
    call.out = out_with_room(random, 1);
    call
}

/// Sets at the end of the greatest memory, or of one just too long; and some that fill it.
pub fn large(random: &mut Random, index: u32) -> Call {
    if index % 6 == 5 {
        return filling(random, index / 6);
    }
    let mut call = load_set(random, index);
    let old = call.memory.len() as u32;
    let length = large_length(index);
    call.memory.resize(length as usize, 0x3C);
    for numbers in call.modules.chunks_exact_mut(3) {
        numbers[0] = numbers[0].wrapping_add(length).wrapping_sub(old);
    }
    call
}
