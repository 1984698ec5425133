//! Calls of the packer, with listings of all sizes.

use super::{any_bytes, any_cell, damage, out_with_room};
use crate::call::{Call, Entry};
use crate::files;
use crate::random::Random;
use crate::reference::listing::{self, kind_of, Kind};
use crate::reference::packer;

/// A value at an edge of 1, 2 or 3 signed bytes, or any.
fn literal(random: &mut Random) -> u32 {
    let edge = 1_u32 << (8 * random.between(1, 3) - 1);
    let beside = random.below(4).wrapping_sub(2);
    match random.below(5) {
        0 => edge.wrapping_add(beside),
        1 => edge.wrapping_neg().wrapping_add(beside),
        2 => random.below(300).wrapping_sub(150),
        _ => any_cell(random),
    }
}

/// A target near the item, or about as far as one byte reaches, or anywhere.
fn target(random: &mut Random, item: u32, items: u32) -> u32 {
    let reach = match random.below(4) {
        0 => random.below(4),
        1 => random.below(20),
        2 => random.between(90, 560),
        _ => return random.below(items),
    };
    let target = if random.one_in(2) {
        item.saturating_sub(reach)
    } else {
        item + reach
    };
    target.min(items - 1)
}

/// A kind byte of a certain kind.
pub(super) fn kind_byte(random: &mut Random, kind: Kind) -> u8 {
    loop {
        let byte = random.between(0x01, 0x57) as u8;
        if kind_of(byte) == Some(kind) {
            return byte;
        }
    }
}

fn items_of(random: &mut Random, items: u32, branches: u32, literals: u32) -> (Vec<u8>, Vec<u32>) {
    let mut kinds = Vec::new();
    let mut operands = Vec::new();
    for item in 0..items {
        let share = random.below(100);
        let (kind, operand) = if share < branches {
            let branch = kind_byte(random, Kind::Branch);
            (branch, target(random, item, items))
        } else if share < branches + literals {
            (0x52, literal(random))
        } else {
            (kind_byte(random, Kind::Plain), 0)
        };
        kinds.push(kind);
        operands.push(operand);
    }
    (kinds, operands)
}

/// A legal listing; the shares of branches and literals vary.
pub(super) fn listing(random: &mut Random, items: u32) -> (Vec<u8>, Vec<u32>) {
    let branches = random.choose(&[3, 10, 20, 40, 95]);
    let literals = random.below(101 - branches);
    items_of(random, items, branches, literals)
}

pub(super) fn size(random: &mut Random) -> u32 {
    match random.below(40) {
        0 => random.between(700, 4096),
        1..=5 => random.between(250, 700),
        6..=12 => random.between(13, 250),
        _ => random.between(1, 12),
    }
}

/// Bytes that are no kinds.
pub(super) const NO_KINDS: [u8; 11] = [
    0x00, 0x43, 0x45, 0x49, 0x4D, 0x4F, 0x53, 0x56, 0x58, 0x5B, 0x5C,
];

/// Makes some items illegal.
fn spoil(random: &mut Random, kinds: &mut [u8], operands: &mut [u32]) {
    let items = kinds.len() as u32;
    for _ in 0..random.between(1, 3) {
        let item = random.below(items) as usize;
        match random.below(4) {
            0 => kinds[item] = random.byte(),
            1 => kinds[item] = random.choose(&NO_KINDS),
            2 => operands[item] = items.wrapping_add(random.below(3)).wrapping_sub(1),
            _ => operands[item] = random.choose(&[1, 0x8000_0000, 0xFFFF_FFFF]),
        }
    }
}

/// Bases: legal, just legal at either end, and not.
fn base(random: &mut Random, cells: u32) -> u32 {
    let highest = 16_777_216 - 4 * cells;
    match random.below(8) {
        0 => highest,
        1 => highest + 4,
        2 => 4 * random.below(5),
        3 => random.below(64),
        4 => any_cell(random),
        5 => highest - 4 * random.below(3),
        _ => 0x10 + 4 * random.below(1000),
    }
}

/// The cells of the image, 0 for a listing that is refused.
fn image_cells(kinds: &[u8], operands: &[u32]) -> u32 {
    listing::accept(kinds, operands).map_or(0, |listing| packer::layout(&listing).cells as u32)
}

/// A listing, sometimes a bad one, with a byte order and a base: the cells of its image.
pub(super) fn listed(random: &mut Random, call: &mut Call, items: u32) -> u32 {
    let (mut kinds, mut operands) = listing(random, items);
    if random.one_in(5) {
        spoil(random, &mut kinds, &mut operands);
    }
    let cells = image_cells(&kinds, &operands);
    call.order = random.below(2) as u8;
    call.numbers[0] = base(random, cells);
    call.kinds = kinds;
    call.operands = operands;
    cells
}

/// A length of an array for so many: just so long, longer, or too short.
pub(super) fn length_about(random: &mut Random, room: usize) -> usize {
    match random.below(6) {
        0 => room.saturating_sub(1),
        1 => room + random.below(30) as usize,
        2 => random.below(room as u32 + 1) as usize,
        _ => room,
    }
}

/// An output for so many bytes, and `out`.
pub(super) fn lend(random: &mut Random, call: &mut Call, room: usize) {
    let room = length_about(random, room);
    call.output = any_bytes(random, room);
    call.out = out_with_room(random, 1);
    if random.one_in(12) {
        damage(random, call);
        call.memory = Vec::new();
        call.registers = Vec::new();
    }
}

/// A listing, sometimes a bad one, with a base and an output.
fn packing(random: &mut Random, call: &mut Call, items: u32) {
    let cells = listed(random, call, items);
    lend(random, call, 4 * cells as usize);
}

/// The arrays no longer match, or are empty.
fn unequal(random: &mut Random, call: &mut Call) {
    match random.below(4) {
        0 => {
            call.operands.pop();
        }
        1 => call.operands.push(0),
        2 => call.kinds.push(0x01),
        _ => {
            call.kinds.clear();
            call.operands.truncate(random.below(2) as usize);
        }
    }
}

pub fn pack(random: &mut Random, _: u32) -> Call {
    let mut call = Call::new(Entry::Pack);
    let items = size(random);
    packing(random, &mut call, items);
    if random.one_in(20) {
        unequal(random, &mut call);
    }
    call
}

/// Listings about the greatest size.
pub fn large(random: &mut Random, index: u32) -> Call {
    let mut call = Call::new(Entry::Pack);
    let items = [4096, 4095, 4096, 4097, 4096, 4096][index as usize % 6];
    packing(random, &mut call, items);
    call
}

/// Numbers of items at the bounds, and some whose size in bytes passes 2^32.
pub(super) const COUNTS: [u32; 8] = [
    0,
    1,
    4096,
    4097,
    0x3333_3333,
    0x3333_3334,
    0xCCCC_CCCD,
    0xFFFF_FFFF,
];

/// Cuts, extends or corrupts a listing's file.
pub(super) fn corrupt(random: &mut Random, file: &mut Vec<u8>) {
    match random.below(6) {
        0 => {
            let length = random.below(file.len() as u32 + 1) as usize;
            file.truncate(length);
        }
        1 => {
            let length = random.below(14) as usize;
            file.truncate(length);
        }
        2 => {
            let more = random.between(1, 6) as usize;
            file.extend(any_bytes(random, more));
        }
        3 => {
            let n = random.choose(&COUNTS);
            file[..4].copy_from_slice(&n.to_le_bytes());
        }
        4 => {
            // A number of items whose size is the file's, modulo 2^32.
            file.resize(random.between(8, 40) as usize, 0x01);
            let n = (file.len() as u32 - 8).wrapping_mul(0xCCCC_CCCD);
            file[..4].copy_from_slice(&n.to_le_bytes());
        }
        _ => {
            let at = random.below(file.len() as u32) as usize;
            file[at] = random.byte();
        }
    }
}

pub fn pack_file(random: &mut Random, _: u32) -> Call {
    let mut call = Call::new(Entry::PackFile);
    let items = size(random);
    packing(random, &mut call, items);
    let mut call = files::closed(call);
    if random.one_in(5) {
        corrupt(random, &mut call.file);
    }
    call
}
