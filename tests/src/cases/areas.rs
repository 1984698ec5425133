//! Stack areas, good and bad, and stack pointers about them.

use super::{any_cell, pointer};
use crate::random::Random;
use crate::reference::stacks::Numbers;

/// No areas.
pub const NONE: Numbers = [0; 4];

/// The areas behind so many registers.
pub fn of(registers: &[u32], moving: usize) -> Numbers {
    let numbers = registers[moving..moving + 4].try_into();
    numbers.expect("four numbers")
}

/// A number of cells, mostly small.
fn size(random: &mut Random, most: u32) -> u32 {
    let cells = match random.below(8) {
        0 | 1 => 1,
        2 => 2,
        3 | 4 => random.between(1, 8),
        5 | 6 => random.between(1, 64),
        _ => random.between(1, most),
    };
    cells.min(most)
}

/// None of so many cells, all of them, or some.
fn part(random: &mut Random, cells: u32) -> u32 {
    match random.below(3) {
        0 => 0,
        1 => cells,
        _ => random.below(cells + 1),
    }
}

/// Good areas: small or large, one above the other, each at an end of memory or not, touching each
/// other or apart. So they lie over 0h to Fh and over code too.
pub fn good(random: &mut Random, length: u32) -> Numbers {
    let cells = length / 4;
    let data = size(random, cells - 2);
    let back = size(random, cells - data - 1);
    let spare = cells - data - 1 - back;
    let lowest = part(random, spare);
    let between = part(random, spare - lowest);
    let (data_top, return_top) = if random.one_in(2) {
        let data_top = lowest + 1 + data;
        (data_top, data_top + between + back)
    } else {
        let return_top = lowest + back;
        (return_top + between + 1 + data, return_top)
    };
    [4 * data_top, data, 4 * return_top, back]
}

/// Counts whose cells pass 2^32 bytes, or nearly do.
const HUGE: [u32; 7] = [
    0x3FFF_FFFF,
    0x4000_0000,
    0x4000_0001,
    0x8000_0000,
    0xC000_0001,
    0xFFFF_FFFE,
    0xFFFF_FFFF,
];

/// Spoils one stack's numbers, a top and a count.
fn spoil_one(random: &mut Random, length: u32, top: &mut u32, cells: &mut u32) {
    match random.below(8) {
        0 => *top = top.wrapping_add(random.between(1, 3)),
        1 => *cells = 0,
        // so many cells that the area, or the held cell under it, begins below 0
        2 => *cells = (*top / 4).wrapping_add(random.below(3)),
        3 => *top = length + 4 * random.between(1, 3),
        // good again where four times the count is taken modulo 2^32
        4 => *cells = cells.wrapping_add(random.between(1, 3) << 30),
        5 => *cells = random.choose(&HUGE),
        6 => *top = any_cell(random),
        _ => *cells = any_cell(random),
    }
}

/// Lets the areas share a cell: the held one alone, the topmost of the data area, or more.
fn overlap(random: &mut Random, areas: &mut Numbers) {
    let [data_top, data, return_top, back] = areas;
    match random.below(3) {
        0 => {
            *return_top = *data_top - 4 * *data;
            *back = 1;
        }
        1 => *return_top = *data_top - 4 + 4 * *back,
        _ => (*return_top, *back) = (*data_top, random.between(1, *data)),
    }
}

/// Areas that are spoiled in one way or two; seldom still good.
pub fn bad(random: &mut Random, length: u32) -> Numbers {
    let mut areas = good(random, length);
    let one = random.below(4) as usize;
    match random.below(8) {
        0 | 1 => overlap(random, &mut areas),
        2 => areas[one] = 0,
        3 => {
            let number = areas[one];
            areas = NONE;
            areas[one] = number;
        }
        _ => {
            for _ in 0..random.between(1, 2) {
                let [data_top, data, return_top, back] = &mut areas;
                if random.one_in(2) {
                    spoil_one(random, length, data_top, data);
                } else {
                    spoil_one(random, length, return_top, back);
                }
            }
        }
    }
    areas
}

/// Mostly none, often good ones, seldom bad ones.
pub fn any(random: &mut Random, length: u32) -> Numbers {
    match random.below(16) {
        0 => bad(random, length),
        1..=6 => good(random, length),
        _ => NONE,
    }
}

/// A stack pointer about an area: a few cells off either end, inside, or anywhere.
fn about(random: &mut Random, length: u32, top: u32, cells: u32) -> u32 {
    let bottom = top.wrapping_sub(cells.wrapping_mul(4));
    match random.below(16) {
        0..=3 => top.wrapping_add(8).wrapping_sub(4 * random.below(6)),
        4..=9 => bottom.wrapping_add(8).wrapping_sub(4 * random.below(6)),
        10 => bottom.wrapping_add(8).wrapping_sub(random.below(24)),
        11 => pointer(random, length),
        _ => bottom.wrapping_add(random.below(cells.max(1)).wrapping_mul(4)),
    }
}

/// SP and RP about given areas, seldom about each other's.
pub fn pointers_about(random: &mut Random, length: u32, areas: &Numbers) -> [u32; 2] {
    let [data_top, data, return_top, back] = *areas;
    let stacks = [(data_top, data), (return_top, back)];
    [0, 1].map(|stack| {
        let other = usize::from(random.one_in(10));
        let (top, cells) = stacks[stack ^ other];
        about(random, length, top, cells)
    })
}

/// SP and RP with which a rule has something to run: the tops, or some cells inside.
pub fn pointers_inside(random: &mut Random, areas: &Numbers) -> [u32; 2] {
    let [data_top, data, return_top, back] = *areas;
    [(data_top, data), (return_top, back)].map(|(top, cells)| {
        let used = random.choose(&[0, 0, 1, 2, 4, cells]).min(cells);
        top.wrapping_sub(used.wrapping_mul(4))
    })
}
