//! Tables that instructions may not write, good and bad.

use super::any_cell;
use crate::random::Random;
use crate::reference::tables::Range;

/// No table.
pub const NONE: Range = [0; 2];

/// The cell at which a table may begin at the lowest.
const LOWEST: u32 = 4;

/// A range of cells, cut to where tables may lie.
fn of_cells(first: u32, end: u32, length: u32) -> Range {
    [first, end].map(|cell| 4 * cell.clamp(LOWEST, length / 4))
}

/// A good table anywhere: from 10h or up to the end of memory or neither, large, of one cell or with
/// equal ends.
pub fn good(random: &mut Random, length: u32) -> Range {
    let cells = length / 4;
    let first = match random.below(4) {
        0 => LOWEST,
        1 => cells - random.below(4),
        _ => random.between(LOWEST, cells),
    };
    let end = match random.below(6) {
        0 => first,
        1 | 2 => cells,
        3 => first + 1,
        _ => random.between(first, cells),
    };
    of_cells(first, end, length)
}

/// A good table with a place in its first cell, in its last, just below it, just above it, or not far
/// from it.
pub fn about(random: &mut Random, length: u32, place: u32) -> Range {
    let cell = place / 4;
    let cells = random.choose(&[1, 1, 1, 2, 3, 8]);
    let first = match random.below(6) {
        0 => cell,
        1 => (cell + 1).saturating_sub(cells),
        2 => cell + 1,
        3 => cell.saturating_sub(cells),
        4 => return of_cells(cell, cell, length),
        _ => (cell + random.below(5)).saturating_sub(4),
    };
    of_cells(first, first + cells, length)
}

/// Nothing, or a good table; often about one of some places.
pub fn usable(random: &mut Random, length: u32, places: &[u32]) -> Range {
    match random.below(16) {
        0 | 1 => good(random, length),
        2..=8 => {
            let place = random.choose(places);
            about(random, length, place)
        }
        _ => NONE,
    }
}

/// An address in a table's first cell or its last, or just off it, aligned or not.
pub fn edge(random: &mut Random, [first, end]: Range) -> u32 {
    let cell = random.choose(&[first, first, end, end, end]);
    let below = random.choose(&[0, 1, 4, 4, 4]);
    let within = random.choose(&[0, 0, 0, 1, 2, 3]);
    cell.wrapping_sub(below).wrapping_add(within)
}

/// A table that is spoiled in one way or two; seldom still good.
pub fn bad(random: &mut Random, length: u32) -> Range {
    let [mut first, mut end] = good(random, length);
    for _ in 0..random.between(1, 2) {
        match random.below(12) {
            0 => first = first.wrapping_add(random.between(1, 3)),
            1 => end = end.wrapping_add(random.between(1, 3)),
            2 => first = 4 * random.below(LOWEST),
            3 => end = length + 4 * random.between(1, 3),
            4 => first = end.wrapping_add(4 * random.between(1, 3)),
            5 => (first, end) = (end, first),
            6 => first = 0,
            7 => end = 0,
            // equal ends: below 10h, unaligned, or past memory
            8 => {
                first = random.choose(&[4, 8, 0xC, 0x11, 0x12, length + 4]);
                end = first;
            }
            9 => first = random.choose(&[0xD, 0xE, 0xF]),
            10 => first = any_cell(random),
            _ => end = any_cell(random),
        }
    }
    [first, end]
}

/// Mostly none, often good ones, seldom bad ones.
pub fn any(random: &mut Random, length: u32, places: &[u32]) -> Range {
    if random.one_in(16) {
        bad(random, length)
    } else {
        usable(random, length, places)
    }
}
