//! Calls on listing files of both sorts (document 02, (l)): good files, damaged ones, and files of the
//! other sort.

use super::listings::{corrupt, kind_byte, lend, listed, size, COUNTS, NO_KINDS};
use super::{any_bytes, any_cell};
use crate::call::{Call, Entry};
use crate::files::closed;
use crate::random::Random;
use crate::reference::listing::{self, kind_of, number_at, Kind};
use crate::reference::{packer, short};

/// One less, modulo 2^32.
const LESS: u32 = 0xFFFF_FFFF;

/// Writes a number where it lies inside the file.
fn put(file: &mut [u8], at: usize, number: u32) {
    if let Some(place) = file.get_mut(at..at + 4) {
        place.copy_from_slice(&number.to_le_bytes());
    }
}

/// Adds to a number of the file's header modulo 2^32, where there is one.
fn add(file: &mut [u8], at: usize, more: u32) {
    if file.len() >= at + 4 {
        let number = number_at(file, at);
        put(file, at, number.wrapping_add(more));
    }
}

/// Cuts a file: in its header, just behind it, at its end or anywhere; or extends it.
fn cut_or_extend(random: &mut Random, file: &mut Vec<u8>) {
    let length = file.len();
    match random.below(6) {
        0 => file.truncate(random.below(15) as usize),
        1 => file.truncate(random.choose(&[7, 8, 11, 12, 13])),
        2 => file.truncate(length.saturating_sub(random.between(1, 5) as usize)),
        3 => file.truncate(random.below(length as u32 + 1) as usize),
        4 => file.extend([0; 4]),
        _ => {
            let more = random.between(1, 6) as usize;
            file.extend(any_bytes(random, more));
        }
    }
}

/// Changes n: to a bound or beyond, all but the header cut off or not; by one; or with m so that the
/// length stays right.
fn change_n(random: &mut Random, file: &mut Vec<u8>) {
    match random.below(7) {
        0 => add(file, 0, random.choose(&[1, LESS])),
        1 => {
            add(file, 0, 4);
            add(file, 4, LESS);
        }
        2 => {
            add(file, 0, LESS - 3);
            add(file, 4, 1);
        }
        3 => {
            put(file, 0, random.choose(&COUNTS));
            file.truncate(random.choose(&[8, 11, 12, 13]));
        }
        _ => put(file, 0, random.choose(&COUNTS)),
    }
}

/// Changes m: by one, the operands with it or not; or by what 4m does not show in 32 bits; or to any
/// number.
fn change_m(random: &mut Random, file: &mut Vec<u8>) {
    match random.below(8) {
        0 => add(file, 4, 1),
        1 => add(file, 4, LESS),
        2 => {
            add(file, 4, 1);
            file.extend(random.below(3).to_le_bytes());
        }
        3 => {
            add(file, 4, LESS);
            file.truncate(file.len().saturating_sub(4));
        }
        4 | 5 => add(file, 4, 0x4000_0000 * random.between(1, 3)),
        6 => put(file, 4, random.choose(&COUNTS)),
        _ => put(file, 4, any_cell(random)),
    }
}

/// An operand for every item, and as many as m.
fn hold_all_operands(file: &mut Vec<u8>) {
    if let Ok((kinds, operands, base)) = short::parts(file) {
        let n = kinds.len() as u32;
        *file = listing::file(&[n, n, base], &kinds, &operands);
    }
}

/// Another byte for a kind, the operands left as they are.
fn change_kind(random: &mut Random, file: &mut [u8]) {
    if file.len() > 12 {
        let items = number_at(file, 0).clamp(1, file.len() as u32 - 12);
        let byte = match random.below(4) {
            0 => kind_byte(random, Kind::Plain),
            1 => kind_byte(random, Kind::Branch),
            2 => random.byte(),
            _ => random.choose(&NO_KINDS),
        };
        file[12 + random.below(items) as usize] = byte;
    }
}

/// Another last operand, about the number of items.
fn change_last_operand(random: &mut Random, file: &mut [u8]) {
    if let Some(at) = file.len().checked_sub(4) {
        let n = number_at(file, 0);
        let operand = random.choose(&[n, n, n.wrapping_sub(1), n.wrapping_add(1), 0xFFFF_FFFF]);
        put(file, at, operand);
    }
}

fn damage_short(random: &mut Random, file: &mut Vec<u8>) {
    match random.below(12) {
        0..=2 => cut_or_extend(random, file),
        3 | 4 => change_n(random, file),
        5..=7 => change_m(random, file),
        8 => hold_all_operands(file),
        9 | 10 => change_kind(random, file),
        _ => change_last_operand(random, file),
    }
}

fn damage_old(random: &mut Random, file: &mut Vec<u8>) {
    if random.one_in(3) || file.len() < 4 {
        cut_or_extend(random, file);
    } else {
        corrupt(random, file);
    }
}

fn damage_file(random: &mut Random, call: &mut Call) {
    match call.entry {
        Entry::Shorten => damage_old(random, &mut call.file),
        _ => damage_short(random, &mut call.file),
    }
}

/// A file that is accepted as either sort. The old sort's base, n - 1, is the short sort's m, and its
/// first four bytes after that the short sort's base. The short sort's kinds, of which one is plain,
/// end in the value of the old sort's first item, a literal. The operands behind serve both.
fn of_both_sorts(random: &mut Random, items: u32) -> Vec<u8> {
    let mut row = vec![0x52];
    row.extend((1..4).map(|_| kind_byte(random, Kind::Plain)));
    for _ in 0..items {
        let kind = random.choose(&[Kind::Literal, Kind::Branch]);
        row.push(kind_byte(random, kind));
    }
    row[4 + random.below(items) as usize] = kind_byte(random, Kind::Plain);
    let operands: Vec<u32> = row[1..items as usize]
        .iter()
        .map(|kind| match kind_of(*kind) {
            Some(Kind::Plain) => 0,
            _ => random.below(items),
        })
        .collect();
    listing::file(&[items, items - 1], &row, &operands)
}

/// The entry that takes the other sort of file.
fn other(entry: Entry) -> Entry {
    match entry {
        Entry::Shorten => Entry::Lengthen,
        _ => Entry::Shorten,
    }
}

/// A listing in a file; `sort` is an entry that takes this sort of file.
fn with_file(random: &mut Random, entry: Entry, sort: Entry, items: u32) -> Call {
    let mut call = Call::new(sort);
    listed(random, &mut call, items);
    call = closed(call);
    call.entry = entry;
    call
}

/// The bytes that the call has to write; where it is refused, a number about the file's length.
fn room(random: &mut Random, call: &Call) -> usize {
    let file = &call.file;
    let written = match call.entry {
        Entry::Shorten => listing::read(file)
            .map(|(listing, base)| short::write(&listing.kinds, &listing.operands, base).len()),
        Entry::Lengthen => short::read(file).map(|(listing, _)| 8 + 5 * listing.items()),
        _ => short::read(file).map(|(listing, _)| 4 * packer::layout(&listing).cells),
    };
    written.unwrap_or_else(|_| random.choose(&[0, 12, file.len(), 5 * file.len()]))
}

/// A call on a file: mostly a good one, else damaged once or twice, of the other sort, or of both.
fn on_file(random: &mut Random, entry: Entry) -> Call {
    let items = size(random);
    let sort = if random.one_in(16) {
        other(entry)
    } else {
        entry
    };
    let mut call = with_file(random, entry, sort, items);
    match random.below(10) {
        0 => call.file = of_both_sorts(random, items),
        1..=3 => damage_file(random, &mut call),
        4 => {
            damage_file(random, &mut call);
            damage_file(random, &mut call);
        }
        _ => {}
    }
    let room = room(random, &call);
    lend(random, &mut call, room);
    call
}

pub fn shorten(random: &mut Random, _: u32) -> Call {
    on_file(random, Entry::Shorten)
}

pub fn lengthen(random: &mut Random, _: u32) -> Call {
    on_file(random, Entry::Lengthen)
}

pub fn pack_short(random: &mut Random, _: u32) -> Call {
    on_file(random, Entry::PackShort)
}

const ENTRIES: [Entry; 3] = [Entry::Shorten, Entry::Lengthen, Entry::PackShort];

/// Any of the three.
pub fn any(random: &mut Random, index: u32) -> Call {
    on_file(random, ENTRIES[index as usize % 3])
}

/// Files about the greatest size.
pub fn large(random: &mut Random, index: u32) -> Call {
    let entry = ENTRIES[index as usize % 3];
    let items = [4096, 4097, 4096, 4095][index as usize / 3 % 4];
    let mut call = with_file(random, entry, entry, items);
    let room = room(random, &call);
    lend(random, &mut call, room);
    call
}
