//! Ways to damage an image that the packer wrote, each by itself.

use super::images::Packed;
use super::listings::{kind_byte, NO_KINDS};
use super::wrong_layouts::*;
use super::{any_bytes, any_cell, order_of};
use crate::call::Call;
use crate::random::Random;
use crate::reference::listing::Kind;
use crate::reference::packer::{Form, Placement};

/// Changes a call's image.
pub type Damage = fn(&mut Random, &Packed, &mut Call);

/// All of them, in words.
pub const DAMAGES: [(&str, Damage); 24] = [
    ("another opcode", other_opcode),
    ("another byte of a value", other_value),
    ("a byte that was not used", used_padding),
    ("another literal in its operand cell", other_literal),
    ("another address in a branch's operand cell", other_address),
    ("another cell that a branch leads to", other_way),
    ("a cell cut out", cut_cell),
    ("the last cell cut off", cut_last_cell),
    ("a cell put in", added_cell),
    ("bytes cut off", cut_bytes),
    ("bytes added", added_bytes),
    ("no byte", no_byte),
    ("two cells exchanged", exchanged_cells),
    ("a cell in the other order", turned_cell),
    ("the other order", other_order),
    ("another base", other_base),
    ("an operand cell for what fits", needless_operand_cell),
    ("a branch without its mark", mark_taken_away),
    ("an item taken out of its cell", item_out),
    ("an item taken into the cell before it", item_in),
    ("an item after a call in its cell", item_after_call),
    ("a byte 00h between two items", gap),
    ("any bytes", random_bytes),
    ("any opcodes", random_opcodes),
];

/// Some item of those that are chosen by number and place.
pub(super) fn item_where(
    random: &mut Random,
    packed: &Packed,
    chosen: impl Fn(usize, &Placement) -> bool,
) -> Option<usize> {
    let places = packed.layout.placements.iter().enumerate();
    let items: Vec<usize> = places
        .filter(|(item, placement)| chosen(*item, placement))
        .map(|(item, _)| item)
        .collect();
    (!items.is_empty()).then(|| random.choose(&items))
}

/// Writes a byte of a cell, 0 the least significant, where the image has it.
pub(super) fn put_byte(call: &mut Call, cell: usize, slot: usize, byte: u8) {
    let at = match call.order {
        0 => 4 * cell + slot,
        _ => 4 * cell + 3 - slot,
    };
    call.file.get_mut(at).into_iter().for_each(|to| *to = byte);
}

/// Writes a cell where the image has it.
fn put_cell(call: &mut Call, cell: usize, number: u32) {
    let bytes = order_of(call.order).bytes_of(number);
    if let Some(to) = call.file.get_mut(4 * cell..4 * cell + 4) {
        to.copy_from_slice(&bytes);
    }
}

/// Some cell of the image; 0 if it has none.
fn some_cell(random: &mut Random, call: &Call) -> usize {
    let cells = call.file.len() as u32 / 4;
    random.below(cells.max(1)) as usize
}

fn other_opcode(random: &mut Random, packed: &Packed, call: &mut Call) {
    let item = random.below(packed.listing.items() as u32) as usize;
    let placement = &packed.layout.placements[item];
    let kind = packed.listing.kinds[item];
    let byte = match random.below(5) {
        0 => random.byte(),
        1 => random.choose(&NO_KINDS),
        2 => kind_byte(random, packed.listing.kind(item)),
        3 => kind_byte(random, Kind::Branch) + random.below(2) as u8,
        _ => kind.wrapping_add(random.choose(&[1, 0xFF])),
    };
    put_byte(call, placement.cell, placement.slot, byte);
}

fn other_value(random: &mut Random, packed: &Packed, call: &mut Call) {
    let immediate = |_: usize, placement: &Placement| placement.form == Form::Immediate;
    if let Some(item) = item_where(random, packed, immediate) {
        let placement = &packed.layout.placements[item];
        let slot = random.between(placement.slot as u32 + 1, 3) as usize;
        let byte = random.byte();
        let byte = random.choose(&[0x00, 0x01, 0x7F, 0x80, 0xFF, byte]);
        put_byte(call, placement.cell, slot, byte);
    }
}

/// Whether an item is the last of its cell and leaves bytes of it.
pub(super) fn leaves_bytes(packed: &Packed, item: usize, placement: &Placement) -> bool {
    let following = packed.layout.placements.get(item + 1);
    let last = following.is_none_or(|following| following.cell != placement.cell);
    last && placement.form != Form::Immediate && placement.slot < 3
}

fn used_padding(random: &mut Random, packed: &Packed, call: &mut Call) {
    let leaves = |item: usize, placement: &Placement| leaves_bytes(packed, item, placement);
    if let Some(item) = item_where(random, packed, leaves) {
        let placement = &packed.layout.placements[item];
        let slot = random.between(placement.slot as u32 + 1, 3) as usize;
        let (any, plain) = (random.byte(), kind_byte(random, Kind::Plain));
        let byte = random.choose(&[any, plain, plain, 0xFF]);
        put_byte(call, placement.cell, slot, byte);
    }
}

/// The operand cell of some item of a kind.
fn operand_cell(random: &mut Random, packed: &Packed, kind: Kind) -> Option<usize> {
    let in_cell = |item: usize, placement: &Placement| {
        packed.listing.kind(item) == kind && matches!(placement.form, Form::Cell(_))
    };
    let item = item_where(random, packed, in_cell)?;
    match packed.layout.placements[item].form {
        Form::Cell(cell) => Some(cell),
        Form::Plain | Form::Immediate => None,
    }
}

fn other_literal(random: &mut Random, packed: &Packed, call: &mut Call) {
    if let Some(cell) = operand_cell(random, packed, Kind::Literal) {
        let number = any_cell(random);
        put_cell(call, cell, number);
    }
}

/// A cell of the image, or beside it.
fn cell_about(random: &mut Random, packed: &Packed) -> u32 {
    let cells = packed.layout.cells as u32;
    random.below(cells + 3).wrapping_sub(1)
}

fn other_address(random: &mut Random, packed: &Packed, call: &mut Call) {
    if let Some(cell) = operand_cell(random, packed, Kind::Branch) {
        let about = cell_about(random, packed).wrapping_mul(4);
        let address = packed.base.wrapping_add(about);
        let address = match random.below(4) {
            0 => any_cell(random),
            1 => address.wrapping_add(random.below(4)),
            _ => address,
        };
        put_cell(call, cell, address);
    }
}

/// An immediate branch leads to any cell of the image, or beside it.
fn other_way(random: &mut Random, packed: &Packed, call: &mut Call) {
    let immediate = |item: usize, placement: &Placement| {
        packed.listing.kind(item) == Kind::Branch && placement.form == Form::Immediate
    };
    if let Some(item) = item_where(random, packed, immediate) {
        let placement = &packed.layout.placements[item];
        let value = cell_about(random, packed).wrapping_sub(placement.ep as u32);
        for slot in placement.slot + 1..4 {
            let byte = value >> (8 * (slot - placement.slot - 1));
            put_byte(call, placement.cell, slot, byte as u8);
        }
    }
}

fn cut_cell(random: &mut Random, _: &Packed, call: &mut Call) {
    let at = 4 * some_cell(random, call);
    let end = call.file.len().min(at + 4);
    call.file.drain(at..end);
}

fn cut_last_cell(_: &mut Random, _: &Packed, call: &mut Call) {
    call.file.truncate(call.file.len().saturating_sub(4));
}

fn added_cell(random: &mut Random, _: &Packed, call: &mut Call) {
    let at = 4 * some_cell(random, call);
    let at = random.choose(&[at.min(call.file.len()), call.file.len()]);
    let (any, plain) = (any_cell(random), kind_byte(random, Kind::Plain));
    let cell = random.choose(&[0, any, u32::from(plain)]);
    let bytes = order_of(call.order).bytes_of(cell);
    call.file.splice(at..at, bytes);
}

fn cut_bytes(random: &mut Random, _: &Packed, call: &mut Call) {
    let bytes = random.between(1, 3) as usize;
    call.file.truncate(call.file.len().saturating_sub(bytes));
}

fn added_bytes(random: &mut Random, _: &Packed, call: &mut Call) {
    let bytes = random.between(1, 3) as usize;
    let any = any_bytes(random, bytes);
    let added = if random.one_in(2) {
        vec![0; bytes]
    } else {
        any
    };
    call.file.extend(added);
}

fn no_byte(_: &mut Random, _: &Packed, call: &mut Call) {
    call.file.clear();
}

/// Exchanges two cells, often neighbours.
fn exchanged_cells(random: &mut Random, _: &Packed, call: &mut Call) {
    let cells = call.file.len() / 4;
    let (one, any) = (some_cell(random, call), some_cell(random, call));
    let other = if random.one_in(2) { one + 1 } else { any };
    if one.max(other) < cells {
        (0..4).for_each(|byte| call.file.swap(4 * one + byte, 4 * other + byte));
    }
}

fn turned_cell(random: &mut Random, _: &Packed, call: &mut Call) {
    let at = 4 * some_cell(random, call);
    let cell = call.file.get_mut(at..at + 4);
    cell.into_iter().for_each(|cell| cell.reverse());
}

fn other_order(_: &mut Random, _: &Packed, call: &mut Call) {
    call.order ^= 1;
}

fn other_base(random: &mut Random, _: &Packed, call: &mut Call) {
    let cells: u32 = random.choose(&[1, 2, 8, 0xFFFF_FFFF]);
    let base = call.numbers[0].wrapping_add(cells.wrapping_mul(4));
    call.numbers[0] = base;
}

fn random_bytes(random: &mut Random, packed: &Packed, call: &mut Call) {
    let cells = random.between(1, 8) as usize;
    let any = any_cell(random);
    call.numbers[0] = packed.base.min(0x1000);
    call.file = match random.below(3) {
        0 => any_bytes(random, 4 * cells),
        1 => order_of(call.order).bytes_of(any).to_vec(),
        _ => vec![random.byte(); 4 * cells],
    };
}

/// Cells whose used bytes are opcodes in either form.
fn random_opcodes(random: &mut Random, packed: &Packed, call: &mut Call) {
    call.numbers[0] = packed.base.min(0x1000);
    call.file.clear();
    for _ in 0..random.between(1, 4) {
        let used = random.between(1, 4);
        let bytes = (0..used).map(|_| random.between(0x01, 0x57));
        let cell = bytes.fold(0, |cell, byte| cell << 8 | byte);
        call.file.extend(order_of(call.order).bytes_of(cell));
    }
}
