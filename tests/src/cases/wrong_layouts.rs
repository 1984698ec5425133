//! Images of a listing whose items stand elsewhere, or in another form, than the packer has them.

use super::images::Packed;
use super::wrong_images::{item_where, leaves_bytes, put_byte};
use crate::call::Call;
use crate::random::Random;
use crate::reference::packer::{lay_out, Form, Placement};

/// The image laid out with other entries and other marks than the listing's.
fn lay_out_otherwise(
    packed: &Packed,
    call: &mut Call,
    change: impl FnOnce(&mut [bool], &mut [bool]),
) {
    let mut entries = packed.listing.entries();
    let places = packed.layout.placements.iter();
    let in_cell = places.map(|placement| matches!(placement.form, Form::Cell(_)));
    let mut marks: Vec<bool> = in_cell.collect();
    change(&mut entries, &mut marks);
    let layout = lay_out(&packed.listing, &entries, &marks);
    call.file = packed.bytes(&layout, call.order);
}

pub fn needless_operand_cell(random: &mut Random, packed: &Packed, call: &mut Call) {
    let immediate = |_: usize, placement: &Placement| placement.form == Form::Immediate;
    if let Some(item) = item_where(random, packed, immediate) {
        lay_out_otherwise(packed, call, |_, marks| marks[item] = true);
    }
}

/// A branch whose mark is taken away, often one that fits by now. One that does not has the low bytes of
/// its value.
pub fn mark_taken_away(random: &mut Random, packed: &Packed, call: &mut Call) {
    let any = item_where(random, packed, |item, _| packed.is_marked(item));
    let fitting = item_where(random, packed, |item, _| packed.keeps_mark(item));
    if let Some(item) = fitting.or(any) {
        lay_out_otherwise(packed, call, |_, marks| marks[item] = false);
    }
}

pub fn item_out(random: &mut Random, packed: &Packed, call: &mut Call) {
    let inside = |_: usize, placement: &Placement| !placement.opens;
    if let Some(item) = item_where(random, packed, inside) {
        lay_out_otherwise(packed, call, |entries, _| entries[item] = true);
    }
}

/// Whether an item opens a cell though the one before it was left open.
fn left_open(packed: &Packed, item: usize) -> bool {
    item > 0 && leaves_bytes(packed, item - 1, &packed.layout.placements[item - 1])
}

pub fn item_in(random: &mut Random, packed: &Packed, call: &mut Call) {
    let after_open = |item: usize, _: &Placement| left_open(packed, item);
    if let Some(item) = item_where(random, packed, after_open) {
        lay_out_otherwise(packed, call, |entries, _| entries[item] = false);
    }
}

pub fn item_after_call(random: &mut Random, packed: &Packed, call: &mut Call) {
    let after_call = |item: usize, _: &Placement| {
        left_open(packed, item) && matches!(packed.listing.kinds[item - 1], 0x46..=0x48)
    };
    if let Some(item) = item_where(random, packed, after_call) {
        lay_out_otherwise(packed, call, |entries, _| entries[item] = false);
    }
}

/// Moves the rest of a cell, whose last byte was not used, up by a byte.
pub fn gap(random: &mut Random, packed: &Packed, call: &mut Call) {
    let in_three = |item: usize, placement: &Placement| {
        placement.slot > 0 && leaves_bytes(packed, item, placement)
    };
    if let Some(last) = item_where(random, packed, in_three) {
        let Placement { cell, slot, .. } = packed.layout.placements[last];
        let first = random.between(1, slot as u32) as usize;
        for to in (first..=slot).rev() {
            let moved = packed.listing.kinds[last - (slot - to)];
            put_byte(call, cell, to + 1, moved);
        }
        put_byte(call, cell, first, 0x00);
    }
}
