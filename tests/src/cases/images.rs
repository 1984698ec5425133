//! Calls on images (document 02, (h)): what the packer writes, the same damaged, and bytes that no
//! packer wrote.

use super::listings::{self, kind_byte, length_about, listing, size};
use super::{any_bytes, any_cell, any_cells, order_of, wrong_images, GREATEST};
use crate::call::{Call, Entry};
use crate::random::Random;
use crate::reference::listing::{kind_of, Kind, Listing};
use crate::reference::packer::{self, Form, Layout};
use crate::reference::unpack;

/// A listing and its image, with all that the packer knows of it.
pub struct Packed {
    pub listing: Listing,
    pub layout: Layout,
    pub base: u32,
}

impl Packed {
    /// The image's bytes, laid out this way.
    pub fn bytes(&self, layout: &Layout, order: u8) -> Vec<u8> {
        let cells = packer::image(&self.listing, layout, self.base);
        packer::bytes(&cells, order_of(order))
    }

    /// Whether a branch was marked where bytes are left for it.
    pub fn is_marked(&self, item: usize) -> bool {
        let place = &self.layout.placements[item];
        let in_cell = matches!(place.form, Form::Cell(_));
        self.listing.kind(item) == Kind::Branch && in_cell && place.slot < 3
    }

    /// Whether a branch that was marked would fit where it stands now.
    pub fn keeps_mark(&self, item: usize) -> bool {
        let places = &self.layout.placements;
        let fits = || {
            let target = places[self.listing.target(item)].cell as i64;
            packer::fits(target - places[item].ep as i64, 3 - places[item].slot)
        };
        self.is_marked(item) && fits()
    }
}

/// A base for so many bytes: as low or as high as one may be, or between.
fn good_base(random: &mut Random, length: u32) -> u32 {
    match random.below(6) {
        0 => 0x10,
        1 => GREATEST - length,
        2 => GREATEST - length - 4 * random.below(3),
        _ => 0x10 + 4 * random.below(1000),
    }
}

/// Kinds and operands.
type Items = (Vec<u8>, Vec<u32>);

/// Some branches close together, about as far from their target as one byte reaches. Two that are marked
/// in one round move in the next, and either may then stand where it would fit: it keeps its mark.
fn far_branches(random: &mut Random) -> Items {
    let mut branches = Vec::new();
    for _ in 0..random.between(2, 4) {
        let before = random.choose(&[1, 2, 2, 2]);
        branches.extend((0..before).map(|_| kind_byte(random, Kind::Plain)));
        branches.push(kind_byte(random, Kind::Branch));
    }
    let far = random.between(470, 530);
    let between: Vec<u8> = (0..far).map(|_| kind_byte(random, Kind::Plain)).collect();
    let (kinds, target) = match random.below(2) {
        0 => ([&between[..], &branches[..]].concat(), 0),
        _ => (
            [&branches[..], &between[..]].concat(),
            branches.len() as u32 + far - 1,
        ),
    };
    let is_branch = |kind: &u8| kind_of(*kind) == Some(Kind::Branch);
    let operands = kinds
        .iter()
        .map(|kind| if is_branch(kind) { target } else { 0 });
    let operands = operands.collect();
    (kinds, operands)
}

/// A legal listing, of any size.
fn any_listing(random: &mut Random) -> Items {
    if random.one_in(12) {
        far_branches(random)
    } else {
        let items = size(random);
        listing(random, items)
    }
}

/// A listing, also one of more items than are accepted, at a base where its image may be.
fn packed(random: &mut Random, (kinds, operands): Items) -> Packed {
    let listing = Listing { kinds, operands };
    let layout = packer::layout(&listing);
    let base = good_base(random, 4 * layout.cells as u32);
    Packed {
        listing,
        layout,
        base,
    }
}

/// The call that reads the packer's image.
fn on_image(random: &mut Random, packed: &Packed) -> Call {
    let mut call = Call::new(Entry::Unpack);
    call.order = random.below(2) as u8;
    call.numbers[0] = packed.base;
    call.file = packed.bytes(&packed.layout, call.order);
    call
}

/// The items that the call writes; where it is refused, those of the listing.
fn items_of(call: &Call, packed: &Packed) -> usize {
    let read = unpack::read(order_of(call.order), &call.file, call.numbers[0]);
    read.map_or(packed.listing.items(), |listing| listing.items())
}

/// Lends arrays for so many items: often just as long, else one of them or both longer or too short.
fn lend(random: &mut Random, call: &mut Call, items: usize) {
    let (mut kinds, mut operands) = (items, items);
    match random.below(6) {
        0 => kinds = length_about(random, items),
        1 => operands = length_about(random, items),
        2 => {
            kinds = length_about(random, items);
            operands = length_about(random, items);
        }
        3 => {
            kinds += random.below(9) as usize;
            operands += random.below(9) as usize;
        }
        _ => {}
    }
    call.kinds = any_bytes(random, kinds);
    call.operands = any_cells(random, operands);
    let numbers = random.choose(&[0, 1, 1, 1, 1, 1, 2, 4]);
    call.out = any_cells(random, numbers);
}

/// Another base: beside the one that was packed for, unaligned, too low or too high.
fn change_base(random: &mut Random, call: &mut Call) {
    let base = call.numbers[0];
    let highest = GREATEST.saturating_sub(call.file.len() as u32);
    call.numbers[0] = match random.below(8) {
        0 => base.wrapping_add(4),
        1 => base.wrapping_sub(4),
        2 => base.wrapping_add(random.between(1, 3)),
        3 => random.below(17),
        4 => highest.wrapping_add(random.below(8)),
        5 => (highest & !3).wrapping_add(4 * random.below(3)),
        6 => 0_u32.wrapping_sub(4 * random.below(9)),
        _ => any_cell(random),
    };
}

/// Other numbers, or no room at all, so that the order of refusals shows.
fn spoil_call(random: &mut Random, call: &mut Call) {
    for _ in 0..random.between(1, 2) {
        match random.below(5) {
            0 => call.order = random.choose(&[2, 3, 128, 254, 255]),
            1 => {
                call.kinds.clear();
                call.operands.clear();
                call.out.clear();
            }
            _ => change_base(random, call),
        }
    }
}

/// Damages the image in one way, seldom in two.
fn damage(random: &mut Random, packed: &Packed, call: &mut Call) {
    for _ in 0..random.choose(&[1, 1, 1, 1, 2]) {
        let (_, damage) = random.choose(&wrong_images::DAMAGES);
        damage(random, packed, call);
    }
}

/// A call on the image of these items, damaged by this.
fn damaged(
    random: &mut Random,
    items: Items,
    damage: impl FnOnce(&mut Random, &Packed, &mut Call),
) -> Call {
    let packed = packed(random, items);
    let mut call = on_image(random, &packed);
    damage(random, &packed, &mut call);
    let items = items_of(&call, &packed);
    lend(random, &mut call, items);
    call
}

/// A call on an image damaged in the way of this number, with room for what it writes.
pub fn damaged_by(random: &mut Random, number: usize) -> Call {
    let items = any_listing(random);
    let mut call = damaged(random, items, wrong_images::DAMAGES[number].1);
    call.kinds = vec![0; 4096];
    call.operands = vec![0; 4096];
    call.out = vec![0];
    call
}

/// A call on an image, mostly damaged or as it was packed, else with bad numbers.
pub fn unpack(random: &mut Random, _: u32) -> Call {
    let items = any_listing(random);
    let is_damaged = random.one_in(2);
    let mut call = damaged(random, items, |random, packed, call| {
        if is_damaged {
            damage(random, packed, call);
        }
    });
    if random.one_in(6) {
        spoil_call(random, &mut call);
    }
    call
}

/// An image to be read, or a listing to be packed.
pub fn image_or_listing(random: &mut Random, index: u32) -> Call {
    match index % 2 {
        0 => unpack(random, index),
        _ => listings::pack(random, index),
    }
}

/// An image as long as the highest address lets it be, or longer by a byte or a cell.
fn longest(random: &mut Random, index: u32) -> Call {
    let mut call = Call::new(Entry::Unpack);
    call.order = random.below(2) as u8;
    call.numbers[0] = 0x10;
    let more = [0, 1, 4][index as usize % 3];
    call.file = vec![0x01; GREATEST as usize - 0x10 + more];
    lend(random, &mut call, 4096);
    call
}

/// Images of about as many items as there may be, or of many more.
pub fn large(random: &mut Random, index: u32) -> Call {
    if index % 20 == 19 {
        return longest(random, index / 20);
    }
    let items = [4096, 4097, 4096, 4095, 8192][index as usize % 5];
    let items = listing(random, items);
    damaged(random, items, |_, _, _| {})
}
