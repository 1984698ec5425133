//! Rules: a listing, its image in memory, and the state that it begins with.

use super::writer::Writer;
use super::{any_cell, damage, fill_memory, memory_length, order_of, out_with_room, pointer};
use super::{areas, put_cell, tables, unused_length, GREATEST};
use crate::call::{perform, reference, Call, Entry};
use crate::random::Random;
use crate::reference::listing::{accept, Listing};
use crate::reference::packer::{self, Layout};
use crate::reference::stacks::Numbers;

/// The address of some entry.
fn entry_address(random: &mut Random, listing: &Listing, layout: &Layout, base: u32) -> u32 {
    let entries = listing.entries();
    let entries: Vec<usize> = (0..listing.items()).filter(|item| entries[*item]).collect();
    let entry = random.choose(&entries);
    packer::address(base, layout.placements[entry].cell)
}

/// A stack pointer: mostly a cell of memory clear of the image, else anywhere.
fn stack_pointer(random: &mut Random, length: u32, image: &std::ops::Range<u32>) -> u32 {
    match random.below(12) {
        0..=3 => return pointer(random, length),
        4 => {
            return image
                .start
                .wrapping_add(4 * random.below(6))
                .wrapping_sub(8)
        }
        5 => return image.end.wrapping_add(4 * random.below(6)).wrapping_sub(8),
        _ => (),
    }
    for _ in 0..20 {
        let place = 4 * random.between(8, length / 4 - 1);
        let clear = place.saturating_sub(32)..place + 32;
        if clear.end <= image.start || image.end <= clear.start {
            return place;
        }
    }
    length
}

/// Whether the areas are clear of the image, with room for some items.
fn roomy(areas: &Numbers, image: &std::ops::Range<u32>) -> bool {
    let [data_top, data, return_top, back] = *areas;
    let clear = |top: u32, cells: u32| top <= image.start || image.end <= top - 4 * cells;
    clear(data_top, data + 1) && clear(return_top, back) && data.min(back) >= 4
}

/// Good areas, mostly with room for a rule.
fn good_areas(random: &mut Random, length: u32, image: &std::ops::Range<u32>) -> Numbers {
    let mut areas = areas::good(random, length);
    for _ in 0..random.choose(&[0, 8, 8, 8]) {
        if roomy(&areas, image) {
            break;
        }
        areas = areas::good(random, length);
    }
    areas
}

/// SP, RP and areas that a rule begins with: mostly none, else good ones.
fn stacks(random: &mut Random, length: u32, image: &std::ops::Range<u32>) -> Vec<u32> {
    let (pointers, areas) = if random.one_in(3) {
        let areas = good_areas(random, length, image);
        let pointers = if random.one_in(3) {
            areas::pointers_about(random, length, &areas)
        } else {
            areas::pointers_inside(random, &areas)
        };
        (pointers, areas)
    } else {
        let pointers = [(); 2].map(|_| stack_pointer(random, length, image));
        (pointers, areas::NONE)
    };
    pointers.into_iter().chain(areas).collect()
}

/// The addresses that a listing names before a store.
fn named_places(listing: &Listing) -> Vec<u32> {
    let pairs = listing.kinds.windows(2).zip(&listing.operands);
    let named = pairs.filter(|(pair, _)| matches!(pair, [0x52, 0x3A | 0x3C | 0x3D]));
    named.map(|(_, address)| *address).collect()
}

/// None, or a good table: often about what the rule writes, or just over its image.
fn put_table(
    random: &mut Random,
    call: &mut Call,
    listing: &Listing,
    image: &std::ops::Range<u32>,
) {
    let length = call.memory.len() as u32;
    let [sp, rp] = [0, 1].map(|pointer| call.registers[pointer]);
    let stacks = vec![sp, sp.wrapping_sub(8), rp, rp.wrapping_sub(4)];
    let places = match random.below(4) {
        0 => vec![image.start, image.end],
        1 => stacks,
        _ => named_places(listing),
    };
    call.table = if random.one_in(12) && image.end <= length {
        [image.start, image.end]
    } else if places.is_empty() {
        tables::NONE
    } else {
        tables::usable(random, length, &places)
    };
}

/// Puts the image where it begins, if memory holds it whole.
pub fn put_image(call: &mut Call, image: &[u8]) -> bool {
    let at = call.numbers[0] as usize;
    match call.memory.get_mut(at..at + image.len()) {
        Some(place) => {
            place.copy_from_slice(image);
            true
        }
        None => false,
    }
}

/// The number of items of a rule: mostly few.
fn rule_size(random: &mut Random) -> usize {
    let items = match random.below(60) {
        0 | 1 => random.between(300, 900),
        2..=5 => random.between(60, 160),
        6..=20 => random.between(20, 60),
        _ => random.between(1, 20),
    };
    items as usize
}

/// Puts addresses of entries here and there into memory, and a handler, mostly an entry too.
fn plant_addresses(
    random: &mut Random,
    call: &mut Call,
    listing: &Listing,
    layout: &Layout,
    base: u32,
) {
    let length = call.memory.len() as u32;
    for _ in 0..random.below(40) {
        let address = entry_address(random, listing, layout, base);
        put_cell(call, 4 * random.below(length / 4), address);
    }
    let handler = match random.below(6) {
        0 => any_cell(random),
        1 => pointer(random, length),
        _ => entry_address(random, listing, layout, base),
    };
    put_cell(call, 0, handler);
}

/// A rule with its image in memory, as a call of `list_run`.
pub fn rule(random: &mut Random) -> Call {
    let mut call = Call::new(Entry::ListRun);
    call.order = random.below(2) as u8;
    let items = rule_size(random);
    let length = memory_length(random) + 8 * (items - items % 40);
    let room = unused_length(length as u32, items as u32);
    let base = 0x10 + 4 * random.below(room) * random.choose(&[0, 1, 1, 1, 1, 1]);
    let listing = Writer::new(random, length as u32).write(items, base);
    let layout = packer::layout(&listing);
    let image = base..packer::address(base, layout.cells);
    let length = if random.one_in(6) {
        image.end.max(1024) as usize
    } else {
        length
    };
    fill_memory(random, &mut call, length);
    plant_addresses(random, &mut call, &listing, &layout, base);
    call.registers = stacks(random, length as u32, &image);
    if random.one_in(2) {
        let address = entry_address(random, &listing, &layout, base);
        let rp = call.registers[1];
        put_cell(&mut call, rp, address);
    }
    put_table(random, &mut call, &listing, &image);
    call.numbers = [base, rule_items(random), 0, 0];
    let cells = packer::image(&listing, &layout, base);
    let image = packer::bytes(&cells, order_of(call.order));
    put_image(&mut call, &image);
    call.kinds = listing.kinds;
    call.operands = listing.operands;
    call.out = out_with_room(random, 5);
    call
}

fn rule_items(random: &mut Random) -> u32 {
    match random.below(8) {
        0 => 0,
        1 => 1,
        2 => random.below(2_000),
        3 => random.choose(&[3_000, 10_000]),
        _ => random.below(80),
    }
}

/// Where the list machine ends, a number of items about those it carries out, or a very large one.
fn close_items(random: &mut Random, call: &mut Call) {
    let mut run = call.clone();
    run.numbers[1] = 5_000;
    let returned = perform(&reference(), &run);
    if returned.answer == 1 || returned.answer == 2 {
        let done = returned.lent.out[2];
        call.numbers[1] = random.choose(&[done, done + 1, 0x8000_0000, 0xFFFF_FFFF]);
    }
}

/// A run of the list machine: of a rule, or with its image not in memory, not whole there, bad areas, a
/// bad table or bad input.
pub fn list_run(random: &mut Random, _: u32) -> Call {
    let mut call = rule(random);
    let length = call.memory.len() as u32;
    if random.one_in(16) {
        let areas = areas::bad(random, length);
        call.registers[2..].copy_from_slice(&areas);
    }
    if random.one_in(16) {
        call.table = tables::bad(random, length);
    }
    match random.below(24) {
        0 => fill_memory(random, &mut call, length as usize),
        1 => call.numbers[0] = length - 4 * random.below(8),
        2 => call.numbers[0] = pointer(random, length),
        3 => call.numbers[0] = random.choose(&[0, 4, 0xC, 0x10, 0x12, 16_777_216, 16_777_212]),
        4 => {
            let item = random.below(call.kinds.len() as u32) as usize;
            call.kinds[item] = random.byte();
        }
        5 => {
            let item = random.below(call.kinds.len() as u32) as usize;
            call.operands[item] = any_cell(random);
        }
        6 => {
            call.operands.pop();
        }
        7 | 8 => damage(random, &mut call),
        9..=12 => close_items(random, &mut call),
        _ => (),
    }
    call
}

/// A run taken up at some item, mostly one that there is, whether or not it could be reached so.
pub fn list_resume(random: &mut Random, index: u32) -> Call {
    let mut call = list_run(random, index);
    call.entry = Entry::ListResume;
    let items = call.kinds.len() as u32;
    call.numbers[2] = match random.below(12) {
        0 => items,
        1 => items + random.below(3),
        2 => random.choose(&[4096, 0x7FFF_FFFF, 0x8000_0000, 0xFFFF_FFFF]),
        3 => 0,
        _ => random.below(items),
    };
    call.numbers[3] = random.choose(&[0, 1, 0, 1, 0, 1, 2, 255]);
    // what ends from item 0 on may go on without end from another item
    call.numbers[1] = rule_items(random);
    if random.one_in(6) {
        close_items(random, &mut call);
    }
    call
}

/// Rules at the end of the greatest memory, or of one just too long.
pub fn large(random: &mut Random, index: u32) -> Call {
    let mut call = rule(random);
    let length: u32 = if index % 4 == 3 { 16_777_220 } else { GREATEST };
    call.memory.resize(length as usize, 0);
    let listing = accept(&call.kinds, &call.operands).expect("a legal listing");
    let layout = packer::layout(&listing);
    let base = GREATEST - 4 * layout.cells as u32;
    call.numbers = [base, random.below(60), 0, 0];
    let cells = packer::image(&listing, &layout, base);
    let image = packer::bytes(&cells, order_of(call.order));
    put_image(&mut call, &image);
    let image = base..GREATEST;
    call.registers = stacks(random, length, &image);
    put_table(random, &mut call, &listing, &image);
    call
}
