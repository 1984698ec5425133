//! Calls that run a batch of forms (document 02, (k)): batches that are run, and batches with up to three
//! faults, so that the order of refusals shows.

use super::forms::{self, Varied};
use super::{any_bytes, any_cell, areas, odd_length, out_with_room, processor, tables, GREATEST};
use crate::call::{perform, reference, Call, Entry};
use crate::random::Random;

/// The figures of a report.
const FIGURES: usize = 11;

/// The places of the numbers.
const ADDRESS: usize = 0;
const LENGTH: usize = 1;
const COUNT: usize = 2;
const BUDGET: usize = 3;

/// How many forms, seldom many.
fn count(random: &mut Random) -> u32 {
    match random.below(64) {
        0 => random.between(256, 600),
        1..=4 => random.between(6, 40),
        5..=8 => 0,
        9..=16 => 1,
        _ => random.between(2, 5),
    }
}

/// A budget, small where there are many forms.
fn budget(random: &mut Random, count: u32) -> u32 {
    match random.below(12) {
        0 => 0,
        1 => 1,
        2 => random.between(2, 4),
        _ if count > 40 => random.below(20),
        3..=5 => random.below(600),
        6 => random.below(2_000),
        _ => random.below(60),
    }
}

/// The bytes from the lowest place that varies up to the end of the highest, inside memory.
fn span(length: u32, all: &[Varied]) -> (u32, u32) {
    let cells = |varied: &Varied| varied.choices.iter().map(|cells| cells.len()).max();
    let ends = all.iter().map(|varied| {
        let bytes = 4 * cells(varied).unwrap_or(0) as u32;
        varied.address.saturating_add(bytes).min(length)
    });
    let lowest = all.iter().map(|varied| varied.address.min(length)).min();
    (lowest.unwrap_or(0), ends.max().unwrap_or(0))
}

/// Which bytes of memory a form is for, first byte and end: all that vary, with some beside them or without
/// some; from 0h on, up to MEMORY, or all of it; one byte, or none; or any.
fn window(random: &mut Random, length: u32, all: &[Varied]) -> (u32, u32) {
    let at = random.below(all.len() as u32) as usize;
    let (first, end) = match random.below(3) {
        0 => span(length, &all[at..=at]),
        _ => span(length, all),
    };
    let (little, more) = (random.below(4), random.below(4));
    let any = random.below(length);
    match random.below(24) {
        0 => (first, first),
        1 => (length, length),
        2 => (first + little, first + little + 1),
        3 | 4 => (0, end),
        5 => (first, length),
        6 => (0, length),
        7 => (any, any + random.below(40)),
        8..=12 => (first.saturating_sub(little), end + more),
        13 | 14 => (first + little, end),
        15 => (0, 4 + 4 * little),
        _ => (first, end),
    }
}

/// Puts the forms into the call: of each of them the bytes from the window's first on.
fn put_forms(random: &mut Random, call: &mut Call, all: &[Varied], count: u32) {
    let length = call.memory.len() as u32;
    let (first, end) = window(random, length, all);
    let (first, end) = (first.min(length), end.min(length).max(first.min(length)));
    let window = first as usize..end as usize;
    let different = (0..count.min(12)).map(|_| {
        let memory = forms::vary(random, call, all).memory;
        memory[window.clone()].to_vec()
    });
    let different: Vec<Vec<u8>> = different.collect();
    for number in 0..count as usize {
        let again = random.below(12.min(count)) as usize;
        let chosen = if number < 12 { number } else { again };
        call.file.extend(&different[chosen]);
    }
    call.numbers = [first, end - first, count, budget(random, count)];
    let behind = random.choose(&[0, 0, 0, 1, 2, 9]);
    call.file.extend(any_bytes(random, behind));
}

/// The machine's memory becomes the start memory; the memory that is lent holds other bytes, or the same.
fn put_start(random: &mut Random, call: &mut Call) {
    call.start = call.memory.clone();
    match random.below(4) {
        0 => {}
        1 => call.memory.fill(0),
        _ => call.memory.iter_mut().for_each(|byte| *byte ^= 0x5A),
    }
}

/// Where every run stops, a budget about the longest of them, or a very large one.
fn close_budget(random: &mut Random, call: &mut Call) {
    let mut short = call.clone();
    short.numbers[BUDGET] = 600;
    let returned = perform(&reference(), &short);
    if let [_, _, _, _, _, 0, _, _, largest, ..] = returned.lent.out[..] {
        if returned.answer == 0 {
            let budgets = [largest.saturating_sub(1), largest, largest + 1];
            let large = random.choose(&[0x8000_0000, 0xFFFF_FFFF]);
            let close = random.choose(&budgets);
            call.numbers[BUDGET] = random.choose(&[close, close, close, large]);
        }
    }
}

/// A machine with a rule for its forms, or in the middle of any run, and what may differ between forms.
fn machine(random: &mut Random, index: u32) -> (Call, Vec<Varied>) {
    if random.one_in(5) {
        let mut call = processor::run(random, index);
        call.entry = Entry::Batch;
        call.registers.resize(8, 0);
        let all = forms::any(&call);
        (call, all)
    } else {
        let mut call = Call::new(Entry::Batch);
        call.order = random.below(2) as u8;
        let all = forms::rule(random, &mut call);
        if random.one_in(3) {
            let places: Vec<u32> = all.iter().map(|varied| varied.address).collect();
            call.table = tables::usable(random, call.memory.len() as u32, &places);
        }
        (call, all)
    }
}

/// Another length for one memory, or the same bad one for both.
fn mislength(random: &mut Random, call: &mut Call) {
    let (bad, little) = (odd_length(random), random.choose(&[1, 4, 4, 8, 1024]));
    let length = call.memory.len();
    let other = random.choose(&[bad, length + little, length.saturating_sub(little)]);
    match random.below(4) {
        0 => call.start.resize(other, 0x5A),
        1 => {
            call.start.resize(bad, 0x5A);
            call.memory.resize(bad, 0x5A);
        }
        _ => call.memory.resize(other, 0x5A),
    }
}

/// An address or a length with which a form is not, or only just, inside memory; past 2^32 too.
fn misplace(random: &mut Random, call: &mut Call) {
    let length = call.start.len() as u32;
    let form = call.numbers[LENGTH];
    let little = random.choose(&[0, 1, 1, 1, 2, 4]);
    let address = &mut call.numbers[ADDRESS];
    match random.below(8) {
        0..=2 => *address = length.wrapping_sub(form).wrapping_add(little),
        3 => *address = 0_u32.wrapping_sub(random.below(form.saturating_add(1))),
        4 => *address = any_cell(random),
        5 => (call.numbers[ADDRESS], call.numbers[LENGTH]) = (length.wrapping_add(little), 0),
        6 => {
            // The sum is 2^32, or a little more.
            let end = little.wrapping_sub(*address);
            call.numbers[LENGTH] = end;
        }
        _ => {
            let end = length.wrapping_sub(*address).wrapping_add(little);
            call.numbers[LENGTH] = end;
        }
    }
}

/// Fewer bytes than the forms have, or more forms than there are bytes.
fn miscount(random: &mut Random, call: &mut Call) {
    let needed = call.numbers[COUNT].saturating_mul(call.numbers[LENGTH]) as usize;
    match random.below(8) {
        0 => call.file.clear(),
        1 => {
            let left = random.below(call.file.len() as u32 + 1) as usize;
            call.file.truncate(left);
        }
        2 if needed > 0 => call.numbers[COUNT] = random.choose(&[0xFFFF, 0xFFFE, 0x8000]),
        3 => call.numbers[COUNT] = (call.numbers[COUNT] + 1).min(0xFFFF),
        _ => call.file.truncate(needed.saturating_sub(1)),
    }
}

/// One fault in what is lent or given.
fn fault(random: &mut Random, call: &mut Call) {
    let length = call.start.len().clamp(1024, 1 << 16) as u32 & !3;
    match random.below(10) {
        0 | 1 => mislength(random, call),
        2 => call.order = random.choose(&[2, 3, 128, 254, 255]),
        3 => {
            let bad = areas::bad(random, length);
            call.registers[4..8].copy_from_slice(&bad);
        }
        4 => call.table = tables::bad(random, length),
        5 | 6 => misplace(random, call),
        7 | 8 => miscount(random, call),
        _ => {
            let places = random.choose(&[0, 1, 9, 10, 10, 10, 11, 12]);
            call.out.resize(places, 0x8765_4321);
        }
    }
}

/// A batch of forms, with no fault or with up to three.
pub fn batch(random: &mut Random, index: u32) -> Call {
    let (mut call, all) = machine(random, index);
    let count = count(random);
    put_forms(random, &mut call, &all, count);
    put_start(random, &mut call);
    call.out = out_with_room(random, FIGURES);
    for _ in 0..random.choose(&[0, 0, 0, 0, 1, 1, 2, 3]) {
        fault(random, &mut call);
    }
    // last, as the budget may be very large: what is run is known to stop
    if random.one_in(6) {
        close_budget(random, &mut call);
    }
    call
}

/// As many forms as the count can tell, each of no byte or of one, with a few cycles or none; all of their
/// bytes are lent, or all but one.
fn most(random: &mut Random, index: u32) -> Call {
    let (mut call, _) = machine(random, index);
    put_start(random, &mut call);
    call.out = out_with_room(random, FIGURES);
    let count = random.choose(&[0xFFFF, 0xFFFE, 0x8000, 0x1001]);
    let form = random.choose(&[0, 1, 1]);
    let address = random.below(call.start.len() as u32);
    call.numbers = [address, form, count, random.choose(&[0, 1, 2, 3, 5])];
    call.file = any_bytes(random, (count * form) as usize);
    if random.one_in(4) {
        call.file.pop();
    }
    call
}

/// Forms up to the end of the greatest memory, or of one just too long, or of which one memory is shorter.
fn greatest(random: &mut Random, index: u32) -> Call {
    let mut call = batch(random, index);
    let [start, memory] = match index % 4 {
        0 => [GREATEST + 4; 2],
        1 => [GREATEST, GREATEST - 4],
        _ => [GREATEST; 2],
    };
    call.start.resize(start as usize, 0x3C);
    call.memory.resize(memory as usize, 0xC3);
    let count = call.numbers[COUNT].min(3);
    call.numbers[ADDRESS] = start - call.numbers[LENGTH].min(start);
    call.numbers[COUNT] = count;
    call.numbers[BUDGET] = call.numbers[BUDGET].min(2_000);
    call
}

/// So many bytes of forms that their number passes 2^32, or is just that, and none of them lent.
fn beyond(random: &mut Random, index: u32) -> Call {
    let mut call = batch(random, index);
    let length = 1_u32 << 17;
    call.start.resize(length as usize, 0x3C);
    call.memory.resize(length as usize, 0xC3);
    call.numbers = [0, length, random.choose(&[0x8000, 0x8001]), 1];
    call.file.truncate(random.below(2) as usize);
    call
}

/// Very many forms, very large memories, or more bytes of forms than can be lent.
pub fn large(random: &mut Random, index: u32) -> Call {
    match index % 6 {
        0..=2 => most(random, index),
        3 | 4 => greatest(random, index / 3),
        _ => beyond(random, index),
    }
}
