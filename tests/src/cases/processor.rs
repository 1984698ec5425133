//! Calls of the processor.

use super::{any_cell, any_cells, damage, fill_memory, memory_length, order_of, out_with_room};
use super::{areas, cell_at, pointer, put_cell, rules, tables};
use crate::call::{perform, reference, Call, Entry};
use crate::random::Random;
use crate::reference::stacks::first_pointers;

/// A machine in any state.
fn machine(random: &mut Random, entry: Entry) -> Call {
    let mut call = Call::new(entry);
    call.order = random.below(2) as u8;
    let length = memory_length(random);
    fill_memory(random, &mut call, length);
    let length = length as u32;
    let areas = areas::any(random, length);
    let [sp, mut rp] = if areas == areas::NONE {
        [pointer(random, length), pointer(random, length)]
    } else {
        areas::pointers_about(random, length, &areas)
    };
    if random.one_in(6) {
        rp = sp.wrapping_add(4 * random.below(9)).wrapping_sub(16);
    }
    call.registers = vec![pointer(random, length), any_cell(random), sp, rp];
    call.registers.extend(areas);
    if random.one_in(8) {
        call.registers.push(random.cell());
    }
    call.out = out_with_room(random, if entry == Entry::Run { 2 } else { 1 });
    let handler = pointer(random, length);
    put_cell(&mut call, 0, handler);
    call
}

/// A top item: an address, a number that matters, or one that reaches to the end of memory, or of
/// the data area.
fn top_item(random: &mut Random, length: u32, sp: u32, data_top: u32) -> u32 {
    match random.below(8) {
        0 | 1 => any_cell(random),
        2 => random.below(5),
        3 => {
            let with_area = data_top != 0 && random.one_in(2);
            let end = if with_area { data_top } else { length };
            let to_end = end.wrapping_sub(sp) / 4;
            let near = to_end.wrapping_add(random.below(4)).wrapping_sub(3);
            near.wrapping_add(random.below(4) << 30)
        }
        _ => pointer(random, length),
    }
}

/// A number close to another, often just beside it.
fn near(random: &mut Random, cell: u32) -> u32 {
    match random.below(6) {
        0 => cell,
        1 => cell.wrapping_add(1),
        2 => cell.wrapping_sub(1),
        3 => cell.wrapping_neg(),
        4 => cell.wrapping_add(random.below(9)).wrapping_sub(4),
        _ => any_cell(random),
    }
}

/// Puts items that belong together on both stacks, and an address at EP.
fn prime(random: &mut Random, call: &mut Call) {
    let length = call.memory.len() as u32;
    let [ep, _, sp, rp, data_top] = call.registers[..5] else {
        return;
    };
    let top = top_item(random, length, sp, data_top);
    let second = near(random, top);
    let third = near(random, second);
    let index = near(random, top);
    let limit = if random.one_in(3) {
        index.wrapping_add(top)
    } else {
        near(random, index)
    };
    if random.one_in(2) {
        let address = pointer(random, length);
        put_cell(call, ep, address);
    }
    put_cell(call, sp.wrapping_add(8), third);
    put_cell(call, sp.wrapping_add(4), second);
    put_cell(call, rp.wrapping_add(8), near(random, third));
    put_cell(call, rp.wrapping_add(4), limit);
    put_cell(call, rp, index);
    put_cell(call, sp, top);
    if random.one_in(2) {
        let handler = pointer(random, length);
        put_cell(call, 0, handler);
    }
}

/// Where an instruction may write: the place that the top item names, those that ROLL moves items
/// between, or the stacks.
fn written_places(call: &Call, opcode: u32) -> [u32; 3] {
    let [sp, rp] = [2, 3].map(|pointer| call.registers[pointer]);
    let top = cell_at(call, sp);
    match opcode {
        0x3A | 0x3C | 0x3D => [top; 3],
        0x0A => {
            let moved = top.min(call.memory.len() as u32);
            let deepest = sp.wrapping_add(4 * moved).wrapping_add(4);
            [deepest, deepest.wrapping_sub(4), sp.wrapping_add(4)]
        }
        0x0C | 0x46..=0x4B => [rp.wrapping_sub(4), rp.wrapping_sub(4), rp.wrapping_sub(8)],
        0x4C..=0x4F => [rp; 3],
        _ => [sp, sp.wrapping_add(4), sp.wrapping_sub(4)],
    }
}

/// A table, or none: mostly about what the opcode may write, else about EP or what another may. A small
/// u is put on the stack for ROLL, and for a fetch or a store an address at an edge of the table.
fn put_table(random: &mut Random, call: &mut Call, opcode: u32) {
    let sp = call.registers[2];
    if opcode == 0x0A && random.one_in(2) {
        put_cell(call, sp, random.below(6));
    }
    let other = random.choose(&[opcode, opcode, opcode, opcode, 0, 0x3A, 0x4B, 0x4C]);
    let [x, y, z] = written_places(call, other);
    let places = [x, y, z, x, y, z, call.registers[0]];
    call.table = tables::any(random, call.memory.len() as u32, &places);
    if (0x39..=0x3D).contains(&opcode) && random.one_in(2) && call.table != tables::NONE {
        let edge = tables::edge(random, call.table);
        put_cell(call, sp, edge);
    }
}

/// Every opcode byte in turn, the opcodes of table 7 (and 5Ch) more often than the others.
fn opcode(index: u32) -> u32 {
    if index.is_multiple_of(4) {
        index / 4 % 256
    } else {
        index % 0x5D
    }
}

/// A cycle from any state.
pub fn cycle(random: &mut Random, index: u32) -> Call {
    let mut call = machine(random, Entry::Cycle);
    if !random.one_in(8) {
        prime(random, &mut call);
    }
    let rest = match random.below(3) {
        0 => random.below(400).wrapping_sub(200),
        1 => any_cell(random),
        _ => random.cell(),
    };
    call.registers[1] = (rest << 8) | opcode(index);
    put_table(random, &mut call, opcode(index));
    if random.one_in(40) {
        damage(random, &mut call);
    }
    call
}

/// Start with any EP and handler.
pub fn start(random: &mut Random, _: u32) -> Call {
    let mut call = machine(random, Entry::Start);
    let length = call.memory.len() as u32;
    call.numbers = [pointer(random, length), pointer(random, length), 0, 0];
    call.areas = areas::any(random, length);
    let (sp, _) = first_pointers(call.areas, length);
    let places = [sp.wrapping_sub(4), sp.wrapping_sub(4), call.numbers[0]];
    call.table = tables::any(random, length, &places);
    if random.one_in(8) {
        damage(random, &mut call);
    }
    call
}

/// A budget, seldom a long one.
pub fn budget(random: &mut Random) -> u32 {
    match random.below(12) {
        0 => 0,
        1 => 1,
        2 => 2,
        3 => random.below(20_000),
        4..=7 => random.below(2_000),
        _ => random.below(60),
    }
}

/// SP and RP with which a run can go on for some time.
pub fn run_pointers(random: &mut Random, call: &Call) -> [u32; 2] {
    let areas = areas::of(&call.registers, 4);
    if areas == areas::NONE {
        let cells = call.memory.len() as u32 / 4;
        [(); 2].map(|_| 4 * random.between(64, cells - 64))
    } else {
        areas::pointers_inside(random, &areas)
    }
}

/// A run of any bytes, most of them opcodes.
fn run_of_bytes(random: &mut Random) -> Call {
    let mut call = machine(random, Entry::Run);
    let order = order_of(call.order);
    for at in (16..call.memory.len() - 3).step_by(4) {
        if random.one_in(3) {
            continue;
        }
        let mut cell = 0;
        for _ in 0..random.between(1, 4) {
            cell = (cell << 8) | random.below(0x58);
        }
        if random.one_in(3) {
            let immediate = random.choose(&[0x43, 0x45, 0x49, 0x4D, 0x4F, 0x53]);
            cell = (random.below(64).wrapping_sub(32) << 8) | immediate;
        }
        call.memory[at..at + 4].copy_from_slice(&order.bytes_of(cell));
    }
    let length = call.memory.len() as u32;
    if !random.one_in(4) {
        call.registers[0] = 4 * random.between(4, length / 4 - 1);
        put_cell(&mut call, 0, 4 * random.between(4, length / 4 - 1));
    }
    if !random.one_in(4) {
        let pointers = run_pointers(random, &call);
        call.registers[2..4].copy_from_slice(&pointers);
    }
    put_table(random, &mut call, 0);
    call.numbers[0] = budget(random);
    call
}

/// A run of a packed rule.
fn run_of_rule(random: &mut Random) -> Call {
    let rule = rules::rule(random);
    let base = rule.numbers[0];
    let a = cell_at(&rule, base);
    let mut call = Call::new(Entry::Run);
    call.order = rule.order;
    call.table = rule.table;
    call.memory = rule.memory;
    call.registers = vec![base + 4, a];
    call.registers.extend(rule.registers);
    call.out = any_cells(random, 2);
    call.numbers[0] = budget(random);
    call
}

/// Where the run stops, a budget about the cycles it takes, or a very large one.
pub fn close_budget(random: &mut Random, call: &mut Call) {
    let mut run = call.clone();
    run.numbers[0] = 20_000;
    let returned = perform(&reference(), &run);
    if returned.answer == 1 {
        let done = returned.lent.out[1];
        let budgets = [done - 1, done, done + 1, 0x8000_0000, 0xFFFF_FFFF];
        call.numbers[0] = random.choose(&budgets);
    }
}

/// A whole run.
pub fn run(random: &mut Random, index: u32) -> Call {
    let mut call = if index.is_multiple_of(2) {
        run_of_bytes(random)
    } else {
        run_of_rule(random)
    };
    if random.one_in(20) {
        damage(random, &mut call);
    }
    // last, as the budget may be very large: what is run is known to stop
    if random.one_in(6) {
        close_budget(random, &mut call);
    }
    call
}

/// Calls at the greatest length of memory, and just past it.
pub fn large(random: &mut Random, index: u32) -> Call {
    let entry = [Entry::Start, Entry::Cycle, Entry::Run][index as usize % 3];
    let length = match index / 3 % 4 {
        0 | 1 => 16_777_216,
        2 => 16_777_220,
        _ => 16_777_217,
    };
    let mut call = machine(random, entry);
    let first = call.memory.clone();
    call.memory.resize(length, 0);
    let end = length & !3;
    call.memory[end - 1024..end].copy_from_slice(&first[..1024]);
    let length = length as u32;
    let areas = areas::any(random, length & !3);
    if entry == Entry::Start {
        call.numbers = [pointer(random, length), pointer(random, length), 0, 0];
        call.areas = areas;
        call.table = tables::any(random, length & !3, &[length, length - 0x104]);
    } else {
        let a = (random.below(64) << 8) | random.below(0x58);
        let [ep, mut sp, mut rp] = [8, 12, 12].map(|cells| length - 4 * random.below(cells));
        if areas != areas::NONE {
            [sp, rp] = areas::pointers_about(random, length, &areas);
        }
        call.registers = vec![ep, a, sp, rp];
        call.registers.extend(areas);
        put_table(random, &mut call, a % 256);
    }
    if entry == Entry::Run {
        call.numbers[0] = random.below(100);
    }
    call
}
