//! Rules that end in another way by what their form holds (document 02, (k)): with 0, -258 and -259, by
//! the machine or by HALT, with another reason, or with their budget spent, after few cycles or many.

use super::processor::run_pointers;
use super::{any_cell, areas, fill_memory, memory_length, pointer, put_cell};
use crate::call::Call;
use crate::random::Random;

/// Cells that follow each other somewhere in memory: one of some lists goes there for each form.
pub struct Varied {
    pub address: u32,
    pub choices: &'static [&'static [u32]],
}

const M258: u32 = -258_i32 as u32;
const M259: u32 = -259_i32 as u32;

/// What a HALT pops.
const REASONS: &[&[u32]] = &[
    &[0],
    &[0],
    &[M258],
    &[M259],
    &[1],
    &[5],
    &[-1_i32 as u32],
    &[-256_i32 as u32],
    &[258],
];

/// The same, each but for the 1 that is added to it.
const REASONS_LESS_1: &[&[u32]] = &[&[0xFFFF_FFFF], &[M258 - 1], &[M259 - 1], &[0], &[4], &[257]];

/// How often a loop is gone through; 0 is 2^32 times.
const COUNTS: &[&[u32]] = &[&[0], &[1], &[1], &[2], &[3], &[7], &[20], &[60], &[250]];

/// Cells of code: HALT with 0, -1, -258 and -259; a push where SP is 0, and HALT where it is MEMORY, for both
/// of which the machine stops with -258; a loop for ever; three that raise; loops that end, then HALT; and a
/// store that spoils 'THROW before an opcode that raises.
const CODES: &[&[u32]] = &[
    &[0x0000_5519],
    &[0x0000_551B],
    &[0xFFFE_FE53, 0x55],
    &[0xFFFE_FD53, 0x55],
    &[0x0019_3F19],
    &[0x553F_391C],
    &[0xFFFF_FF43],
    &[0x5B],
    &[0x0000_005C],
    &[0x0000_3F1A],
    &[0x0000_0953, 0x0000_4B19, 0xFFFF_FF4D, 0x0000_5519],
    &[0x0000_2853, 0x0000_4B19, 0xFFFF_FF4D, 0xFFFE_FD53, 0x55],
    &[0x003A_191B, 0x5B],
];

/// Where a throw leads: 0 and HALT, HALT with the code, a loop for ever; or nowhere.
const HANDLER: u32 = 0x200;
const HANDLERS: &[&[u32]] = &[
    &[HANDLER],
    &[HANDLER + 4],
    &[HANDLER + 8],
    &[HANDLER + 1],
    &[0xFFFF_FFFF],
    &[0x0100_0000],
];

/// A literal beside its opcode.
fn literal(value: u32) -> u32 {
    (value << 8) | 0x53
}

/// An opcode, and behind it a literal.
fn then_literal(opcode: u32, value: u32) -> u32 {
    (value << 16) | 0x5300 | opcode
}

/// The places that rules work on: the code, the form's cells, and a cell beside them.
const CODE: u32 = 0x20;
const FORM: u32 = 0x84;
const BESIDE: u32 = 0x140;

fn varied(address: u32, choices: &'static [&'static [u32]]) -> Varied {
    Varied { address, choices }
}

/// Cells of code, and what its end depends on.
type Rule = (Vec<u32>, Vec<Varied>);

/// HALT with what the form holds; the form's byte counts a loop before.
fn counting(random: &mut Random) -> Rule {
    let reason = varied(FORM + 4, REASONS);
    if random.one_in(3) {
        return (vec![literal(FORM + 4), 0x5539], vec![reason]);
    }
    let (count, halt) = (literal(FORM), literal(FORM + 4));
    let code = vec![count, 0x004B_193B, 0xFFFF_FF4D, halt, 0x5539];
    (code, vec![varied(FORM, COUNTS), reason])
}

/// Adds 1 to a cell beside the form, and stops with the sum of both; or to the form, and stops with it.
fn marking(random: &mut Random, call: &mut Call) -> Rule {
    if random.one_in(3) {
        let code = vec![
            then_literal(0x1A, FORM),
            then_literal(0x3D, FORM),
            0x0000_5539,
        ];
        return (code, vec![varied(FORM, REASONS_LESS_1)]);
    }
    put_cell(call, BESIDE, random.choose(&[0xFFFF_FFFF, M258 - 1, 0]));
    let code = vec![
        then_literal(0x1A, BESIDE),
        then_literal(0x3D, BESIDE),
        then_literal(0x39, FORM),
        0x0055_1E39,
    ];
    (code, vec![varied(FORM, REASONS)])
}

/// Areas or none, SP and RP, and the registers with which the cells at an address are run.
fn put_registers(random: &mut Random, call: &mut Call, code: u32) {
    let length = call.memory.len() as u32;
    let areas = match random.below(4) {
        0 => areas::good(random, length),
        _ => areas::NONE,
    };
    call.registers = vec![code, 0, length - 0x100, length];
    call.registers.extend(areas);
    if areas != areas::NONE || random.one_in(8) {
        let pointers = run_pointers(random, call);
        call.registers[2..4].copy_from_slice(&pointers);
    }
    if random.one_in(16) {
        call.registers[random.between(0, 3) as usize] = pointer(random, length);
    }
}

/// A rule in a memory, and what may differ from form to form.
pub fn rule(random: &mut Random, call: &mut Call) -> Vec<Varied> {
    let length = memory_length(random);
    fill_memory(random, call, length);
    let handlers = [0x5519, 0x55, 0xFFFF_FF43];
    for (number, cell) in (0..).zip(handlers) {
        put_cell(call, HANDLER + 4 * number, cell);
    }
    let handler = random.choose(HANDLERS)[0];
    put_cell(call, 0, handler);
    put_cell(call, 4, length as u32);
    put_registers(random, call, CODE);
    let (code, varied) = match random.below(8) {
        0 => (
            vec![random.choose(&[0x5B, 0x54, 0x39])],
            vec![varied(0, HANDLERS)],
        ),
        1 => (vec![0x55], vec![varied(call.registers[2], REASONS)]),
        2 | 3 => (CODES[0].to_vec(), vec![varied(CODE, CODES)]),
        4 | 5 => marking(random, call),
        _ => counting(random),
    };
    for (number, cell) in (0..).zip(code) {
        put_cell(call, CODE + 4 * number, cell);
    }
    varied
}

/// Any code in memory, and what may differ from form to form: the cells at EP, at SP, at RP and 'THROW.
pub fn any(call: &Call) -> Vec<Varied> {
    let [ep, _, sp, rp] = [0, 1, 2, 3].map(|register| call.registers[register]);
    vec![
        varied(ep, CODES),
        varied(sp, REASONS),
        varied(rp, REASONS),
        varied(0, HANDLERS),
    ]
}

/// The memory as a form would have it: one of the choices everywhere, and here and there another cell.
pub fn vary(random: &mut Random, call: &Call, all: &[Varied]) -> Call {
    let mut other = call.clone();
    for Varied { address, choices } in all {
        let cells = random.choose(choices);
        for (number, cell) in (0..).zip(cells) {
            put_cell(&mut other, address.wrapping_add(4 * number), *cell);
        }
        if random.one_in(12) {
            put_cell(&mut other, *address, any_cell(random));
        }
    }
    other
}
