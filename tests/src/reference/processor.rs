//! The processor: NEXT, throw, cycle, start and run (document 01, The processor).

use super::control::{branch, call, loop_once, plus_loop, question_branch, Branch, Branching};
use super::instructions::{push, Act, Control, Registers, BAD_STACK};
use super::memory::{Fault, Lent, Memory};
use super::opcodes::plain;
use super::stacks::{first_pointers, Numbers, Stacks};

/// Reason -259, of a bad 'THROW.
pub const BAD_HANDLER: u32 = -259_i32 as u32;

/// The cells that hold registers (document 001, table 2).
const THROW: u32 = 0x0;
const MEMORY: u32 = 0x4;
const BAD: u32 = 0x8;
const NOT_ADDRESS: u32 = 0xC;

/// What a cycle, a NEXT or a throw comes to.
#[derive(Clone, Copy, PartialEq, Eq, Debug)]
pub enum Outcome {
    WentOn,
    Stopped(u32),
}

/// A throw up to its NEXT: the address that 'THROW holds, or the reason of the stop. `fault` is
/// none for THROW itself, which pushes nothing.
pub fn raise<M: Memory>(m: &mut M, r: &mut Registers, fault: Option<Fault>) -> Result<u32, u32> {
    if !r.sp.is_multiple_of(4) {
        return Err(BAD_STACK);
    }
    if let Some(fault) = fault {
        let place = r.sp.wrapping_sub(4);
        if !m.takes_code(place) {
            return Err(BAD_STACK);
        }
        if let Some(address) = fault.address() {
            m.set_cell(NOT_ADDRESS, address);
        }
        m.set_cell(place, fault.code());
        r.sp = place;
    }
    m.set_cell(BAD, r.ep);
    let handler = m.cell(THROW);
    match m.check_cell(handler) {
        Ok(()) => Ok(handler),
        Err(_) => Err(BAD_HANDLER),
    }
}

/// A throw: `raise`, then NEXT at the handler, which cannot fault.
#[cold]
#[inline(never)]
fn throw<M: Memory>(m: &mut M, mut r: Registers, fault: Option<Fault>) -> (Registers, Outcome) {
    match raise(m, &mut r, fault) {
        Ok(handler) => {
            r.a = m.cell(handler);
            r.ep = handler.wrapping_add(4);
            (r, Outcome::WentOn)
        }
        Err(reason) => (r, Outcome::Stopped(reason)),
    }
}

/// A cycle or a NEXT up to the throw that it may end in.
#[derive(Clone, Copy, PartialEq, Eq, Debug)]
enum Pass {
    WentOn,
    Stopped(u32),
    Throws(Option<Fault>),
}

/// NEXT: the cell at EP goes to A, and EP moves behind it; a fetch that faults throws.
#[inline(always)]
fn next<M: Memory>(m: &mut M, r: &mut Registers) -> Pass {
    match m.fetch(r.ep) {
        Ok(cell) => {
            r.a = cell;
            r.ep = r.ep.wrapping_add(4);
            Pass::WentOn
        }
        Err(fault) => Pass::Throws(Some(fault)),
    }
}

/// After a branch in its cell form.
#[inline(always)]
fn past_operand(r: &mut Registers, branching: Branching) -> Act {
    Ok(match branching? {
        Branch::Taken(address) => Control::Jump(address),
        Branch::NotTaken => {
            r.ep = r.ep.wrapping_add(4);
            Control::Continue
        }
    })
}

/// After a branch in its immediate form: NEXT in both cases.
#[inline(always)]
fn immediate(r: &Registers, branching: Branching) -> Act {
    Ok(match branching? {
        Branch::Taken(address) => Control::Jump(address),
        Branch::NotTaken => Control::Jump(r.ep),
    })
}

/// (LITERAL) ( -- x ): the operand cell at EP, then EP gains 4.
#[inline(always)]
fn literal<M: Memory>(m: &mut M, r: &mut Registers) -> Act {
    let x = m.fetch(r.ep)?;
    let control = push(m, r, x)?;
    r.ep = r.ep.wrapping_add(4);
    Ok(control)
}

/// (LITERAL)I ( -- x ): A, then NEXT.
#[inline(always)]
fn literal_immediate<M: Memory>(m: &mut M, r: &mut Registers) -> Act {
    push(m, r, r.a)?;
    Ok(Control::Jump(r.ep))
}

/// The first act of an instruction.
#[inline(always)]
fn act<M: Memory>(opcode: u8, m: &mut M, r: &mut Registers) -> Act {
    let ep = r.ep;
    let ep_plus_a = ep.wrapping_add(r.a.wrapping_mul(4));
    let operand_cell = |m: &M| m.fetch(ep);
    let operand_in_a = |_: &M| Ok(ep_plus_a);
    let branching = match opcode {
        0x42 => branch(m, operand_cell),
        0x43 => branch(m, operand_in_a),
        0x44 => question_branch(m, r, operand_cell),
        0x45 => question_branch(m, r, operand_in_a),
        0x48 => call(m, r, ep.wrapping_add(4), operand_cell),
        0x49 => call(m, r, ep, operand_in_a),
        0x4C => loop_once(m, r, operand_cell),
        0x4D => loop_once(m, r, operand_in_a),
        0x4E => plus_loop(m, r, operand_cell),
        0x4F => plus_loop(m, r, operand_in_a),
        0x00 | 0xFF => return Ok(Control::Jump(ep)),
        0x52 => return literal(m, r),
        0x53 => return literal_immediate(m, r),
        _ => return plain(opcode, m, r),
    };
    if opcode.is_multiple_of(2) {
        past_operand(r, branching)
    } else {
        immediate(r, branching)
    }
}

/// One pass of the execution cycle.
#[inline(always)]
fn cycle<M: Memory>(m: &mut M, r: &mut Registers) -> Pass {
    let opcode = r.a as u8;
    r.a = ((r.a as i32) >> 8) as u32;
    match act(opcode, m, r) {
        Ok(Control::Continue) => Pass::WentOn,
        Ok(Control::Jump(address)) => {
            r.ep = address;
            next(m, r)
        }
        Ok(Control::Throw) => Pass::Throws(None),
        Ok(Control::Stop(reason)) => Pass::Stopped(reason),
        Err(fault) => Pass::Throws(Some(fault)),
    }
}

/// What a pass comes to, its throw included.
#[inline(always)]
fn finish(m: &mut Lent<'_>, r: Registers, pass: Pass) -> (Registers, Outcome) {
    match pass {
        Pass::WentOn => (r, Outcome::WentOn),
        Pass::Stopped(reason) => (r, Outcome::Stopped(reason)),
        Pass::Throws(fault) => throw(m, r, fault),
    }
}

/// Start: the four cells, the registers, then NEXT.
pub fn start(m: &mut Lent<'_>, ep: u32, handler: u32, areas: Numbers) -> (Registers, Outcome) {
    m.set_cell(THROW, handler);
    m.set_cell(MEMORY, m.length());
    m.set_cell(BAD, 0xFFFF_FFFF);
    m.set_cell(NOT_ADDRESS, 0xFFFF_FFFF);
    let (sp, rp) = first_pointers(areas, m.length());
    let mut r = Registers { ep, a: 0, sp, rp };
    let pass = next(m, &mut r);
    finish(m, r, pass)
}

/// Run: at most `budget` cycles; how it ended, and the cycles done (the stopping one counted).
/// The inner loop has memory and registers to itself, which lets them stay in the host's
/// registers; it is left for a throw or a stop.
pub fn run(lent: &mut Lent<'_>, registers: &mut Registers, budget: u32) -> (Outcome, u32) {
    let mut done = 0;
    let mut outcome = Outcome::WentOn;
    while done < budget && outcome == Outcome::WentOn {
        let mut m = lent.again();
        let mut r = *registers;
        let mut pass = Pass::WentOn;
        while done < budget && pass == Pass::WentOn {
            done += 1;
            pass = cycle(&mut m, &mut r);
        }
        (*registers, outcome) = finish(lent, r, pass);
    }
    (outcome, done)
}
