//! How a machine's state is told.

use std::io::{self, Write};
use std::ops::Range;

use crate::areas::Areas;
use crate::library::Registers;
use crate::limits::Limits;
use crate::memory;
use crate::number::shown;
use crate::reasons::{self, code_meaning, BAD_HANDLER, BAD_STACK};
use crate::table::Table;

/// The cells that hold 'THROW, 'BAD and -ADDRESS.
const THROW: u32 = 0x0;
const BAD: u32 = 0x8;
const NOT_ADDRESS: u32 = 0xC;

/// The most cells of a stack that are printed.
const MOST: usize = 8;

/// The most that are printed in a line of `follow`.
const SHORT: usize = 4;

/// A machine that stands still.
pub struct State<'m> {
    pub order: u8,
    pub memory: &'m [u8],
    pub registers: Registers,
    pub table: Table,
}

impl State<'_> {
    /// What it keeps to.
    pub fn limits(&self) -> Limits {
        Limits {
            areas: self.registers.areas,
            table: self.table,
        }
    }
}

/// How a run ended that left this state; with no reason its budget was spent.
pub fn end(reason: Option<u32>, state: &State<'_>) -> String {
    match reason {
        Some(reason) => {
            let why = reasons::why(reason, state.registers.sp, &state.limits());
            format!("stopped {why}")
        }
        None => "spent its budget, not stopped".to_string(),
    }
}

/// The registers and both stacks.
pub fn state(out: &mut dyn Write, state: &State<'_>) -> io::Result<()> {
    let r = state.registers;
    writeln!(out, "EP {:08X}  A {:08X}", r.ep, r.a)?;
    let [data, back] = r.areas.reaches(state.memory);
    stack(out, state, "SP", r.sp, &data)?;
    stack(out, state, "RP", r.rp, &back)
}

/// A stack, its top first.
fn stack(
    out: &mut dyn Write,
    state: &State<'_>,
    name: &str,
    pointer: u32,
    within: &Range<u32>,
) -> io::Result<()> {
    write!(out, "{name} {pointer:08X}  ")?;
    let Range { start, end } = *within;
    if pointer < start {
        return writeln!(out, "below its stack, which begins at {start:08X}");
    }
    if !pointer.is_multiple_of(4) || pointer > end {
        return writeln!(out, "outside its stack, which ends at {end:08X}");
    }
    let cells = memory::top(state.order, state.memory, pointer, within, MOST);
    if cells.is_empty() {
        return writeln!(out, "empty");
    }
    let cells: Vec<String> = cells.into_iter().map(shown).collect();
    let count = (end - pointer) / 4;
    writeln!(out, "{count} deep, top first: {}", cells.join(", "))
}

/// The cells 'THROW, 'BAD and -ADDRESS, where a throw found no handler.
fn unhandled(state: &State<'_>) -> Option<[u32; 3]> {
    let cell = |address| memory::cell_at(state.order, state.memory, address);
    let [throw, bad, address] = [cell(THROW)?, cell(BAD)?, cell(NOT_ADDRESS)?];
    let no_handler = bad == state.registers.ep && cell(throw).is_none();
    no_handler.then_some([throw, bad, address])
}

/// What was thrown, where a throw found no handler.
fn thrown(state: &State<'_>) -> Option<String> {
    unhandled(state)?;
    let code = memory::cell_at(state.order, state.memory, state.registers.sp)? as i32;
    let meaning = code_meaning(code, &state.limits());
    Some(format!("thrown: {code}, {meaning}"))
}

/// What HALT's reason says, where it is a code by which the machine keeps to its limits.
fn handled(reason: u32, state: &State<'_>) -> Option<String> {
    let code = reason as i32;
    let what = state.limits().kept_off(code)?;
    Some(format!("code {code}: {what}"))
}

/// What more can be told of a stop: what was thrown, or the meaning of HALT's reason.
pub fn more(reason: u32, state: &State<'_>) -> Option<String> {
    match reason {
        BAD_STACK => None,
        BAD_HANDLER => thrown(state),
        _ => handled(reason, state),
    }
}

/// The machine's own cells, after a throw that found no handler.
pub fn throw_cells(out: &mut dyn Write, state: &State<'_>) -> io::Result<()> {
    let Some([throw, bad, address]) = unhandled(state) else {
        return Ok(());
    };
    writeln!(
        out,
        "'THROW {throw:08X}  'BAD {bad:08X}  -ADDRESS {address:08X}"
    )
}

/// Cells from an address on, four a line.
pub fn dump(out: &mut dyn Write, address: u32, cells: &[u32]) -> io::Result<()> {
    for (line, cells) in cells.chunks(4).enumerate() {
        let address = u64::from(address) + 16 * line as u64;
        let cells: Vec<String> = cells.iter().map(|cell| format!("{cell:08X}")).collect();
        writeln!(out, "{address:08X}  {}", cells.join(" "))?;
    }
    Ok(())
}

/// The tops of both stacks in a line: the data stack in decimal, the return stack in hexadecimal.
pub fn tops(order: u8, memory: &[u8], sp: u32, rp: u32, areas: &Areas) -> String {
    let [data, back] = areas.reaches(memory);
    let cells = |pointer, stack| memory::top(order, memory, pointer, stack, SHORT + 1);
    let data = top(cells(sp, &data), |cell| (cell as i32).to_string());
    let back = top(cells(rp, &back), |cell| format!("{cell:X}h"));
    format!("{data} | {back}")
}

/// The top of a stack, its last cells as dots.
fn top(cells: Vec<u32>, show: fn(u32) -> String) -> String {
    let mut words: Vec<String> = cells.into_iter().map(show).collect();
    if words.len() > SHORT {
        words[SHORT] = "..".to_string();
    }
    words.join(" ")
}
