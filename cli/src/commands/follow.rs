//! `beetle follow`: the list machine, item by item, and the processor beside it.

use std::io::Write;

use crate::areas::Areas;
use crate::arguments::{Arguments, Takes};
use crate::beside::Processor;
use crate::failure::Failure;
use crate::following::Following;
use crate::library::{self, End, Listed, Listing, Registers};
use crate::limits::Limits;
use crate::listing::{File, Packed};
use crate::machine::NO_HANDLER;
use crate::names::{kind_of, name_of, Kind};
use crate::table::{Asked, Table};
use crate::{memory, reasons, report};

pub const HELP: &str = "\
beetle follow RULE.lst [--short] [--items N] [--memory BYTES] [--order 0|1]
              [--handler ADDRESS] [--beside]
              [--data-area TOP,CELLS --return-area TOP,CELLS]
              [--table code | --table FIRST,END]

Carries out a listing item by item on the proved list machine, from item 0 of a machine
just started with the image at its base. After each item a line gives the items done,
the item, SP, RP, the cycles counted and the tops of both stacks, the data stack in
decimal and the return stack in hexadecimal.

  --short            RULE.lst is a short file; 'beetle shorten --help' tells of those
  --items N          the most items, 1000 without it
  --memory BYTES     length of the machine's memory, 65536 without it
  --order 0|1        the machine's byte order: 0 (as without it) least byte first
  --handler ADDRESS  'THROW, where a throw leads. FFFFFFFFh without it, which is no
                     address: the first throw stops the machine with -259
  --beside           a second line for each item: the processor on the packed cells
                     after the cycles counted. Memory, SP, RP and the reason of a stop
                     are compared, and the first difference ends the command with exit
                     status 1. It is proved that there is none
  --data-area TOP,CELLS, --return-area TOP,CELLS
                     the areas of the two stacks, both or neither: CELLS cells each, the
                     last one just below TOP, where SP and RP start. The cell under the
                     data area is held for an exception's code. An access outside its
                     area throws -3 (data, below), -4 (data, above), -5 or -6 (return),
                     and a line says so
  --table code, --table FIRST,END
                     cells that the rule can read but not write: with 'code' those of the
                     image, else those from FIRST up to END, END not one of them. A store
                     there throws -20, and a line says so. A throw whose own code would
                     go there stops the machine with -258

The exit status is 0 however the list machine ends: by a stop, outside (in front of an
item that would leave what the listing says; the last line says why), or after N items.
";

const TAKES: Takes = Takes {
    files: &["RULE.lst"],
    options: &[
        "--items",
        "--memory",
        "--order",
        "--handler",
        "--data-area",
        "--return-area",
        "--table",
    ],
    switches: &["--short", "--beside"],
};

/// The items that are followed where no number is given.
const USUAL_ITEMS: u32 = 1000;

/// A machine just started, for both sides to begin with.
struct Begun {
    packed: Packed,
    memory: Vec<u8>,
    table: Table,
    registers: Registers,
}

pub fn carry_out(words: &[String], out: &mut dyn Write) -> Result<u8, Failure> {
    let arguments = Arguments::read(words, &TAKES)?;
    let items = arguments.cell("--items")?.unwrap_or(USUAL_ITEMS);
    let Begun {
        packed,
        memory,
        table,
        registers,
    } = begin(&arguments)?;
    let mut beside = arguments
        .switch("--beside")
        .then(|| Processor::new(packed.order, memory.clone(), table, registers));
    writeln!(
        out,
        " done item instruction            SP       RP         cycles  data | return, top first"
    )?;
    let mut following = Following::new(&packed, &memory, table, registers);
    let mut last = following.judged()?;
    while last.end == End::WentOn && last.items_done < items {
        let item = last.item;
        let kept_off = following.next_is_kept_off()?;
        last = following.step()?;
        if matches!(last.end, End::Outside(_)) {
            break;
        }
        writeln!(out, "{}", line(&following, item, &last))?;
        if let Some(kept_off) = kept_off {
            writeln!(out, "{kept_off}")?;
        }
        if let Some(processor) = &mut beside {
            processor.catch_up(&last)?;
            writeln!(out, "{}", processor.line())?;
            processor.compare(&last, &following.memory)?;
        }
    }
    writeln!(out, "{}", end(&following, &last))?;
    Ok(0)
}

/// Packs the listing, puts the image into memory and starts the machine there.
fn begin(arguments: &Arguments) -> Result<Begun, Failure> {
    let handler = arguments.cell("--handler")?.unwrap_or(NO_HANDLER);
    let areas = Areas::asked_for(arguments)?;
    let table = Asked::read(arguments)?;
    let packed = File::given(arguments)?.packed(arguments.order()?)?;
    let mut memory = memory::lent(arguments)?;
    let base = packed.listing.base;
    let Some(place) = memory.get_mut(base as usize..packed.end() as usize) else {
        let (end, length) = (packed.end(), memory.len());
        let text = format!("the image ends at {end:X}h, past the memory's {length:X}h");
        return Err(Failure::Other(text));
    };
    place.copy_from_slice(&packed.image);
    let table = table.table(|| Ok(base..packed.end()))?;
    let limits = Limits { areas, table };
    let (registers, _) = library::start(packed.order, &mut memory, base, handler, limits)?;
    Ok(Begun {
        packed,
        memory,
        table,
        registers,
    })
}

/// An instruction with its operand; a literal as `assemble` would take it.
fn instruction(listing: &Listing, item: u32) -> String {
    let at = item as usize;
    let (kind, operand) = (listing.kinds[at], listing.operands[at]);
    match kind_of(kind) {
        Some(Kind::Literal) => format!("#{}", operand as i32),
        Some(Kind::Branch) => format!("{} {operand}", name_of(kind)),
        _ => name_of(kind).to_string(),
    }
}

/// The line of an item that was carried out.
fn line(following: &Following, item: u32, listed: &Listed) -> String {
    let Packed { listing, order, .. } = following.packed;
    let Listed { sp, rp, cycles, .. } = *listed;
    let instruction = instruction(listing, item);
    let done = listed.items_done;
    let tops = report::tops(*order, &following.memory, sp, rp, &following.stand.areas);
    let line = format!("{done:5} {item:4} {instruction:<22} {sp:08X} {rp:08X} {cycles:8}  {tops}");
    line.trim_end().to_string()
}

/// How it ended.
fn end(following: &Following, last: &Listed) -> String {
    let done = format!("after {} items and {} cycles", last.items_done, last.cycles);
    match last.end {
        End::WentOn => format!("not stopped {done}"),
        End::Stopped(reason) => {
            let why = reasons::why(reason, last.sp, &following.limits());
            format!("stopped {why} {done}")
        }
        End::Outside(number) => {
            let name = instruction(&following.packed.listing, last.item);
            let (item, why) = (last.item, reasons::why_outside(number));
            format!("stopped outside, in front of item {item} ({name}): {why}, {done}")
        }
    }
}
