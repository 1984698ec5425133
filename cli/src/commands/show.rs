//! `beetle show`: a listing and its packed cells, side by side.

use std::io::{self, Write};

use crate::arguments::{Arguments, Takes};
use crate::failure::Failure;
use crate::listing::{File, Packed};
use crate::names::{kind_of, name_of, Kind};
use crate::number::shown;
use crate::reading::{self, address, Form, Place};
use crate::{files, memory, module};

pub const HELP: &str = "\
beetle show RULE.lst [--short] [--order 0|1]
beetle show MODULE --base ADDRESS [--order 0|1]

Prints a listing as text, an item a line, beside the cells that it packs to:
  item         its number
  entry        * where a branch, a call, a return or a throw may lead
  cell         the address of the cell that holds its opcode
  packed       that cell, on the line of the item that opens it
  byte         its byte in the cell, 0 the least significant
  EP           its EP value
  form         plain, immediate (operand in the same cell) or cell (in a cell of its own)
  instruction  the paper's name
  operand      a literal's value, or the item that a branch leads to and its address
  operand cell the address and the cell, for the form cell

The listing is that of a listing file, or with --base that of an object module: the one
that packs to the module's cells, found by the proved library, or a refusal where there is
none. The packed cells come from the proved packer or loader. The other columns are read
back from those cells against the listing and are not proved; where something does not
read back, that is an error.

  --short         RULE.lst is a short file; 'beetle shorten --help' tells of those
  --base ADDRESS  the file is a module of either byte order, and its listing was packed
                  for this base: a module does not say for which, 'beetle save' does. At
                  another one it may be refused, or have another listing
  --order 0|1     byte order of the image. The cells are the same numbers in either
";

const TAKES: Takes = Takes {
    files: &["RULE.lst or MODULE"],
    options: &["--base", "--order"],
    switches: &["--short"],
};

pub fn carry_out(words: &[String], out: &mut dyn Write) -> Result<u8, Failure> {
    let arguments = Arguments::read(words, &TAKES)?;
    print(out, arguments.file(0), &given(&arguments)?)?;
    Ok(0)
}

/// Prints the listing of a file with this name beside its cells.
pub fn print(out: &mut dyn Write, name: &str, packed: &Packed) -> Result<(), Failure> {
    let places = reading::places(packed).map_err(Failure::Other)?;
    let (items, base, cells) = (places.len(), packed.listing.base, packed.cells());
    writeln!(out, "{name}: {items} items, base {base:X}h, {cells} cells")?;
    table(out, packed, &places)?;
    Ok(())
}

/// The listing of a file, or with `--base` that of a module: the bytes do not decide.
fn given(arguments: &Arguments) -> Result<Packed, Failure> {
    let order = arguments.order()?;
    let Some(base) = arguments.cell("--base")? else {
        return File::given(arguments)?.packed(order);
    };
    if arguments.switch("--short") {
        let text = "--base is for a module, --short for a short file: not both";
        return Err(Failure::Usage(text.to_string()));
    }
    let file = files::read(arguments.file(0))?;
    Packed::unpacked(order, module::image(order, &file)?, base)
}

fn table(out: &mut dyn Write, packed: &Packed, places: &[Place]) -> io::Result<()> {
    let cells = memory::cells(packed.order, &packed.image);
    writeln!(
        out,
        "item entry cell     packed   byte EP       form      instruction  {:<24} operand cell",
        "operand"
    )?;
    for item in 0..places.len() {
        let line = line(packed, places, &cells, item);
        writeln!(out, "{}", line.trim_end())?;
    }
    Ok(())
}

/// The line of an item.
fn line(packed: &Packed, places: &[Place], cells: &[u32], item: usize) -> String {
    let place = &places[item];
    let base = packed.listing.base;
    let entry = if place.entry { "*" } else { "" };
    let cell = address(base, place.cell);
    let opened = if place.byte == 0 {
        format!("{:08X}", cells[place.cell])
    } else {
        String::new()
    };
    let ep = address(base, place.ep);
    let (form, operand_cell) = match place.form {
        Form::Plain => ("plain", String::new()),
        Form::Immediate => ("immediate", String::new()),
        Form::Cell(at) => {
            let address = address(base, at);
            ("cell", format!("{address:08X} {:08X}", cells[at]))
        }
    };
    let name = name_of(packed.listing.kinds[item]);
    let operand = operand(packed, places, item);
    format!(
        "{item:4} {entry:<5} {cell:08X} {opened:8} {byte:4} {ep:08X} {form:<9} {name:<12} \
         {operand:<24} {operand_cell}",
        byte = place.byte,
    )
}

/// The operand in words.
fn operand(packed: &Packed, places: &[Place], item: usize) -> String {
    let operand = packed.listing.operands[item];
    match kind_of(packed.listing.kinds[item]) {
        Some(Kind::Literal) => shown(operand),
        Some(Kind::Branch) => {
            let target = address(packed.listing.base, places[operand as usize].cell);
            format!("to item {operand} at {target:08X}")
        }
        _ => String::new(),
    }
}
