//! `beetle load`: a module, or a rule set, is loaded and its cells are printed.

use std::io::{self, Write};
use std::ops::Range;

use crate::arguments::{Arguments, Takes};
use crate::failure::Failure;
use crate::loaded::Module;
use crate::placed::Given;
use crate::{files, library, memory, module, report};

pub const HELP: &str = "\
beetle load MODULE [--first CELLS] [--memory BYTES] [--order 0|1] [--address ADDRESS]
beetle load FILE@ADDRESS .. [--memory BYTES] [--order 0|1]

Loads an object module of either byte order by the proved loader, and prints the number
of cells and the cells themselves, as the machine has them, four a line after the
address of the first.

With FILE@ADDRESS a rule set is loaded: one to sixteen modules, each to its own address.
All of them go in together, or none does: each has to be good by itself, and no two may
have a byte of memory in common. A module of no cells has none. Their byte orders may
differ, and their sequence makes no difference. The last @ of a word parts the file from
the address. A word by itself that is the name of a file, whatever @ it has, is MODULE.

  --first CELLS      halt after so many cells, and say how many of all went in; the module
                     is judged as it is without it, and a shorter one goes in whole
  --memory BYTES     length of the machine's memory, 65536 without it
  --order 0|1        the machine's byte order: 0 (as without it) least byte first
  --address ADDRESS  where to load MODULE, 10h without it

Numbers are decimal, or hexadecimal with an h.
";

const TAKES: Takes = Takes {
    files: &["MODULE or FILE@ADDRESS"],
    options: &["--first", "--memory", "--order", "--address"],
    switches: &[],
};

pub fn carry_out(words: &[String], out: &mut dyn Write) -> Result<u8, Failure> {
    let arguments = Arguments::read_several(words, &TAKES)?;
    let order = arguments.order()?;
    let given = Given::read(&arguments)?;
    let first = arguments.cell("--first")?;
    let mut lent = memory::lent(&arguments)?;
    if let Some(cells) = first {
        return load_first(out, order, &mut lent, &given, cells);
    }
    let loaded = given.load(order, &mut lent)?;
    for module in &loaded.modules {
        writeln!(out, "{}", loaded.line(module))?;
        dump(out, order, &lent, module)?;
    }
    if let Some(line) = loaded.last_line() {
        writeln!(out, "{line}")?;
    }
    Ok(0)
}

/// The first cells of one module.
fn load_first(
    out: &mut dyn Write,
    order: u8,
    lent: &mut [u8],
    given: &Given,
    cells: u32,
) -> Result<u8, Failure> {
    let Given::One(placed) = given else {
        let text = "--first is for one MODULE, its address given by --address";
        return Err(Failure::Usage(text.to_string()));
    };
    let (file, address) = (files::read(&placed.name)?, placed.address);
    let cells = library::load_first(order, lent, &file, address, cells)?;
    let all = module::cells_of(&file);
    writeln!(out, "{cells} of {all} cells at {address:X}h")?;
    let placed = placed.clone();
    dump(out, order, lent, &Module { placed, cells })?;
    Ok(0)
}

/// The cells of a module in memory.
fn dump(out: &mut dyn Write, order: u8, lent: &[u8], module: &Module) -> io::Result<()> {
    let Range { start, end } = module.bytes();
    let cells = memory::cells(order, &lent[start as usize..end as usize]);
    report::dump(out, start, &cells)
}
