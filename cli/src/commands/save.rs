//! `beetle save`: a listing file becomes an object module.

use std::io::Write;

use crate::arguments::{Arguments, Takes};
use crate::failure::Failure;
use crate::listing::File;
use crate::{files, module};

pub const HELP: &str = "\
beetle save RULE.lst -o RULE.mod [--short] [--order 0|1]

Packs a listing file and saves the image as an object module, both by the proved
library. A module does not say where it belongs: it is to be loaded at the listing's
base, which is printed.

  --short        RULE.lst is a short file; 'beetle shorten --help' tells of those
  --order 0|1    byte order: 0 (as without it) least significant byte first, 1 most
";

const TAKES: Takes = Takes {
    files: &["RULE.lst"],
    options: &["-o", "--order"],
    switches: &["--short"],
};

pub fn carry_out(words: &[String], out: &mut dyn Write) -> Result<u8, Failure> {
    let arguments = Arguments::read(words, &TAKES)?;
    let target = arguments.needed("-o")?;
    let packed = File::given(&arguments)?.packed(arguments.order()?)?;
    files::write(target, &module::saved(&packed)?)?;
    let (cells, base) = (packed.cells(), packed.listing.base);
    writeln!(out, "{target}: {cells} cells, to be loaded at {base:X}h")?;
    Ok(0)
}
