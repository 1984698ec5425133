//! `beetle pack`: a listing file becomes cells.

use std::io::Write;

use crate::arguments::{Arguments, Takes};
use crate::failure::Failure;
use crate::listing::File;
use crate::{files, memory};

pub const HELP: &str = "\
beetle pack RULE.lst [--short] [-o CELLS.bin] [--order 0|1]

Packs a listing file by the proved packer and prints the cells, one a line, as eight
capital hexadecimal digits. A refusal prints its number only; what it means goes to the
error stream.

  --short        RULE.lst is a short file; 'beetle shorten --help' tells of those
  -o CELLS.bin   writes the image's bytes to a file and prints no cells
  --order 0|1    byte order: 0 (as without it) least significant byte first, 1 most
";

const TAKES: Takes = Takes {
    files: &["RULE.lst"],
    options: &["-o", "--order"],
    switches: &["--short"],
};

pub fn carry_out(words: &[String], out: &mut dyn Write) -> Result<u8, Failure> {
    let arguments = Arguments::read(words, &TAKES)?;
    let order = arguments.order()?;
    let image = File::given(&arguments)?.image(order);
    if let Some(number) = image.as_ref().err().and_then(Failure::number) {
        writeln!(out, "{number}")?;
    }
    let image = image?;
    match arguments.option("-o") {
        Some(target) => files::write(target, &image)?,
        None => {
            for cell in memory::cells(order, &image) {
                writeln!(out, "{cell:08X}")?;
            }
        }
    }
    Ok(0)
}
