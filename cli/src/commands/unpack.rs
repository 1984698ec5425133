//! `beetle unpack`: packed cells become a listing again, printed or as a file.

use std::io::Write;

use super::show;
use crate::arguments::{Arguments, Takes};
use crate::failure::Failure;
use crate::files;
use crate::listing::{File, Packed};

pub const HELP: &str = "\
beetle unpack CELLS.bin --base ADDRESS [-o RULE.lst [--short]] [--order 0|1]

Finds the listing that packs to an image at this base, by the proved library, and prints
it as 'beetle show' does. CELLS.bin holds the image's bytes, as 'beetle pack -o' writes
them. Each image has one listing at most: what 'beetle pack' makes comes back byte for
byte, and what no listing packs to is refused.

  --base ADDRESS  the base that the listing was packed for; nothing in the image tells it.
                  At another one it may be refused, or be the image of another listing
  -o RULE.lst     writes the listing's file and prints no items
  --short         RULE.lst becomes a short file; 'beetle shorten --help' tells of those
  --order 0|1     byte order: 0 (as without it) least significant byte first, 1 most

'beetle show MODULE --base ADDRESS' prints the listing of a module.
";

const TAKES: Takes = Takes {
    files: &["CELLS.bin"],
    options: &["--base", "-o", "--order"],
    switches: &["--short"],
};

pub fn carry_out(words: &[String], out: &mut dyn Write) -> Result<u8, Failure> {
    let arguments = Arguments::read(words, &TAKES)?;
    let base = arguments.needed_address("--base")?;
    let (name, short) = (arguments.file(0), arguments.switch("--short"));
    let target = arguments.option("-o");
    if short && target.is_none() {
        let text = "--short is for -o RULE.lst: without it no file is written";
        return Err(Failure::Usage(text.to_string()));
    }
    let order = arguments.order()?;
    let packed = Packed::unpacked(order, files::read(name)?, base)?;
    match target {
        Some(target) => {
            files::write(target, &File::of(&packed.listing, short)?.bytes)?;
            writeln!(out, "{}", packed.told(target))?;
        }
        None => show::print(out, name, &packed)?,
    }
    Ok(0)
}
