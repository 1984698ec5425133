//! `beetle shorten`: a listing file becomes a short one.

use std::io::Write;

use crate::arguments::{Arguments, Takes};
use crate::failure::Failure;
use crate::{files, library, short};

pub const HELP: &str = "\
beetle shorten RULE.lst -o RULE.short

Makes a short file of a listing file by the proved library, and prints its items, its
operands and the bytes of both files. A listing file has an operand for every item, a
short file for literals and branches alone, in the order of their items. 'beetle lengthen'
gives the file back, byte for byte. Kinds and operands are judged, the base is not.

assemble, show, pack, unpack, save and follow take --short, for a short file instead of a
listing file. Nothing in a file says which of the two it is, and some files read as
either: with --short it is read as a short file, without it as a listing file, and never
as the other.
";

const TAKES: Takes = Takes {
    files: &["RULE.lst"],
    options: &["-o"],
    switches: &[],
};

pub fn carry_out(words: &[String], out: &mut dyn Write) -> Result<u8, Failure> {
    let arguments = Arguments::read(words, &TAKES)?;
    let target = arguments.needed("-o")?;
    let file = files::read(arguments.file(0))?;
    let short = library::shorten(&file)?;
    files::write(target, &short)?;
    let made = short::made(target, &short, file.len(), short.len());
    writeln!(out, "{made}")?;
    Ok(0)
}
