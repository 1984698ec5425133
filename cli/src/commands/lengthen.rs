//! `beetle lengthen`: a short file becomes a listing file.

use std::io::Write;

use crate::arguments::{Arguments, Takes};
use crate::failure::Failure;
use crate::{files, library, short};

pub const HELP: &str = "\
beetle lengthen RULE.short -o RULE.lst

Makes a listing file of a short file by the proved library, and prints its items, the
operands of its literals and branches and the bytes of both files. The other items get the
operand 0. 'beetle shorten' gives the file back, byte for byte, and its help tells of short
files. Kinds and operands are judged, the base is not.
";

const TAKES: Takes = Takes {
    files: &["RULE.short"],
    options: &["-o"],
    switches: &[],
};

pub fn carry_out(words: &[String], out: &mut dyn Write) -> Result<u8, Failure> {
    let arguments = Arguments::read(words, &TAKES)?;
    let target = arguments.needed("-o")?;
    let short = files::read(arguments.file(0))?;
    let file = library::lengthen(&short)?;
    files::write(target, &file)?;
    let made = short::made(target, &short, short.len(), file.len());
    writeln!(out, "{made}")?;
    Ok(0)
}
