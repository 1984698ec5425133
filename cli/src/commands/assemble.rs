//! `beetle assemble`: a rule's text becomes a listing file.

use std::io::Write;

use crate::arguments::{Arguments, Takes};
use crate::failure::Failure;
use crate::listing::File;
use crate::{files, text};

pub const HELP: &str = "\
beetle assemble RULE.txt -o RULE.lst [--short]

Makes a listing file of a rule's text, with --short a short file ('beetle shorten --help'
tells of those). The packer then judges it, and what it refuses is not written.

The text is words between spaces. An item may have a line for itself or share one.
  DUP, (DO), @ ..   an instruction of the paper's table 7, in capitals or not
  250, -3, 1F4h     a literal: decimal from -2147483648 to 4294967295, or
                    hexadecimal, without a sign and with an h, to FFFFFFFFh
  #1, (LITERAL) 1   a literal too. 0, 1 and -1 by themselves are the instructions of
                    that name: a word that names an instruction is that instruction
  name:             a label, before an item: a letter, then letters, digits, '-', '_'
                    or '.'. It may not read as an instruction or as a number
  BRANCH name       a branch to the item after the label, on the same line; so too
                    ?BRANCH, CALL, (LOOP) and (+LOOP)
  base 400h         the base address, 10h if none is given; before the first item
  \\ ..              a comment to the end of the line
  ( .. )            a comment within a line; both brackets stand between spaces

NEXT, the immediate forms (BRANCHI ..) and (CREATE), OS, LINK, RUN and STEP may not
stand in a listing. All mistakes are told, each as FILE:LINE:COLUMN: what is wrong.
";

const TAKES: Takes = Takes {
    files: &["RULE.txt"],
    options: &["-o"],
    switches: &["--short"],
};

pub fn carry_out(words: &[String], out: &mut dyn Write) -> Result<u8, Failure> {
    let arguments = Arguments::read(words, &TAKES)?;
    let target = arguments.needed("-o")?;
    let name = arguments.file(0);
    let listing = text::assemble(name, &files::read_text(name)?).map_err(Failure::Mistakes)?;
    let file = File::of(&listing, arguments.switch("--short"))?;
    let packed = file.packed(0)?;
    files::write(target, &file.bytes)?;
    writeln!(out, "{}", packed.told(target))?;
    Ok(0)
}
