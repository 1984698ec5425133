//! `beetle forms`: a table of persons becomes forms of households, and forms become a table.

use std::io::Write;

use crate::arguments::{Arguments, Takes};
use crate::failure::Failure;
use crate::households::record::Record;
use crate::households::{self, record, table, Household};
use crate::{files, replacing};

pub const HELP: &str = "\
beetle forms TABLE.csv --record RECORD -o FORMS [--order 0|1]
beetle forms FORMS --record RECORD --back -o TABLE.csv [--beside OLD.csv] [--order 0|1]

Makes forms for 'beetle batch' from a table of persons, and with --back a table from forms.
A form is cells: the household's number, how many persons it has, and so many records, each
the cells of one person; records that are not used are zeros. All forms have one length,
which is printed.

  --record RECORD  the description of the record
  -o FILE          what is made; it is put in its place only when it is whole
  --order 0|1      the byte order of the cells: 0 (as without it) least byte first. The
                   machine that runs over the forms needs the same
  --beside OLD.csv with --back: the table that the forms were made from. Its lines, its
                   other columns and every field whose cell has not changed stay as they
                   are, byte for byte; the fields of the other cells are exchanged. Without
                   it the table has the household's number and the record's columns alone

The table has the columns' names in its first line and a person in each other one. Fields
may be in quotes (RFC 4180). The persons of a household stand together, in the order that
the form has. Columns that the record does not name are not in the forms, which is told.

The description is a text of lines, of which a \\ begins a comment:

  household COLUMN                  the column of the household's number, 0 to 4294967295
  persons N                         the most persons of a form
  cell COLUMN [from A to B] [empty V]
                                    the next cell of a person's record: a column of whole
                                    numbers, 0 to 4294967295, or from A to B (A may be as
                                    low as -2147483648, B then as high as 2147483647). With
                                    'empty' a field may be empty, and V is its cell

A column's name is in quotes where it holds spaces. '-' in place of TABLE.csv or FORMS reads
standard input.

What cannot be turned is told, all of it, and nothing is written: of a table as FILE:LINE,
of forms by their number. In a table that is a column that is missing or stands there twice;
a field that is no number, not from A to B, or the number that stands for an empty one; a
household with too many persons, or whose persons do not stand together. In forms it is a
count of persons that is 0 or above N, a cell that is not from A to B, one behind the last
person that is not 0, or a household that two forms have; beside OLD.csv also other
households than there, or another number of their persons.

The exit status is 0 where the file was made, 1 where it was not, and 2 for a wrong command
line.
";

const TAKES: Takes = Takes {
    files: &["TABLE.csv or FORMS"],
    options: &["--record", "-o", "--order", "--beside"],
    switches: &["--back"],
};

/// What the command is given.
struct Given<'a> {
    file: &'a str,
    bytes: Vec<u8>,
    record: Record,
    order: u8,
    target: &'a str,
}

pub fn carry_out(words: &[String], out: &mut dyn Write) -> Result<u8, Failure> {
    let arguments = Arguments::read(words, &TAKES)?;
    let back = arguments.switch("--back");
    let old = arguments.option("--beside");
    let description = arguments.needed("--record")?;
    let (file, target) = (arguments.file(0), arguments.needed("-o")?);
    if old.is_some() && !back {
        let text = "--beside is for --back: it gives the table that the forms were made from";
        return Err(Failure::Usage(text.to_string()));
    }
    replacing::judge("-o", target, [file, description].into_iter().chain(old))?;
    let given = Given {
        file: files::told(file),
        order: arguments.number("--order", 1)?.unwrap_or(0) as u8,
        record: record::read(description, &files::read_text(description)?)?,
        bytes: files::read_or_input(file)?,
        target,
    };
    match back {
        true => make_table(out, given, old)?,
        false => make_forms(out, given)?,
    }
    Ok(0)
}

/// How many households and persons there are.
fn counts(all: &[Household]) -> String {
    let persons: usize = all.iter().map(|household| household.persons.len()).sum();
    format!("{} households, {persons} persons", all.len())
}

fn make_forms(out: &mut dyn Write, given: Given<'_>) -> Result<(), Failure> {
    let Given { record, target, .. } = given;
    let table = table::read(given.file, given.bytes, &record)?;
    let forms = households::forms::written(&table.households, &record, given.order);
    replacing::write(target, &forms)?;
    let (counts, length) = (counts(&table.households), record.form_length());
    writeln!(out, "{target}: {counts}, form length {length}")?;
    if !table.others.is_empty() {
        let others = table.others.join(", ");
        writeln!(out, "not in the record, and so not in the forms: {others}")?;
    }
    Ok(())
}

fn make_table(out: &mut dyn Write, given: Given<'_>, old: Option<&str>) -> Result<(), Failure> {
    let Given { record, target, .. } = &given;
    let all = households::forms::read(given.file, &given.bytes, record, given.order)?;
    let counts = counts(&all);
    let Some(old) = old else {
        replacing::write(target, households::plain(&all, record).as_bytes())?;
        writeln!(out, "{target}: {counts}")?;
        return Ok(());
    };
    let table = table::read(old, files::read(old)?, record)?;
    let (bytes, changed) = households::beside(&all, record, &table, [given.file, old])?;
    replacing::write(target, &bytes)?;
    writeln!(out, "{target}: {counts}, {changed} fields changed")?;
    Ok(())
}
