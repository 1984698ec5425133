//! `beetle report`: saved reports of batches are put together.

use std::io::Write;

use crate::arguments::{Arguments, Takes};
use crate::batch::parts::together;
use crate::batch::read_back;
use crate::batch::saved::Saved;
use crate::failure::Failure;
use crate::files;

pub const HELP: &str = "\
beetle report FILE ..

Puts reports together that 'beetle batch' printed, as if all their forms had been in one
batch: forms, counts and cycles are added, the largest is the larger one, and mean and
remainder are worked out anew from the sums. What is printed is a report again. '-' reads
standard input. A file may hold several reports, one behind the other.

Nothing is printed unless all is well. A file that is no report or is cut short, and
figures that do not fit together (counts that do not make up the forms, a mean that is not
that of the sums, more cycles than the largest allows), are told as FILE:LINE, and so are
reports whose lines 'given' differ: their forms were not given the same rule, start memory,
registers, byte order, address, form length, table or budget. That line is a digest of 64
bits (FNV-1a). It guards against mix-ups, not against somebody who wants to mislead. A file
that is named twice is a mistake too: its forms would count twice.

The adding is tested, not proved. It is proved that the report of forms end to end is that
of its parts so put together.
";

const TAKES: Takes = Takes {
    files: &["FILE"],
    options: &[],
    switches: &[],
};

/// A report, and the file that it is from.
struct From<'f> {
    file: &'f str,
    report: Saved,
}

pub fn carry_out(words: &[String], out: &mut dyn Write) -> Result<u8, Failure> {
    let arguments = Arguments::read_several(words, &TAKES)?;
    judge_names(arguments.files())?;
    let reports = read_all(arguments.files())?;
    judge_given(&reports)?;
    let Saved { given, mut figures } = reports[0].report;
    for more in &reports[1..] {
        figures = together(&figures, &more.report.figures)?;
    }
    write!(out, "{}", Saved { given, figures })?;
    Ok(0)
}

/// That no file is named twice.
fn judge_names(names: &[String]) -> Result<(), Failure> {
    for (at, name) in names.iter().enumerate() {
        if let Some(before) = names[..at].iter().find(|before| files::same(before, name)) {
            return Err(Failure::Usage(format!(
                "{before} and {name} are one file: its forms would count twice"
            )));
        }
    }
    Ok(())
}

/// The reports of all files, or all mistakes.
fn read_all(names: &[String]) -> Result<Vec<From<'_>>, Failure> {
    let (mut reports, mut mistakes) = (Vec::new(), Vec::new());
    for name in names {
        let file = files::told(name);
        let text = files::text(file, files::read_or_input(name)?)?;
        match read_back::read(file, &text) {
            Ok(all) => reports.extend(all.into_iter().map(|report| From { file, report })),
            Err(more) => mistakes.extend(more),
        }
    }
    match mistakes.is_empty() {
        true => Ok(reports),
        false => Err(Failure::Mistakes(mistakes)),
    }
}

/// That all forms were given alike.
fn judge_given(reports: &[From<'_>]) -> Result<(), Failure> {
    let first = &reports[0];
    let other = |report: &&From<'_>| report.report.given != first.report.given;
    let others: Vec<&From<'_>> = reports.iter().filter(other).collect();
    if others.is_empty() {
        return Ok(());
    }
    let line = |from: &From<'_>| format!("{}: given {:016X}", from.file, from.report.given);
    let mut lines = vec![
        "beetle: these reports are of forms that were not given alike, and do not go together:"
            .to_string(),
        line(first),
    ];
    lines.extend(others.into_iter().map(line));
    Err(Failure::Mistakes(lines))
}
