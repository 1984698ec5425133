//! Forms: a household's number, how many persons it has, and so many records; the records that are
//! not used are zeros.

use std::collections::HashMap;

use super::record::{Record, HEAD};
use super::{unless, Household};
use crate::failure::Failure;
use crate::{files, memory};

/// The forms of households, end to end.
pub fn written(households: &[Household], record: &Record, order: u8) -> Vec<u8> {
    let mut bytes = Vec::new();
    for Household { number, persons } in households {
        let head = [*number, persons.len() as u32];
        let mut cells: Vec<u32> = head.into_iter().chain(persons.concat()).collect();
        cells.resize(record.cells(), 0);
        let form = cells
            .into_iter()
            .flat_map(|cell| memory::bytes(order, cell));
        bytes.extend(form);
    }
    bytes
}

/// The households of forms, or what in them a table cannot say.
pub fn read(
    file: &str,
    bytes: &[u8],
    record: &Record,
    order: u8,
) -> Result<Vec<Household>, Failure> {
    let length = record.form_length();
    files::whole_forms(file, bytes.len() as u64, length as u64)?;
    let (mut households, mut mistakes) = (Vec::new(), Vec::new());
    let mut begun = HashMap::new();
    for (number, form) in (1..).zip(bytes.chunks_exact(length)) {
        let cells = memory::cells(order, form);
        let mut mistake = |what: String| mistakes.push(format!("{file}: form {number}: {what}"));
        judge(&cells, record).into_iter().for_each(&mut mistake);
        if let Some(before) = begun.insert(cells[0], number) {
            mistake(format!(
                "household {} is that of form {before} too",
                cells[0]
            ));
        }
        households.push(household(&cells, record));
    }
    unless(mistakes, households)
}

/// The household of a form; what is wrong with the form is told elsewhere.
fn household(cells: &[u32], record: &Record) -> Household {
    let persons = cells[HEAD..].chunks_exact(record.columns.len());
    Household {
        number: cells[0],
        persons: persons
            .take(cells[1] as usize)
            .map(<[u32]>::to_vec)
            .collect(),
    }
}

/// What is wrong with a form.
fn judge(cells: &[u32], record: &Record) -> Vec<String> {
    let (count, most, columns) = (cells[1], record.most, record.columns.len());
    if count == 0 || count as usize > most {
        return vec![format!(
            "it says {count} persons, and has room for 1 to {most}"
        )];
    }
    let (used, unused) = cells[HEAD..].split_at(count as usize * columns);
    let mut mistakes = Vec::new();
    for (at, cell) in used.iter().enumerate() {
        let (person, column) = (at / columns + 1, &record.columns[at % columns]);
        let field = column.field(*cell);
        mistakes.extend(field.err().map(|what| format!("person {person}: {what}")));
    }
    if let Some(at) = unused.iter().position(|cell| *cell != 0) {
        let person = count as usize + at / columns + 1;
        let (name, cell) = (&record.columns[at % columns].name, unused[at]);
        mistakes.push(format!(
            "it says {count} persons, but {name} of person {person} is {cell}, not 0"
        ));
    }
    mistakes
}
