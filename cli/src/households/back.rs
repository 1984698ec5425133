//! Tables of households that forms gave: with the record's columns alone, or as an old table in which
//! only their fields are exchanged.

use super::csv;
use super::record::Record;
use super::table::Table;
use super::{unless, Household};
use crate::failure::Failure;

/// The household's number and the record's columns, a line a person.
pub fn plain(households: &[Household], record: &Record) -> String {
    let columns = [&record.household].into_iter().chain(&record.columns);
    let names: Vec<String> = columns.map(|column| csv::written(&column.name)).collect();
    let mut text = names.join(",") + "\n";
    for Household { number, persons } in households {
        for person in persons {
            text.push_str(&number.to_string());
            for (cell, column) in person.iter().zip(&record.columns) {
                text.push(',');
                // the forms were judged, so that there is one
                text.push_str(&column.field(*cell).unwrap_or_default());
            }
            text.push('\n');
        }
    }
    text
}

/// The old table with the fields whose cells have changed, and how many those are. All other bytes stay
/// as they are. Households and persons have to be the old ones.
pub fn beside(
    households: &[Household],
    record: &Record,
    old: &Table,
    [forms, table]: [&str; 2],
) -> Result<(Vec<u8>, usize), Failure> {
    judge(households, old, [forms, table])?;
    let (mut bytes, mut kept, mut changed) = (Vec::new(), 0, 0);
    let persons = |households: &[Household]| -> Vec<Vec<u32>> {
        let all = households.iter().flat_map(|household| &household.persons);
        all.cloned().collect()
    };
    let both = persons(households)
        .into_iter()
        .zip(persons(&old.households));
    for (row, (new, before)) in old.csv.rows.iter().zip(both) {
        let mut fields: Vec<(usize, usize)> = old.places.iter().copied().zip(0..).collect();
        fields.sort_unstable();
        for (place, at) in fields.into_iter().filter(|(_, at)| new[*at] != before[*at]) {
            let field = &row.fields[place];
            bytes.extend(&old.csv.bytes[kept..field.start]);
            let value = record.columns[at].field(new[at]).unwrap_or_default();
            bytes.extend(value.as_bytes());
            kept = field.end;
            changed += 1;
        }
    }
    bytes.extend(&old.csv.bytes[kept..]);
    Ok((bytes, changed))
}

/// That the forms are those of the table: the same households, with as many persons.
fn judge(households: &[Household], old: &Table, [forms, table]: [&str; 2]) -> Result<(), Failure> {
    let (new, before) = (households.len(), old.households.len());
    if new != before {
        let text = format!("{forms} has {new} forms, but {table} has {before} households");
        return Err(Failure::Other(text));
    }
    let mut mistakes = Vec::new();
    let both = households.iter().zip(&old.households).zip(&old.lines);
    for (form, ((new, before), line)) in (1..).zip(both) {
        let (count, counted) = (new.persons.len(), before.persons.len());
        let what = if new.number != before.number {
            format!("household {}, but {} is there", new.number, before.number)
        } else if count != counted {
            format!(
                "household {} has {count} persons, but {counted} there",
                new.number
            )
        } else {
            continue;
        };
        mistakes.push(format!("{forms}: form {form}: {what} ({table}:{line})"));
    }
    unless(mistakes, ())
}
