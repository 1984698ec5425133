//! A table of persons, a line each, as the households of a record.

use std::collections::HashMap;

use super::csv::{Csv, Row};
use super::record::Record;
use super::{unless, Household};
use crate::failure::Failure;

pub struct Table {
    pub csv: Csv,
    pub households: Vec<Household>,
    /// The line of each household's first person.
    pub lines: Vec<usize>,
    /// Where the record's columns stand.
    pub places: Vec<usize>,
    /// The names of the columns that are not in the record.
    pub others: Vec<String>,
}

/// Reads a table, or says line by line what is wrong with it.
pub fn read(file: &str, bytes: Vec<u8>, record: &Record) -> Result<Table, Failure> {
    let told = |(line, what): (usize, String)| format!("{file}:{line}: {what}");
    let all_told = |mistakes: Vec<(usize, String)>| {
        let lines = mistakes.into_iter().map(told);
        Failure::Mistakes(lines.collect())
    };
    let csv = Csv::read(bytes).map_err(all_told)?;
    let columns = columns(&csv, record).map_err(all_told)?;
    let mut reading = Reading::default();
    for row in &csv.rows {
        reading.row(&csv, record, &columns, row);
    }
    reading.judge_sizes(record.most);
    let Reading {
        mut mistakes,
        households,
        lines,
        ..
    } = reading;
    mistakes.sort();
    let mistakes = mistakes.into_iter().map(told).collect();
    let others = others(&csv, &columns);
    let places = columns.cells;
    unless(
        mistakes,
        Table {
            csv,
            households,
            lines,
            places,
            others,
        },
    )
}

/// Where the columns of a record stand in a table.
struct Columns {
    household: usize,
    cells: Vec<usize>,
}

/// Finds them all, or says which are missing or stand there twice.
fn columns(csv: &Csv, record: &Record) -> Result<Columns, Vec<(usize, String)>> {
    let names = csv.names();
    let mut mistakes = Vec::new();
    let mut find = |name: &str| {
        let mut places = (0..names.len()).filter(|at| *names[*at] == *name.as_bytes());
        let (first, second) = (places.next(), places.next());
        if first.is_none() {
            let all: Vec<_> = names
                .iter()
                .map(|name| String::from_utf8_lossy(name))
                .collect();
            let text = format!(
                "the column '{name}' is missing, there are: {}",
                all.join(", ")
            );
            mistakes.push((csv.header.line, text));
        } else if second.is_some() {
            mistakes.push((
                csv.header.line,
                format!("the column '{name}' stands there twice"),
            ));
        }
        first.unwrap_or(0)
    };
    let household = find(&record.household.name);
    let cells = record.columns.iter().map(|column| find(&column.name));
    let columns = Columns {
        household,
        cells: cells.collect(),
    };
    match mistakes.is_empty() {
        true => Ok(columns),
        false => Err(mistakes),
    }
}

/// The names of all other columns.
fn others(csv: &Csv, columns: &Columns) -> Vec<String> {
    let names = csv.names().into_iter().enumerate();
    let other = |at: usize| at != columns.household && !columns.cells.contains(&at);
    let names = names.filter(|(at, _)| other(*at));
    let told = names.map(|(_, name)| String::from_utf8_lossy(&name).into_owned());
    told.collect()
}

/// What was read so far.
#[derive(Default)]
struct Reading {
    households: Vec<Household>,
    lines: Vec<usize>,
    /// The line at which each number began.
    begun: HashMap<u32, usize>,
    mistakes: Vec<(usize, String)>,
}

impl Reading {
    /// The cell of a column in a line; 0 where it has none, which is noted.
    fn cell(&mut self, line: usize, cell: Result<u32, String>) -> u32 {
        cell.unwrap_or_else(|what| {
            self.mistakes.push((line, what));
            0
        })
    }

    fn row(&mut self, csv: &Csv, record: &Record, columns: &Columns, row: &Row) {
        let value = |at: usize| csv.value(&row.fields[at]);
        let mistakes = self.mistakes.len();
        let number = record.household.cell(&value(columns.household));
        let number = self.cell(row.line, number);
        let known = self.mistakes.len() == mistakes;
        let cells = record.columns.iter().zip(&columns.cells);
        let person = cells.map(|(column, at)| self.cell(row.line, column.cell(&value(*at))));
        let person = person.collect();
        if known {
            self.person(row.line, number, person);
        }
    }

    /// A person of the household before, or the first of the next one.
    fn person(&mut self, line: usize, number: u32, cells: Vec<u32>) {
        if let Some(last) = self.households.last_mut().filter(|h| h.number == number) {
            last.persons.push(cells);
            return;
        }
        if let Some(begun) = self.begun.insert(number, line) {
            let text = format!("household {number} stands at line {begun} already, others between");
            self.mistakes.push((line, text));
        }
        self.households.push(Household {
            number,
            persons: vec![cells],
        });
        self.lines.push(line);
    }

    /// Notes the households that have too many persons for a form.
    fn judge_sizes(&mut self, most: usize) {
        for (Household { number, persons }, line) in self.households.iter().zip(&self.lines) {
            let count = persons.len();
            if count > most {
                let text = format!("household {number} has {count} persons, a form only {most}");
                self.mistakes.push((*line, text));
            }
        }
    }
}
