//! The description of a record: which columns of a table become the cells of a form.

use super::column::Column;
use super::unless;
use crate::failure::Failure;
use crate::memory::LONGEST;
use crate::number;

pub struct Record {
    /// The column of the household's number.
    pub household: Column,
    /// The most persons of a form.
    pub most: usize,
    /// The columns that are a person's cells, in their order.
    pub columns: Vec<Column>,
}

/// The cells before the persons: the household's number, and how many persons there are.
pub const HEAD: usize = 2;

impl Record {
    /// The cells of a form.
    pub fn cells(&self) -> usize {
        HEAD + self.most * self.columns.len()
    }

    pub fn form_length(&self) -> usize {
        4 * self.cells()
    }
}

/// What was read so far.
#[derive(Default)]
struct Reading {
    household: Option<Column>,
    most: Option<usize>,
    columns: Vec<Column>,
}

/// Reads a description, or says what is wrong with it.
pub fn read(file: &str, text: &str) -> Result<Record, Failure> {
    let mut reading = Reading::default();
    let mut mistakes = Vec::new();
    for (at, line) in text.lines().enumerate() {
        let read = words(line).and_then(|words| reading.line(&words));
        mistakes.extend(read.err().map(|what| format!("{file}:{}: {what}", at + 1)));
    }
    let record = reading.finish();
    let whole = record.as_ref().err().filter(|_| mistakes.is_empty());
    mistakes.extend(whole.map(|what| format!("{file}: {what}")));
    unless(mistakes, record).and_then(|record| record.map_err(Failure::Other))
}

impl Reading {
    /// A line by its first word; one without words says nothing.
    fn line(&mut self, words: &[String]) -> Result<(), String> {
        let words: Vec<&str> = words.iter().map(String::as_str).collect();
        match words[..] {
            [] => Ok(()),
            ["household", name] => self.household(name),
            ["persons", number] => self.persons(number),
            ["cell", name, ref rest @ ..] => self.cell(name, rest),
            ["household" | "cell", ..] => Err(format!("{} wants a column's name", words[0])),
            ["persons", ..] => Err("persons wants one number".to_string()),
            _ => Err(format!(
                "'{}' is none of household, persons and cell",
                words[0]
            )),
        }
    }

    fn household(&mut self, name: &str) -> Result<(), String> {
        self.judge_name(name)?;
        match self.household.replace(Column::new(name)) {
            None => Ok(()),
            Some(_) => Err("household is given twice".to_string()),
        }
    }

    fn persons(&mut self, word: &str) -> Result<(), String> {
        let most = number::unsigned(word).filter(|most| *most > 0);
        let most = most.ok_or_else(|| format!("persons wants 1 or more, not '{word}'"))?;
        match self.most.replace(most as usize) {
            None => Ok(()),
            Some(_) => Err("persons is given twice".to_string()),
        }
    }

    /// `cell NAME`, and in any order `from A to B` and `empty V`.
    fn cell(&mut self, name: &str, mut rest: &[&str]) -> Result<(), String> {
        self.judge_name(name)?;
        let mut column = Column::new(name);
        while !rest.is_empty() {
            rest = match rest {
                ["from", from, "to", to, rest @ ..] => {
                    column.numbers = range(from, to)?;
                    rest
                }
                ["empty", value, rest @ ..] => {
                    let cell = number::cell(value);
                    column.empty = Some(cell.map_err(|_| format!("no cell holds '{value}'"))?);
                    rest
                }
                _ => {
                    let what =
                        "after a column 'from NUMBER to NUMBER' or 'empty NUMBER' may follow";
                    return Err(format!("{what}, not '{}'", rest.join(" ")));
                }
            };
        }
        self.columns.push(column);
        Ok(())
    }

    /// That no column is named twice.
    fn judge_name(&self, name: &str) -> Result<(), String> {
        let mut before = self.columns.iter().chain(&self.household);
        match before.any(|column| column.name == name) {
            true => Err(format!("the column '{name}' is named twice")),
            false => Ok(()),
        }
    }

    fn finish(self) -> Result<Record, String> {
        let missing = |key: &str| format!("a line '{key} ..' is missing");
        let record = Record {
            household: self.household.ok_or_else(|| missing("household"))?,
            most: self.most.ok_or_else(|| missing("persons"))?,
            columns: self.columns,
        };
        if record.columns.is_empty() {
            return Err(missing("cell"));
        }
        match record.form_length() > LONGEST {
            true => Err(format!(
                "a form has {} bytes, and the longest memory {LONGEST}",
                record.form_length()
            )),
            false => Ok(record),
        }
    }
}

/// The numbers of a column, each of which has a cell of its own.
fn range(from: &str, to: &str) -> Result<std::ops::RangeInclusive<i64>, String> {
    let number = |word: &str| {
        let value = number::whole(word)
            .ok()
            .and_then(|value| i64::try_from(value).ok());
        value.ok_or_else(|| format!("'{word}' is no number of a cell"))
    };
    let (start, end) = (number(from)?, number(to)?);
    let lowest = i64::from(i32::MIN);
    let highest = if start < 0 {
        i64::from(i32::MAX)
    } else {
        i64::from(u32::MAX)
    };
    if start > end {
        Err(format!("from {from} to {to} has no number"))
    } else if start < lowest || end > highest {
        Err(format!(
            "from {from} to {to} does not fit a cell, which holds -2147483648 to 2147483647 or 0 to \
             4294967295"
        ))
    } else {
        Ok(start..=end)
    }
}

/// The words of a line up to a `\`; one in quotes may hold spaces, and two quotes in it are one.
fn words(line: &str) -> Result<Vec<String>, String> {
    let (mut words, mut rest) = (Vec::new(), line.trim_start());
    while !rest.is_empty() && !rest.starts_with('\\') {
        let (word, after) = match rest.strip_prefix('"') {
            Some(inside) => quoted(inside)?,
            None => {
                let end = rest.find(|c: char| c.is_whitespace() || c == '\\');
                let (word, after) = rest.split_at(end.unwrap_or(rest.len()));
                (word.to_string(), after)
            }
        };
        words.push(word);
        rest = after.trim_start();
    }
    Ok(words)
}

/// A word whose first quote is read, and what follows its last one.
fn quoted(inside: &str) -> Result<(String, &str), String> {
    let (mut word, mut rest) = (String::new(), inside);
    loop {
        let (text, after) = rest.split_once('"').ok_or("a quote that does not end")?;
        word.push_str(text);
        match after.strip_prefix('"') {
            Some(after) => {
                word.push('"');
                rest = after;
            }
            None => return Ok((word, after)),
        }
    }
}
