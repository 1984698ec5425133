//! A column of a table that is a cell of a person's record: which numbers it has, and which cell
//! stands for an empty field.

use std::ops::RangeInclusive;

use crate::number::shown;

#[derive(Clone, PartialEq, Eq, Debug)]
pub struct Column {
    pub name: String,
    /// No two of its numbers have the same cell.
    pub numbers: RangeInclusive<i64>,
    pub empty: Option<u32>,
}

/// The numbers of a column where no others are given: those of a cell without a sign.
pub const USUAL: RangeInclusive<i64> = 0..=u32::MAX as i64;

/// A number in decimal digits, with or without a minus before them.
fn number(text: &str) -> Option<i64> {
    let digits = text.strip_prefix('-').unwrap_or(text);
    let decimal = !digits.is_empty() && digits.bytes().all(|byte| byte.is_ascii_digit());
    // what is too long is far outside of every column
    let value = text.parse().unwrap_or(i64::MAX);
    decimal.then_some(value)
}

impl Column {
    /// A column with all numbers of a cell, and with no empty field.
    pub fn new(name: &str) -> Self {
        Column {
            name: name.to_string(),
            numbers: USUAL,
            empty: None,
        }
    }

    fn range(&self) -> String {
        format!("from {} to {}", self.numbers.start(), self.numbers.end())
    }

    /// The cell of a field, or what is wrong with it.
    pub fn cell(&self, field: &[u8]) -> Result<u32, String> {
        let (name, text) = (&self.name, String::from_utf8_lossy(field));
        if field.is_empty() {
            let missing = || format!("{name} is empty, and the record has no cell for that");
            return self.empty.ok_or_else(missing);
        }
        let Some(value) = number(&text) else {
            return Err(format!(
                "{name} is '{text}', which is no number in decimal digits"
            ));
        };
        let cell = value as u32;
        if !self.numbers.contains(&value) {
            Err(format!("{name} is '{text}', which is not {}", self.range()))
        } else if self.empty == Some(cell) {
            Err(format!(
                "{name} is '{text}', which stands for an empty field"
            ))
        } else {
            Ok(cell)
        }
    }

    /// The field of a cell, or what is wrong with it.
    pub fn field(&self, cell: u32) -> Result<String, String> {
        if self.empty == Some(cell) {
            return Ok(String::new());
        }
        let signed = *self.numbers.start() < 0;
        let value = match signed {
            true => i64::from(cell as i32),
            false => i64::from(cell),
        };
        match self.numbers.contains(&value) {
            true => Ok(value.to_string()),
            false => Err(format!(
                "{} is {}, which is not {}",
                self.name,
                shown(cell),
                self.range()
            )),
        }
    }
}

#[cfg(test)]
mod tests {
    use super::*;

    fn column(numbers: RangeInclusive<i64>, empty: Option<u32>) -> Column {
        Column {
            name: "age".to_string(),
            numbers,
            empty,
        }
    }

    #[test]
    fn numbers_there_and_back() {
        let signed = i64::from(i32::MIN)..=i64::from(i32::MAX);
        let rows = [
            (column(USUAL, None), "0", 0),
            (column(USUAL, None), "4294967295", u32::MAX),
            (column(0..=120, Some(u32::MAX)), "", u32::MAX),
            (column(0..=120, Some(u32::MAX)), "120", 120),
            (column(1..=9, Some(0)), "", 0),
            (column(signed.clone(), None), "-1", u32::MAX),
            (column(signed.clone(), None), "-2147483648", 0x8000_0000),
            (column(signed, None), "2147483647", 0x7FFF_FFFF),
        ];
        for (column, field, cell) in rows {
            assert_eq!(column.cell(field.as_bytes()), Ok(cell), "{field}");
            assert_eq!(column.field(cell), Ok(field.to_string()), "{field}");
        }
        assert_eq!(column(USUAL, None).cell(b"007"), Ok(7));
    }

    #[test]
    fn fields_that_are_no_cells() {
        let age = column(0..=120, Some(7));
        let no_number = "which is no number in decimal digits";
        for field in ["-", "+1", "1.0", " 1", "10h", "one", "--1"] {
            let told = age.cell(field.as_bytes());
            assert_eq!(told, Err(format!("age is '{field}', {no_number}")));
        }
        for field in ["-1", "121", "4294967295", "99999999999999999999"] {
            let told = age.cell(field.as_bytes());
            assert_eq!(
                told,
                Err(format!("age is '{field}', which is not from 0 to 120"))
            );
        }
        let told = "age is '7', which stands for an empty field";
        assert_eq!(age.cell(b"7"), Err(told.to_string()));
        let told = "age is empty, and the record has no cell for that";
        assert_eq!(column(USUAL, None).cell(b""), Err(told.to_string()));
    }

    #[test]
    fn cells_that_are_no_fields() {
        let told = column(0..=120, None).field(0xFFFF_FFFB);
        let expected = "age is -5 (FFFFFFFBh), which is not from 0 to 120";
        assert_eq!(told, Err(expected.to_string()));
        let told = column(-5..=5, None).field(0x8000_0000);
        let expected = "age is -2147483648 (80000000h), which is not from -5 to 5";
        assert_eq!(told, Err(expected.to_string()));
    }
}
