//! Tables as text (RFC 4180): fields parted by commas, in quotes where they hold a comma, a quote or a
//! line's end. Each field is known by its place, so that all else of a table can be kept as it is.

use std::borrow::Cow;
use std::ops::Range;

/// What some programs put before the first line of a text.
const MARK: &[u8] = b"\xEF\xBB\xBF";

/// A line of a table: its number, and where its fields stand.
pub struct Row {
    pub line: usize,
    pub fields: Vec<Range<usize>>,
}

pub struct Csv {
    pub bytes: Vec<u8>,
    pub header: Row,
    pub rows: Vec<Row>,
}

/// A line's number and what is wrong with it.
pub type Mistake = (usize, String);

impl Csv {
    /// Takes a table apart, or says what is wrong with it.
    pub fn read(bytes: Vec<u8>) -> Result<Self, Vec<Mistake>> {
        let mut reader = Reader {
            bytes: &bytes,
            at: if bytes.starts_with(MARK) {
                MARK.len()
            } else {
                0
            },
            line: 1,
        };
        if reader.rest().is_empty() {
            let text = "the table has no line with its columns' names";
            return Err(vec![(1, text.to_string())]);
        }
        let header = reader.row().map_err(|mistake| vec![mistake])?;
        let (mut rows, mut mistakes) = (Vec::new(), Vec::new());
        while !reader.rest().is_empty() {
            match reader.row() {
                Ok(row) => rows.push(row),
                Err(mistake) => mistakes.push(mistake),
            }
        }
        mistakes.extend(rows.iter().filter_map(|row| wrong_length(&header, row)));
        mistakes.sort();
        match mistakes.is_empty() {
            true => Ok(Csv {
                bytes,
                header,
                rows,
            }),
            false => Err(mistakes),
        }
    }

    /// What a field says, its quotes taken away.
    pub fn value(&self, field: &Range<usize>) -> Cow<'_, [u8]> {
        let raw = &self.bytes[field.clone()];
        let Some(rest) = raw.strip_prefix(b"\"") else {
            return Cow::Borrowed(raw);
        };
        let inside = rest.strip_suffix(b"\"").unwrap_or(rest);
        let mut value = Vec::new();
        let mut bytes = inside.iter();
        while let Some(byte) = bytes.next() {
            value.push(*byte);
            if *byte == b'"' {
                bytes.next();
            }
        }
        Cow::Owned(value)
    }

    /// The columns' names.
    pub fn names(&self) -> Vec<Cow<'_, [u8]>> {
        let fields = self.header.fields.iter();
        fields.map(|field| self.value(field)).collect()
    }
}

/// A line with more or fewer fields than the header.
fn wrong_length(header: &Row, row: &Row) -> Option<Mistake> {
    let (fields, columns) = (row.fields.len(), header.fields.len());
    let text = || format!("{fields} fields, where the first line has {columns}");
    (fields != columns).then(|| (row.line, text()))
}

/// A field as it is written: in quotes where it needs them.
pub fn written(value: &str) -> String {
    match value.contains(['"', ',', '\r', '\n']) {
        true => format!("\"{}\"", value.replace('"', "\"\"")),
        false => value.to_string(),
    }
}

struct Reader<'b> {
    bytes: &'b [u8],
    at: usize,
    line: usize,
}

impl Reader<'_> {
    fn rest(&self) -> &[u8] {
        &self.bytes[self.at..]
    }

    /// The length of a line's end that stands here.
    fn line_end(&self) -> usize {
        match self.rest() {
            [b'\n', ..] => 1,
            [b'\r', b'\n', ..] => 2,
            _ => 0,
        }
    }

    /// Goes on to the next line.
    fn end_line(&mut self) {
        self.at += self.line_end();
        self.line += 1;
    }

    /// A line, or several where quotes hold their ends. After a mistake the rest of the line is left
    /// out.
    fn row(&mut self) -> Result<Row, Mistake> {
        let line = self.line;
        let mut fields = Vec::new();
        loop {
            match self.field() {
                Ok(field) => fields.push(field),
                Err(mistake) => {
                    while self.at < self.bytes.len() && self.line_end() == 0 {
                        self.at += 1;
                    }
                    self.end_line();
                    return Err(mistake);
                }
            }
            if !self.rest().starts_with(b",") {
                self.end_line();
                return Ok(Row { line, fields });
            }
            self.at += 1;
        }
    }

    /// A field, up to the comma or the line's end behind it.
    fn field(&mut self) -> Result<Range<usize>, Mistake> {
        let start = self.at;
        if self.rest().starts_with(b"\"") {
            self.quoted()?;
            return Ok(start..self.at);
        }
        while let Some(byte) = self.rest().first() {
            if *byte == b'"' {
                let text = "a quote inside a field that does not begin with one";
                return Err((self.line, text.to_string()));
            }
            if *byte == b',' || self.line_end() > 0 {
                break;
            }
            self.at += 1;
        }
        Ok(start..self.at)
    }

    /// A field in quotes; two quotes inside are one.
    fn quoted(&mut self) -> Result<(), Mistake> {
        let line = self.line;
        self.at += 1;
        loop {
            match self.rest() {
                [] => return Err((line, "a quote that does not end".to_string())),
                [b'"', b'"', ..] => self.at += 2,
                [b'"', ..] => break,
                [byte, ..] => {
                    self.line += usize::from(*byte == b'\n');
                    self.at += 1;
                }
            }
        }
        self.at += 1;
        let ends = matches!(self.rest(), [] | [b',', ..]) || self.line_end() > 0;
        let text = "after a field in quotes a comma or the line's end is expected";
        ends.then_some(()).ok_or((self.line, text.to_string()))
    }
}

#[cfg(test)]
mod tests {
    use super::*;

    /// The values of all lines, the columns' names first.
    fn values(text: &str) -> Vec<Vec<String>> {
        let csv = Csv::read(text.into()).unwrap_or_else(|mistakes| panic!("{mistakes:?}"));
        let value = |field: &Range<usize>| String::from_utf8(csv.value(field).into_owned());
        let row = |row: &Row| row.fields.iter().map(|f| value(f).expect("text")).collect();
        [&csv.header]
            .into_iter()
            .chain(&csv.rows)
            .map(row)
            .collect()
    }

    #[test]
    fn fields_with_and_without_quotes() {
        let rows = [
            ("a,b\n1,2\n", vec![vec!["a", "b"], vec!["1", "2"]]),
            ("a,b\r\n1,2", vec![vec!["a", "b"], vec!["1", "2"]]),
            ("a,b\n,\n", vec![vec!["a", "b"], vec!["", ""]]),
            ("\u{FEFF}a\n\"\"\n", vec![vec!["a"], vec![""]]),
            (
                "\"a \"\"x\"\"\",\"b,\nc\"\n\"\"\"\",1\n",
                vec![vec!["a \"x\"", "b,\nc"], vec!["\"", "1"]],
            ),
        ];
        for (text, expected) in rows {
            assert_eq!(values(text), expected, "{text:?}");
        }
    }

    #[test]
    fn lines_are_counted_through_quotes() {
        let csv = Csv::read(b"a,b\n\"1\n2\",3\n4,5\n".to_vec());
        let csv = csv.unwrap_or_else(|mistakes| panic!("{mistakes:?}"));
        let lines: Vec<usize> = csv.rows.iter().map(|row| row.line).collect();
        assert_eq!(lines, [2, 4]);
    }

    #[test]
    fn mistakes_are_told_by_line() {
        let length = "fields, where the first line has 2";
        let after = "after a field in quotes a comma or the line's end is expected";
        let rows = [
            (
                "",
                vec![(1, "the table has no line with its columns' names")],
            ),
            (
                "a,b\n1\n",
                vec![(2, "1 fields, where the first line has 2")],
            ),
            ("a,b\n\n1,2,3\n", vec![(2, length), (3, length)]),
            (
                "a,b\n1,2\"\n3,\"4\"5\n",
                vec![
                    (2, "a quote inside a field that does not begin with one"),
                    (3, after),
                ],
            ),
            ("a,b\n1,\"2\n3,4\n", vec![(2, "a quote that does not end")]),
            ("\"a\"x,b\n1\n", vec![(1, after)]),
        ];
        for (text, expected) in rows {
            let mistakes = Csv::read(text.into()).err().expect("a mistake");
            assert_eq!(mistakes.len(), expected.len(), "{mistakes:?}");
            for ((line, told), (at, what)) in mistakes.iter().zip(expected) {
                assert!(*line == at && told.ends_with(what), "{line}: {told}");
            }
        }
    }

    #[test]
    fn what_is_written_reads_back() {
        for value in ["", "a", "a b", "a,b", "\"", "a\"\"b", "a\nb", "\r\n", " "] {
            let text = format!("{},x\n", written(value));
            assert_eq!(values(&text), [[value, "x"]], "{value:?}");
        }
    }
}
