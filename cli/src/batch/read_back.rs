//! Reads reports back, and tells what is wrong with a file that is none.

use std::str::FromStr;

use super::figures::{Figures, ENDS};
use super::saved::{Saved, FIRST, KEYS, LAST};

/// The place of the first count among the keys.
const COUNTS: usize = 2;

/// The lines of a file that are not yet read, and what is wrong with those that are.
struct Reading<'t> {
    name: &'t str,
    lines: Vec<&'t str>,
    /// How many of them are read.
    at: usize,
    mistakes: Vec<String>,
}

/// All reports of a file, one behind the other, or what is wrong: `FILE:LINE: ..`. A line that is not
/// what it has to be ends the reading; figures that do not fit together are told of every report.
pub fn read(name: &str, text: &str) -> Result<Vec<Saved>, Vec<String>> {
    let mut reading = Reading {
        name,
        lines: text.lines().collect(),
        at: 0,
        mistakes: Vec::new(),
    };
    let mut all = Vec::new();
    while reading.at < reading.lines.len() || all.is_empty() {
        match reading.report() {
            Some(report) => all.push(report),
            None => return Err(reading.mistakes),
        }
    }
    match reading.mistakes.is_empty() {
        true => Ok(all),
        false => Err(reading.mistakes),
    }
}

impl<'t> Reading<'t> {
    /// Notes a mistake at a line, counted from 0.
    fn mistake(&mut self, line: usize, text: &str) {
        let line = format!("{}:{}: {text}", self.name, line + 1);
        self.mistakes.push(line);
    }

    /// The next line, which has to be that one or to begin with it and a space: what follows it.
    fn line(&mut self, expected: &str) -> Option<&'t str> {
        let found = self.lines.get(self.at).copied();
        let rest = found.and_then(|line| line.strip_prefix(expected));
        match rest.filter(|rest| rest.is_empty() || rest.starts_with(' ')) {
            Some(rest) => {
                self.at += 1;
                Some(rest.trim())
            }
            None => {
                let found = match found {
                    Some(line) => format!("'{line}' is found"),
                    None => "the file ends".to_string(),
                };
                let text = format!("here '{expected}' is expected, but {found}");
                self.mistake(self.at, &text);
                None
            }
        }
    }

    /// A line that has nothing behind what is expected.
    fn whole_line(&mut self, expected: &str) -> Option<()> {
        let rest = self.line(expected)?;
        if !rest.is_empty() {
            let text = format!("after '{expected}' nothing is expected, but '{rest}' is found");
            self.mistake(self.at - 1, &text);
            return None;
        }
        Some(())
    }

    fn report(&mut self) -> Option<Saved> {
        self.whole_line(FIRST)?;
        let first = self.at;
        let mut values = [""; KEYS.len()];
        for (value, key) in values.iter_mut().zip(KEYS) {
            *value = self.line(key)?;
        }
        self.whole_line(LAST)?;
        let given = self.digest(first, values[0])?;
        let mut ends = [0; ENDS];
        for (end, count) in ends.iter_mut().enumerate() {
            *count = self.number(first, COUNTS + end, values[COUNTS + end])?;
        }
        let figures = Figures {
            forms: self.number(first, 1, values[1])?,
            ends,
            cycles: self.number(first, 7, values[7])?,
            largest: self.number(first, 8, values[8])?,
        };
        let mean = (
            self.number(first, 9, values[9])?,
            self.number(first, 10, values[10])?,
        );
        self.judge(first, &figures, mean);
        Some(Saved { given, figures })
    }

    /// The value of the line at this place after the first one.
    fn number<T: FromStr>(&mut self, first: usize, at: usize, value: &str) -> Option<T> {
        let digits = !value.is_empty() && value.bytes().all(|byte| byte.is_ascii_digit());
        let number = value.parse().ok().filter(|_| digits);
        if number.is_none() {
            let key = KEYS[at];
            let why = match digits {
                true => "a number too large for a report",
                false => "no number",
            };
            self.mistake(first + at, &format!("{key}: '{value}' is {why}"));
        }
        number
    }

    fn digest(&mut self, line: usize, value: &str) -> Option<u64> {
        let digits = value.len() == 16 && value.bytes().all(|byte| byte.is_ascii_hexdigit());
        let digest = u64::from_str_radix(value, 16).ok().filter(|_| digits);
        if digest.is_none() {
            let text = format!("given: '{value}' is not 16 hexadecimal digits");
            self.mistake(line, &text);
        }
        digest
    }

    /// Notes what does not fit together.
    fn judge(&mut self, first: usize, figures: &Figures, mean: (u128, u128)) {
        let mut faults = figures.faults();
        if mean != figures.mean() {
            let ((given, given_rest), (mean, rest)) = (mean, figures.mean());
            let (cycles, forms) = (figures.cycles, figures.forms);
            let text = format!(
                "{given}, remainder {given_rest}, but {cycles} cycles of {forms} forms have {mean}, \
                 remainder {rest}"
            );
            faults.push(("mean", text));
        }
        for (key, text) in faults {
            let at = KEYS.iter().position(|name| *name == key).unwrap_or(0);
            self.mistake(first + at, &format!("{key}: {text}"));
        }
    }
}

#[cfg(test)]
mod tests {
    use super::*;

    const REPORT: &str = "\
beetle batch report 1
given                        0123456789ABCDEF
forms                        10
stopped with 0               4
stopped with -258            0
stopped with -259            1
stopped with another reason  3
spent                        2
cycles                       8589934602
largest                      4294967295
mean                         858993460
remainder                    2
end of report
";

    fn saved() -> Saved {
        Saved {
            given: 0x0123_4567_89AB_CDEF,
            figures: Figures {
                forms: 10,
                ends: [4, 0, 1, 3, 2],
                cycles: 8_589_934_602,
                largest: u32::MAX,
            },
        }
    }

    #[test]
    fn what_is_written_reads_back() {
        assert_eq!(saved().to_string(), REPORT);
        assert_eq!(read("x", REPORT), Ok(vec![saved()]));
        let none = Saved {
            given: 0,
            figures: Figures::default(),
        };
        let both = format!("{REPORT}{none}");
        assert_eq!(read("x", &both), Ok(vec![saved(), none]));
        assert_eq!(read("x", &REPORT.replace('\n', "\r\n")), Ok(vec![saved()]));
    }

    /// Every line is missed, and so is everything behind a cut.
    #[test]
    fn a_report_that_is_cut_is_none() {
        let lines: Vec<&str> = REPORT.lines().collect();
        for cut in 0..lines.len() {
            let mut without = lines.clone();
            let missing = without.remove(cut);
            let key = missing.split("  ").next().expect("a key");
            let told = read("x", &without.join("\n")).expect_err("a mistake");
            let start = format!("x:{}: here '{key}' is expected, but ", cut + 1);
            assert!(told.len() == 1 && told[0].starts_with(&start), "{told:?}");
            let told = read("x", &lines[..cut].join("\n")).expect_err("a mistake");
            assert_eq!(told, [format!("{start}the file ends")]);
        }
        for length in 0..REPORT.len() - 1 {
            assert!(read("x", &REPORT[..length]).is_err(), "{length}");
        }
    }

    /// A line of the report exchanged for another.
    fn told(old: &str, new: &str) -> Vec<String> {
        assert_eq!(REPORT.matches(old).count(), 1, "{old}");
        read("x", &REPORT.replace(old, new)).expect_err("a mistake")
    }

    #[test]
    fn values_that_are_no_numbers() {
        for value in ["", "-1", "+1", "10 10", "1.0", "Ah"] {
            let line = format!("forms {value}");
            let expected = format!("x:3: forms: '{value}' is no number");
            assert_eq!(told("forms                        10", &line), [expected]);
        }
        let large = "18446744073709551616";
        let line = format!("forms {large}");
        let expected = format!("x:3: forms: '{large}' is a number too large for a report");
        assert_eq!(told("forms                        10", &line), [expected]);
        let expected = "x:10: largest: '4294967296' is a number too large for a report";
        assert_eq!(told("4294967295", "4294967296"), [expected]);
    }

    #[test]
    fn values_that_are_no_digests() {
        for value in [
            "0123456789ABCDE",
            "0123456789ABCDEG",
            "+123456789ABCDEF",
            "",
        ] {
            let expected = format!("x:2: given: '{value}' is not 16 hexadecimal digits");
            assert_eq!(told("0123456789ABCDEF", value), [expected]);
        }
    }

    #[test]
    fn other_lines() {
        let expected =
            "x:1: here 'beetle batch report 1' is expected, but 'beetle batch report 2' is \
                        found";
        assert_eq!(told("report 1", "report 2"), [expected]);
        let expected = "x:13: after 'end of report' nothing is expected, but 'x' is found";
        assert_eq!(told("end of report", "end of report x"), [expected]);
        let more = read("x", &format!("{REPORT}\n")).expect_err("a mistake");
        let expected = "x:14: here 'beetle batch report 1' is expected, but '' is found";
        assert_eq!(more, [expected]);
    }

    #[test]
    fn figures_that_do_not_fit_together() {
        let told_at = |old: &str, new: &str| -> Vec<String> {
            let lines = told(old, new).into_iter();
            let key = |line: String| line.split(' ').take(2).collect::<Vec<_>>().join(" ");
            lines.map(key).collect()
        };
        let rows: [(&str, &str, &[&str]); 7] = [
            ("with 0               4", "with 0  5", &["x:3: forms:"]),
            (
                "spent                        2",
                "spent  1",
                &["x:3: forms:"],
            ),
            ("858993460\n", "858993461\n", &["x:11: mean:"]),
            (
                "remainder                    2",
                "remainder 3",
                &["x:11: mean:"],
            ),
            ("8589934602", "8589934603", &["x:11: mean:"]),
            ("4294967295", "858993460", &["x:9: cycles:"]),
            (
                "8589934602",
                "4294967294",
                &["x:10: largest:", "x:11: mean:"],
            ),
        ];
        for (old, new, expected) in rows {
            assert_eq!(told_at(old, new), expected, "{new}");
        }
        let text =
            "x:9: cycles: 8589934602 cycles, but 10 forms of at most 858993460 have 8589934600";
        assert_eq!(told("4294967295", "858993460"), [text]);
    }
}
