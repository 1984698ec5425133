//! The words of a command line: files, options with a value, and switches.

use crate::failure::Failure;
use crate::{files, number};

/// The options and switches that a command takes.
pub struct Takes {
    /// Names of the files, as the help calls them.
    pub files: &'static [&'static str],
    /// Options with a value.
    pub options: &'static [&'static str],
    /// Switches, without one.
    pub switches: &'static [&'static str],
}

/// A command line, read.
pub struct Arguments {
    files: Vec<String>,
    options: Vec<(String, String)>,
    switches: Vec<String>,
}

impl Arguments {
    /// Reads the words after the command's name.
    pub fn read(words: &[String], takes: &Takes) -> Result<Self, Failure> {
        let read = Self::read_several(words, takes)?;
        match read.files.get(takes.files.len()) {
            Some(more) => Err(usage(format!("one file too many: {more}"))),
            None => Ok(read),
        }
    }

    /// The same, where more files may follow the last one.
    pub fn read_several(words: &[String], takes: &Takes) -> Result<Self, Failure> {
        let mut read = Arguments {
            files: Vec::new(),
            options: Vec::new(),
            switches: Vec::new(),
        };
        let mut words = words.iter();
        while let Some(word) = words.next() {
            let name = word.as_str();
            if takes.options.contains(&name) {
                let value = words.next();
                let value = value.ok_or_else(|| usage(format!("{name} wants a value")))?;
                read.set_option(name, value)?;
            } else if takes.switches.contains(&name) {
                read.switches.push(word.clone());
            } else if name.starts_with('-') && name != files::INPUT {
                return Err(usage(format!("unknown option {name}")));
            } else {
                read.files.push(word.clone());
            }
        }
        match takes.files.get(read.files.len()) {
            Some(missing) => Err(usage(format!("{missing} is missing"))),
            None => Ok(read),
        }
    }

    fn set_option(&mut self, name: &str, value: &str) -> Result<(), Failure> {
        if self.option(name).is_some() {
            return Err(usage(format!("{name} is given twice")));
        }
        self.options.push((name.to_string(), value.to_string()));
        Ok(())
    }

    /// The file at this place.
    pub fn file(&self, at: usize) -> &str {
        &self.files[at]
    }

    /// All files, in the order given.
    pub fn files(&self) -> &[String] {
        &self.files
    }

    /// The value of an option, if it is given.
    pub fn option(&self, name: &str) -> Option<&str> {
        let found = self.options.iter().find(|(given, _)| given == name);
        found.map(|(_, value)| value.as_str())
    }

    /// The value of an option that has to be given.
    pub fn needed(&self, name: &str) -> Result<&str, Failure> {
        self.option(name).ok_or_else(|| missing(name, "FILE"))
    }

    /// The address that an option has to give.
    pub fn needed_address(&self, name: &str) -> Result<u32, Failure> {
        self.cell(name)?.ok_or_else(|| missing(name, "ADDRESS"))
    }

    /// The length in bytes, at least 1, that an option has to give.
    pub fn needed_length(&self, name: &str) -> Result<u32, Failure> {
        let bytes = self.between(name, 1, u64::from(u32::MAX))?;
        let bytes = bytes.ok_or_else(|| missing(name, "BYTES"))?;
        Ok(bytes as u32)
    }

    pub fn switch(&self, name: &str) -> bool {
        self.switches.iter().any(|given| given == name)
    }

    /// The number that an option gives, if it is given: not below 0 and not above `most`.
    pub fn number(&self, name: &str, most: u64) -> Result<Option<u64>, Failure> {
        self.between(name, 0, most)
    }

    /// The same, not below `least` either.
    pub fn between(&self, name: &str, least: u64, most: u64) -> Result<Option<u64>, Failure> {
        let Some(word) = self.option(name) else {
            return Ok(None);
        };
        let value = number::whole(word).ok();
        let value = value.and_then(|value| u64::try_from(value).ok());
        match value.filter(|value| (least..=most).contains(value)) {
            Some(value) => Ok(Some(value)),
            None => Err(usage(format!(
                "{name} wants {least} to {most}, not '{word}'"
            ))),
        }
    }

    /// A cell that an option gives.
    pub fn cell(&self, name: &str) -> Result<Option<u32>, Failure> {
        let value = self.number(name, u64::from(u32::MAX))?;
        Ok(value.map(|value| value as u32))
    }

    /// The two cells that an option gives, a comma between them, or what it wants.
    pub fn two_cells(&self, name: &str, wants: &str) -> Result<Option<[u32; 2]>, Failure> {
        let Some(word) = self.option(name) else {
            return Ok(None);
        };
        let cell = number::unsigned;
        let both = word.split_once(',');
        match both.and_then(|(left, right)| Some([cell(left)?, cell(right)?])) {
            Some(both) => Ok(Some(both)),
            None => Err(usage(format!(
                "{name} wants {wants}, each 0 to {}, not '{word}'",
                u32::MAX
            ))),
        }
    }

    /// The byte order: `--order`, or 0. The library judges it.
    pub fn order(&self) -> Result<u8, Failure> {
        let order = self.number("--order", u64::from(u8::MAX))?;
        Ok(order.map_or(0, |order| order as u8))
    }
}

fn missing(name: &str, value: &str) -> Failure {
    usage(format!("{name} {value} is missing"))
}

fn usage(text: String) -> Failure {
    Failure::Usage(text)
}
