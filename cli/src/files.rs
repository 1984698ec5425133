//! Files, with their names in the errors.

use std::fs;
use std::io::{self, Read};
use std::path::Path;

use crate::failure::Failure;

/// The word that stands for standard input, where a command takes it.
pub const INPUT: &str = "-";

/// What is wrong with a file, after its name.
pub fn named(file: &str, error: io::Error) -> Failure {
    Failure::Other(format!("{file}: {error}"))
}

pub fn exists(file: &str) -> bool {
    Path::new(file).exists()
}

pub fn read(file: &str) -> Result<Vec<u8>, Failure> {
    fs::read(file).map_err(|error| named(file, error))
}

/// A file, or standard input where its name is `-`.
pub fn read_or_input(file: &str) -> Result<Vec<u8>, Failure> {
    if file != INPUT {
        return read(file);
    }
    let mut bytes = Vec::new();
    let read = io::stdin().lock().read_to_end(&mut bytes);
    read.map_err(|error| named(told(file), error))?;
    Ok(bytes)
}

/// The name of a file in what is told, where it may be standard input.
pub fn told(file: &str) -> &str {
    match file {
        INPUT => "standard input",
        name => name,
    }
}

/// Whether two names are those of one file, however they are written.
pub fn same(left: &str, right: &str) -> bool {
    let real = |file: &str| fs::canonicalize(file).ok();
    left == right || (exists(left) && real(left) == real(right))
}

/// A file of text.
pub fn read_text(file: &str) -> Result<String, Failure> {
    text(file, read(file)?)
}

/// The text that a file's bytes are.
pub fn text(file: &str, bytes: Vec<u8>) -> Result<String, Failure> {
    String::from_utf8(bytes).map_err(|_| Failure::Other(format!("{file}: this is no text")))
}

pub fn write(file: &str, bytes: &[u8]) -> Result<(), Failure> {
    fs::write(file, bytes).map_err(|error| named(file, error))
}

/// How many forms of one length a file of so many bytes holds, which have to be whole ones.
pub fn whole_forms(file: &str, bytes: u64, form: u64) -> Result<u64, Failure> {
    let (count, over) = (bytes / form, bytes % form);
    if over == 0 {
        return Ok(count);
    }
    Err(Failure::Other(format!(
        "{file}: {bytes} bytes are no whole number of forms of {form} bytes: {count} forms, and \
         {over} bytes left over"
    )))
}
