//! The forms of a batch: a file, or standard input, read part by part.

use std::fs::File;
use std::io::{self, Cursor, Read, Seek, SeekFrom};
use std::sync::{Mutex, PoisonError};

use crate::failure::Failure;
use crate::files;

/// What can be read from any place.
trait Source: Read + Seek + Send {}

impl<T: Read + Seek + Send> Source for T {}

pub struct Forms {
    name: String,
    form_length: u64,
    count: u64,
    source: Mutex<Box<dyn Source>>,
}

impl Forms {
    /// Opens a file, whose length has to be that of whole forms. What is no plain file, as standard
    /// input, is read to its end first.
    pub fn open(name: &str, form_length: u32) -> Result<Self, Failure> {
        let (source, length) = opened(name)?;
        Forms::of(files::told(name), source, length, form_length)
    }

    /// The forms of a source with so many bytes.
    fn of(
        name: &str,
        source: Box<dyn Source>,
        length: u64,
        form_length: u32,
    ) -> Result<Self, Failure> {
        let form_length = u64::from(form_length);
        Ok(Forms {
            name: name.to_string(),
            form_length,
            count: files::whole_forms(name, length, form_length)?,
            source: Mutex::new(source),
        })
    }

    pub fn count(&self) -> u64 {
        self.count
    }

    /// The bytes of so many forms from the one at this place on.
    pub fn read(&self, first: u64, count: u64) -> Result<Vec<u8>, Failure> {
        let mut bytes = vec![0; (count * self.form_length) as usize];
        let read = self.fill(first * self.form_length, &mut bytes);
        read.map_err(|error| files::named(&self.name, error))?;
        Ok(bytes)
    }

    fn fill(&self, at: u64, bytes: &mut [u8]) -> io::Result<()> {
        let mut source = self.source.lock().unwrap_or_else(PoisonError::into_inner);
        source.seek(SeekFrom::Start(at))?;
        source.read_exact(bytes)
    }
}

fn opened(name: &str) -> Result<(Box<dyn Source>, u64), Failure> {
    let named = |error| files::named(name, error);
    if name != files::INPUT {
        let file = File::open(name).map_err(named)?;
        let about = file.metadata().map_err(named)?;
        if about.is_file() {
            return Ok((Box::new(file), about.len()));
        }
    }
    let bytes = files::read_or_input(name)?;
    let length = bytes.len() as u64;
    Ok((Box::new(Cursor::new(bytes)), length))
}

#[cfg(test)]
pub mod tests {
    use super::*;

    /// The forms that these bytes are.
    pub fn of_bytes(bytes: &[u8], form_length: u32) -> Forms {
        let (source, length) = (Cursor::new(bytes.to_vec()), bytes.len() as u64);
        Forms::of("bytes", Box::new(source), length, form_length).expect("whole forms")
    }

    #[test]
    fn forms_from_any_place_on() {
        let forms = of_bytes(b"abcdefghi", 3);
        assert_eq!(forms.count(), 3);
        for (first, count, expected) in [(1, 2, "defghi"), (0, 1, "abc"), (2, 1, "ghi"), (0, 0, "")]
        {
            let read = forms.read(first, count).expect("forms");
            assert_eq!(read, expected.as_bytes());
        }
    }

    /// A file that has become shorter since it was opened.
    #[test]
    fn forms_that_are_gone() {
        let source = Box::new(Cursor::new(b"abcde".to_vec()));
        let forms = Forms::of("short", source, 6, 3).expect("whole forms");
        assert!(forms.read(0, 1).is_ok());
        let told = forms.read(1, 1).expect_err("no form");
        assert!(matches!(told, Failure::Other(text) if text.starts_with("short: ")));
    }
}
