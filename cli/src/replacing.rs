//! A file that is written beside its place and put there when it is whole, so that a failure leaves
//! what was there before.

use std::fs::{self, File};
use std::io::{BufWriter, Write};
use std::path::PathBuf;
use std::process;

use crate::failure::Failure;
use crate::files;

pub struct Replacing {
    name: String,
    target: PathBuf,
    beside: PathBuf,
    file: BufWriter<File>,
}

impl Replacing {
    /// Begins the file with this name, which may be there already, but only as a plain file.
    pub fn begin(name: &str) -> Result<Self, Failure> {
        let target = fs::canonicalize(name).unwrap_or_else(|_| PathBuf::from(name));
        if target.exists() && !target.is_file() {
            return Err(Failure::Other(format!(
                "{name}: this is no plain file, so that it cannot be replaced"
            )));
        }
        let mut beside = target.clone().into_os_string();
        beside.push(format!(".{}.part", process::id()));
        let beside = PathBuf::from(beside);
        let file = File::create_new(&beside).map_err(|error| files::named(name, error))?;
        Ok(Replacing {
            name: name.to_string(),
            target,
            beside,
            file: BufWriter::new(file),
        })
    }

    pub fn write(&mut self, bytes: &[u8]) -> Result<(), Failure> {
        let written = self.file.write_all(bytes);
        written.map_err(|error| files::named(&self.name, error))
    }

    /// Ends the writing: all of it is on the disk.
    pub fn finish(&mut self) -> Result<(), Failure> {
        let (flushed, name) = (self.file.flush(), &self.name);
        let finished = flushed.and_then(|()| self.file.get_ref().sync_all());
        finished.map_err(|error| files::named(name, error))
    }

    /// Puts the finished file in its place.
    pub fn put(self) -> Result<(), Failure> {
        let put = match fs::metadata(&self.target) {
            Ok(old) => fs::set_permissions(&self.beside, old.permissions()),
            Err(_) => Ok(()),
        };
        let put = put.and_then(|()| fs::rename(&self.beside, &self.target));
        put.map_err(|error| files::named(&self.name, error))
    }
}

impl Drop for Replacing {
    /// Removes what was not put in its place.
    fn drop(&mut self) {
        // nothing is there where it was put
        let _ = fs::remove_file(&self.beside);
    }
}

/// A whole file at once.
pub fn write(name: &str, bytes: &[u8]) -> Result<(), Failure> {
    let mut file = Replacing::begin(name)?;
    file.write(bytes)?;
    file.finish()?;
    file.put()
}

/// That a file to be written is none of those that are read.
pub fn judge<'f>(
    option: &str,
    target: &str,
    read: impl IntoIterator<Item = &'f str>,
) -> Result<(), Failure> {
    if target == files::INPUT {
        return Err(Failure::Usage(format!(
            "{option} wants the name of a file, not '{target}'"
        )));
    }
    match read.into_iter().find(|file| files::same(target, file)) {
        None => Ok(()),
        Some(file) => Err(Failure::Usage(format!(
            "{option} {target} would replace {file}, which is read"
        ))),
    }
}
