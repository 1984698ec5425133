//! What a command line asks to be made of a batch's forms, and the making of it.

use std::num::NonZero;
use std::thread;

use super::figures::Figures;
use super::forms::Forms;
use super::parts::{together, Work};
use super::progress::Progress;
use super::setting::Setting;
use crate::arguments::Arguments;
use crate::failure::Failure;
use crate::files;
use crate::placed::Given;
use crate::replacing::{self, Replacing};

/// No batch has more threads.
const MOST_JOBS: u64 = 1024;

pub struct Job<'a> {
    /// The file for the forms as the rule leaves them.
    left: Option<&'a str>,
    /// The file for a line of each form.
    each: Option<&'a str>,
    jobs: u64,
    quiet: bool,
}

/// What the forms came to, and the first that HALT did not end, where that is known.
pub struct Done {
    pub figures: Figures,
    bad: Option<u64>,
}

impl<'a> Job<'a> {
    /// Reads `-o`, `--each`, `--jobs` and `--quiet`; the forms and modules are not to be written over.
    pub fn read(arguments: &'a Arguments, forms: &str, given: &Given) -> Result<Self, Failure> {
        let [left, each] = ["-o", "--each"].map(|option| arguments.option(option));
        let modules = given.modules().iter().map(|module| module.name.as_str());
        let read: Vec<&str> = modules.chain([forms]).collect();
        for (option, target) in [("-o", left), ("--each", each)] {
            if let Some(target) = target {
                replacing::judge(option, target, read.iter().copied())?;
            }
        }
        if let Some((left, each)) = left.zip(each).filter(|(o, e)| files::same(o, e)) {
            let text = format!("-o {left} and --each {each} are one file");
            return Err(Failure::Usage(text));
        }
        let cores = || thread::available_parallelism().map_or(1, NonZero::get) as u64;
        let jobs = arguments.between("--jobs", 1, MOST_JOBS)?;
        Ok(Job {
            left,
            each,
            jobs: jobs.unwrap_or_else(cores),
            quiet: arguments.switch("--quiet"),
        })
    }

    /// Runs all forms, and puts the files in their places when all of it is well.
    pub fn run(&self, setting: &Setting, forms: &Forms) -> Result<Done, Failure> {
        let mut left = self.left.map(Replacing::begin).transpose()?;
        let mut each = self.each.map(Replacing::begin).transpose()?;
        let work = Work {
            setting,
            forms,
            cut: Work::cut_for(setting, forms, self.jobs),
            left: left.is_some(),
            each: each.is_some(),
        };
        let progress = Progress::new(forms.count(), self.quiet);
        let (mut figures, mut bad) = (Figures::default(), None);
        work.run(self.jobs, progress, |part| {
            figures = together(&figures, &part.figures)?;
            bad = bad.or(part.bad);
            let pairs = [
                (&mut left, &part.left[..]),
                (&mut each, part.lines.as_bytes()),
            ];
            for (file, bytes) in pairs {
                file.as_mut().map_or(Ok(()), |file| file.write(bytes))?;
            }
            Ok(())
        })?;
        let mut written: Vec<Replacing> = left.into_iter().chain(each).collect();
        written.iter_mut().try_for_each(Replacing::finish)?;
        written.into_iter().try_for_each(Replacing::put)?;
        Ok(Done { figures, bad })
    }

    /// Says on the error stream how many forms HALT did not end.
    pub fn tell_not_halted(&self, done: &Done) {
        let (bad, forms) = (done.figures.not_halted(), done.figures.forms);
        let which = match done.bad {
            Some(first) => format!("the first is form {first}"),
            None => "--each FILE tells which".to_string(),
        };
        eprintln!(
            "beetle: {bad} of {forms} forms stopped with -258 or -259 or were spent: {which}"
        );
        if let Some(file) = self.left {
            eprintln!("beetle: {file} holds those too, as they were when their runs ended");
        }
    }
}
