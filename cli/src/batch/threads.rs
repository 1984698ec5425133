//! The parts of a batch run on several threads, and what they come to in the order of the forms.

use std::collections::BTreeMap;
use std::sync::atomic::{AtomicU64, Ordering};
use std::sync::mpsc::{self, Receiver, RecvTimeoutError, Sender};
use std::thread;

use super::parts::{Part, Work};
use super::progress::Progress;
use crate::failure::Failure;

/// A part's number, and what it came to.
type Done = (u64, Result<Part, Failure>);

impl Work<'_> {
    /// Runs all parts on so many threads, and gives what they came to in the order of the forms.
    pub fn run(
        &self,
        jobs: u64,
        mut progress: Progress,
        mut take: impl FnMut(Part) -> Result<(), Failure>,
    ) -> Result<(), Failure> {
        let next = AtomicU64::new(0);
        thread::scope(|scope| {
            let (sender, receiver) = mpsc::channel();
            for _ in 0..jobs.min(self.parts()) {
                let (sender, next) = (sender.clone(), &next);
                let begun = thread::Builder::new().spawn_scoped(scope, move || {
                    self.run_some(next, &sender);
                });
                if let Err(error) = begun {
                    next.store(self.parts(), Ordering::Relaxed);
                    return Err(Failure::Other(format!("a job cannot be begun: {error}")));
                }
            }
            drop(sender);
            let taken = in_order(&receiver, &mut progress, &mut take);
            // after a failure no thread takes up another part
            next.store(self.parts(), Ordering::Relaxed);
            taken
        })
    }

    /// One thread: the next part that no thread has, until there is none or nobody asks.
    fn run_some(&self, next: &AtomicU64, sender: &Sender<Done>) {
        let mut memory = vec![0; self.setting.start.len()];
        loop {
            let number = next.fetch_add(1, Ordering::Relaxed);
            if number >= self.parts() {
                return;
            }
            let done = self.part(number * self.cut, &mut memory);
            if sender.send((number, done)).is_err() {
                return;
            }
        }
    }
}

/// Takes what the threads send in the order of the parts, and tells how far it is.
fn in_order(
    receiver: &Receiver<Done>,
    progress: &mut Progress,
    take: &mut impl FnMut(Part) -> Result<(), Failure>,
) -> Result<(), Failure> {
    let (mut waiting, mut expected, mut done) = (BTreeMap::new(), 0, 0);
    loop {
        match receiver.recv_timeout(progress.wait()) {
            Ok((number, part)) => {
                let part = part?;
                done += part.figures.forms;
                waiting.insert(number, part);
            }
            Err(RecvTimeoutError::Timeout) => {}
            Err(RecvTimeoutError::Disconnected) => return Ok(()),
        }
        while let Some(part) = waiting.remove(&expected) {
            take(part)?;
            expected += 1;
        }
        progress.tell(done);
    }
}

#[cfg(test)]
mod tests {
    use super::super::forms::tests::of_bytes;
    use super::super::forms::Forms;
    use super::super::parts::together;
    use super::super::setting::Setting;
    use super::*;
    use crate::library;
    use crate::limits::Limits;
    use crate::listing::File;
    use crate::text;

    /// A rule whose form says how it ends: by its first byte, and after as many turns as its second has.
    const RULE: &str = "\
        200h C@  201h C@
again:  1-  DUP 0<  ?BRANCH again
        DROP  DUP 202h C!  HALT";

    fn setting() -> Setting {
        let listing = text::assemble("rule", RULE).expect("a rule");
        let file = File::of(&listing, false).expect("a listing");
        let image = file.packed(0).expect("an image").image;
        let mut start = vec![0; 1024];
        start[0x10..0x10 + image.len()].copy_from_slice(&image);
        let limits = Limits::default();
        let started = library::start(0, &mut start, 0x10, u32::MAX, limits);
        let (registers, _) = started.expect("a start");
        Setting {
            order: 0,
            start,
            registers,
            table: limits.table,
            budget: 300,
            address: 0x200,
            form_length: 3,
        }
    }

    /// What all forms come to, cut so and on so many threads.
    fn all(forms: &Forms, cut: u64, jobs: u64, wanted: bool) -> Part {
        let setting = setting();
        let work = Work {
            setting: &setting,
            forms,
            cut,
            left: wanted,
            each: wanted,
        };
        let mut all = Part::default();
        let ran = work.run(jobs, Progress::new(forms.count(), true), |part| {
            all.figures = together(&all.figures, &part.figures)?;
            all.left.extend(part.left);
            all.lines.push_str(&part.lines);
            all.bad = all.bad.or(part.bad);
            Ok(())
        });
        ran.expect("all parts");
        all
    }

    fn forms() -> Forms {
        let bytes: Vec<u8> = (0..101).flat_map(|at: u8| [at % 3, at, 9]).collect();
        of_bytes(&bytes, 3)
    }

    #[test]
    fn any_cut_on_any_number_of_threads() {
        let forms = forms();
        let whole = all(&forms, 101, 1, true);
        assert_eq!(
            (whole.figures.forms, whole.lines.lines().count()),
            (101, 101)
        );
        assert!(whole.figures.ends[0] > 0 && whole.figures.ends[4] > 0);
        let bad = whole.lines.lines().position(|line| line.contains("spent"));
        assert_eq!(whole.bad, bad.map(|at| at as u64 + 1));
        for cut in [1, 2, 3, 7, 50, 100, 101, 102, 65_535] {
            for jobs in [1, 2, 9] {
                let part = all(&forms, cut, jobs, true);
                assert_eq!(part.figures, whole.figures, "{cut} {jobs}");
                assert!(part.left == whole.left && part.lines == whole.lines);
                assert_eq!(part.bad, whole.bad, "{cut} {jobs}");
                let figures = all(&forms, cut, jobs, false).figures;
                assert_eq!(figures, whole.figures, "{cut} {jobs}");
            }
        }
    }

    #[test]
    fn what_is_not_taken_ends_all() {
        let (setting, forms) = (setting(), forms());
        let work = Work {
            setting: &setting,
            forms: &forms,
            cut: 1,
            left: false,
            each: false,
        };
        let mut taken = 0;
        let ran = work.run(2, Progress::new(101, true), |_| {
            taken += 1;
            match taken {
                5 => Err(Failure::Other("full".to_string())),
                _ => Ok(()),
            }
        });
        assert!(matches!(ran, Err(Failure::Other(text)) if text == "full"));
        assert_eq!(taken, 5);
    }
}
