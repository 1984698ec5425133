//! The figures of a batch, and those of several batches put together.

use crate::library::Ran;
use crate::reasons::{BAD_HANDLER, BAD_STACK};

/// The ways in which a form's run ends, and so the places of their counts.
#[derive(Clone, Copy, PartialEq, Eq, Debug)]
pub enum End {
    Zero,
    BadStack,
    BadHandler,
    Other,
    Spent,
}

/// How many ways there are.
pub const ENDS: usize = 5;

#[derive(Clone, Copy, PartialEq, Eq, Debug, Default)]
pub struct Figures {
    pub forms: u64,
    /// How many forms ended in each way: together all of them.
    pub ends: [u64; ENDS],
    /// Those of all forms; no form has more than 2^32 - 1.
    pub cycles: u128,
    /// The most that one form had.
    pub largest: u32,
}

impl Figures {
    /// Those that the library gives. Its mean is left out: it is worked out anew from the sums.
    pub fn of_batch(out: [u32; 11]) -> Self {
        let [forms, zero, stack, handler, other, spent, low, high, largest, _, _] = out;
        Figures {
            forms: u64::from(forms),
            ends: [zero, stack, handler, other, spent].map(u64::from),
            cycles: u128::from(low) + (u128::from(high) << 32),
            largest,
        }
    }

    /// Those of one form.
    pub fn of_run(ran: &Ran) -> Self {
        let end = match ran.reason {
            Some(0) => End::Zero,
            Some(BAD_STACK) => End::BadStack,
            Some(BAD_HANDLER) => End::BadHandler,
            Some(_) => End::Other,
            None => End::Spent,
        };
        let mut ends = [0; ENDS];
        ends[end as usize] = 1;
        Figures {
            forms: 1,
            ends,
            cycles: u128::from(ran.cycles),
            largest: ran.cycles,
        }
    }

    /// Those of the forms of both; none where there are more forms than can be counted. No other sum
    /// is too large: the counts make up the forms, and no form has 2^32 cycles.
    pub fn and(&self, more: &Figures) -> Option<Figures> {
        Some(Figures {
            forms: self.forms.checked_add(more.forms)?,
            ends: std::array::from_fn(|end| self.ends[end] + more.ends[end]),
            cycles: self.cycles + more.cycles,
            largest: self.largest.max(more.largest),
        })
    }

    /// The cycles of all forms by their number: quotient and remainder, both 0 where there is none.
    pub fn mean(&self) -> (u128, u128) {
        let forms = u128::from(self.forms.max(1));
        (self.cycles / forms, self.cycles % forms)
    }

    /// The forms that HALT did not end: stopped with -258 or -259, or spent.
    pub fn not_halted(&self) -> u64 {
        let count = |end: End| self.ends[end as usize];
        count(End::BadStack) + count(End::BadHandler) + count(End::Spent)
    }

    /// What does not fit together, with the name of the line that it is told at.
    pub fn faults(&self) -> Vec<(&'static str, String)> {
        let Figures {
            forms,
            cycles,
            largest,
            ..
        } = *self;
        let ends: u128 = self.ends.iter().map(|count| u128::from(*count)).sum();
        let most = u128::from(forms) * u128::from(largest);
        let mut faults = Vec::new();
        if ends != u128::from(forms) {
            let text = format!("{forms} forms, but the five counts below make {ends}");
            faults.push(("forms", text));
        }
        if cycles > most {
            let text =
                format!("{cycles} cycles, but {forms} forms of at most {largest} have {most}");
            faults.push(("cycles", text));
        }
        if u128::from(largest) > cycles {
            let text = format!("{largest} cycles of one form, but {cycles} of all");
            faults.push(("largest", text));
        }
        faults
    }
}

#[cfg(test)]
mod tests {
    use super::*;

    fn ran(reason: Option<i32>, cycles: u32) -> Ran {
        let reason = reason.map(|reason| reason as u32);
        Ran { reason, cycles }
    }

    #[test]
    fn each_end_has_its_count() {
        let rows = [
            (Some(0), [1, 0, 0, 0, 0]),
            (Some(-258), [0, 1, 0, 0, 0]),
            (Some(-259), [0, 0, 1, 0, 0]),
            (Some(-257), [0, 0, 0, 1, 0]),
            (Some(1), [0, 0, 0, 1, 0]),
            (None, [0, 0, 0, 0, 1]),
        ];
        for (reason, ends) in rows {
            let figures = Figures::of_run(&ran(reason, 7));
            assert_eq!(figures.ends, ends, "{reason:?}");
            let bad = matches!(reason, None | Some(-258 | -259));
            assert_eq!(figures.not_halted(), u64::from(bad), "{reason:?}");
            assert_eq!(figures.faults(), []);
        }
    }

    #[test]
    fn the_librarys_numbers() {
        let out = [15, 1, 2, 3, 4, 5, 6, 7, 0xFFFF_FFFF, 9, 10];
        let figures = Figures::of_batch(out);
        assert_eq!((figures.forms, figures.ends), (15, [1, 2, 3, 4, 5]));
        assert_eq!(figures.cycles, 0x7_0000_0006);
        assert_eq!(figures.largest, u32::MAX);
    }

    #[test]
    fn parts_are_put_together() {
        let runs = [ran(Some(0), 10), ran(None, 3), ran(Some(9), 12)];
        let all = runs.iter().map(Figures::of_run);
        let all = all.reduce(|left, right| left.and(&right).expect("few forms"));
        let all = all.expect("three forms");
        assert_eq!((all.forms, all.ends), (3, [1, 0, 0, 1, 1]));
        assert_eq!((all.cycles, all.largest, all.mean()), (25, 12, (8, 1)));
        assert_eq!(Figures::default().mean(), (0, 0));
        assert_eq!(all.and(&Figures::default()), Some(all));
    }

    /// The largest that can be: as many forms as can be counted, each with the most cycles.
    #[test]
    fn sums_at_their_ends() {
        let many = |forms: u64| Figures {
            forms,
            ends: [forms, 0, 0, 0, 0],
            cycles: u128::from(forms) * u128::from(u32::MAX),
            largest: u32::MAX,
        };
        let most = many(u64::MAX);
        assert_eq!(many(u64::MAX - 1).and(&many(1)), Some(most));
        assert_eq!(most.faults(), []);
        assert_eq!(most.mean(), (u128::from(u32::MAX), 0));
        assert_eq!(most.and(&many(1)), None);
    }

    #[test]
    fn figures_that_do_not_fit_together() {
        let good = Figures {
            forms: 3,
            ends: [1, 0, 0, 1, 1],
            cycles: 25,
            largest: 12,
        };
        let told = |figures: Figures| figures.faults().into_iter().map(|(line, _)| line);
        let bad = |figures: Figures| told(figures).collect::<Vec<_>>();
        assert!(bad(good).is_empty());
        assert_eq!(bad(Figures { forms: 4, ..good }), ["forms"]);
        assert_eq!(bad(Figures { cycles: 37, ..good }), ["cycles"]);
        assert_eq!(bad(Figures { cycles: 36, ..good }), [""; 0]);
        assert_eq!(
            bad(Figures {
                largest: 26,
                ..good
            }),
            ["largest"]
        );
        assert_eq!(bad(Figures { largest: 8, ..good }), ["cycles"]);
        let none = Figures::default();
        assert_eq!(bad(Figures { cycles: 1, ..none }), ["cycles"]);
        assert_eq!(bad(Figures { largest: 1, ..none }), ["largest"]);
    }
}
