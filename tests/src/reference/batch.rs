//! A batch of forms (document 02, (k)): each is put over the start memory and run by itself; the figures
//! are then taken from the list of how the runs ended.

use super::instructions::{Registers, BAD_STACK};
use super::memory::Lent;
use super::processor::{self, Outcome, BAD_HANDLER};
use super::refusal::{demand, Refusal};

/// How a run ended: the reason of its stop, or none where its budget was spent; and its cycles.
pub type End = (Option<u32>, u32);

/// How many figures a report has.
pub const FIGURES: usize = 11;

/// Forms of one length, end to end, and the address that each goes to.
pub struct Forms<'b> {
    pub bytes: &'b [u8],
    pub count: u16,
    pub length: u32,
    pub address: u32,
}

impl Forms<'_> {
    /// -1 where a form would end behind so many bytes of memory, whether there is one or not.
    pub fn judge_place(&self, memory: usize) -> Result<(), Refusal> {
        let end = u64::from(self.address) + u64::from(self.length);
        demand(end <= memory as u64, Refusal::OutsideMemory)
    }

    /// -4105 where fewer bytes were lent than the forms have.
    pub fn judge_bytes(&self) -> Result<(), Refusal> {
        let needed = u64::from(self.count) * u64::from(self.length);
        demand(self.bytes.len() as u64 >= needed, Refusal::ShortOutput)
    }

    /// The form with this number.
    fn form(&self, number: u16) -> &[u8] {
        let length = self.length as usize;
        let from = usize::from(number) * length;
        &self.bytes[from..from + length]
    }
}

/// What every form of a batch is run with.
pub struct Batch<'b> {
    pub start: &'b [u8],
    pub forms: Forms<'b>,
    pub registers: Registers,
    pub budget: u32,
}

impl Batch<'_> {
    /// The form with this number, over the start memory, run from the registers that were given.
    fn run_one(&self, lent: &mut Lent<'_>, number: u16) -> End {
        let form = self.forms.form(number);
        let at = self.forms.address as usize;
        let mut r = self.registers;
        lent.bytes.copy_from_slice(self.start);
        lent.bytes[at..at + form.len()].copy_from_slice(form);
        match processor::run(lent, &mut r, self.budget) {
            (Outcome::Stopped(reason), cycles) => (Some(reason), cycles),
            (Outcome::WentOn, cycles) => (None, cycles),
        }
    }

    /// All forms in turn.
    pub fn run(&self, lent: &mut Lent<'_>) -> Vec<End> {
        let numbers = 0..self.forms.count;
        numbers.map(|number| self.run_one(lent, number)).collect()
    }
}

/// The figures of runs: how many, how many of them ended in each way, then what their cycles come to.
pub fn report(ends: &[End]) -> [u32; FIGURES] {
    let forms = ends.len() as u64;
    let among = |reason: Option<u32>| ends.iter().filter(|end| end.0 == reason).count() as u32;
    let named = [Some(0), Some(BAD_STACK), Some(BAD_HANDLER)].map(among);
    let spent = among(None);
    let other = forms as u32 - spent - named.iter().sum::<u32>();
    let cycles = ends.iter().map(|end| end.1);
    let largest = cycles.clone().max().unwrap_or(0);
    let sum: u64 = cycles.map(u64::from).sum();
    let (low, high) = (sum as u32, (sum >> 32) as u32);
    let mean = sum.checked_div(forms).unwrap_or(0) as u32;
    let rest = sum.checked_rem(forms).unwrap_or(0) as u32;
    let [good, bad_stack, bad_handler] = named;
    [
        forms as u32,
        good,
        bad_stack,
        bad_handler,
        other,
        spent,
        low,
        high,
        largest,
        mean,
        rest,
    ]
}
