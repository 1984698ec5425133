//! The forms cut into parts, and what each part comes to. By the theorem `PartsAddUp` (crate
//! `batch_laws`) the figures of all forms are the same however they are cut.

use super::figures::Figures;
use super::forms::Forms;
use super::setting::Setting;
use crate::failure::Failure;
use crate::library;
use crate::report::{self, State};

/// No part has more forms, so that one is soon done; the library takes 65,535.
const MOST_FORMS: u64 = 256;

/// Nor more bytes, but for a part of one form.
const MOST_BYTES: u64 = 1 << 20;

/// What is to be done with all forms.
pub struct Work<'w> {
    pub setting: &'w Setting,
    pub forms: &'w Forms,
    /// The most forms of a part, 1 to 65,535.
    pub cut: u64,
    /// Whether the forms as the rule left them are wanted.
    pub left: bool,
    /// Whether a line for each form is wanted.
    pub each: bool,
}

/// What a part came to.
#[derive(Default)]
pub struct Part {
    pub figures: Figures,
    /// Its forms as the rule left them.
    pub left: Vec<u8>,
    /// A line for each of them.
    pub lines: String,
    /// The first form that HALT did not end, counted from 1; known where lines or forms are wanted.
    pub bad: Option<u64>,
}

impl Work<'_> {
    /// Parts that all threads have some of, and that are not too large.
    pub fn cut_for(setting: &Setting, forms: &Forms, jobs: u64) -> u64 {
        let fair = forms.count().div_ceil(jobs);
        let by_bytes = MOST_BYTES / u64::from(setting.form_length);
        fair.min(by_bytes).clamp(1, MOST_FORMS)
    }

    /// How many parts there are.
    pub fn parts(&self) -> u64 {
        self.forms.count().div_ceil(self.cut)
    }

    /// The part from this form on.
    pub fn part(&self, first: u64, memory: &mut [u8]) -> Result<Part, Failure> {
        let count = self.cut.min(self.forms.count() - first);
        let bytes = self.forms.read(first, count)?;
        let mut part = Part::default();
        if !self.left && !self.each {
            part.figures = library::batch(self.setting, memory, &bytes, count as u16)?;
            return Ok(part);
        }
        let length = self.setting.form_length as usize;
        for (number, form) in (first + 1..).zip(bytes.chunks_exact(length)) {
            self.form(number, form, memory, &mut part)?;
        }
        Ok(part)
    }

    /// One form as a batch of one: memory is then as the rule left it. The parts add up, so that the
    /// figures are those that all forms have in one batch.
    fn form(
        &self,
        number: u64,
        form: &[u8],
        memory: &mut [u8],
        part: &mut Part,
    ) -> Result<(), Failure> {
        let figures = library::batch(self.setting, memory, form, 1)?;
        part.figures = together(&part.figures, &figures)?;
        if figures.not_halted() > 0 {
            part.bad = part.bad.or(Some(number));
        }
        if self.left {
            let start = self.setting.address as usize;
            part.left.extend(&memory[start..start + form.len()]);
        }
        if self.each {
            let line = self.line(form, memory, &figures)?;
            part.lines.push_str(&format!("form {number}: {line}\n"));
        }
        Ok(())
    }

    /// How a form's run ended. A batch does not tell a reason, so that the form is run once more by
    /// itself, with the same end and cycles.
    fn line(&self, form: &[u8], memory: &mut [u8], figures: &Figures) -> Result<String, Failure> {
        let Setting { order, table, .. } = *self.setting;
        let (mut registers, start) = (self.setting.registers, self.setting.address as usize);
        memory.copy_from_slice(&self.setting.start);
        memory[start..start + form.len()].copy_from_slice(form);
        let budget = self.setting.budget;
        let ran = library::run(order, memory, table, &mut registers, budget)?;
        if Figures::of_run(&ran) != *figures {
            let text = "a form's run differs from what its batch says";
            return Err(Failure::Other(text.to_string()));
        }
        let state = State {
            order,
            memory,
            registers,
            table,
        };
        let end = report::end(ran.reason, &state);
        let more = ran.reason.and_then(|reason| report::more(reason, &state));
        let more = more.map_or(String::new(), |more| format!("; {more}"));
        Ok(format!("{} cycles, {end}{more}", ran.cycles))
    }
}

/// The figures of two batches as those of one.
pub fn together(left: &Figures, right: &Figures) -> Result<Figures, Failure> {
    let too_many = || format!("more than {} forms cannot be counted", u64::MAX);
    let both = left.and(right);
    both.ok_or_else(|| Failure::Other(too_many()))
}
