//! Batches of forms, against a loop by hand that copies the start memory and calls `beetle_run`; and what
//! part of their time the memory made afresh takes.

use std::hint::black_box;

use beetle_tests::call::Implementation;

use crate::loops::store;
use crate::measure::{instructions, nanoseconds};
use crate::sides::{whole, Side};
use crate::tables::{beside, head};

/// The bytes of memory.
const MEMORIES: [usize; 2] = [1 << 16, 1 << 20];

/// A rule adds up so many cells from the form's first on, and stops with 0.
const RULES: [u32; 2] = [8, 3330];

/// The cycles that it takes.
fn cycles(cells: u32) -> u32 {
    9 + 6 * cells
}

/// A form of eight cells, and where it goes.
const FORM: u32 = 0x100;
const FORM_LENGTH: usize = 32;

/// How many forms are timed at once, and how many are run for their instructions to be counted.
const TIMED: u16 = 64;
const COUNTED: [u32; 2] = [1, 11];

/// Enough for every rule.
const BUDGET: u32 = 1 << 20;

#[derive(Clone, Copy)]
enum Act {
    Batch,
    /// By hand, form by form.
    Copies,
    /// The batch with a budget of 0.
    NoCycle,
    /// A plain copy of the memory for each form, and nothing else.
    Plain,
}

/// Those whose instructions are counted.
const ACTS: [Act; 3] = [Act::Batch, Act::Copies, Act::NoCycle];

/// A rule with its forms.
struct Work {
    start: Vec<u8>,
    memory: Vec<u8>,
    forms: Vec<u8>,
    registers: [u32; 8],
}

impl Work {
    fn new(memory: usize, cells: u32, forms: u16) -> Work {
        let mut start = vec![0; memory];
        let end = FORM + 4 * cells;
        let code = [
            end << 16 | 0x5319,
            FORM << 8 | 0x53,
            0x0000_004B,
            0x1C1E_390E,
            0xFFFF_FE4F,
            0x0055_1902,
        ];
        store(&mut start, 0x10, &code);
        let bytes = FORM_LENGTH * usize::from(forms);
        let top = memory as u32;
        Work {
            start,
            memory: vec![7; memory],
            forms: (0..bytes).map(|at| (at % 251) as u8).collect(),
            registers: [0x10, 0, top - 0x100, top, 0, 0, 0, 0],
        }
    }

    /// All forms by one call: the sum of the cycles.
    fn batch(&mut self, calls: &Implementation, budget: u32) -> u32 {
        let (mut out, m) = ([0; 11], &mut self.memory);
        let count = (self.forms.len() / FORM_LENGTH) as u16;
        let (start, forms, r) = (&self.start, &self.forms, self.registers);
        let length = FORM_LENGTH as u32;
        let answer = (calls.batch)(
            0, start, m, forms, count, length, FORM, r, 0, 0, budget, &mut out,
        );
        assert_eq!(black_box(answer), 0, "the batch is accepted");
        out[6]
    }

    /// The same by hand.
    fn copies(&mut self, calls: &Implementation) -> u32 {
        let (mut sum, at) = (0, FORM as usize);
        for form in self.forms.chunks(FORM_LENGTH) {
            self.memory.copy_from_slice(&self.start);
            self.memory[at..at + form.len()].copy_from_slice(form);
            let (mut r, mut out) = (self.registers, [0; 2]);
            let answer = (calls.run)(0, &mut self.memory, 0, 0, &mut r, BUDGET, &mut out);
            assert_eq!(black_box(answer), 1, "the rule stops");
            sum += out[1];
        }
        sum
    }

    /// As many copies, of no cycle.
    fn plain(&mut self) -> u32 {
        for _ in self.forms.chunks(FORM_LENGTH) {
            black_box(&mut self.memory).copy_from_slice(black_box(&self.start));
        }
        0
    }

    fn carry_out(&mut self, calls: &Implementation, act: Act) -> u32 {
        match act {
            Act::Batch => self.batch(calls, BUDGET),
            Act::Copies => self.copies(calls),
            Act::NoCycle => self.batch(calls, 0),
            Act::Plain => self.plain(),
        }
    }
}

/// Carries out the act with this number on so many forms.
pub fn repeat(calls: &Implementation, at: usize, forms: u32) -> Option<()> {
    let act = ACTS[at % ACTS.len()];
    let cells = RULES[at / ACTS.len() % RULES.len()];
    let memory = MEMORIES.get(at / ACTS.len() / RULES.len())?;
    black_box(Work::new(*memory, cells, forms as u16).carry_out(calls, act));
    Some(())
}

/// Batch and loop leave one memory on both sides, after as many cycles.
fn agree(memory: usize, cells: u32) {
    let left = |calls, act| {
        let mut work = Work::new(memory, cells, 3);
        (work.carry_out(&calls, act), work.memory)
    };
    let [proved, independent] = whole();
    let one = left(independent, Act::Batch);
    assert_eq!(one.0, 3 * cycles(cells));
    assert!(left(proved, Act::Batch) == one);
    assert!(left(proved, Act::Copies) == one);
}

/// Nanoseconds a form of the acts, and of a plain copy of the memory, all in turn.
struct Times {
    batch: [f64; 2],
    copies: f64,
    no_cycle: [f64; 2],
    copy: f64,
}

impl Times {
    fn of(memory: usize, cells: u32) -> Times {
        let [proved, independent] = whole();
        let act = |calls: Implementation, act| {
            let mut work = Work::new(memory, cells, TIMED);
            move || {
                black_box(work.carry_out(&calls, act));
            }
        };
        let took = nanoseconds([
            act(proved, Act::Batch),
            act(independent, Act::Batch),
            act(proved, Act::Copies),
            act(proved, Act::NoCycle),
            act(independent, Act::NoCycle),
            act(proved, Act::Plain),
        ]);
        let [batch, other, copies, no_cycle, other_none, copy] =
            took.map(|time| time / f64::from(TIMED));
        Times {
            batch: [batch, other],
            copies,
            no_cycle: [no_cycle, other_none],
            copy,
        }
    }
}

/// Instructions a form of the acts of a rule in a memory, by number, on a side.
fn counted(side: Side, at: usize) -> [String; 3] {
    [0, 1, 2].map(|act| {
        let count = instructions(side, "batch", at + act, COUNTED);
        count.map_or("-".to_string(), |count| format!("{count:.0}"))
    })
}

/// The table of what a form takes.
fn whole_table(all: &[(usize, u32, Times)]) {
    let columns = [
        "bytes of memory",
        "cycles a form",
        "instructions a form, proved",
        "proved, with a budget of 0",
        "by hand",
        "independent",
        "ns a form, proved",
        "independent",
        "by hand",
        "ratio to independent",
        "to the loop by hand",
    ];
    head("Batches of forms by beetle_batch", &columns);
    for (number, (memory, cells, times)) in all.iter().enumerate() {
        let at = number * ACTS.len();
        let [proved, by_hand, no_cycle] = counted(Side::Proved, at);
        let [independent, ..] = counted(Side::Independent, at);
        let took = [times.batch[0], times.batch[1], times.copies];
        println!(
            "| {memory} | {} | {proved} | {no_cycle} | {by_hand} | {independent} | {} |",
            cycles(*cells),
            beside(&took.map(Some))
        );
    }
    println!();
}

/// The table of what the memory made afresh takes of that.
fn share_table(all: &[(usize, u32, Times)]) {
    let columns = [
        "bytes of memory",
        "cycles a form",
        "ns of a plain copy",
        "ns a form with a budget of 0, proved",
        "against the copy",
        "share of the batch",
        "independent",
        "against the copy",
        "share of the batch",
    ];
    head("What making the memory afresh takes", &columns);
    for (memory, cells, times) in all {
        let parts = [0, 1].map(|side| {
            let none = times.no_cycle[side];
            let (against, share) = (none / times.copy, none / times.batch[side]);
            format!("{none:.1} | {against:.2} | {share:.2}")
        });
        let (cycles, copy) = (cycles(*cells), times.copy);
        println!(
            "| {memory} | {cycles} | {copy:.1} | {} |",
            parts.join(" | ")
        );
    }
    println!();
}

/// Two tables, with a line for each rule in each memory.
pub fn tables() {
    let each = MEMORIES
        .into_iter()
        .flat_map(|memory| RULES.map(|cells| (memory, cells)));
    let all: Vec<(usize, u32, Times)> = each
        .map(|(memory, cells)| {
            agree(memory, cells);
            (memory, cells, Times::of(memory, cells))
        })
        .collect();
    whole_table(&all);
    share_table(&all);
}
