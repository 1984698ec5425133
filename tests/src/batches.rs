//! A batch of forms (document 02, (k)): it answers what single runs of its forms say, in whatever sequence
//! they come, and a batch in parts comes to the whole one.

use crate::call::{perform, Call, Entry, Implementation};
use crate::firsts::same;
use crate::random::Random;

/// What became of the batches.
#[derive(Default, Debug)]
pub struct Batches {
    pub run: u32,
    pub of_no_form: u32,
    pub in_parts: u32,
    pub not_a_machine: u32,
    pub outside: u32,
    pub too_short: u32,
}

const MEMORY_LENGTH: u32 = -4101_i32 as u32;
const OUTSIDE: u32 = -1_i32 as u32;
const SHORT: u32 = -4105_i32 as u32;

/// How a form's run ended, the reason of a stop and the cycles; and SP and the memory that it left.
#[derive(Clone)]
pub struct Single {
    pub answer: u32,
    pub reason: u32,
    pub cycles: u32,
    pub sp: u32,
    pub memory: Vec<u8>,
}

impl Single {
    /// All that a report is made of.
    pub fn end(&self) -> (u32, u32, u32) {
        (self.answer, self.reason, self.cycles)
    }
}

/// The run of some bytes over the start memory, from a batch's registers. Where the bytes do not go in whole
/// they are left out.
pub fn alone(implementation: &Implementation, batch: &Call, form: &[u8], budget: u32) -> Single {
    let at = batch.numbers[0] as usize;
    let mut run = Call::new(Entry::Run);
    (run.order, run.table, run.numbers[0]) = (batch.order, batch.table, budget);
    (run.registers, run.out) = (batch.registers.clone(), vec![0xC3C3_C3C3; 2]);
    run.memory = batch.start.clone();
    let place = run.memory.get_mut(at..at.saturating_add(form.len()));
    place
        .into_iter()
        .for_each(|place| place.copy_from_slice(form));
    let ran = perform(implementation, &run);
    Single {
        answer: ran.answer,
        reason: ran.lent.out[0],
        cycles: ran.lent.out[1],
        sp: ran.lent.registers[2],
        memory: ran.lent.memory,
    }
}

/// The forms of a batch that is lent all of them.
pub fn forms_of(batch: &Call) -> Vec<&[u8]> {
    let [_, length, count, _] = batch.numbers.map(|number| number as usize);
    let from = |form| form * length;
    (0..count)
        .map(|form| &batch.file[from(form)..from(form + 1)])
        .collect()
}

/// The number with which a batch has to be refused, or 0.
fn judged(implementation: &Implementation, batch: &Call) -> u32 {
    if batch.memory.len() != batch.start.len() {
        return MEMORY_LENGTH;
    }
    let machine = alone(implementation, batch, &[], 0).answer;
    let [address, length, count, _] = batch.numbers.map(u64::from);
    let short = (batch.file.len() as u64) < count * length || batch.out.len() < 11;
    if machine != 0 {
        machine
    } else if address + length > batch.start.len() as u64 {
        OUTSIDE
    } else if short {
        SHORT
    } else {
        0
    }
}

/// The figures that can be put together from those of parts.
#[derive(Default, Clone, PartialEq, Eq, Debug)]
struct Sums {
    /// Forms; stopped with 0, with -258, with -259, with another reason; spent.
    forms: [u32; 6],
    cycles: u64,
    largest: u32,
}

impl Sums {
    fn of_single(single: &Single) -> Sums {
        let way = match (single.answer, single.reason as i32) {
            (0, _) => 5,
            (_, 0) => 1,
            (_, -258) => 2,
            (_, -259) => 3,
            _ => 4,
        };
        let mut sums = Sums::default();
        (sums.forms[0], sums.forms[way]) = (1, 1);
        (sums.cycles, sums.largest) = (single.cycles.into(), single.cycles);
        sums
    }

    fn of_report(out: &[u32]) -> Sums {
        Sums {
            forms: out[..6].try_into().expect("six figures"),
            cycles: u64::from(out[7]) << 32 | u64::from(out[6]),
            largest: out[8],
        }
    }

    fn together(parts: impl IntoIterator<Item = Sums>) -> Sums {
        parts.into_iter().fold(Sums::default(), |one, other| {
            let mut forms = one.forms;
            forms.iter_mut().zip(other.forms).for_each(|(a, b)| *a += b);
            Sums {
                forms,
                cycles: one.cycles + other.cycles,
                largest: one.largest.max(other.largest),
            }
        })
    }

    /// All figures of the report.
    fn report(&self) -> Vec<u32> {
        let forms = u64::from(self.forms[0]).max(1);
        let mut out = self.forms.to_vec();
        out.extend([self.cycles as u32, (self.cycles >> 32) as u32, self.largest]);
        out.extend([(self.cycles / forms) as u32, (self.cycles % forms) as u32]);
        out
    }
}

/// The batch of some of its forms, in a sequence, with just the bytes that they have.
fn of_forms(batch: &Call, forms: &[&[u8]]) -> Call {
    let mut other = batch.clone();
    other.numbers[2] = forms.len() as u32;
    other.file = forms.concat();
    other
}

/// A batch comes to these figures, and leaves this memory and all else as it was lent.
fn comes_to(
    implementation: &Implementation,
    batch: &Call,
    sums: &Sums,
    memory: &[u8],
) -> Result<(), String> {
    let together = perform(implementation, batch);
    same("a margin", together.margins_kept)?;
    same("answer", together.answer == 0)?;
    let mut left = batch.clone();
    left.out[..11].copy_from_slice(&sums.report());
    same("report", together.lent.out == left.out)?;
    same("memory", together.lent.memory == memory)?;
    left.memory = memory.to_vec();
    same("what is not to be written", together.lent == left)
}

/// The forms cut into batches, each lent the memory that the one before left: all come to the whole.
fn in_parts(
    implementation: &Implementation,
    batch: &Call,
    parts: Vec<&[&[u8]]>,
) -> Result<(Sums, Vec<u8>), String> {
    let mut memory = batch.memory.clone();
    let mut sums = Vec::new();
    for forms in parts {
        let mut part = of_forms(batch, forms);
        part.memory = memory;
        let ran = perform(implementation, &part);
        same("a margin", ran.margins_kept)?;
        same("answer", ran.answer == 0)?;
        sums.push(Sums::of_report(&ran.lent.out));
        memory = ran.lent.memory;
    }
    Ok((Sums::together(sums), memory))
}

/// The forms in two parts, in three, and one by one where they are few.
fn cut<'p>(random: &mut Random, forms: &'p [&'p [u8]]) -> Vec<Vec<&'p [&'p [u8]]>> {
    let mut at = || random.below(forms.len() as u32 + 1) as usize;
    let (once, [first, last]) = (at(), [at(), at()]);
    let (first, last) = (first.min(last), first.max(last));
    let mut cuts = vec![
        vec![&forms[..once], &forms[once..]],
        vec![&forms[..first], &forms[first..last], &forms[last..]],
    ];
    if forms.len() <= 8 {
        cuts.push(forms.chunks(1).collect());
    }
    cuts
}

/// Holds an accepted batch against its single runs.
fn try_accepted(
    implementation: &Implementation,
    random: &mut Random,
    batch: &Call,
) -> Result<(), String> {
    let forms = forms_of(batch);
    let single = |form: &&[u8]| alone(implementation, batch, form, batch.numbers[3]);
    let singles: Vec<Single> = forms.iter().map(single).collect();
    let sums = Sums::together(singles.iter().map(Sums::of_single));
    let last = |at: Option<&usize>| at.map_or(&batch.memory, |at| &singles[*at].memory);
    let mut sequence: Vec<usize> = (0..forms.len()).collect();
    comes_to(implementation, batch, &sums, last(sequence.last()))?;
    let again = |name: &str, sequence: &[usize]| {
        let other: Vec<&[u8]> = sequence.iter().map(|at| forms[*at]).collect();
        let other = of_forms(batch, &other);
        let came = comes_to(implementation, &other, &sums, last(sequence.last()));
        came.map_err(|why| format!("{name}: {why}"))
    };
    sequence.reverse();
    again("backwards", &sequence)?;
    random.shuffle(&mut sequence);
    again("shuffled", &sequence)?;
    for parts in cut(random, &forms) {
        let name = format!("in {} parts", parts.len());
        let (together, memory) = in_parts(implementation, batch, parts)?;
        same(&format!("{name}: report"), together == sums)?;
        let whole = last(forms.len().checked_sub(1).as_ref());
        same(&format!("{name}: memory"), memory == *whole)?;
    }
    Ok(())
}

/// Tries a batch. The error says what differs.
pub fn try_batch(
    implementation: &Implementation,
    random: &mut Random,
    batch: &Call,
    tally: &mut Batches,
) -> Result<(), String> {
    let answer = judged(implementation, batch);
    let counted = match answer {
        0 if batch.numbers[2] == 0 => &mut tally.of_no_form,
        0 if batch.numbers[2] > 1 => &mut tally.in_parts,
        0 => &mut tally.run,
        OUTSIDE => &mut tally.outside,
        SHORT => &mut tally.too_short,
        _ => &mut tally.not_a_machine,
    };
    *counted += 1;
    if answer == 0 {
        return try_accepted(implementation, random, batch);
    }
    let refused = perform(implementation, batch);
    same("a margin", refused.margins_kept)?;
    same("answer", refused.answer == answer)?;
    same("a refusal that writes", refused.lent == *batch)
}
