//! Modules loaded together (document 02, (d)): a set answers what single loads of its modules say, and
//! leaves the memory that they leave, in whatever sequence they and the set's modules come.

use crate::call::{perform, Call, Entry, Implementation};
use crate::firsts::same;
use crate::random::Random;

/// What became of the sets.
#[derive(Default, Debug)]
pub struct Sets {
    pub loaded: u32,
    pub not_alone: u32,
    pub not_together: u32,
    pub without_room: u32,
}

const HEADER: u32 = -2_i32 as u32;
const MODULE_SET: u32 = -4113_i32 as u32;
const SHORT_OUTPUT: u32 = -4105_i32 as u32;

/// A module's address and its cells.
pub type Span = (u32, u32);

/// The load of a set's module by itself, into this memory. A part that reaches outside the buffer has no
/// byte, so that -2 comes for it.
pub fn alone(set: &Call, numbers: &[u32], memory: &[u8]) -> Call {
    let (place, length) = (numbers[1] as usize, numbers[2] as usize);
    let part = set.file.get(place..place.saturating_add(length));
    let mut load = Call::new(Entry::Load);
    (load.order, load.numbers[0]) = (set.order, numbers[0]);
    load.memory = memory.to_vec();
    load.file = part.unwrap_or_default().to_vec();
    load.out = vec![0xC3C3_C3C3];
    load
}

/// The memory after single loads, one after another, and where their cells went.
struct Singly {
    memory: Vec<u8>,
    spans: Vec<Span>,
}

/// The set's modules loaded singly, in its order, or the first refusal.
fn singly(implementation: &Implementation, set: &Call) -> Result<Singly, u32> {
    let mut singly = Singly {
        memory: set.memory.clone(),
        spans: Vec::new(),
    };
    for numbers in set.modules.chunks_exact(3) {
        let load = alone(set, numbers, &singly.memory);
        let one = perform(implementation, &load);
        if one.answer != 0 {
            return Err(one.answer);
        }
        singly.memory = one.lent.memory;
        singly.spans.push((numbers[0], one.lent.out[0]));
    }
    Ok(singly)
}

/// Whether no two share a byte: of those with cells, each begins where the one below it has ended.
pub fn at_once(spans: &[Span]) -> bool {
    let mut full = spans.to_vec();
    full.retain(|(_, cells)| *cells > 0);
    full.sort();
    let ends = full.iter().map(|(first, cells)| first + 4 * cells);
    let next = full.iter().skip(1).map(|(first, _)| *first);
    ends.zip(next).all(|(end, next)| end <= next)
}

/// What the set has to come to, by its single loads.
fn expected(implementation: &Implementation, set: &Call) -> Result<Singly, u32> {
    let no_file = perform(implementation, &alone(set, &[0; 3], &set.memory));
    if no_file.answer != HEADER {
        return Err(no_file.answer);
    }
    let singly = singly(implementation, set)?;
    let is_set = set.modules.len().is_multiple_of(3) && (1..=16).contains(&singly.spans.len());
    if !is_set || !at_once(&singly.spans) {
        return Err(MODULE_SET);
    }
    match set.out.len() {
        0 => Err(SHORT_OUTPUT),
        _ => Ok(singly),
    }
}

/// The same set in another sequence; what is left over stays where it is.
fn in_sequence(set: &Call, arrange: impl FnOnce(&mut Vec<&[u32]>)) -> Call {
    let whole = set.modules.chunks_exact(3);
    let left_over = whole.remainder();
    let mut modules: Vec<&[u32]> = whole.collect();
    arrange(&mut modules);
    let mut other = set.clone();
    other.modules = [&modules.concat(), left_over].concat();
    other
}

/// The set comes to what its single loads come to; which number it answers.
fn try_sequence(implementation: &Implementation, set: &Call) -> Result<(u32, Vec<u8>), String> {
    let expected = expected(implementation, set);
    let together = perform(implementation, set);
    same("a margin", together.margins_kept)?;
    let answer = expected.as_ref().err().copied().unwrap_or_default();
    same("answer", together.answer == answer)?;
    let mut left = set.clone();
    if let Ok(singly) = expected {
        for (first, cells) in &singly.spans {
            let cells = *first as usize..(first + 4 * cells) as usize;
            left.memory[cells.clone()].copy_from_slice(&together.lent.memory[cells]);
        }
        left.out[0] = singly.spans.iter().map(|(_, cells)| cells).sum();
        same(
            "the memory of single loads",
            together.lent.memory == singly.memory,
        )?;
    }
    same("what is not to be written", together.lent == left)?;
    Ok((answer, together.lent.memory))
}

/// Tries a set, backwards and shuffled too. The error says what differs.
pub fn try_set(
    implementation: &Implementation,
    random: &mut Random,
    set: &Call,
    tally: &mut Sets,
) -> Result<(), String> {
    let (answer, memory) = try_sequence(implementation, set)?;
    let counted = match answer {
        0 => &mut tally.loaded,
        MODULE_SET => &mut tally.not_together,
        SHORT_OUTPUT => &mut tally.without_room,
        _ => &mut tally.not_alone,
    };
    *counted += 1;
    let backwards = in_sequence(set, |modules| modules.reverse());
    let shuffled = in_sequence(set, |modules| random.shuffle(modules));
    for (name, other) in [("backwards", backwards), ("shuffled", shuffled)] {
        let tried = try_sequence(implementation, &other);
        let (number, left) = tried.map_err(|why| format!("{name}: {why}"))?;
        if [0, MODULE_SET, SHORT_OUTPUT].contains(&answer) {
            let alike = number == answer && left == memory;
            same(&format!("{name}: not as in its sequence"), alike)?;
        }
    }
    Ok(())
}
