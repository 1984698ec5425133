//! Budgets that can be cut (document 02, (m)): a spent run carried on is the run of both budgets in
//! one, and a run that is not spent is the same under a larger budget.

use crate::call::{perform, Call, Implementation, Returned};
use crate::cases::processor::{budget, close_budget};
use crate::random::Random;

/// What became of the runs.
#[derive(Default, Debug)]
pub struct Budgets {
    pub spent_twice: u32,
    pub stopped_later: u32,
    pub stopped_at_once: u32,
    pub refused: u32,
    pub with_table: u32,
}

/// The same run with another budget.
fn with_budget(run: &Call, budget: u32) -> Call {
    let mut run = run.clone();
    run.numbers[0] = budget;
    run
}

/// The most cycles to run where it is not known that the run stops.
const MOST: u32 = 40_000;

/// How many cycles to carry a spent run on for, often about as many as it takes to a stop.
fn cycles_more(random: &mut Random, left: &Call) -> u32 {
    let mut call = with_budget(left, budget(random));
    if random.one_in(2) {
        close_budget(random, &mut call);
    }
    call.numbers[0].min(MOST)
}

/// A spent run carried on for so many cycles, against the run of both budgets; the second part.
fn carry_on(
    implementation: &Implementation,
    run: &Call,
    first: &Returned,
    more: u32,
) -> Result<Returned, String> {
    let before = run.numbers[0];
    let mut second = perform(implementation, &with_budget(&first.lent, more));
    second.lent.out[1] = second.lent.out[1].wrapping_add(before);
    let whole = perform(implementation, &with_budget(run, before + more));
    difference(format!("carried on for {more}"), &whole, &second)?;
    Ok(second)
}

/// A run that is not spent, against the same with so much more budget.
fn raise(
    implementation: &Implementation,
    run: &Call,
    first: &Returned,
    more: u32,
) -> Result<(), String> {
    let larger = with_budget(run, run.numbers[0].saturating_add(more));
    let how = format!("budget {}", larger.numbers[0]);
    difference(how, first, &perform(implementation, &larger))
}

/// What differs between two returns of the same run, the budgets aside; `how` says what was tried.
fn difference(how: String, one: &Returned, other: &Returned) -> Result<(), String> {
    let (a, b) = (&one.lent, &other.lent);
    let parts = [
        ("answer", one.answer == other.answer),
        ("memory", a.memory == b.memory),
        ("registers", a.registers == b.registers),
        ("reason or count", a.out == b.out),
        ("a margin", one.margins_kept && other.margins_kept),
    ];
    match parts.iter().find(|(_, same)| !same) {
        Some((part, _)) => Err(format!("{how}: {part}")),
        None => Ok(()),
    }
}

/// Tries a run: cut if its budget is spent, with a larger budget if not. The error says what differs.
/// Large budgets come last: what breaks a claim is found before it can run on for long.
pub fn try_run(
    implementation: &Implementation,
    random: &mut Random,
    run: &Call,
    tally: &mut Budgets,
) -> Result<(), String> {
    let before = run.numbers[0].min(MOST);
    let run = &with_budget(run, before);
    let first = perform(implementation, run);
    tally.with_table += u32::from(run.table != [0; 2]);
    if first.answer != 0 {
        tally.stopped_at_once += u32::from(first.answer == 1);
        tally.refused += u32::from(first.answer != 1);
        raise(implementation, run, &first, 1 + budget(random))?;
        return raise(implementation, run, &first, u32::MAX);
    }
    let more = cycles_more(random, &first.lent);
    let second = carry_on(implementation, run, &first, more)?;
    tally.spent_twice += u32::from(second.answer == 0);
    tally.stopped_later += u32::from(second.answer == 1);
    if second.answer == 1 && random.one_in(4) {
        let next = with_budget(&first.lent, more);
        let stopped = perform(implementation, &next);
        raise(implementation, &next, &stopped, 1 + budget(random))?;
        carry_on(implementation, run, &first, u32::MAX - before)?;
    }
    Ok(())
}
