//! A run of the list machine cut in two: what is taken up at the item reached is the whole run, with
//! items and cycles added.

use crate::call::{perform, Call, Entry, Implementation, Returned};
use crate::demand3::cycles_of;

/// The run of a rule, of so many items.
fn run(implementation: &Implementation, rule: &Call, items: u32) -> Returned {
    let mut call = rule.clone();
    call.numbers[1] = items;
    perform(implementation, &call)
}

/// Whether the item reached was run on into and opens a cell: it then counts two cycles.
fn counts_two(implementation: &Implementation, rule: &Call, first: &Returned, at: u32) -> bool {
    let more = run(implementation, rule, at.saturating_add(1));
    cycles_of(&more) == cycles_of(first) + 2
}

/// The run taken up where the first part left it.
fn resumed(rule: &Call, first: &Returned, ran: bool, items: u32) -> Call {
    let mut call = first.lent.clone();
    call.entry = Entry::ListResume;
    call.numbers = [rule.numbers[0], items, first.lent.out[1], u32::from(ran)];
    call
}

/// Cuts a rule after `at` items; whether there was something to cut. The error says what differs.
pub fn cut(implementation: &Implementation, rule: &Call, at: u32) -> Result<bool, String> {
    let asked = rule.numbers[1];
    let at = at.min(asked);
    let whole = run(implementation, rule, asked);
    let first = run(implementation, rule, at);
    if first.answer != 0 {
        let same = first.answer == whole.answer && first.lent.out == whole.lent.out;
        return if same {
            Ok(false)
        } else {
            Err("a stop is not final".to_string())
        };
    }
    let ran = counts_two(implementation, rule, &first, at);
    let second = perform(implementation, &resumed(rule, &first, ran, asked - at));
    let (w, f, s) = (&whole.lent.out, &first.lent.out, &second.lent.out);
    if second.answer != whole.answer || s[..2] != w[..2] {
        return Err(format!(
            "answers {} and {}",
            second.answer as i32, whole.answer as i32
        ));
    }
    if f[2] + s[2] != w[2] || cycles_of(&first) + cycles_of(&second) != cycles_of(&whole) {
        return Err("items and cycles do not add up".to_string());
    }
    if second.lent.memory != whole.lent.memory || second.lent.registers != whole.lent.registers {
        return Err("memory, SP or RP".to_string());
    }
    Ok(true)
}
