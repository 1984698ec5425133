//! Demand 3 of document 01 on an implementation: a packed rule runs as its listing reads.

use crate::call::{perform, Call, Entry, Implementation, Returned};
use crate::cases::order_of;
use crate::cases::rules::put_image;

/// The rule with its image, as the implementation packs it, in memory; none if it is refused or
/// not whole inside memory.
fn with_image(implementation: &Implementation, rule: &Call) -> Option<Call> {
    let mut pack = Call::new(Entry::Pack);
    pack.order = rule.order;
    pack.numbers[0] = rule.numbers[0];
    pack.kinds = rule.kinds.clone();
    pack.operands = rule.operands.clone();
    pack.output = vec![0; 8 * rule.kinds.len()];
    pack.out = vec![0];
    let packed = perform(implementation, &pack);
    if packed.answer != 0 {
        return None;
    }
    let bytes = 4 * packed.lent.out[0] as usize;
    let mut rule = rule.clone();
    rule.out = vec![0; 5];
    put_image(&mut rule, &packed.lent.output[..bytes]).then_some(rule)
}

/// The processor once it has fetched the cell at the base.
fn processor_at_base(rule: &Call) -> Call {
    let base = rule.numbers[0];
    let at = base as usize;
    let cell = &rule.memory[at..at + 4];
    let a = order_of(rule.order).cell_of([cell[0], cell[1], cell[2], cell[3]]);
    let mut call = Call::new(Entry::Run);
    call.order = rule.order;
    call.table = rule.table;
    call.memory = rule.memory.clone();
    call.registers = vec![base + 4, a];
    call.registers.extend(&rule.registers);
    call.out = vec![0; 2];
    call
}

/// The cycles that a run of the list machine counted.
pub fn cycles_of(list: &Returned) -> u64 {
    u64::from(list.lent.out[3]) | u64::from(list.lent.out[4]) << 32
}

/// Why the two differ, if they do. The processor was given exactly the cycles counted.
fn difference(list: &Returned, processor: &Returned) -> Option<String> {
    let (l, p) = (&list.lent, &processor.lent);
    let all_done = l.out[2] == l.numbers[1];
    if list.answer > 2 || (list.answer == 0) && !all_done || (list.answer == 2) && all_done {
        return Some(format!(
            "list machine answers {}, {} items done",
            list.answer as i32, l.out[2]
        ));
    }
    let stopped = u32::from(list.answer == 1);
    if processor.answer != stopped {
        return Some(format!(
            "list machine answers {}, processor {}",
            list.answer as i32, processor.answer as i32
        ));
    }
    let reason = if list.answer == 2 { 0 } else { l.out[0] };
    if reason != p.out[0] || (list.answer == 2) && !(1..=4).contains(&l.out[0]) {
        return Some(format!("reasons {:X}h and {:X}h", l.out[0], p.out[0]));
    }
    if u64::from(p.out[1]) != cycles_of(list) {
        return Some(format!("cycles {} and {}", cycles_of(list), p.out[1]));
    }
    if l.registers[..] != p.registers[2..] {
        return Some(format!(
            "SP, RP and areas {:X?} and {:X?}",
            l.registers,
            &p.registers[2..]
        ));
    }
    let at = (0..l.memory.len()).find(|at| l.memory[*at] != p.memory[*at])?;
    Some(format!("memory from {at:X}h on"))
}

/// How far a rule was followed.
#[derive(Clone, Copy, Default)]
pub struct Followed {
    pub items: u32,
    pub stopped: bool,
    pub outside: bool,
}

/// After `items` items: the list machine from item 0 against the processor from the base.
fn after(implementation: &Implementation, rule: &Call, items: u32) -> (Returned, Option<String>) {
    let mut list = rule.clone();
    list.numbers[1] = items;
    let list = perform(implementation, &list);
    let mut run = processor_at_base(rule);
    run.numbers[0] = cycles_of(&list) as u32;
    let processor = perform(implementation, &run);
    let why = difference(&list, &processor);
    (list, why)
}

/// Item by item up to this number, then at once for the rule's own number.
const ITEM_BY_ITEM: u32 = 40;

/// Follows a rule; the error says after how many items the two differ, and in what.
pub fn follow(implementation: &Implementation, rule: &Call) -> Result<Followed, String> {
    let Some(rule) = with_image(implementation, rule) else {
        return Ok(Followed::default());
    };
    let asked = rule.numbers[1];
    let mut counted = 0;
    for items in (0..=asked.min(ITEM_BY_ITEM)).chain([asked]) {
        let (list, why) = after(implementation, &rule, items);
        let done = list.lent.out[2];
        if let Some(why) = why {
            return Err(format!("after {done} items: {why}"));
        }
        let cycles = cycles_of(&list);
        let by_one = (1..=ITEM_BY_ITEM).contains(&items) && done == items;
        if by_one && !(counted + 1..=counted + 2).contains(&cycles) {
            return Err(format!("{items} items count {cycles}, one less {counted}"));
        }
        counted = cycles;
        if list.answer != 0 || items == asked {
            return Ok(Followed {
                items: done,
                stopped: list.answer == 1,
                outside: list.answer == 2,
            });
        }
    }
    Ok(Followed::default())
}
