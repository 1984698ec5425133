//! What the cases reach of batches: the situations that a batch is in, told from its numbers and from
//! single runs by the reference.

use crate::batches::{alone, forms_of, Single};
use crate::call::{perform, reference, Call};
use crate::cases::{batches, cell_in};
use crate::random::Random;
use crate::reach::Tally;
use crate::reference::stacks::Areas;
use crate::reference::tables::Table;

/// A name, and whether it is so.
type Situation = (&'static str, bool);

const M258: u32 = -258_i32 as u32;
const M259: u32 = -259_i32 as u32;

/// A batch that is run, with the runs of its forms.
struct Run<'c> {
    call: &'c Call,
    forms: Vec<&'c [u8]>,
    singles: Vec<Single>,
}

impl<'c> Run<'c> {
    fn of(call: &'c Call) -> Self {
        let forms = forms_of(call);
        let single = |form: &&[u8]| alone(&reference(), call, form, call.numbers[3]);
        let singles = forms.iter().map(single).collect();
        Run {
            call,
            forms,
            singles,
        }
    }

    /// Whether any form's run is so.
    fn any(&self, is_so: impl Fn(&Single) -> bool) -> bool {
        self.singles.iter().any(is_so)
    }

    /// Whether a run stopped with this reason, and the reason lies where HALT took it from, or not.
    fn stops(&self, reason: u32, by_halt: bool) -> bool {
        self.any(|single| {
            let top = single.sp.wrapping_sub(4);
            let popped = cell_in(&single.memory, self.call.order, top) == reason;
            (single.answer, single.reason) == (1, reason) && popped == by_halt
        })
    }

    /// The bytes from the address on up to a form's end.
    fn covers(&self, place: u32) -> bool {
        let [address, length, ..] = self.call.numbers;
        (address..address + length).contains(&place)
    }

    /// How many forms, and of which bytes.
    fn of_forms(&self) -> Vec<Situation> {
        let [address, length, count, _] = self.call.numbers;
        let memory = self.call.start.len() as u32;
        let lent = self.call.file.len() as u32;
        let [ep, _, sp, ..] = self.call.registers[..] else {
            return Vec::new();
        };
        vec![
            ("no form", count == 0),
            ("no form, and bytes lent", count == 0 && lent > 0),
            ("one form", count == 1),
            ("over 255 forms", count > 255),
            ("forms of no byte", length == 0 && count > 0),
            ("forms of no byte at MEMORY", address == memory && count > 0),
            ("forms of one byte", length == 1),
            ("forms of whole cells", length > 0 && length % 4 == 0),
            ("forms of an odd length", length > 1 && length % 2 == 1),
            ("an unaligned address", address % 4 > 0 && length > 0),
            ("forms over 'THROW", self.covers(0)),
            ("forms over code", self.covers(ep.wrapping_sub(address % 4))),
            ("forms over the stack", self.covers(sp)),
            (
                "forms up to MEMORY",
                length > 0 && address + length == memory,
            ),
            ("forms that are all of memory", length == memory),
            ("just the forms' bytes", lent > 0 && lent == count * length),
            ("bytes behind the forms", count > 0 && lent > count * length),
        ]
    }

    /// How the runs end.
    fn of_ends(&self) -> Vec<Situation> {
        let named = [0, M258, M259];
        let ways: [&dyn Fn(&Single) -> bool; 5] = [
            &|single| single.answer == 0,
            &|single| (single.answer, single.reason) == (1, 0),
            &|single| (single.answer, single.reason) == (1, M258),
            &|single| (single.answer, single.reason) == (1, M259),
            &|single| single.answer == 1 && !named.contains(&single.reason),
        ];
        let came = ways.iter().filter(|way| self.any(way)).count();
        vec![
            ("stopped with 0", self.any(ways[1])),
            ("-258 by the machine", self.stops(M258, false)),
            ("-258 by HALT", self.stops(M258, true)),
            ("-259 by the machine", self.stops(M259, false)),
            ("-259 by HALT", self.stops(M259, true)),
            ("another reason", self.any(ways[4])),
            ("spent", self.any(ways[0])),
            ("spent at once", self.call.numbers[3] == 0 && came > 0),
            ("a budget above 2^31", self.call.numbers[3] >> 31 == 1),
            ("every way to end", came == 5),
            ("three ways to end", came >= 3),
        ]
    }

    /// What the cycles come to.
    fn of_cycles(&self) -> Vec<Situation> {
        let cycles = || self.singles.iter().map(|single| single.cycles);
        let (sum, forms) = (cycles().sum::<u32>(), self.forms.len() as u32);
        let largest = cycles().max().unwrap_or_default();
        let last = cycles().next_back().unwrap_or_default();
        let first = cycles().next().unwrap_or_default();
        let in_stop = |single: &Single| single.answer == 1 && single.cycles == largest;
        let differ = cycles().any(|one| one < largest);
        vec![
            ("the largest inside", largest > last.max(first)),
            ("the largest by a stop", differ && self.any(in_stop)),
            ("a remainder", forms > 0 && sum % forms > 0),
            ("no remainder", forms > 1 && sum > 0 && sum % forms == 0),
        ]
    }

    /// What the runs leave behind.
    fn of_memory(&self) -> Vec<Situation> {
        let [address, length, ..] = self.call.numbers.map(|number| number as usize);
        let altered = |(single, form): (&Single, &&[u8])| {
            let left = &single.memory[address..address + length];
            left != *form
        };
        let beside = |single: &Single| {
            let start = &self.call.start;
            single.memory[..address] != start[..address]
                || single.memory[address + length..] != start[address + length..]
        };
        let pairs = self.singles.iter().zip(&self.forms);
        let last = self.singles.last();
        let first = self.singles.first();
        let differ = first.zip(last).is_some_and(|(a, b)| a.memory != b.memory);
        vec![
            ("a form that its run alters", pairs.into_iter().any(altered)),
            ("a run that alters what lies beside", self.any(beside)),
            ("the last form leaves another memory", differ),
            ("one after another: another report", self.goes_over()),
            (
                "memory lent as start is",
                self.call.memory == self.call.start,
            ),
            ("memory lent otherwise", self.call.memory != self.call.start),
        ]
    }

    /// Whether the second form's run would end in another way in the memory that the first one left.
    fn goes_over(&self) -> bool {
        let ([first, second, ..], [_, form, ..]) = (&self.singles[..], &self.forms[..]) else {
            return false;
        };
        let mut call = self.call.clone();
        call.start = first.memory.clone();
        let budget = call.numbers[3].min(2_000);
        let over = alone(&reference(), &call, form, budget);
        over.end() != second.end() && second.cycles <= budget
    }

    fn situations(&self) -> Vec<Situation> {
        let areas = self.call.registers[4..8] != [0; 4];
        let given = [
            ("with areas", areas),
            ("with a table", self.call.table != [0; 2]),
        ];
        let [forms, ends] = [self.of_forms(), self.of_ends()];
        let [cycles, memory] = [self.of_cycles(), self.of_memory()];
        [forms, ends, cycles, memory, given.to_vec()].concat()
    }
}

/// What is wrong with a batch, in the order in which it is judged.
struct Wrong<'c> {
    call: &'c Call,
    /// -4101, -4102, -4111, -4112, -1, -4105.
    faults: [bool; 6],
}

/// The refusals two by two: the first is answered.
const PAIRS: [(&str, usize, usize); 15] = [
    ("-4101, and -4102", 0, 1),
    ("-4101, and -4111", 0, 2),
    ("-4101, and -4112", 0, 3),
    ("-4101, and -1", 0, 4),
    ("-4101, and -4105", 0, 5),
    ("-4102, and -4111", 1, 2),
    ("-4102, and -4112", 1, 3),
    ("-4102, and -1", 1, 4),
    ("-4102, and -4105", 1, 5),
    ("-4111, and -4112", 2, 3),
    ("-4111, and -1", 2, 4),
    ("-4111, and -4105", 2, 5),
    ("-4112, and -1", 3, 4),
    ("-4112, and -4105", 3, 5),
    ("-1, and -4105", 4, 5),
];

/// Each refusal with nothing else wrong.
const ALONE: [&str; 6] = [
    "-4101 alone",
    "-4102 alone",
    "-4111 alone",
    "-4112 alone",
    "-1 alone",
    "-4105 alone",
];

fn is_memory(length: usize) -> bool {
    (1024..=16_777_216).contains(&length) && length.is_multiple_of(4)
}

impl<'c> Wrong<'c> {
    fn of(call: &'c Call) -> Self {
        let length = call.start.len();
        let areas = call.registers[4..8].try_into().expect("four numbers");
        let [address, form, count, _] = call.numbers.map(u64::from);
        let short = (call.file.len() as u64) < count * form || call.out.len() < 11;
        let faults = [
            !is_memory(length) || call.memory.len() != length,
            call.order > 1,
            Areas::accept(areas, length as u32).is_err(),
            Table::accept(call.table, length as u32).is_err(),
            address + form > length as u64,
            short,
        ];
        Wrong { call, faults }
    }

    /// Which lengths of memory are refused.
    fn of_lengths(&self) -> Vec<Situation> {
        let [start, memory] = [self.call.start.len(), self.call.memory.len()];
        let good = [start, memory].map(is_memory);
        vec![
            ("start's length alone", good == [false, true]),
            ("memory's length alone", good == [true, false]),
            ("both lengths alike", good == [false; 2] && start == memory),
            (
                "a good memory too long",
                good == [true; 2] && memory > start,
            ),
            (
                "a good memory too short",
                good == [true; 2] && memory < start,
            ),
        ]
    }

    /// Which places and buffers are refused.
    fn of_forms(&self) -> Vec<Situation> {
        let [address, form, count, _] = self.call.numbers.map(u64::from);
        let length = self.call.start.len() as u64;
        let end = address + form;
        let outside = self.is_first(4);
        let (lent, out) = (self.call.file.len() as u64, self.call.out.len());
        let short = self.is_first(5);
        let bytes = lent < count * form;
        vec![
            ("a byte past MEMORY", outside && end == length + 1),
            ("outside, and no form", outside && count == 0),
            ("no byte, past MEMORY", outside && form == 0),
            (
                "a sum past 2^32",
                outside && end >> 32 == 1 && end % (1 << 32) <= length,
            ),
            ("a byte short", short && lent + 1 == count * form),
            ("a form short", short && lent + form == count * form),
            ("ten places in out", short && out == 10 && !bytes),
            ("no place in out", short && out == 0 && !bytes),
            ("few places, and no form", short && count == 0),
            ("bytes and places short", short && out < 11 && bytes),
        ]
    }

    /// Whether this one of the refusals is answered.
    fn is_first(&self, number: usize) -> bool {
        self.faults.iter().position(|fault| *fault) == Some(number)
    }

    fn situations(&self) -> Vec<Situation> {
        let pair = |(name, first, then): (&'static str, usize, usize)| {
            (name, self.is_first(first) && self.faults[then])
        };
        let wrong = self.faults.iter().filter(|fault| **fault).count();
        let alone = (0..6).map(|number| (ALONE[number], wrong == 1 && self.faults[number]));
        let pairs = PAIRS.into_iter().map(pair);
        let mut situations: Vec<Situation> = pairs.chain(alone).collect();
        situations.extend(self.of_lengths());
        situations.extend(self.of_forms());
        situations
    }
}

/// How often each situation came up among so many batches drawn at random.
pub fn tally(seed: u64, cases: u32) -> Tally {
    let mut random = Random::new(seed);
    let mut tally = Tally::new();
    for index in 0..cases {
        let call = batches::batch(&mut random, index);
        let situations = match perform(&reference(), &call).answer {
            0 => Run::of(&call).situations(),
            _ => Wrong::of(&call).situations(),
        };
        for (name, is_so) in situations {
            *tally.entry(name).or_default() += u32::from(is_so);
        }
    }
    tally
}
