//! What the cases reach of modules loaded together: the situations that a set is in, told from its
//! numbers and from single loads by the reference.

use crate::call::{perform, reference, Call};
use crate::cases::sets;
use crate::random::Random;
use crate::reach::Tally;
use crate::sets::{alone, at_once, Span};

/// A set with the answer of each of its modules by itself.
struct Set<'c> {
    call: &'c Call,
    answer: i32,
    alone: Vec<i32>,
    spans: Vec<Span>,
}

impl<'c> Set<'c> {
    fn of(call: &'c Call) -> Self {
        let answer = perform(&reference(), call).answer as i32;
        let mut set = Set {
            call,
            answer,
            alone: Vec::new(),
            spans: Vec::new(),
        };
        for numbers in call.modules.chunks_exact(3) {
            let load = perform(&reference(), &alone(call, numbers, &call.memory));
            set.alone.push(load.answer as i32);
            if load.answer == 0 {
                set.spans.push((numbers[0], load.lent.out[0]));
            }
        }
        set
    }

    /// Whether any two modules that pass by themselves are so.
    fn any_two(&self, are_so: impl Fn(Span, Span) -> bool) -> bool {
        let spans = self.spans.iter().enumerate();
        spans.into_iter().any(|(at, one)| {
            let others = self.spans[..at].iter().chain(&self.spans[at + 1..]);
            others.into_iter().any(|other| are_so(*one, *other))
        })
    }

    /// Whether any two modules of the numbers' list are so in the buffer, by place and length.
    fn in_buffer(&self, are_so: impl Fn([u64; 2], [u64; 2]) -> bool) -> bool {
        let parts = self.call.modules.chunks_exact(3);
        let parts: Vec<[u64; 2]> = parts.map(|m| [m[1].into(), m[2].into()]).collect();
        let pairs = (0..parts.len()).flat_map(|a| (0..a).map(move |b| (a, b)));
        pairs.into_iter().any(|(a, b)| are_so(parts[a], parts[b]))
    }

    /// Whether a module reaches so many bytes past the buffer's end.
    fn passes_by(&self, bytes: i64) -> bool {
        let mut parts = self.call.modules.chunks_exact(3);
        let end = self.call.file.len() as i64;
        parts.any(|m| i64::from(m[1]) + i64::from(m[2]) == end + bytes)
    }

    /// Whether a sum of place and length is good only once 2^32 is taken from it.
    fn wraps(&self) -> bool {
        let mut parts = self.call.modules.chunks_exact(3);
        let end = self.call.file.len();
        parts.any(|m| m[1].checked_add(m[2]).is_none() && m[1].wrapping_add(m[2]) as usize <= end)
    }

    /// The situations of a set that goes in.
    fn of_good(&self) -> Vec<(&'static str, bool)> {
        let modules = self.spans.len();
        let has_empty = self.spans.iter().any(|(_, cells)| *cells == 0);
        let inside = |(a, l): Span, (b, m): Span| m == 0 && a < b && b < a + 4 * l;
        let at_first = |(a, l): Span, (b, m): Span| m == 0 && l > 0 && a == b;
        let end_to_end = |(a, l): Span, (b, m): Span| l > 0 && m > 0 && a + 4 * l == b;
        let over = |a: [u64; 2], b: [u64; 2]| a[0] < b[0] + b[1] && b[0] < a[0] + a[1];
        let memory = self.call.memory.len() as u32;
        let mut ends = self.spans.iter().map(|(a, l)| a + 4 * l);
        let falling = self.spans.windows(2).any(|two| two[0].0 > two[1].0);
        vec![
            ("one module", modules == 1),
            ("sixteen modules", modules == 16),
            ("no cells at all", self.spans.iter().all(|(_, l)| *l == 0)),
            ("an empty module", has_empty),
            ("an empty module inside another", self.any_two(inside)),
            ("an empty module at a first cell", self.any_two(at_first)),
            ("end to end", self.any_two(end_to_end)),
            ("up to MEMORY", ends.any(|end| end == memory)),
            ("addresses that fall", falling),
            ("the same bytes twice", self.in_buffer(|a, b| a == b)),
            (
                "over one another in the buffer",
                self.in_buffer(|a, b| a != b && over(a, b)),
            ),
            ("up to the buffer's end", self.passes_by(0)),
        ]
    }

    /// Whether each module passes by itself.
    fn passes(&self) -> bool {
        self.alone.iter().all(|answer| *answer == 0)
    }

    /// The situations of a refused set that are of shared bytes.
    fn of_shared(&self) -> Vec<(&'static str, bool)> {
        let numbers = self.call.modules.len();
        let shares = !at_once(&self.spans);
        let alone = shares && self.passes() && numbers.is_multiple_of(3) && numbers <= 48;
        let one_cell = |(a, l): Span, (b, m): Span| l > 0 && m > 0 && a + 4 * l == b + 4;
        let last_is_bad = self.alone.last().is_some_and(|answer| *answer != 0);
        vec![
            ("shared bytes", alone),
            ("one cell shared", alone && self.any_two(one_cell)),
            (
                "shared bytes, and no room",
                alone && self.call.out.is_empty(),
            ),
            ("shared bytes, and a bad module", shares && last_is_bad),
        ]
    }

    /// The situations of a refused set that are of its numbers and of its modules by themselves.
    fn of_bad(&self) -> Vec<(&'static str, bool)> {
        let modules = self.alone.len();
        let left_over = self.call.modules.len() % 3;
        let pass = self.passes();
        let bad = |answer: &&i32| **answer != 0;
        let first_bad = self.alone.iter().position(|answer| *answer != 0);
        vec![
            ("no module", modules == 0 && left_over == 0),
            ("seventeen modules", modules == 17 && pass),
            ("a bad one beyond sixteen", first_bad >= Some(16)),
            ("3n + 1 numbers", left_over == 1 && modules > 0 && pass),
            ("3n + 2 numbers", left_over == 2 && modules > 0 && pass),
            ("fewer than three numbers", left_over > 0 && modules == 0),
            ("left over, and a bad module", left_over > 0 && !pass),
            (
                "a bad module, and no room",
                !pass && self.call.out.is_empty(),
            ),
            ("a byte past the buffer", self.passes_by(1)),
            ("a sum past 2^32", self.wraps()),
            ("two bad modules", self.alone.iter().filter(bad).count() > 1),
        ]
    }
}

/// How often each situation came up among so many sets drawn at random.
pub fn tally(seed: u64, cases: u32) -> Tally {
    let mut random = Random::new(seed);
    let mut tally = Tally::new();
    for index in 0..cases {
        let call = sets::load_set(&mut random, index);
        let set = Set::of(&call);
        let situations = match set.answer {
            0 => set.of_good(),
            -4101 | -4102 => Vec::new(),
            _ => [set.of_bad(), set.of_shared()].concat(),
        };
        for (name, is_so) in situations {
            *tally.entry(name).or_default() += u32::from(is_so);
        }
    }
    tally
}
