//! Makes a call that shows a difference smaller, and prints it.

use crate::call::{Call, Returned};
use crate::files::{closed, opened};
use crate::reference::listing::{kind_of, Kind};
use crate::smaller_batches::{with_shorter_forms, without_forms};
use crate::smaller_sets::{lower_addresses, with_cell_less, without_bytes, without_module};

/// Searches for a smaller call that still shows the difference.
pub struct Shrinking<'d> {
    best: Call,
    differs: &'d dyn Fn(&Call) -> bool,
    tries: usize,
}

/// The smallest call found that still shows the difference. A listing file or an image is opened, where
/// it can be, so that items go out of it.
pub fn smallest(call: &Call, differs: &dyn Fn(&Call) -> bool) -> Call {
    let open = opened(call).filter(|open| differs(&closed(open.clone())));
    let Some(open) = open else {
        return shrunk(call, differs);
    };
    let small = shrunk(&open, &|open| differs(&closed(open.clone())));
    closed(small)
}

fn shrunk(call: &Call, differs: &dyn Fn(&Call) -> bool) -> Call {
    let runs = 1 + call.numbers[2] as usize;
    let size = call.memory.len() + runs * call.start.len() + 20 * call.kinds.len() + 4096;
    let mut shrinking = Shrinking {
        best: call.clone(),
        differs,
        tries: 400_000_000 / size / 4 + 100,
    };
    loop {
        let before = shrinking.best.clone();
        shrinking.shorten_listing();
        shrinking.shorten_set();
        shrinking.shorten_batch();
        shrinking.shorten_memory();
        shrinking.shorten_file();
        shrinking.lower_areas();
        shrinking.lower_table();
        shrinking.lower_numbers();
        shrinking.zero_bytes(|call| &mut call.start);
        shrinking.zero_bytes(|call| &mut call.memory);
        shrinking.zero_bytes(|call| &mut call.file);
        shrinking.zero_bytes(|call| &mut call.output);
        if shrinking.best == before || shrinking.tries == 0 {
            return shrinking.best;
        }
    }
}

/// Sizes of pieces: half, a quarter, and so on down to 1.
fn pieces(length: usize) -> impl Iterator<Item = usize> {
    std::iter::successors(Some(length / 2), |size| Some(size / 2)).take_while(|size| *size > 0)
}

/// The listing without `size` items from `start` on; branches keep their targets.
fn without(call: &Call, start: usize, size: usize) -> Call {
    let mut call = call.clone();
    call.kinds.drain(start..start + size);
    call.operands.drain(start..start + size);
    let last = call.kinds.len().saturating_sub(1) as u32;
    let (start, size) = (start as u32, size as u32);
    for (kind, operand) in call.kinds.iter().zip(&mut call.operands) {
        if kind_of(*kind) == Some(Kind::Branch) && *operand > start {
            *operand = (*operand - size.min(*operand - start)).min(last);
        }
    }
    call
}

impl Shrinking<'_> {
    /// Keeps the candidate if it still shows the difference.
    fn attempt(&mut self, candidate: Call) -> bool {
        if self.tries == 0 || candidate == self.best {
            return false;
        }
        self.tries -= 1;
        let kept = (self.differs)(&candidate);
        if kept {
            self.best = candidate;
        }
        kept
    }

    fn attempt_with(&mut self, edit: impl FnOnce(&mut Call)) -> bool {
        let mut candidate = self.best.clone();
        edit(&mut candidate);
        self.attempt(candidate)
    }

    fn shorten_listing(&mut self) {
        if self.best.kinds.len() != self.best.operands.len() {
            return;
        }
        for size in pieces(self.best.kinds.len()) {
            let mut start = 0;
            while start + size <= self.best.kinds.len() && self.tries > 0 {
                let candidate = without(&self.best, start, size);
                if !self.attempt(candidate) {
                    start += size;
                }
            }
        }
        for item in 0..self.best.kinds.len() {
            self.attempt_with(|call| call.operands[item] = 0);
            self.attempt_with(|call| (call.kinds[item], call.operands[item]) = (0x19, 0));
        }
    }

    /// The set without one module and another, each with as few cells and as low an address as it may be.
    fn shorten_set(&mut self) {
        let mut module = 0;
        while 3 * module + 2 < self.best.modules.len() {
            if self.attempt(without_module(&self.best, module)) {
                continue;
            }
            while with_cell_less(&self.best, module).is_some_and(|less| self.attempt(less)) {}
            let address = 3 * module;
            self.attempt_with(|call| call.modules[address] = 0);
            while self.attempt_with(|call| {
                call.modules[address] = call.modules[address].saturating_sub(4);
            }) {}
            module += 1;
        }
        self.attempt_with(lower_addresses);
    }

    /// The batch without one piece of its forms and another, and shorter forms.
    fn shorten_batch(&mut self) {
        for size in pieces(2 * self.best.numbers[2] as usize) {
            let mut from = 0;
            while let Some(less) = without_forms(&self.best, from, size) {
                if !self.attempt(less) {
                    from += size;
                }
            }
        }
        for size in pieces(2 * self.best.numbers[1] as usize) {
            for (first, last) in [(size, 0), (0, size)] {
                if let Some(less) = with_shorter_forms(&self.best, first, last) {
                    self.attempt(less);
                }
            }
        }
    }

    fn shorten_memory(&mut self) {
        if self.best.memory.len() > 1024 && self.best.memory.len().is_multiple_of(4) {
            self.attempt_with(|call| {
                call.memory.truncate(1024);
                call.start.truncate(1024);
            });
        }
    }

    /// The file without one piece and another, or one cell and another.
    fn shorten_file(&mut self) {
        for size in pieces(2 * self.best.file.len()).chain([4]) {
            let mut start = 0;
            while start + size <= self.best.file.len() && self.tries > 0 {
                if !self.attempt(without_bytes(&self.best, start, size)) {
                    start += size;
                }
            }
        }
    }

    fn lower_numbers(&mut self) {
        self.attempt_with(|call| call.order = 0);
        for number in 0..4 {
            self.attempt_with(|call| call.numbers[number] = 0);
            while self.attempt_with(|call| call.numbers[number] /= 2) {}
            while self.attempt_with(|call| {
                call.numbers[number] = call.numbers[number].saturating_sub(1);
            }) {}
        }
        for register in 0..self.best.registers.len() {
            self.attempt_with(|call| call.registers[register] = 0);
            self.attempt_with(|call| call.registers[register] &= 0xFF);
            self.attempt_with(|call| call.registers[register] &= 0xFFFF);
        }
        for place in 0..self.best.out.len() {
            self.attempt_with(|call| call.out[place] = 0);
        }
    }

    /// No areas, or areas of one cell: a number by itself can seldom be lowered.
    fn lower_areas(&mut self) {
        self.attempt_with(|call| call.given_areas().fill(0));
        for count in [1, 3] {
            self.attempt_with(|call| {
                let number = call.given_areas().get_mut(count);
                number.into_iter().for_each(|cells| *cells = 1.min(*cells));
            });
        }
    }

    /// No table, or one of a single cell at either end of it.
    fn lower_table(&mut self) {
        let [first, end] = self.best.table;
        self.attempt_with(|call| call.table = [0; 2]);
        self.attempt_with(|call| call.table = [first, first.saturating_add(4)]);
        self.attempt_with(|call| call.table = [end.saturating_sub(4), end]);
    }

    fn zero_bytes(&mut self, of: impl Fn(&mut Call) -> &mut Vec<u8>) {
        let length = of(&mut self.best).len();
        for size in pieces(2 * length) {
            for start in (0..length).step_by(size) {
                let end = (start + size).min(length);
                if of(&mut self.best)[start..end].iter().any(|byte| *byte != 0) {
                    self.attempt_with(|call| of(call)[start..end].fill(0));
                }
            }
        }
    }
}

const MOST_SHOWN: usize = 48;

/// The cells of memory that are not 0, as bytes in their order.
fn memory_text(memory: &[u8]) -> String {
    let cells = memory.chunks(4).enumerate();
    let shown: Vec<String> = cells
        .filter(|(_, cell)| cell.iter().any(|byte| *byte != 0))
        .map(|(number, cell)| format!("{:X}h: {cell:02X?}", 4 * number))
        .collect();
    let more = shown.len().saturating_sub(MOST_SHOWN);
    let text = shown[..shown.len() - more].join(", ");
    format!("{} bytes; {text}; {more} more", memory.len())
}

/// The start of an array, and its length; nothing for an empty one.
fn array_text<T: std::fmt::UpperHex>(name: &str, array: &[T]) -> String {
    if array.is_empty() {
        return String::new();
    }
    let shown: Vec<String> = array.iter().map(|item| format!("{item:X}")).collect();
    let text = shown[..shown.len().min(8 * MOST_SHOWN)].join(" ");
    format!("  {name}, {}: {text}\n", array.len())
}

/// A call in words.
pub fn call_text(call: &Call) -> String {
    let [x, y, item, ran] = call.numbers;
    let mut text = format!(
        "{:?}, order {}, numbers {x:X}h {y:X}h {item:X}h {ran:X}h\n",
        call.entry, call.order
    );
    if call.areas != [0; 4] {
        text += &array_text("areas", &call.areas);
    }
    if call.table != [0; 2] {
        text += &array_text("table", &call.table);
    }
    for (name, memory) in [("start", &call.start), ("memory", &call.memory)] {
        if !memory.is_empty() {
            text += &format!("  {name}: {}\n", memory_text(memory));
        }
    }
    text += &array_text("registers or pointers", &call.registers);
    text += &array_text("file", &call.file);
    text += &array_text("modules", &call.modules);
    text += &array_text("kinds", &call.kinds);
    text += &array_text("operands", &call.operands);
    text += &format!(
        "  lengths of output {} and out {}\n",
        call.output.len(),
        call.out.len()
    );
    text
}

/// Where two arrays differ.
fn differences_text<T: PartialEq + std::fmt::Debug>(name: &str, left: &[T], right: &[T]) -> String {
    let length = left.len().max(right.len());
    let places = (0..length).filter(|at| left.get(*at) != right.get(*at));
    let shown: Vec<String> = places
        .take(16)
        .map(|at| format!("{at:X}h: {:02X?} {:02X?}", left.get(at), right.get(at)))
        .collect();
    if shown.is_empty() {
        return String::new();
    }
    format!("  {name}: {}\n", shown.join(", "))
}

/// What came back from both, where it differs.
pub fn returned_text(left: &Returned, right: &Returned) -> String {
    let (l, r) = (&left.lent, &right.lent);
    let mut text = format!(
        "  answers {} and {}; margins kept {} and {}\n",
        left.answer as i32, right.answer as i32, left.margins_kept, right.margins_kept
    );
    text += &format!("  registers {:X?} and {:X?}\n", l.registers, r.registers);
    text += &format!("  out {:X?} and {:X?}\n", l.out, r.out);
    text += &differences_text("start", &l.start, &r.start);
    text += &differences_text("memory", &l.memory, &r.memory);
    text += &differences_text("file", &l.file, &r.file);
    text += &differences_text("modules", &l.modules, &r.modules);
    text += &differences_text("kinds", &l.kinds, &r.kinds);
    text += &differences_text("output", &l.output, &r.output);
    text += &differences_text("operands", &l.operands, &r.operands);
    text
}
