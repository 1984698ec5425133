//! One call of the interface as plain data, so that it can be given to two implementations,
//! compared afterwards byte by byte, and made smaller.

#![allow(clippy::type_complexity)]

use std::hint::black_box;

pub type Start =
    fn(u8, &mut [u8], u32, u32, u32, u32, u32, u32, u32, u32, &mut [u32], &mut [u32]) -> u32;
pub type Batch =
    fn(u8, &[u8], &mut [u8], &[u8], u16, u32, u32, [u32; 8], u32, u32, u32, &mut [u32]) -> u32;
pub type ListRun =
    fn(u8, &[u8], &[u32], u32, &mut [u8], u32, u32, &mut [u32], u32, &mut [u32]) -> u32;
pub type ListResume =
    fn(u8, &[u8], &[u32], u32, &mut [u8], u32, u32, u32, u8, &mut [u32], u32, &mut [u32]) -> u32;

/// The sixteen calls of the interface.
#[derive(Clone, Copy)]
pub struct Implementation {
    pub start: Start,
    pub cycle: fn(u8, &mut [u8], u32, u32, &mut [u32], &mut [u32]) -> u32,
    pub run: fn(u8, &mut [u8], u32, u32, &mut [u32], u32, &mut [u32]) -> u32,
    pub batch: Batch,
    pub load: fn(u8, &mut [u8], &[u8], u32, &mut [u32]) -> u32,
    pub load_first: fn(u8, &mut [u8], &[u8], u32, u32, &mut [u32]) -> u32,
    pub load_set: fn(u8, &mut [u8], &[u8], &[u32], &mut [u32]) -> u32,
    pub save: fn(u8, &[u8], u32, u32, &mut [u8], &mut [u32]) -> u32,
    pub pack: fn(u8, &[u8], &[u32], u32, &mut [u8], &mut [u32]) -> u32,
    pub pack_file: fn(u8, &[u8], &mut [u8], &mut [u32]) -> u32,
    pub shorten: fn(&[u8], &mut [u8], &mut [u32]) -> u32,
    pub lengthen: fn(&[u8], &mut [u8], &mut [u32]) -> u32,
    pub pack_short: fn(u8, &[u8], &mut [u8], &mut [u32]) -> u32,
    pub unpack: fn(u8, &[u8], u32, &mut [u8], &mut [u32], &mut [u32]) -> u32,
    pub list_run: ListRun,
    pub list_resume: ListResume,
}

/// The implementation that the functions of a module are.
#[macro_export]
macro_rules! implementation {
    ($($module:ident)::+) => {
        $crate::call::Implementation {
            start: $($module)::+::start,
            cycle: $($module)::+::cycle,
            run: $($module)::+::run,
            batch: $($module)::+::batch,
            load: $($module)::+::load,
            load_first: $($module)::+::load_first,
            load_set: $($module)::+::load_set,
            save: $($module)::+::save,
            pack: $($module)::+::pack,
            pack_file: $($module)::+::pack_file,
            shorten: $($module)::+::shorten,
            lengthen: $($module)::+::lengthen,
            pack_short: $($module)::+::pack_short,
            unpack: $($module)::+::unpack,
            list_run: $($module)::+::list_run,
            list_resume: $($module)::+::list_resume,
        }
    };
}

/// The second implementation.
pub fn reference() -> Implementation {
    implementation!(crate::reference::calls)
}

/// The static library.
#[cfg(feature = "library")]
pub fn library() -> Implementation {
    implementation!(beetle_bindings)
}

#[derive(Clone, Copy, PartialEq, Eq, Debug)]
pub enum Entry {
    Start,
    Cycle,
    Run,
    Batch,
    Load,
    LoadFirst,
    LoadSet,
    Save,
    Pack,
    PackFile,
    Shorten,
    Lengthen,
    PackShort,
    Unpack,
    ListRun,
    ListResume,
}

/// A call with all that is lent; what the entry does not take is empty.
#[derive(Clone, PartialEq, Eq)]
pub struct Call {
    pub entry: Entry,
    pub order: u8,
    /// start: EP, handler; run: budget; load: address; load_first, save: address, cells; pack, unpack:
    /// base; list_run: base, items; list_resume: base, items, item, ran (its low byte); batch: address,
    /// length of a form, count (its low sixteen bits), budget.
    pub numbers: [u32; 4],
    /// start: the four numbers of the areas.
    pub areas: [u32; 4],
    /// start, cycle, run, batch, list_run, list_resume: the table's first byte and its end.
    pub table: [u32; 2],
    /// batch: the start memory.
    pub start: Vec<u8>,
    pub memory: Vec<u8>,
    /// load_set: the buffer; batch: the forms; unpack: the image.
    pub file: Vec<u8>,
    /// load_set: address, place and length of each module.
    pub modules: Vec<u32>,
    pub kinds: Vec<u8>,
    pub operands: Vec<u32>,
    pub output: Vec<u8>,
    /// EP, A, SP, RP and the areas, by value in a batch; list_run, list_resume: SP, RP and the areas.
    pub registers: Vec<u32>,
    pub out: Vec<u32>,
}

impl Call {
    pub fn new(entry: Entry) -> Self {
        Call {
            entry,
            order: 0,
            numbers: [0; 4],
            areas: [0; 4],
            table: [0; 2],
            start: Vec::new(),
            memory: Vec::new(),
            file: Vec::new(),
            modules: Vec::new(),
            kinds: Vec::new(),
            operands: Vec::new(),
            output: Vec::new(),
            registers: Vec::new(),
            out: Vec::new(),
        }
    }

    /// The four numbers of the areas, wherever they are given; nothing where they are not, or where
    /// the array is too short to hold them.
    pub fn given_areas(&mut self) -> &mut [u32] {
        let numbers = match self.entry {
            Entry::Start => return &mut self.areas,
            Entry::Cycle | Entry::Run | Entry::Batch => self.registers.get_mut(4..8),
            Entry::ListRun | Entry::ListResume => self.registers.get_mut(2..6),
            _ => None,
        };
        numbers.unwrap_or_default()
    }
}

/// What came back: the answer, all that was lent, and whether nothing beside it was written.
#[derive(Clone, PartialEq, Eq)]
pub struct Returned {
    pub answer: u32,
    pub lent: Call,
    pub margins_kept: bool,
}

/// Odd, so that lent bytes are at no even address.
const MARGIN: usize = 9;

/// An array with a margin on both sides, to see writes beside it.
struct Margined<T> {
    all: Vec<T>,
    filler: T,
}

impl<T: Copy + PartialEq> Margined<T> {
    fn new(content: &[T], filler: T) -> Self {
        let mut all = Vec::with_capacity(content.len() + 2 * MARGIN);
        all.extend([filler; MARGIN]);
        all.extend(content);
        all.extend([filler; MARGIN]);
        Margined { all, filler }
    }

    fn lent(&mut self) -> &mut [T] {
        let end = self.all.len() - MARGIN;
        &mut self.all[MARGIN..end]
    }

    /// What was lent; `kept` turns false if a margin was written.
    fn taken_back(self, kept: &mut bool) -> Vec<T> {
        let mut all = black_box(self.all);
        let end = all.len() - MARGIN;
        let margins = all[..MARGIN].iter().chain(&all[end..]);
        *kept &= margins.into_iter().all(|item| *item == self.filler);
        all.truncate(end);
        all.drain(..MARGIN);
        all
    }
}

/// The arrays of a call, with their margins.
struct Arrays {
    start: Margined<u8>,
    memory: Margined<u8>,
    file: Margined<u8>,
    modules: Margined<u32>,
    kinds: Margined<u8>,
    operands: Margined<u32>,
    output: Margined<u8>,
    registers: Margined<u32>,
    out: Margined<u32>,
}

impl Arrays {
    fn of(call: &Call) -> Self {
        Arrays {
            start: Margined::new(&call.start, 0xA5),
            memory: Margined::new(&call.memory, 0xA5),
            file: Margined::new(&call.file, 0xA5),
            modules: Margined::new(&call.modules, 0xA5A5_A5A5),
            kinds: Margined::new(&call.kinds, 0xA5),
            operands: Margined::new(&call.operands, 0xA5A5_A5A5),
            output: Margined::new(&call.output, 0xA5),
            registers: Margined::new(&call.registers, 0xA5A5_A5A5),
            out: Margined::new(&call.out, 0xA5A5_A5A5),
        }
    }

    /// Makes the call on these arrays: its answer.
    fn lend(&mut self, to: &Implementation, call: &Call) -> u32 {
        let (order, [x, y, item, ran]) = (call.order, call.numbers);
        let [data_top, data, return_top, back] = call.areas;
        let [t, end] = call.table;
        let (m, f) = (self.memory.lent(), self.file.lent());
        let (k, v, w) = (self.kinds.lent(), self.operands.lent(), self.output.lent());
        let (r, o) = (self.registers.lent(), self.out.lent());
        match call.entry {
            Entry::Start => (to.start)(
                order, m, x, y, data_top, data, return_top, back, t, end, r, o,
            ),
            Entry::Cycle => (to.cycle)(order, m, t, end, r, o),
            Entry::Run => (to.run)(order, m, t, end, r, x, o),
            Entry::Batch => {
                let given = std::array::from_fn(|at| r.get(at).copied().unwrap_or_default());
                let (start, count) = (self.start.lent(), item as u16);
                (to.batch)(order, start, m, f, count, y, x, given, t, end, ran, o)
            }
            Entry::Load => (to.load)(order, m, f, x, o),
            Entry::LoadFirst => (to.load_first)(order, m, f, x, y, o),
            Entry::LoadSet => (to.load_set)(order, m, f, self.modules.lent(), o),
            Entry::Save => (to.save)(order, m, x, y, w, o),
            Entry::Pack => (to.pack)(order, k, v, x, w, o),
            Entry::PackFile => (to.pack_file)(order, f, w, o),
            Entry::Shorten => (to.shorten)(f, w, o),
            Entry::Lengthen => (to.lengthen)(f, w, o),
            Entry::PackShort => (to.pack_short)(order, f, w, o),
            Entry::Unpack => (to.unpack)(order, f, x, k, v, o),
            Entry::ListRun => (to.list_run)(order, k, v, x, m, t, end, r, y, o),
            Entry::ListResume => {
                (to.list_resume)(order, k, v, x, m, t, end, item, ran as u8, r, y, o)
            }
        }
    }
}

/// Makes the call.
pub fn perform(implementation: &Implementation, call: &Call) -> Returned {
    let mut arrays = Arrays::of(call);
    let answer = arrays.lend(implementation, call);
    let mut kept = true;
    let lent = Call {
        entry: call.entry,
        order: call.order,
        numbers: call.numbers,
        areas: call.areas,
        table: call.table,
        start: arrays.start.taken_back(&mut kept),
        memory: arrays.memory.taken_back(&mut kept),
        file: arrays.file.taken_back(&mut kept),
        modules: arrays.modules.taken_back(&mut kept),
        kinds: arrays.kinds.taken_back(&mut kept),
        operands: arrays.operands.taken_back(&mut kept),
        output: arrays.output.taken_back(&mut kept),
        registers: arrays.registers.taken_back(&mut kept),
        out: arrays.out.taken_back(&mut kept),
    };
    Returned {
        answer,
        lent,
        margins_kept: kept,
    }
}

/// Whether two implementations return the same from a call, margins kept.
pub fn agree(left: &Implementation, right: &Implementation, call: &Call) -> bool {
    let returned = perform(left, call);
    returned.margins_kept && returned == perform(right, call)
}
