//! The proved library's calls, with names for what comes back. Nothing is decided here.

use crate::areas::Areas;
use crate::batch::figures::Figures;
use crate::batch::setting::Setting;
use crate::failure::Failure;
use crate::limits::Limits;
use crate::set::Set;
use crate::short;
use crate::table::Table;

/// EP, A, SP, RP and the areas of the stacks.
#[derive(Clone, Copy, PartialEq, Eq, Debug)]
pub struct Registers {
    pub ep: u32,
    pub a: u32,
    pub sp: u32,
    pub rp: u32,
    pub areas: Areas,
}

impl Registers {
    fn from_array(r: [u32; 8]) -> Self {
        let [ep, a, sp, rp, areas @ ..] = r;
        let areas = Areas::of(areas);
        Registers {
            ep,
            a,
            sp,
            rp,
            areas,
        }
    }

    pub fn to_array(self) -> [u32; 8] {
        let [data, data_cells, back, back_cells] = self.areas.numbers();
        let Registers { ep, a, sp, rp, .. } = self;
        [ep, a, sp, rp, data, data_cells, back, back_cells]
    }
}

/// How a run ended, and the cycles done.
#[derive(Clone, Copy, PartialEq, Eq, Debug)]
pub struct Ran {
    /// The reason of the stop; none if the budget was spent.
    pub reason: Option<u32>,
    pub cycles: u32,
}

/// How the list machine ended.
#[derive(Clone, Copy, PartialEq, Eq, Debug)]
pub enum End {
    WentOn,
    Stopped(u32),
    /// With the number of why.
    Outside(u32),
}

/// Where the list machine stands: an item, whether it was run on into from an item not in its
/// immediate form, SP, RP and the areas of the stacks.
#[derive(Clone, Copy, PartialEq, Eq, Debug)]
pub struct Stand {
    pub item: u32,
    pub ran: bool,
    pub sp: u32,
    pub rp: u32,
    pub areas: Areas,
}

impl Stand {
    fn pointers(&self) -> [u32; 6] {
        let [data, data_cells, back, back_cells] = self.areas.numbers();
        [self.sp, self.rp, data, data_cells, back, back_cells]
    }
}

/// What the list machine came to.
#[derive(Clone, Copy, PartialEq, Eq, Debug)]
pub struct Listed {
    pub end: End,
    /// The item that it stands at.
    pub item: u32,
    pub items_done: u32,
    pub cycles: u64,
    pub sp: u32,
    pub rp: u32,
}

/// A listing, with what goes with it.
#[derive(Clone, PartialEq, Eq, Debug)]
pub struct Listing {
    pub base: u32,
    pub kinds: Vec<u8>,
    pub operands: Vec<u32>,
}

/// The answers that are no refusal.
const STOPPED: u32 = 1;
const OUTSIDE: u32 = 2;

/// No listing has more items.
const MOST_ITEMS: usize = 4096;

/// No listing packs to more bytes: each item in a cell with an operand cell.
const MOST_IMAGE_BYTES: usize = 4 * 2 * MOST_ITEMS;

/// No file of a listing has more bytes, short or not: each item with an operand.
const MOST_FILE_BYTES: usize = 12 + 5 * MOST_ITEMS;

/// A refusal is a number below 0.
fn accepted(answer: u32) -> Result<u32, Failure> {
    let number = answer as i32;
    if number < 0 {
        Err(Failure::Refused(number))
    } else {
        Ok(answer)
    }
}

/// What a call writes into an output of so many bytes, told in units of so many.
fn written(
    most: usize,
    unit: usize,
    call: impl FnOnce(&mut [u8], &mut [u32]) -> u32,
) -> Result<Vec<u8>, Failure> {
    let (mut output, mut out) = (vec![0; most], [0]);
    accepted(call(&mut output, &mut out))?;
    output.truncate(unit * out[0] as usize);
    Ok(output)
}

/// Starts the machine: its registers, and the reason if it stopped at once.
pub fn start(
    order: u8,
    memory: &mut [u8],
    ep: u32,
    handler: u32,
    limits: Limits,
) -> Result<(Registers, Option<u32>), Failure> {
    let (mut r, mut out) = ([0; 8], [0]);
    let [data, data_cells, back, back_cells] = limits.areas.numbers();
    let Table { first, end } = limits.table;
    let answer = beetle_bindings::start(
        order, memory, ep, handler, data, data_cells, back, back_cells, first, end, &mut r,
        &mut out,
    );
    let explained = |failure| limits.explain(failure, memory.len());
    let stopped = accepted(answer).map_err(explained)? == STOPPED;
    Ok((Registers::from_array(r), stopped.then_some(out[0])))
}

/// Runs for at most `budget` cycles.
pub fn run(
    order: u8,
    memory: &mut [u8],
    table: Table,
    registers: &mut Registers,
    budget: u32,
) -> Result<Ran, Failure> {
    let (mut r, mut out) = (registers.to_array(), [0; 2]);
    let Table { first, end } = table;
    let answer = beetle_bindings::run(order, memory, first, end, &mut r, budget, &mut out);
    let stopped = accepted(answer)? == STOPPED;
    *registers = Registers::from_array(r);
    Ok(Ran {
        reason: stopped.then_some(out[0]),
        cycles: out[1],
    })
}

/// Runs so many forms, end to end, each in memory that becomes the setting's: their figures.
pub fn batch(
    setting: &Setting,
    memory: &mut [u8],
    forms: &[u8],
    count: u16,
) -> Result<Figures, Failure> {
    let mut out = [0; 11];
    let Table { first, end } = setting.table;
    let answer = beetle_bindings::batch(
        setting.order,
        &setting.start,
        memory,
        forms,
        count,
        setting.form_length,
        setting.address,
        setting.registers.to_array(),
        first,
        end,
        setting.budget,
        &mut out,
    );
    accepted(answer).map_err(|failure| setting.explain(failure))?;
    Ok(Figures::of_batch(out))
}

/// Loads a module to an address: its number of cells.
pub fn load(order: u8, memory: &mut [u8], file: &[u8], address: u32) -> Result<u32, Failure> {
    let mut out = [0];
    let answer = beetle_bindings::load(order, memory, file, address, &mut out);
    accepted(answer)?;
    Ok(out[0])
}

/// Loads at most so many cells of a module, first cell first: their number.
pub fn load_first(
    order: u8,
    memory: &mut [u8],
    file: &[u8],
    address: u32,
    cells: u32,
) -> Result<u32, Failure> {
    let mut out = [0];
    let answer = beetle_bindings::load_first(order, memory, file, address, cells, &mut out);
    accepted(answer)?;
    Ok(out[0])
}

/// Loads the modules of a set together: their number of cells in all.
pub fn load_set(order: u8, memory: &mut [u8], set: &Set) -> Result<u32, Failure> {
    let mut out = [0];
    let answer = beetle_bindings::load_set(order, memory, &set.buffer, &set.numbers(), &mut out);
    accepted(answer).map_err(|failure| set.explain(failure, memory.len()))?;
    Ok(out[0])
}

/// Saves cells from an address on: the module's file.
pub fn save(order: u8, memory: &[u8], address: u32, cells: u32) -> Result<Vec<u8>, Failure> {
    written(12 + memory.len(), 1, |file, out| {
        beetle_bindings::save(order, memory, address, cells, file, out)
    })
}

/// Packs a listing file: the image's bytes.
pub fn pack_file(order: u8, file: &[u8]) -> Result<Vec<u8>, Failure> {
    written(MOST_IMAGE_BYTES, 4, |image, out| {
        beetle_bindings::pack_file(order, file, image, out)
    })
}

/// Packs a short file: the image's bytes.
pub fn pack_short(order: u8, file: &[u8]) -> Result<Vec<u8>, Failure> {
    let image = written(MOST_IMAGE_BYTES, 4, |image, out| {
        beetle_bindings::pack_short(order, file, image, out)
    });
    image.map_err(|failure| short::explain(failure, file))
}

/// The listing that packs to these bytes at this base.
pub fn unpack(order: u8, image: &[u8], base: u32) -> Result<Listing, Failure> {
    let (mut kinds, mut operands) = (vec![0; MOST_ITEMS], vec![0; MOST_ITEMS]);
    let mut out = [0];
    let answer = beetle_bindings::unpack(order, image, base, &mut kinds, &mut operands, &mut out);
    accepted(answer)?;
    kinds.truncate(out[0] as usize);
    operands.truncate(out[0] as usize);
    Ok(Listing {
        base,
        kinds,
        operands,
    })
}

/// The short file of a listing file.
pub fn shorten(file: &[u8]) -> Result<Vec<u8>, Failure> {
    written(MOST_FILE_BYTES, 1, |short, out| {
        beetle_bindings::shorten(file, short, out)
    })
}

/// The listing file of a short one.
pub fn lengthen(file: &[u8]) -> Result<Vec<u8>, Failure> {
    let long = written(MOST_FILE_BYTES, 1, |long, out| {
        beetle_bindings::lengthen(file, long, out)
    });
    long.map_err(|failure| short::explain(failure, file))
}

/// Carries out at most so many items of a listing, from where the machine stands.
pub fn list_resume(
    order: u8,
    listing: &Listing,
    memory: &mut [u8],
    table: Table,
    stand: Stand,
    items: u32,
) -> Result<Listed, Failure> {
    let (kinds, operands, base) = (&listing.kinds, &listing.operands, listing.base);
    let Stand { item, ran, .. } = stand;
    let (mut p, mut out) = (stand.pointers(), [0; 5]);
    let answer = beetle_bindings::list_resume(
        order,
        kinds,
        operands,
        base,
        memory,
        table.first,
        table.end,
        item,
        u8::from(ran),
        &mut p,
        items,
        &mut out,
    );
    let end = match accepted(answer)? {
        STOPPED => End::Stopped(out[0]),
        OUTSIDE => End::Outside(out[0]),
        _ => End::WentOn,
    };
    let [_, item, items_done, low, high] = out;
    Ok(Listed {
        end,
        item,
        items_done,
        cycles: u64::from(low) + (u64::from(high) << 32),
        sp: p[0],
        rp: p[1],
    })
}
