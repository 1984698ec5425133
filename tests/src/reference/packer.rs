//! The packer: layout in rounds, and the image (document 01, Listings).

use super::listing::{Kind, Listing};
use super::memory::Order;
use super::refusal::{demand, Refusal};

/// No image passes this address.
const HIGHEST: u64 = 16_777_216;

#[derive(Clone, Copy, PartialEq, Eq, Debug)]
pub enum Form {
    Plain,
    Immediate,
    /// With the operand cell's index.
    Cell(usize),
}

/// Where an item is placed. Cells are counted from the image's first.
#[derive(Clone, Copy, Debug)]
pub struct Placement {
    /// The cell that holds the opcode.
    pub cell: usize,
    /// The byte of that cell, 0 the least significant.
    pub slot: usize,
    /// Whether the item opened its cell.
    pub opens: bool,
    /// The item's EP value, as a cell.
    pub ep: usize,
    pub form: Form,
}

impl Placement {
    /// f: the bytes left after the opcode.
    fn free(&self) -> usize {
        3 - self.slot
    }

    /// The cell that follows once the item is placed: what a call leaves.
    pub fn following(&self) -> usize {
        match self.form {
            Form::Cell(operand) => operand + 1,
            Form::Plain | Form::Immediate => self.ep,
        }
    }
}

/// A layout of all items, the number of cells, and the rounds that led to it.
#[derive(Clone, Debug)]
pub struct Layout {
    pub placements: Vec<Placement>,
    pub cells: usize,
    pub rounds: usize,
}

/// Whether a value fits so many signed bytes.
pub fn fits(value: i64, bytes: usize) -> bool {
    let half = 1_i64 << (8 * bytes - 1);
    (-half..half).contains(&value)
}

/// Whether a literal's value needs more bytes.
fn too_wide(value: u32, bytes: usize) -> bool {
    !fits(i64::from(value as i32), bytes)
}

/// The open cell and the bytes used in it.
struct Open {
    cell: usize,
    used: usize,
}

/// Lays all items out, with these entries, and these items marked.
pub fn lay_out(listing: &Listing, entries: &[bool], marks: &[bool]) -> Layout {
    let mut open: Option<Open> = None;
    let mut cells = 0;
    let mut placements = Vec::with_capacity(listing.items());
    for (item, is_entry) in entries.iter().enumerate() {
        let (cell, slot) = match open {
            Some(Open { cell, used }) if used < 4 && !is_entry => (cell, used),
            _ => {
                cells += 1;
                (cells - 1, 0)
            }
        };
        let mut placement = Placement {
            cell,
            slot,
            opens: slot == 0,
            ep: cells,
            form: Form::Plain,
        };
        placement.form = form(listing, marks, item, &placement);
        if matches!(placement.form, Form::Cell(_)) {
            cells += 1;
        }
        open = match placement.form {
            Form::Immediate => None,
            Form::Plain | Form::Cell(_) => Some(Open {
                cell,
                used: slot + 1,
            }),
        };
        placements.push(placement);
    }
    Layout {
        placements,
        cells,
        rounds: 1,
    }
}

/// A branch has the mark that the rounds gave it, and rounds mark no literal: one counts as marked where
/// it is too wide for the bytes that are left.
fn form(listing: &Listing, marks: &[bool], item: usize, placement: &Placement) -> Form {
    let free = placement.free();
    let marked = match listing.kind(item) {
        Kind::Plain => return Form::Plain,
        Kind::Branch => marks[item],
        Kind::Literal => marks[item] || free > 0 && too_wide(listing.operands[item], free),
    };
    if free > 0 && !marked {
        Form::Immediate
    } else {
        Form::Cell(placement.ep)
    }
}

/// The value of an immediate branch: the cells from its EP value to its target.
fn branch_value(listing: &Listing, layout: &Layout, item: usize) -> i64 {
    let target = layout.placements[listing.target(item)].cell as i64;
    target - layout.placements[item].ep as i64
}

/// Lays the listing out round by round; the first that marks no further branch gives the layout.
pub fn layout(listing: &Listing) -> Layout {
    let entries = listing.entries();
    let mut marks = vec![false; listing.items()];
    let mut rounds = 0;
    loop {
        rounds += 1;
        let layout = lay_out(listing, &entries, &marks);
        let mut added = false;
        for (item, placement) in layout.placements.iter().enumerate() {
            let immediate_branch =
                listing.kind(item) == Kind::Branch && placement.form == Form::Immediate;
            if immediate_branch && !fits(branch_value(listing, &layout, item), placement.free()) {
                marks[item] = true;
                added = true;
            }
        }
        if !added {
            return Layout { rounds, ..layout };
        }
    }
}

/// The address of a cell of the image.
pub fn address(base: u32, cell: usize) -> u32 {
    base + 4 * cell as u32
}

/// The cells of the image.
pub fn image(listing: &Listing, layout: &Layout, base: u32) -> Vec<u32> {
    let mut cells = vec![0_u32; layout.cells];
    for (item, placement) in layout.placements.iter().enumerate() {
        let kind = listing.kind(item);
        let opcode = u32::from(listing.kinds[item]);
        let at = 8 * placement.slot;
        match placement.form {
            Form::Plain => cells[placement.cell] |= opcode << at,
            Form::Cell(operand) => {
                cells[placement.cell] |= opcode << at;
                cells[operand] = match kind {
                    Kind::Branch => address(base, layout.placements[listing.target(item)].cell),
                    _ => listing.operands[item],
                };
            }
            Form::Immediate => {
                let value = match kind {
                    Kind::Branch => branch_value(listing, layout, item) as u32,
                    _ => listing.operands[item],
                };
                cells[placement.cell] |= (opcode + 1) << at | value << (at + 8);
            }
        }
    }
    cells
}

/// -4104 for the base, then -4110 for base and image.
pub fn accept_base(base: u32, layout: &Layout) -> Result<(), Refusal> {
    accept_place(base, 4 * layout.cells)
}

/// The same for an image of so many bytes.
pub fn accept_place(base: u32, length: usize) -> Result<(), Refusal> {
    demand(base.is_multiple_of(4), Refusal::Unaligned)?;
    let end = u64::from(base) + length as u64;
    demand(base >= 0x10 && end <= HIGHEST, Refusal::Base)
}

/// The image's bytes in an order.
pub fn bytes(cells: &[u32], order: Order) -> Vec<u8> {
    cells
        .iter()
        .flat_map(|cell| order.bytes_of(*cell))
        .collect()
}
