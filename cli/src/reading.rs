//! Reads an image back against its listing: where each item stands and in which form. Nothing of
//! this is proved; every byte that is read is held against the listing, so that a mistake here
//! shows as an error and not as a wrong table.

use crate::library::Listing;
use crate::listing::Packed;
use crate::memory;
use crate::names::{kind_of, name_of, Kind};

/// The form of an item in the image.
#[derive(Clone, Copy, PartialEq, Eq, Debug)]
pub enum Form {
    Plain,
    Immediate,
    /// With its operand cell's index in the image.
    Cell(usize),
}

/// Where an item stands. Cells are counted from the image's first.
#[derive(Clone, Copy, PartialEq, Eq, Debug)]
pub struct Place {
    pub entry: bool,
    /// The cell that holds the opcode.
    pub cell: usize,
    /// The byte of that cell, 0 the least significant.
    pub byte: usize,
    /// The cell that EP points to at the item.
    pub ep: usize,
    pub form: Form,
}

/// Where a cell has to begin: at item 0, at each item that a branch leads to, and behind EXECUTE,
/// @EXECUTE and CALL.
pub fn entries(listing: &Listing) -> Vec<bool> {
    let mut entries = vec![false; listing.kinds.len()];
    entries[0] = true;
    for (item, kind) in listing.kinds.iter().enumerate() {
        if kind_of(*kind) == Some(Kind::Branch) {
            entries[listing.operands[item] as usize] = true;
        }
        if matches!(kind, 0x46..=0x48) && item + 1 < entries.len() {
            entries[item + 1] = true;
        }
    }
    entries
}

/// A walk over the image's cells.
struct Walk<'i> {
    cells: &'i [u32],
    /// The open cell and the bytes read of it; none where an immediate form closed it.
    open: Option<(usize, usize)>,
    /// The next cell that is neither open nor an operand.
    next: usize,
}

impl Walk<'_> {
    /// Reads the opcode of an item, in a new cell where it is an entry or no cell has room.
    fn item(&mut self, entry: bool, kind: u8) -> Option<Place> {
        let (cell, byte) = match self.open {
            Some((cell, read)) if read < 4 && !entry => (cell, read),
            _ => {
                self.next += 1;
                (self.next - 1, 0)
            }
        };
        let ep = self.next;
        let opcode = (self.cells.get(cell)? >> (8 * byte)) as u8;
        let form = self.form(opcode, kind)?;
        self.open = (form != Form::Immediate).then_some((cell, byte + 1));
        Some(Place {
            entry,
            cell,
            byte,
            ep,
            form,
        })
    }

    /// The form that an opcode tells: the kind itself, or the immediate opcode, one higher.
    fn form(&mut self, opcode: u8, kind: u8) -> Option<Form> {
        let takes_operand = kind_of(kind)? != Kind::Plain;
        if takes_operand && opcode == kind + 1 {
            Some(Form::Immediate)
        } else if opcode != kind {
            None
        } else if takes_operand {
            self.next += 1;
            Some(Form::Cell(self.next - 1))
        } else {
            Some(Form::Plain)
        }
    }
}

/// The operand that stands in the image: a literal's value or a branch's address.
fn operand_read(cells: &[u32], base: u32, place: &Place, kind: Kind) -> Option<u32> {
    match place.form {
        Form::Plain => Some(0),
        Form::Cell(at) => cells.get(at).copied(),
        Form::Immediate => {
            let value = ((cells[place.cell] as i32) >> (8 * (place.byte + 1))) as u32;
            let from_ep = address(base, place.ep).wrapping_add(value.wrapping_mul(4));
            Some(if kind == Kind::Branch { from_ep } else { value })
        }
    }
}

/// The address of a cell of the image.
pub fn address(base: u32, cell: usize) -> u32 {
    base.wrapping_add(4 * cell as u32)
}

/// Whether every operand in the image is the listing's.
fn operands_agree(packed: &Packed, cells: &[u32], places: &[Place]) -> Result<(), String> {
    let Listing { base, .. } = packed.listing;
    for (item, place) in places.iter().enumerate() {
        let listed = packed.listing.operands[item];
        let kind = kind_of(packed.listing.kinds[item]).unwrap_or(Kind::Plain);
        let expected = match kind {
            Kind::Branch => address(base, places[listed as usize].cell),
            Kind::Plain | Kind::Literal => listed,
        };
        if operand_read(cells, base, place, kind) != Some(expected) {
            return Err(format!("the operand of item {item} does not read back"));
        }
    }
    Ok(())
}

/// Where each item stands, or what does not read back.
pub fn places(packed: &Packed) -> Result<Vec<Place>, String> {
    let cells = memory::cells(packed.order, &packed.image);
    let mut walk = Walk {
        cells: &cells,
        open: None,
        next: 0,
    };
    let mut places = Vec::new();
    for (item, entry) in entries(&packed.listing).into_iter().enumerate() {
        let kind = packed.listing.kinds[item];
        let place = walk.item(entry, kind);
        places.push(place.ok_or_else(|| {
            let name = name_of(kind);
            format!("item {item} ({name}) does not read back from the image")
        })?);
    }
    if walk.next != cells.len() {
        return Err("the image has cells that no item accounts for".to_string());
    }
    operands_agree(packed, &cells, &places)?;
    Ok(places)
}
