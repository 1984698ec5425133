//! The listing that an image was packed from (document 02, (h)): what the bytes of its cells say, and
//! whether that, packed again, is the image.

use std::collections::BTreeMap;

use super::listing::{accept, kind_of, Kind, Listing, MOST_ITEMS};
use super::memory::Order;
use super::packer;
use super::refusal::{demand, Refusal};

/// Where an item's operand was found, and what is there.
#[derive(Clone, Copy)]
enum Held {
    Nothing,
    Bytes(i32),
    Cell(u32),
}

/// An item as its bytes tell it.
struct Item {
    kind: u8,
    held: Held,
    /// The item's EP value, as a cell of the image.
    ep: usize,
}

/// What was read so far.
struct Reader<'i> {
    order: Order,
    image: &'i [u8],
    /// The first cell that was not read.
    next: usize,
    items: Vec<Item>,
    /// The item that opens a cell, for each cell that holds opcodes.
    opened: BTreeMap<usize, usize>,
}

/// The number in one to three signed bytes, the least significant first.
fn number_in(bytes: &[u8]) -> Option<i32> {
    let filler = if *bytes.last()? < 0x80 { 0x00 } else { 0xFF };
    let byte = |at| bytes.get(at).copied().unwrap_or(filler);
    Some(i32::from_le_bytes([byte(0), byte(1), byte(2), byte(3)]))
}

impl Reader<'_> {
    /// The bytes of the next cell, the least significant first.
    fn take_cell(&mut self) -> Option<[u8; 4]> {
        let at = 4 * self.next;
        let mut bytes: [u8; 4] = self.image.get(at..at + 4)?.try_into().ok()?;
        if self.order == Order::MostFirst {
            bytes.reverse();
        }
        self.next += 1;
        Some(bytes)
    }

    /// The kind that an opcode stands for, and its operand: in the rest of the cell where the kind is
    /// one below the opcode.
    fn take_item(&mut self, opcode: u8, rest: &[u8]) -> Option<(u8, Held)> {
        match kind_of(opcode) {
            Some(Kind::Plain) => Some((opcode, Held::Nothing)),
            Some(Kind::Literal | Kind::Branch) => {
                let cell = u32::from_le_bytes(self.take_cell()?);
                Some((opcode, Held::Cell(cell)))
            }
            None => {
                let kind = opcode.checked_sub(1)?;
                let has_form = matches!(kind_of(kind)?, Kind::Literal | Kind::Branch);
                let value = number_in(rest)?;
                has_form.then_some((kind, Held::Bytes(value)))
            }
        }
    }

    /// The items of the next cell: up to its last byte that is not 00h, or to one whose value is the
    /// rest of it.
    fn take_items(&mut self) -> Option<()> {
        self.opened.insert(self.next, self.items.len());
        let bytes = self.take_cell()?;
        let last = bytes.iter().rposition(|byte| *byte != 0x00)?;
        for slot in 0..=last {
            let ep = self.next;
            let (kind, held) = self.take_item(bytes[slot], &bytes[slot + 1..])?;
            self.items.push(Item { kind, held, ep });
            if matches!(held, Held::Bytes(_)) {
                break;
            }
        }
        Some(())
    }

    /// The item that a branch leads to.
    fn target(&self, item: &Item, base: u32) -> Option<u32> {
        let cell = match item.held {
            Held::Nothing => return None,
            Held::Bytes(value) => item.ep.checked_add_signed(value as isize)?,
            Held::Cell(address) => {
                let offset = address.checked_sub(base)? as usize;
                offset.is_multiple_of(4).then_some(offset / 4)?
            }
        };
        self.opened.get(&cell).map(|item| *item as u32)
    }

    fn operand(&self, item: &Item, base: u32) -> Option<u32> {
        match (kind_of(item.kind)?, item.held) {
            (Kind::Branch, _) => self.target(item, base),
            (_, Held::Nothing) => Some(0),
            (_, Held::Bytes(value)) => Some(value as u32),
            (_, Held::Cell(value)) => Some(value),
        }
    }
}

/// The listing that the bytes tell of, if they tell of one.
fn told(order: Order, image: &[u8], base: u32) -> Option<Listing> {
    let mut reader = Reader {
        order,
        image,
        next: 0,
        items: Vec::new(),
        opened: BTreeMap::new(),
    };
    while 4 * reader.next < image.len() && reader.items.len() <= MOST_ITEMS {
        reader.take_items()?;
    }
    let items = reader.items.iter();
    let kinds: Vec<u8> = items.clone().map(|item| item.kind).collect();
    let operands: Option<Vec<u32>> = items.map(|item| reader.operand(item, base)).collect();
    accept(&kinds, &operands?).ok()
}

/// The listing that packs to this image, or -4116.
pub fn read(order: Order, image: &[u8], base: u32) -> Result<Listing, Refusal> {
    let listing = told(order, image, base).ok_or(Refusal::NoListing)?;
    let cells = packer::image(&listing, &packer::layout(&listing), base);
    demand(packer::bytes(&cells, order) == image, Refusal::NoListing)?;
    Ok(listing)
}
