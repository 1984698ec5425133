//! Listings: kinds, acceptance, and the listing file (document 01, Listings).

use super::refusal::{demand, Refusal};

/// The greatest number of items.
pub const MOST_ITEMS: usize = 4096;

/// The literal's opcode.
pub const LITERAL: u8 = 0x52;

/// What a kind byte stands for.
#[derive(Clone, Copy, PartialEq, Eq, Debug)]
pub enum Kind {
    Literal,
    Branch,
    Plain,
}

/// The kind of a byte. No kinds are NEXT, opcodes that hold their operand, and those that raise -256.
pub fn kind_of(byte: u8) -> Option<Kind> {
    match byte {
        LITERAL => Some(Kind::Literal),
        0x42 | 0x44 | 0x48 | 0x4C | 0x4E => Some(Kind::Branch),
        0x00 | 0x43 | 0x45 | 0x49 | 0x4D | 0x4F | 0x53 => None,
        0x56 | 0x58..=0x5B => None,
        0x01..=0x57 => Some(Kind::Plain),
        0x5C..=0xFF => None,
    }
}

/// A listing that was accepted: kinds and operands are equally many, and legal.
#[derive(Clone, Debug)]
pub struct Listing {
    pub kinds: Vec<u8>,
    pub operands: Vec<u32>,
}

impl Listing {
    pub fn items(&self) -> usize {
        self.kinds.len()
    }

    pub fn kind(&self, item: usize) -> Kind {
        kind_of(self.kinds[item]).expect("the listing was accepted")
    }

    /// The target of a branch, an item number.
    pub fn target(&self, item: usize) -> usize {
        self.operands[item] as usize
    }

    /// Where control can arrive from elsewhere: item 0, what branches lead to, and behind 46h to 48h.
    pub fn entries(&self) -> Vec<bool> {
        let mut entries = vec![false; self.items()];
        entries[0] = true;
        for item in 0..self.items() {
            if self.kind(item) == Kind::Branch {
                entries[self.target(item)] = true;
            }
            let calls = matches!(self.kinds[item], 0x46..=0x48);
            if calls && item + 1 < self.items() {
                entries[item + 1] = true;
            }
        }
        entries
    }
}

/// -4107, -4108, -4109 within one item.
fn accept_item(kind: u8, operand: u32, items: usize) -> Result<(), Refusal> {
    match kind_of(kind).ok_or(Refusal::Kind)? {
        Kind::Literal => Ok(()),
        Kind::Plain => demand(operand == 0, Refusal::PlainOperand),
        Kind::Branch => demand((operand as usize) < items, Refusal::Target),
    }
}

/// Accepts the arrays, or refuses them: -4106, then the lowest bad item.
pub fn accept(kinds: &[u8], operands: &[u32]) -> Result<Listing, Refusal> {
    let items = kinds.len();
    let size_is_good = (1..=MOST_ITEMS).contains(&items) && operands.len() == items;
    demand(size_is_good, Refusal::ListingSize)?;
    for (kind, operand) in kinds.iter().zip(operands) {
        accept_item(*kind, *operand, items)?;
    }
    Ok(Listing {
        kinds: kinds.to_vec(),
        operands: operands.to_vec(),
    })
}

/// The number in four bytes of a file, least byte first.
pub fn number_at(file: &[u8], at: usize) -> u32 {
    u32::from_le_bytes([file[at], file[at + 1], file[at + 2], file[at + 3]])
}

/// Kinds, operands and base out of a file, the items not judged.
pub type Parts = (Vec<u8>, Vec<u32>, u32);

/// Takes a listing file apart: n, base, n kinds, n operands.
pub fn parts(file: &[u8]) -> Result<Parts, Refusal> {
    demand(file.len() >= 8, Refusal::ListingSize)?;
    let n = number_at(file, 0);
    let length = 8 + 5 * u64::from(n);
    demand(file.len() as u64 == length, Refusal::ListingSize)?;
    let (kinds, operands) = file[8..].split_at(n as usize);
    let operands = operands.chunks(4).map(|bytes| number_at(bytes, 0));
    Ok((kinds.to_vec(), operands.collect(), number_at(file, 4)))
}

/// Reads a listing file.
pub fn read(file: &[u8]) -> Result<(Listing, u32), Refusal> {
    let (kinds, operands, base) = parts(file)?;
    Ok((accept(&kinds, &operands)?, base))
}

/// A file of sizes and base, kinds, operands.
pub fn file(header: &[u32], kinds: &[u8], operands: &[u32]) -> Vec<u8> {
    let bytes = |numbers: &[u32]| numbers.iter().flat_map(|x| x.to_le_bytes()).collect();
    [bytes(header), kinds.to_vec(), bytes(operands)].concat()
}

/// The listing file of these arrays.
pub fn write(kinds: &[u8], operands: &[u32], base: u32) -> Vec<u8> {
    file(&[kinds.len() as u32, base], kinds, operands)
}
