//! Short listing files: n, m, base, n kinds, and an operand for each literal and branch (document 02,
//! (l)).

use super::listing::{accept, file, kind_of, number_at, Kind, Listing, Parts, MOST_ITEMS};
use super::refusal::{demand, Refusal};

/// The bytes of n, m and base.
const HEADER: usize = 12;

/// Whether the file holds an operand for this byte. It holds none for a byte that is no kind.
fn has_operand(kind: u8) -> bool {
    matches!(kind_of(kind), Some(Kind::Literal | Kind::Branch))
}

/// An operand for every kind, 0 where the file holds none.
fn spread(kinds: &[u8], held: &[u8]) -> Vec<u32> {
    let mut held = held.chunks_exact(4).map(|bytes| number_at(bytes, 0));
    let mut operand_of = |kind| if has_operand(kind) { held.next() } else { None };
    let operands = kinds.iter().map(|kind| operand_of(*kind).unwrap_or(0));
    operands.collect()
}

/// Takes a short file apart: -4119 for its header, -4106 for n, -4119 for m and the length.
pub fn parts(file: &[u8]) -> Result<Parts, Refusal> {
    demand(file.len() >= HEADER, Refusal::ShortFile)?;
    let [n, m, base] = [0, 4, 8].map(|at| number_at(file, at));
    let items = n as usize;
    demand((1..=MOST_ITEMS).contains(&items), Refusal::ListingSize)?;
    let length = 12 + u64::from(n) + 4 * u64::from(m);
    demand(file.len() as u64 == length, Refusal::ShortFile)?;
    let (kinds, held) = file[HEADER..].split_at(items);
    let count = kinds.iter().filter(|kind| has_operand(**kind)).count();
    demand(count == m as usize, Refusal::ShortFile)?;
    Ok((kinds.to_vec(), spread(kinds, held), base))
}

/// Reads a short file: once it is taken apart, the lowest bad item.
pub fn read(file: &[u8]) -> Result<(Listing, u32), Refusal> {
    let (kinds, operands, base) = parts(file)?;
    Ok((accept(&kinds, &operands)?, base))
}

/// The short file of these arrays.
pub fn write(kinds: &[u8], operands: &[u32], base: u32) -> Vec<u8> {
    let items = kinds.iter().zip(operands);
    let held = items.filter(|(kind, _)| has_operand(**kind));
    let held: Vec<u32> = held.map(|(_, operand)| *operand).collect();
    file(&[kinds.len() as u32, held.len() as u32, base], kinds, &held)
}
