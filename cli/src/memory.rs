//! Memory to lend, and cells as they are read out of it for printing.

use std::ops::Range;

use crate::arguments::Arguments;
use crate::failure::Failure;

/// The bytes that a machine gets where nothing else is asked for.
const USUAL: u64 = 65_536;

/// The bytes of the shortest and of the longest memory.
pub const SHORTEST: usize = 1024;
pub const LONGEST: usize = 16_777_216;

/// One cell above the longest memory: enough for the library to refuse it.
const MOST: u64 = LONGEST as u64 + 4;

/// Memory of zeros, as long as `--memory` says. The library judges its length.
pub fn lent(arguments: &Arguments) -> Result<Vec<u8>, Failure> {
    let bytes = arguments.number("--memory", u64::MAX)?;
    let bytes = bytes.unwrap_or(USUAL).min(MOST);
    Ok(vec![0; bytes as usize])
}

/// Four bytes as a cell.
fn cell_of(order: u8, bytes: &[u8]) -> u32 {
    let bytes = [bytes[0], bytes[1], bytes[2], bytes[3]];
    match order {
        0 => u32::from_le_bytes(bytes),
        _ => u32::from_be_bytes(bytes),
    }
}

/// A cell as four bytes.
pub fn bytes(order: u8, cell: u32) -> [u8; 4] {
    match order {
        0 => cell.to_le_bytes(),
        _ => cell.to_be_bytes(),
    }
}

/// The cells of whole bytes.
pub fn cells(order: u8, bytes: &[u8]) -> Vec<u32> {
    bytes.chunks(4).map(|bytes| cell_of(order, bytes)).collect()
}

/// The cell at an address, if there is one.
pub fn cell_at(order: u8, memory: &[u8], address: u32) -> Option<u32> {
    let at = address as usize;
    let bytes = memory.get(at..at.checked_add(4)?)?;
    at.is_multiple_of(4).then(|| cell_of(order, bytes))
}

/// Cells of a stack from its top on, at most so many; none where the pointer is below the stack.
pub fn top(order: u8, memory: &[u8], pointer: u32, stack: &Range<u32>, most: usize) -> Vec<u32> {
    let places = (pointer..stack.end).step_by(4).take(most);
    places
        .take_while(|place| *place >= stack.start)
        .map_while(|place| cell_at(order, memory, place))
        .collect()
}

/// Whether two ranges have a byte in common.
pub fn share_bytes<T: Copy + Ord>(left: &Range<T>, right: &Range<T>) -> bool {
    left.start.max(right.start) < left.end.min(right.end)
}
