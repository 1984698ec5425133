//! Object modules (document 001, table 8; document 01, Modules).

use super::memory::Order;
use super::refusal::{demand, Refusal};

const MAGIC: &[u8; 7] = b"BEETLE\0";
const HEADER: usize = 12;

/// A module as its file gives it.
#[derive(Debug)]
pub struct Module<'f> {
    pub order: Order,
    pub code: &'f [u8],
}

impl Module<'_> {
    pub fn cells(&self) -> usize {
        self.code.len() / 4
    }
}

/// Reads a file: -2 for the first eight bytes, then -4103 for the length.
pub fn read(file: &[u8]) -> Result<Module<'_>, Refusal> {
    demand(file.len() >= 8 && &file[..7] == MAGIC, Refusal::Header)?;
    let order = Order::from_number(file[7]).ok_or(Refusal::Header)?;
    demand(file.len() >= HEADER, Refusal::FileLength)?;
    let cells = order.cell_of([file[8], file[9], file[10], file[11]]);
    let length = 12 + 4 * u64::from(cells);
    demand(file.len() as u64 == length, Refusal::FileLength)?;
    Ok(Module {
        order,
        code: &file[HEADER..],
    })
}

/// The place of `cells` cells from `address` on: -4104, then -1.
pub fn place(memory: &[u8], address: u32, cells: u64) -> Result<usize, Refusal> {
    demand(address.is_multiple_of(4), Refusal::Unaligned)?;
    let length = memory.len() as u64;
    let address = u64::from(address);
    let inside = address < length && address + 4 * cells <= length;
    demand(inside, Refusal::OutsideMemory)?;
    Ok(address as usize)
}

/// A module by itself: its file, then its place.
pub fn judge<'f>(
    memory: &[u8],
    file: &'f [u8],
    address: u32,
) -> Result<(Module<'f>, usize), Refusal> {
    let module = read(file)?;
    let at = place(memory, address, module.cells() as u64)?;
    Ok((module, at))
}

/// Copies the first cells of the code to their place, each reversed where the orders differ.
pub fn copy_in(order: Order, memory: &mut [u8], module: &Module<'_>, at: usize, cells: usize) {
    let first = module.code.chunks(4).take(cells);
    for (to, from) in memory[at..].chunks_mut(4).zip(first) {
        to.copy_from_slice(from);
        if module.order != order {
            to.reverse();
        }
    }
}

/// The file of `code` in the machine's order.
pub fn write(order: Order, code: &[u8]) -> Vec<u8> {
    let mut file = MAGIC.to_vec();
    file.push(order.number());
    file.extend(order.bytes_of((code.len() / 4) as u32));
    file.extend(code);
    file
}
