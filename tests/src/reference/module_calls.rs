//! The calls on object modules.

use super::judging::{byte_order, give_file, memory_length, number, room, WENT_ON};
use super::module;
use super::set;

pub fn load(order: u8, memory: &mut [u8], file: &[u8], address: u32, out: &mut [u32]) -> u32 {
    load_first(order, memory, file, address, u32::MAX, out)
}

/// A load that is told to halt after a number of cells (document 02, (c)).
pub fn load_first(
    order: u8,
    memory: &mut [u8],
    file: &[u8],
    address: u32,
    cells: u32,
    out: &mut [u32],
) -> u32 {
    number((|| {
        memory_length(memory)?;
        let order = byte_order(order)?;
        let (module, at) = module::judge(memory, file, address)?;
        room(out, 1)?;
        let first = module.cells().min(cells as usize);
        module::copy_in(order, memory, &module, at, first);
        out[0] = first as u32;
        Ok(WENT_ON)
    })())
}

/// Modules loaded together (document 02, (d)).
pub fn load_set(
    order: u8,
    memory: &mut [u8],
    buffer: &[u8],
    modules: &[u32],
    out: &mut [u32],
) -> u32 {
    number((|| {
        memory_length(memory)?;
        let order = byte_order(order)?;
        let (loaded, cells) = set::load(order, memory, buffer, modules)?;
        room(out, 1)?;
        memory.copy_from_slice(&loaded);
        out[0] = cells as u32;
        Ok(WENT_ON)
    })())
}

pub fn save(
    order: u8,
    memory: &[u8],
    address: u32,
    cells: u32,
    output: &mut [u8],
    out: &mut [u32],
) -> u32 {
    number((|| {
        memory_length(memory)?;
        let order = byte_order(order)?;
        let at = module::place(memory, address, u64::from(cells))?;
        let file = module::write(order, &memory[at..at + 4 * cells as usize]);
        give_file(&file, output, out)
    })())
}
