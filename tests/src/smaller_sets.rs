//! Sets of modules made smaller (document 02, (d)).

use crate::call::Call;
use crate::reference::module;

/// The call without some bytes of its file; modules of a set that lie behind them keep their bytes.
pub fn without_bytes(call: &Call, start: usize, size: usize) -> Call {
    let mut call = call.clone();
    call.file.drain(start..start + size);
    for numbers in call.modules.chunks_exact_mut(3) {
        if numbers[1] as usize >= start + size {
            numbers[1] -= size as u32;
        }
    }
    call
}

/// The set without a module; its bytes stay.
pub fn without_module(call: &Call, module: usize) -> Call {
    let mut call = call.clone();
    call.modules.drain(3 * module..3 * module + 3);
    call
}

/// Lowers the addresses of all modules by the lowest.
pub fn lower_addresses(call: &mut Call) {
    let mut modules: Vec<&mut [u32]> = call.modules.chunks_exact_mut(3).collect();
    let lowest = modules.iter().map(|numbers| numbers[0]).min();
    let lowest = lowest.unwrap_or_default();
    modules.iter_mut().for_each(|numbers| numbers[0] -= lowest);
}

/// The set with one cell less in a module, where it is one that has cells.
pub fn with_cell_less(call: &Call, module: usize) -> Option<Call> {
    let numbers = &call.modules[3 * module..3 * module + 3];
    let (place, length) = (numbers[1] as usize, numbers[2] as usize);
    let file = call.file.get(place..place.checked_add(length)?)?;
    let read = module::read(file).ok()?;
    let count = read.order.bytes_of(read.cells().checked_sub(1)? as u32);
    let mut smaller = without_bytes(call, place + length - 4, 4);
    smaller.file[place + 8..place + 12].copy_from_slice(&count);
    smaller.modules[3 * module + 2] -= 4;
    Some(smaller)
}
