//! Modules loaded together (document 02, (d)): once each has passed by itself, they are loaded into a
//! copy of the memory where every byte that was written is marked.

use super::memory::Order;
use super::module::{self, Module};
use super::refusal::{demand, Refusal};

/// The most modules that go in together.
const MOST: usize = 16;

/// A part of the buffer, or -2 where it reaches outside.
fn part(buffer: &[u8], place: u32, length: u32) -> Result<&[u8], Refusal> {
    let behind = buffer.get(place as usize..);
    let part = behind.and_then(|behind| behind.get(..length as usize));
    part.ok_or(Refusal::Header)
}

/// What passes by itself of a set that is given by three numbers for each module: address, place and
/// length. The first refusal is that of the first module that has one.
fn each<'b>(
    memory: &[u8],
    buffer: &'b [u8],
    numbers: &[u32],
) -> Result<Vec<(Module<'b>, usize)>, Refusal> {
    let modules = numbers.chunks_exact(3);
    let judged = modules.map(|numbers| {
        let file = part(buffer, numbers[1], numbers[2])?;
        module::judge(memory, file, numbers[0])
    });
    judged.collect()
}

/// The memory with all modules in it, and the number of their cells.
pub fn load(
    order: Order,
    memory: &[u8],
    buffer: &[u8],
    numbers: &[u32],
) -> Result<(Vec<u8>, usize), Refusal> {
    let modules = each(memory, buffer, numbers)?;
    demand(numbers.len().is_multiple_of(3), Refusal::ModuleSet)?;
    demand((1..=MOST).contains(&modules.len()), Refusal::ModuleSet)?;
    let mut loaded = memory.to_vec();
    let mut written = vec![false; memory.len()];
    for (module, at) in &modules {
        let marks = &mut written[*at..at + module.code.len()];
        demand(!marks.contains(&true), Refusal::ModuleSet)?;
        marks.fill(true);
        module::copy_in(order, &mut loaded, module, *at, module.cells());
    }
    let cells = modules.iter().map(|(module, _)| module.cells()).sum();
    Ok((loaded, cells))
}
