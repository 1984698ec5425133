//! The call that runs a batch of forms.

use super::batch::{self, Batch, Forms, FIGURES};
use super::judging::{areas_behind, machine, memory_length, number, read_registers, room, WENT_ON};
use super::refusal::{demand, Refusal};

/// Forms run one by one, each from the start memory (document 02, (k)).
#[allow(clippy::too_many_arguments)]
pub fn batch(
    order: u8,
    start: &[u8],
    memory: &mut [u8],
    forms: &[u8],
    count: u16,
    form_length: u32,
    address: u32,
    registers: [u32; 8],
    table: u32,
    table_end: u32,
    budget: u32,
    out: &mut [u32],
) -> u32 {
    number((|| {
        memory_length(start)?;
        demand(memory.len() == start.len(), Refusal::MemoryLength)?;
        let areas = areas_behind(4, &registers);
        let mut lent = machine(order, memory, areas, [table, table_end])?;
        let forms = Forms {
            bytes: forms,
            count,
            length: form_length,
            address,
        };
        forms.judge_place(start.len())?;
        forms.judge_bytes()?;
        room(out, FIGURES)?;
        let batch = Batch {
            start,
            forms,
            registers: read_registers(&registers),
            budget,
        };
        out[..FIGURES].copy_from_slice(&batch::report(&batch.run(&mut lent)));
        Ok(WENT_ON)
    })())
}
