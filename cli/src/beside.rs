//! The processor beside the list machine: after the same cycles both are to have the same memory,
//! SP, RP and reason.

use crate::failure::Failure;
use crate::library::{self, End, Listed, Registers};
use crate::limits::Limits;
use crate::table::Table;
use crate::{memory, reasons, report};

/// A processor that follows the list machine.
pub struct Processor {
    order: u8,
    memory: Vec<u8>,
    table: Table,
    registers: Registers,
    cycles: u64,
    reason: Option<u32>,
}

impl Processor {
    pub fn new(order: u8, memory: Vec<u8>, table: Table, registers: Registers) -> Self {
        Processor {
            order,
            memory,
            table,
            registers,
            cycles: 0,
            reason: None,
        }
    }

    /// Runs on to the cycles that the list machine counted.
    pub fn catch_up(&mut self, listed: &Listed) -> Result<(), Failure> {
        let budget = listed.cycles.saturating_sub(self.cycles) as u32;
        let (memory, registers) = (&mut self.memory, &mut self.registers);
        let ran = library::run(self.order, memory, self.table, registers, budget)?;
        self.cycles += u64::from(ran.cycles);
        self.reason = ran.reason;
        Ok(())
    }

    /// Its line.
    pub fn line(&self) -> String {
        let Registers {
            ep,
            a,
            sp,
            rp,
            areas,
        } = self.registers;
        let cycles = self.cycles;
        let tops = report::tops(self.order, &self.memory, sp, rp, &areas);
        let line = format!("processor EP {ep:08X} A {a:08X}  {sp:08X} {rp:08X} {cycles:8}  {tops}");
        line.trim_end().to_string()
    }

    /// Holds the state against the list machine's; the first difference is a failure.
    pub fn compare(&self, listed: &Listed, memory: &[u8]) -> Result<(), Failure> {
        let reason = match listed.end {
            End::Stopped(reason) => Some(reason),
            End::WentOn | End::Outside(_) => None,
        };
        let Registers { sp, rp, areas, .. } = self.registers;
        let table = self.table;
        let limits = Limits { areas, table };
        let mut differ = Vec::new();
        if reason != self.reason {
            let told = |reason: Option<u32>| match reason {
                Some(reason) => reasons::why(reason, sp, &limits),
                None => "none".to_string(),
            };
            differ.push(format!("reason {} / {}", told(reason), told(self.reason)));
        }
        if listed.cycles != self.cycles {
            differ.push(format!("cycles {} / {}", listed.cycles, self.cycles));
        }
        if listed.sp != sp {
            differ.push(format!("SP {:08X} / {sp:08X}", listed.sp));
        }
        if listed.rp != rp {
            differ.push(format!("RP {:08X} / {rp:08X}", listed.rp));
        }
        differ.extend(first_difference(self.order, memory, &self.memory));
        if differ.is_empty() {
            return Ok(());
        }
        let text = differ.join(", ");
        Err(Failure::Other(format!(
            "the list machine and the processor differ: {text}"
        )))
    }
}

/// The first cell in which two memories differ.
fn first_difference(order: u8, left: &[u8], right: &[u8]) -> Option<String> {
    if left == right {
        return None;
    }
    let pairs = left.chunks(4).zip(right.chunks(4));
    let at = pairs.into_iter().position(|(left, right)| left != right)?;
    let address = 4 * at as u32;
    let left = memory::cell_at(order, left, address)?;
    let right = memory::cell_at(order, right, address)?;
    Some(format!("memory at {address:08X}: {left:08X} / {right:08X}"))
}
