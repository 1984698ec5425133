//! The list machine on its way through a listing.

use crate::failure::Failure;
use crate::library::{self, End, Listed, Registers, Stand};
use crate::limits::Limits;
use crate::listing::Packed;
use crate::memory;
use crate::names::{HALT, THROW};
use crate::reasons::BAD_HANDLER;
use crate::table::Table;

/// Its memory and table, where it stands, the items done and cycles counted.
pub struct Following<'l> {
    pub packed: &'l Packed,
    pub memory: Vec<u8>,
    table: Table,
    pub stand: Stand,
    items_done: u32,
    cycles: u64,
}

impl<'l> Following<'l> {
    /// At item 0, with the registers of a machine just started.
    pub fn new(packed: &'l Packed, memory: &[u8], table: Table, registers: Registers) -> Self {
        let Registers { sp, rp, areas, .. } = registers;
        Following {
            packed,
            memory: memory.to_vec(),
            table,
            stand: Stand {
                item: 0,
                ran: false,
                sp,
                rp,
                areas,
            },
            items_done: 0,
            cycles: 0,
        }
    }

    /// So many items from here on.
    fn resume(&self, memory: &mut [u8], items: u32) -> Result<Listed, Failure> {
        let Packed { listing, order, .. } = self.packed;
        library::list_resume(*order, listing, memory, self.table, self.stand, items)
    }

    /// What it keeps to.
    pub fn limits(&self) -> Limits {
        Limits {
            areas: self.stand.areas,
            table: self.table,
        }
    }

    /// No item: what the library says before the first.
    pub fn judged(&self) -> Result<Listed, Failure> {
        self.resume(&mut self.memory.clone(), 0)
    }

    /// Carries out the next item. What a second one counts tells whether it was run on into and
    /// opens a cell.
    pub fn step(&mut self) -> Result<Listed, Failure> {
        let two = self.resume(&mut self.memory.clone(), 2)?;
        let mut memory = std::mem::take(&mut self.memory);
        let one = self.resume(&mut memory, 1)?;
        self.memory = memory;
        let Listed { item, sp, rp, .. } = one;
        let ran = two.items_done == 2 && two.cycles == one.cycles + 2;
        self.stand = Stand {
            item,
            ran,
            sp,
            rp,
            ..self.stand
        };
        self.items_done += one.items_done;
        self.cycles += one.cycles;
        let (items_done, cycles) = (self.items_done, self.cycles);
        Ok(Listed {
            items_done,
            cycles,
            ..one
        })
    }

    /// The line of a throw, where the next item goes over an end of its stack's area or would write
    /// the table. With no address in 'THROW, an item that throws stops the machine, its code on the
    /// data stack.
    pub fn next_is_kept_off(&self) -> Result<Option<String>, Failure> {
        let limits = self.limits();
        let kind = self.packed.listing.kinds.get(self.stand.item as usize);
        let own_code = matches!(kind, Some(&THROW | &HALT));
        if own_code || limits == Limits::default() {
            return Ok(None);
        }
        let mut memory = self.memory.clone();
        memory[..4].fill(0xFF);
        let listed = self.resume(&mut memory, 1)?;
        if listed.end != End::Stopped(BAD_HANDLER) {
            return Ok(None);
        }
        let code = memory::cell_at(self.packed.order, &memory, listed.sp).map(|code| code as i32);
        Ok(code.and_then(|code| {
            let what = limits.kept_off(code)?;
            Some(format!("threw {code}: {what}"))
        }))
    }
}
