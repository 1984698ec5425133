//! What every form of a batch is given.

use std::ops::Range;

use super::digest::Digest;
use crate::failure::{Failure, OUTSIDE};
use crate::library::Registers;
use crate::limits::Limits;
use crate::table::Table;

/// The memory before a form goes in, the registers and all else of its run, and where it goes.
#[derive(Clone, PartialEq, Eq, Debug)]
pub struct Setting {
    pub order: u8,
    pub start: Vec<u8>,
    pub registers: Registers,
    pub table: Table,
    pub budget: u32,
    pub address: u32,
    pub form_length: u32,
}

impl Setting {
    /// The bytes of memory that a form takes.
    pub fn bytes(&self) -> Range<u64> {
        let address = u64::from(self.address);
        address..address + u64::from(self.form_length)
    }

    pub fn limits(&self) -> Limits {
        Limits {
            areas: self.registers.areas,
            table: self.table,
        }
    }

    /// The same for all forms that are given alike, in whatever job they are run.
    pub fn digest(&self) -> u64 {
        let mut digest = Digest::new();
        digest.number(u64::from(self.order));
        digest.number(self.start.len() as u64);
        digest.bytes(&self.start);
        let Table { first, end } = self.table;
        let rest = [first, end, self.budget, self.address, self.form_length];
        for number in self.registers.to_array().into_iter().chain(rest) {
            digest.number(u64::from(number));
        }
        digest.value()
    }

    /// A refusal with -1 says where a form would end; any other is told as it is.
    pub fn explain(&self, failure: Failure) -> Failure {
        let Failure::Refused(OUTSIDE) = failure else {
            return self.limits().explain(failure, self.start.len());
        };
        let (Range { start, end }, memory) = (self.bytes(), self.start.len());
        let length = self.form_length;
        let text = format!(
            "a form of {length} bytes at {start:X}h ends at {end:X}h, past the memory's {memory:X}h"
        );
        Failure::Bad(OUTSIDE, vec![text])
    }
}

#[cfg(test)]
mod tests {
    use super::*;
    use crate::areas::Areas;

    fn setting() -> Setting {
        Setting {
            order: 0,
            start: vec![0; 8],
            registers: Registers {
                ep: 1,
                a: 2,
                sp: 3,
                rp: 4,
                areas: Areas::of([5, 6, 7, 8]),
            },
            table: Table { first: 9, end: 10 },
            budget: 11,
            address: 12,
            form_length: 13,
        }
    }

    /// Each thing that a form is given by itself.
    #[test]
    fn everything_is_in_the_digest() {
        let changes: [fn(&mut Setting); 16] = [
            |s| s.order = 1,
            |s| s.start[7] = 1,
            |s| s.start.push(0),
            |s| s.registers.ep = 0,
            |s| s.registers.a = 0,
            |s| s.registers.sp = 0,
            |s| s.registers.rp = 0,
            |s| s.registers.areas.data.top = 0,
            |s| s.registers.areas.data.cells = 0,
            |s| s.registers.areas.back.top = 0,
            |s| s.registers.areas.back.cells = 0,
            |s| s.table.first = 0,
            |s| s.table.end = 0,
            |s| s.budget = 0,
            |s| s.address = 0,
            |s| s.form_length = 0,
        ];
        let mut digests = vec![setting().digest(), setting().digest()];
        for change in changes {
            let mut changed = setting();
            change(&mut changed);
            digests.push(changed.digest());
        }
        digests.sort_unstable();
        digests.dedup();
        assert_eq!(digests.len(), 1 + changes.len());
    }
}
