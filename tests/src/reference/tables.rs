//! The table that instructions read and do not write (document 02, (b)): which ranges are good, and
//! what a store asks of its place.

use super::memory::{Fault, Memory};
use super::refusal::{demand, Refusal};

/// The table as it goes with each call: its first byte and its end. Both zero: no table.
pub type Range = [u32; 2];

/// The cells below hold registers.
const LOWEST: u32 = 0x10;

/// Bytes from `first` up to `end`, which is not among them.
#[derive(Clone, Copy, PartialEq, Eq, Debug)]
pub struct Table {
    first: u32,
    end: u32,
}

impl Table {
    /// Accepts a range, or refuses it: -4112. Without a table no byte is in it.
    pub fn accept(range: Range, length: u32) -> Result<Table, Refusal> {
        let [first, end] = range;
        let aligned = first.is_multiple_of(4) && end.is_multiple_of(4);
        let inside = LOWEST <= first && first <= end && end <= length;
        demand(range == [0; 2] || aligned && inside, Refusal::Table)?;
        Ok(Table { first, end })
    }

    #[inline(always)]
    pub fn contains(self, address: u32) -> bool {
        self.first <= address && address < self.end
    }

    /// The last thing that a store asks: -20 for a place in the table.
    #[inline(always)]
    pub fn judge(self, address: u32) -> Result<(), Fault> {
        if self.contains(address) {
            Err(Fault::ReadOnly)
        } else {
            Ok(())
        }
    }
}

/// Named places to be written: range and alignment first, then the table.
pub trait Stores: Memory {
    #[inline(always)]
    fn check_store(&self, address: u32) -> Result<(), Fault> {
        self.check_cell(address)?;
        self.table().judge(address)
    }

    #[inline(always)]
    fn check_store_byte(&self, address: u32) -> Result<(), Fault> {
        self.check_byte(address)?;
        self.table().judge(address)
    }
}

impl<M: Memory> Stores for M {}
