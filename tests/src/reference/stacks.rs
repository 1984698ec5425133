//! Stack areas set by the caller (document 02, (a)): which four numbers are good, and where each
//! stack may be read and written.

use super::memory::{Fault, Memory};
use super::refusal::Refusal;

/// The areas as they travel with the registers: top and number of cells of the data stack, then of
/// the return stack. All zero: no areas.
pub type Numbers = [u32; 4];

/// Bytes from `floor` up to `top`, which is not among them.
#[derive(Clone, Copy, PartialEq, Eq, Debug)]
pub struct Area {
    floor: u32,
    top: u32,
}

impl Area {
    /// So many cells under a top; none where they are no cells of memory.
    fn under(top: u32, cells: u64, length: u32) -> Option<Area> {
        let floor = u64::from(top).checked_sub(4 * cells)?;
        let good = top.is_multiple_of(4) && top <= length;
        good.then_some(Area {
            floor: floor as u32,
            top,
        })
    }

    fn overlaps(self, other: Area) -> bool {
        self.floor < other.top && other.floor < self.top
    }

    #[inline(always)]
    fn contains(self, address: u32) -> bool {
        self.floor <= address && address < self.top
    }

    /// An address off the area is over the end that it lies beyond.
    #[inline(always)]
    fn judge(self, address: u32, below: Fault, above: Fault) -> Result<(), Fault> {
        if address < self.floor {
            Err(below)
        } else if address >= self.top {
            Err(above)
        } else {
            Ok(())
        }
    }
}

/// Where the stacks may be reached for.
#[derive(Clone, Copy, PartialEq, Eq, Debug)]
pub struct Areas {
    data: Area,
    /// The data area and the held cell, the one just under it.
    data_and_held: Area,
    returns: Area,
}

impl Areas {
    /// No areas: all of memory, and no cell is held.
    pub fn none(length: u32) -> Areas {
        let memory = Area {
            floor: 0,
            top: length,
        };
        Areas {
            data: memory,
            data_and_held: memory,
            returns: memory,
        }
    }

    /// The areas that four numbers stand for, if they are good.
    fn given(numbers: Numbers, length: u32) -> Option<Areas> {
        let [data_top, data_cells, return_top, return_cells] = numbers;
        if data_cells == 0 || return_cells == 0 {
            return None;
        }
        let areas = Areas {
            data: Area::under(data_top, u64::from(data_cells), length)?,
            data_and_held: Area::under(data_top, u64::from(data_cells) + 1, length)?,
            returns: Area::under(return_top, u64::from(return_cells), length)?,
        };
        (!areas.data_and_held.overlaps(areas.returns)).then_some(areas)
    }

    /// Accepts four numbers, or refuses them: -4111.
    pub fn accept(numbers: Numbers, length: u32) -> Result<Areas, Refusal> {
        if numbers == [0; 4] {
            return Ok(Areas::none(length));
        }
        Areas::given(numbers, length).ok_or(Refusal::Areas)
    }
}

/// SP and RP of a start: the tops, or where they were without areas.
pub fn first_pointers(numbers: Numbers, length: u32) -> (u32, u32) {
    match numbers {
        [0, 0, 0, 0] => (length - 0x100, length),
        [data_top, _, return_top, _] => (data_top, return_top),
    }
}

/// Places of the stacks: range and alignment first, then the area, and where one is written the table.
pub trait Stacks: Memory {
    /// An item of the data stack: the held cell may be read too.
    #[inline(always)]
    fn data_item(&self, address: u32) -> Result<u32, Fault> {
        let x = self.fetch(address)?;
        let area = self.areas().data_and_held;
        area.judge(address, Fault::DataBelow, Fault::DataAbove)?;
        Ok(x)
    }

    /// A place of the data stack to be written.
    #[inline(always)]
    fn check_data(&self, address: u32) -> Result<(), Fault> {
        self.check_cell(address)?;
        let area = self.areas().data;
        area.judge(address, Fault::DataBelow, Fault::DataAbove)?;
        self.table().judge(address)
    }

    /// An item of the return stack.
    #[inline(always)]
    fn return_item(&self, address: u32) -> Result<u32, Fault> {
        let x = self.fetch(address)?;
        let area = self.areas().returns;
        area.judge(address, Fault::ReturnBelow, Fault::ReturnAbove)?;
        Ok(x)
    }

    /// A place of the return stack to be written.
    #[inline(always)]
    fn check_return(&self, address: u32) -> Result<(), Fault> {
        self.return_item(address)?;
        self.table().judge(address)
    }

    /// Whether a throw may push its code there: the held cell is for it.
    fn takes_code(&self, address: u32) -> bool {
        self.check_cell(address).is_ok()
            && self.areas().data_and_held.contains(address)
            && !self.table().contains(address)
    }
}

impl<M: Memory> Stacks for M {}
