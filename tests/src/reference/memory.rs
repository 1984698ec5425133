//! Cells and bytes of the lent memory, and the faults of reaching for them.

use super::stacks::Areas;
use super::tables::Table;

/// ENDISM, the byte order of a cell.
#[derive(Clone, Copy, PartialEq, Eq, Debug)]
pub enum Order {
    LeastFirst,
    MostFirst,
}

impl Order {
    pub fn cell_of(self, bytes: [u8; 4]) -> u32 {
        match self {
            Order::LeastFirst => u32::from_le_bytes(bytes),
            Order::MostFirst => u32::from_be_bytes(bytes),
        }
    }

    pub fn bytes_of(self, cell: u32) -> [u8; 4] {
        match self {
            Order::LeastFirst => cell.to_le_bytes(),
            Order::MostFirst => cell.to_be_bytes(),
        }
    }

    /// The order with this number.
    pub fn from_number(number: u8) -> Option<Order> {
        match number {
            0 => Some(Order::LeastFirst),
            1 => Some(Order::MostFirst),
            _ => None,
        }
    }

    pub fn number(self) -> u8 {
        match self {
            Order::LeastFirst => 0,
            Order::MostFirst => 1,
        }
    }
}

/// What an instruction may raise (document 001, table 4; document 02, (a) and (b)).
#[derive(Clone, Copy, PartialEq, Eq, Debug)]
pub enum Fault {
    /// -9, with the address.
    InvalidAddress(u32),
    /// -23, with the address.
    Alignment(u32),
    /// -3: below the data area.
    DataBelow,
    /// -4: at the top of the data area, or above.
    DataAbove,
    /// -5: below the return area.
    ReturnBelow,
    /// -6: at the top of the return area, or above.
    ReturnAbove,
    /// -20: a store into the table.
    ReadOnly,
    /// -10.
    DivisionByZero,
    /// -256.
    IllegalOpcode,
    /// -257.
    LibraryRoutine,
}

impl Fault {
    /// The exception code, as a cell.
    pub fn code(self) -> u32 {
        let code: i32 = match self {
            Fault::InvalidAddress(_) => -9,
            Fault::Alignment(_) => -23,
            Fault::DataBelow => -3,
            Fault::DataAbove => -4,
            Fault::ReturnBelow => -5,
            Fault::ReturnAbove => -6,
            Fault::ReadOnly => -20,
            Fault::DivisionByZero => -10,
            Fault::IllegalOpcode => -256,
            Fault::LibraryRoutine => -257,
        };
        code as u32
    }

    /// What -ADDRESS is set to: -9 and -23 only.
    pub fn address(self) -> Option<u32> {
        match self {
            Fault::InvalidAddress(address) | Fault::Alignment(address) => Some(address),
            _ => None,
        }
    }
}

/// Memory as instructions see it. `cell`, `set_cell`, `byte` and `set_byte` are for places that
/// were checked before.
pub trait Memory {
    /// MEMORY.
    fn length(&self) -> u32;
    fn order(&self) -> Order;
    fn areas(&self) -> &Areas;
    fn table(&self) -> Table;
    fn cell(&self, address: u32) -> u32;
    fn set_cell(&mut self, address: u32, cell: u32);
    fn byte(&self, address: u32) -> u8;
    fn set_byte(&mut self, address: u32, byte: u8);

    /// Outside memory is -9, aligned or not; inside, an unaligned address is -23.
    #[inline(always)]
    fn check_cell(&self, address: u32) -> Result<(), Fault> {
        if address >= self.length() {
            Err(Fault::InvalidAddress(address))
        } else if !address.is_multiple_of(4) {
            Err(Fault::Alignment(address))
        } else {
            Ok(())
        }
    }

    #[inline(always)]
    fn check_byte(&self, address: u32) -> Result<(), Fault> {
        if address >= self.length() {
            Err(Fault::InvalidAddress(address))
        } else {
            Ok(())
        }
    }

    /// The cell at an address, or the fault of asking for it.
    #[inline(always)]
    fn fetch(&self, address: u32) -> Result<u32, Fault> {
        self.check_cell(address)?;
        Ok(self.cell(address))
    }
}

/// The memory that the caller lent, with its byte order, the stack areas and the table.
pub struct Lent<'m> {
    pub order: Order,
    pub areas: Areas,
    pub table: Table,
    pub bytes: &'m mut [u8],
}

impl Lent<'_> {
    /// The same memory, lent on.
    pub fn again(&mut self) -> Lent<'_> {
        Lent {
            order: self.order,
            areas: self.areas,
            table: self.table,
            bytes: self.bytes,
        }
    }
}

impl Memory for Lent<'_> {
    #[inline(always)]
    fn length(&self) -> u32 {
        self.bytes.len() as u32
    }

    #[inline(always)]
    fn order(&self) -> Order {
        self.order
    }

    #[inline(always)]
    fn areas(&self) -> &Areas {
        &self.areas
    }

    #[inline(always)]
    fn table(&self) -> Table {
        self.table
    }

    #[inline(always)]
    fn cell(&self, address: u32) -> u32 {
        let at = address as usize;
        let bytes = &self.bytes[at..at + 4];
        self.order.cell_of([bytes[0], bytes[1], bytes[2], bytes[3]])
    }

    #[inline(always)]
    fn set_cell(&mut self, address: u32, cell: u32) {
        let at = address as usize;
        self.bytes[at..at + 4].copy_from_slice(&self.order.bytes_of(cell));
    }

    #[inline(always)]
    fn byte(&self, address: u32) -> u8 {
        self.bytes[address as usize]
    }

    #[inline(always)]
    fn set_byte(&mut self, address: u32, byte: u8) {
        self.bytes[address as usize] = byte;
    }
}
