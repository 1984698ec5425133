//! Stack areas worked on paper (document 02, (a)), tried on an implementation in both byte orders.

use crate::call::Implementation;
use crate::cases::order_of;

/// The data area is 2F8h to 2FFh, the held cell 2F4h, the return area 378h to 37Fh.
const AREAS: [u32; 4] = [0x300, 2, 0x380, 2];
const SP: usize = 2;
const RP: usize = 3;

const DROP: u32 = 0x02;
const PICK: u32 = 0x09;
const TO_R: u32 = 0x0C;
const R_FROM: u32 = 0x0D;
const ZERO: u32 = 0x19;
const HALT: u32 = 0x55;

/// A machine between two cycles.
struct Machine<'c> {
    calls: &'c Implementation,
    order: u8,
    memory: Vec<u8>,
    registers: [u32; 8],
}

impl<'c> Machine<'c> {
    /// Started on one instruction at 10h, the handler at 20h another one.
    fn started(calls: &'c Implementation, order: u8, opcode: u32, handler: u32) -> Self {
        let mut machine = Machine {
            calls,
            order,
            memory: vec![0; 0x400],
            registers: [0; 8],
        };
        machine.put(0x10, opcode);
        machine.put(0x20, handler);
        let (m, r) = (&mut machine.memory, &mut machine.registers);
        let [data_top, data, return_top, back] = AREAS;
        let answer = (calls.start)(
            order,
            m,
            0x10,
            0x20,
            data_top,
            data,
            return_top,
            back,
            0,
            0,
            r,
            &mut [0],
        );
        assert_eq!(answer, 0, "the machine is ready");
        assert_eq!(machine.registers[SP..], [0x300, 0x380, 0x300, 2, 0x380, 2]);
        machine
    }

    fn put(&mut self, address: usize, cell: u32) {
        let bytes = order_of(self.order).bytes_of(cell);
        self.memory[address..address + 4].copy_from_slice(&bytes);
    }

    fn cell(&self, address: usize) -> u32 {
        let bytes = self.memory[address..address + 4].try_into();
        order_of(self.order).cell_of(bytes.expect("four bytes"))
    }

    /// A cycle: the reason, if it stops.
    fn cycle(&mut self) -> Option<i32> {
        let mut out = [0];
        let (m, r) = (&mut self.memory, &mut self.registers);
        let answer = (self.calls.cycle)(self.order, m, 0, 0, r, &mut out);
        assert_eq!(self.registers[4..], AREAS, "the areas come back");
        match answer {
            0 => None,
            1 => Some(out[0] as i32),
            refusal => panic!("refused with {}", refusal as i32),
        }
    }

    /// The code that a cycle throws, and -ADDRESS.
    fn thrown(&mut self) -> (i32, u32) {
        let place = self.registers[SP] - 4;
        assert_eq!(self.cycle(), None, "a throw");
        assert_eq!(self.registers[..3], [0x24, self.cell(0x20), place]);
        assert_eq!(self.cell(0x8), 0x14, "'BAD");
        (self.cell(place as usize) as i32, self.cell(0xC))
    }

    /// A cycle that stops with -258 and writes nothing.
    fn stops_unwritten(&mut self) {
        let (memory, pointers) = (self.memory.clone(), self.registers[SP..].to_vec());
        assert_eq!(self.cycle(), Some(-258));
        assert_eq!(
            (&self.memory, &self.registers[SP..]),
            (&memory, &pointers[..])
        );
    }
}

/// What -ADDRESS keeps where a fault names no address.
const KEPT: u32 = 0xFFFF_FFFF;

/// A full data area: the code goes to the held cell, and a second overflow has no place for it.
fn overflowing(calls: &Implementation, order: u8) {
    let mut machine = Machine::started(calls, order, ZERO, ZERO);
    machine.registers[SP] = 0x2F8;
    assert_eq!(machine.thrown(), (-3, KEPT));
    assert_eq!(machine.cell(0x2F4) as i32, -3, "the held cell");
    machine.stops_unwritten();

    let mut machine = Machine::started(calls, order, ZERO, HALT);
    machine.registers[SP] = 0x2F8;
    assert_eq!(machine.thrown(), (-3, KEPT));
    assert_eq!(machine.cycle(), Some(-3), "the held cell is read");
    assert_eq!(machine.registers[SP], 0x2F8);
}

/// The top of the data area is not in it.
fn underflowing(calls: &Implementation, order: u8) {
    let mut machine = Machine::started(calls, order, DROP, 0);
    assert_eq!(machine.thrown(), (-4, KEPT));

    let mut machine = Machine::started(calls, order, HALT, 0);
    machine.stops_unwritten();

    let mut machine = Machine::started(calls, order, PICK, 0);
    machine.registers[SP] = 0x2F8;
    machine.put(0x2F8, 1);
    assert_eq!(machine.thrown(), (-4, KEPT));

    let mut machine = Machine::started(calls, order, PICK, 0);
    machine.registers[SP] = 0x2F8;
    machine.put(0x2FC, 77);
    assert_eq!((machine.cycle(), machine.cell(0x2F8)), (None, 77));
}

/// Both ends of the return area, and the faults that come before its own.
fn returning(calls: &Implementation, order: u8) {
    let mut machine = Machine::started(calls, order, TO_R, 0);
    (machine.registers[SP], machine.registers[RP]) = (0x2FC, 0x378);
    assert_eq!(machine.thrown(), (-5, KEPT));

    for (rp, thrown) in [
        (0x380, (-6, KEPT)),
        (0x374, (-5, KEPT)),
        (0x2F4, (-5, KEPT)),
        (0x400, (-9, 0x400)),
        (0x382, (-23, 0x382)),
    ] {
        let mut machine = Machine::started(calls, order, R_FROM, 0);
        machine.registers[RP] = rp;
        assert_eq!(machine.thrown(), thrown, "R> with RP {rp:X}h");
    }
}

/// What a start answers to areas in 1,024 bytes.
fn judged(calls: &Implementation, order: u8, [a, b, c, d]: [u32; 4]) -> i32 {
    let (m, r) = (&mut [0; 0x400], &mut [0; 8]);
    (calls.start)(order, m, 0x10, 0x10, a, b, c, d, 0, 0, r, &mut [0]) as i32
}

fn judging(calls: &Implementation, order: u8) {
    for good in [
        [0; 4],
        [8, 1, 0x400, 0xFE],
        [0x400, 0xFE, 4, 1],
        [0x300, 2, 0x2F4, 2],
        [0x300, 2, 0x308, 2],
    ] {
        assert_eq!(judged(calls, order, good), 0, "{good:X?}");
    }
    for bad in [
        [4, 1, 0x400, 1],
        [0x404, 1, 0x200, 1],
        [0x300, 2, 0x2F8, 2],
        [0x300, 2, 0x304, 2],
        [0x302, 2, 0x380, 2],
        [0x300, 0, 0x380, 2],
        [0x300, 0x4000_0002, 0x380, 2],
        [0x300, 0, 0, 0],
    ] {
        assert_eq!(judged(calls, order, bad), -4111, "{bad:X?}");
    }
}

/// All rows.
pub fn rows(calls: &Implementation) {
    for order in [0, 1] {
        overflowing(calls, order);
        underflowing(calls, order);
        returning(calls, order);
        judging(calls, order);
    }
}
