//! Tables worked on paper (document 02, (b)), tried on an implementation in both byte orders.

use crate::call::Implementation;
use crate::cases::order_of;

/// Two cells, 200h to 207h.
const TABLE: [u32; 2] = [0x200, 0x208];
const NO_AREAS: [u32; 4] = [0; 4];
/// The data area is 300h to 31Fh, the held cell 2FCh, the return area 200h to 20Fh.
const AREAS: [u32; 4] = [0x320, 8, 0x210, 4];

const DUP: u32 = 0x01;
const TUCK: u32 = 0x07;
const NIP: u32 = 0x08;
const ROLL: u32 = 0x0A;
const TO_R: u32 = 0x0C;
const ZERO: u32 = 0x19;
const ONE_PLUS: u32 = 0x21;
const SLASH: u32 = 0x26;
const FETCH: u32 = 0x39;
const STORE: u32 = 0x3A;
const C_STORE: u32 = 0x3C;
const PLUS_STORE: u32 = 0x3D;
const EXECUTE: u32 = 0x46;
const CALL: u32 = 0xFFFF_FF49;
const DO: u32 = 0x4B;
const LOOP: u32 = 0xFFFF_FF4D;
const THROW: u32 = 0x54;
const HALT: u32 = 0x55;

/// What -ADDRESS holds until a fault names an address.
const KEPT: u32 = 0xFFFF_FFFF;

/// What a cycle came to: it went on, threw this code and left this in -ADDRESS, or stopped.
#[derive(PartialEq, Eq, Debug)]
enum Came {
    On,
    Threw(i32, u32),
    Stopped(i32),
}

const READ_ONLY: Came = Came::Threw(-20, KEPT);
const NO_PLACE: Came = Came::Stopped(-258);

/// A machine whose instruction has been fetched from 10h; its handler is at 20h.
struct Machine<'c> {
    calls: &'c Implementation,
    order: u8,
    memory: Vec<u8>,
    table: [u32; 2],
    registers: [u32; 8],
}

impl<'c> Machine<'c> {
    fn new(calls: &'c Implementation, order: u8, opcode: u32, [sp, rp]: [u32; 2]) -> Self {
        let mut machine = Machine {
            calls,
            order,
            memory: vec![0; 0x400],
            table: TABLE,
            registers: [0x14, opcode, sp, rp, 0, 0, 0, 0],
        };
        machine.put(0x0, 0x20);
        machine.put(0xC, KEPT);
        machine
    }

    fn with_areas(mut self) -> Self {
        self.registers[4..].copy_from_slice(&AREAS);
        self
    }

    fn with_table(mut self, table: [u32; 2]) -> Self {
        self.table = table;
        self
    }

    /// Cells from an address on, lowest first.
    fn with(mut self, address: usize, cells: &[u32]) -> Self {
        for (number, cell) in cells.iter().enumerate() {
            self.put(address + 4 * number, *cell);
        }
        self
    }

    fn put(&mut self, address: usize, cell: u32) {
        let bytes = order_of(self.order).bytes_of(cell);
        self.memory[address..address + 4].copy_from_slice(&bytes);
    }

    fn cell(&self, address: u32) -> u32 {
        let at = address as usize;
        let bytes = self.memory[at..at + 4].try_into();
        order_of(self.order).cell_of(bytes.expect("four bytes"))
    }

    /// A cycle. What throws or stops leaves the rest of memory and RP as they were.
    fn cycle(&mut self) -> Came {
        let (before, [sp, rp]) = (self.memory.clone(), [2, 3].map(|at| self.registers[at]));
        let (m, r, mut out) = (&mut self.memory, &mut self.registers, [0]);
        let [table, end] = self.table;
        let answer = (self.calls.cycle)(self.order, m, table, end, r, &mut out);
        let thrown = self.registers[0] == 0x24 && self.registers[2] == sp.wrapping_sub(4);
        match answer {
            0 if !thrown => Came::On,
            0 => {
                let place = self.registers[2];
                let [code, bad, address] = [place, 0x8, 0xC].map(|at| self.cell(at));
                assert_eq!((bad, self.registers[3]), (0x14, rp), "'BAD and RP");
                let after = std::mem::replace(&mut self.memory, before);
                [(0x8, bad), (0xC, address), (place as usize, code)]
                    .iter()
                    .for_each(|(at, cell)| self.put(*at, *cell));
                assert_eq!(after, self.memory, "nothing else is written");
                Came::Threw(code as i32, address)
            }
            1 => {
                let same = (self.registers[2], self.registers[3]) == (sp, rp);
                assert!(out[0] != NO_PLACE_REASON || same && self.memory == before);
                Came::Stopped(out[0] as i32)
            }
            refusal => panic!("refused with {}", refusal as i32),
        }
    }
}

const NO_PLACE_REASON: u32 = -258_i32 as u32;

/// ! +! and C! at both edges of the table: which addresses are in it, and what comes before -20.
fn naming(calls: &Implementation, order: u8) {
    let cycle = |opcode, address| {
        let machine = Machine::new(calls, order, opcode, [0x300, 0x380]);
        machine.with(0x300, &[address, 7]).cycle()
    };
    for opcode in [STORE, PLUS_STORE] {
        for (address, came) in [
            (0x1FC, Came::On),
            (0x200, READ_ONLY),
            (0x204, READ_ONLY),
            (0x208, Came::On),
            (0x202, Came::Threw(-23, 0x202)),
            (0x207, Came::Threw(-23, 0x207)),
            (0x400, Came::Threw(-9, 0x400)),
        ] {
            assert_eq!(cycle(opcode, address), came, "{opcode:X}h at {address:X}h");
        }
    }
    for (address, came) in [
        (0x1FF, Came::On),
        (0x200, READ_ONLY),
        (0x203, READ_ONLY),
        (0x207, READ_ONLY),
        (0x208, Came::On),
    ] {
        assert_eq!(cycle(C_STORE, address), came, "C! at {address:X}h");
    }
    assert_eq!(cycle(FETCH, 0x204), Came::On, "@ reads the table");
}

/// Pushes and items written over. A data push that misses leaves no place for the code.
fn stacking(calls: &Implementation, order: u8) {
    let cycle = |opcode, sp, rp| Machine::new(calls, order, opcode, [sp, rp]).cycle();
    for sp in [0x204, 0x208] {
        assert_eq!(cycle(DUP, sp, 0x380), NO_PLACE, "DUP with SP {sp:X}h");
        assert_eq!(cycle(ZERO, sp, 0x380), NO_PLACE, "0 with SP {sp:X}h");
    }
    assert_eq!(cycle(DUP, 0x200, 0x380), Came::On, "DUP reads its own item");
    assert_eq!(cycle(ZERO, 0x20C, 0x380), Came::On, "just above the table");
    assert_eq!(cycle(ONE_PLUS, 0x200, 0x380), READ_ONLY);
    assert_eq!(cycle(ONE_PLUS, 0x204, 0x380), NO_PLACE, "1+ and its throw");
    assert_eq!(cycle(NIP, 0x1FC, 0x380), READ_ONLY);
    assert_eq!(cycle(NIP, 0x204, 0x380), Came::On, "NIP's dead cell");
    assert_eq!(cycle(THROW, 0x208, 0x380), Came::On, "THROW pushes nothing");
    assert_eq!(cycle(HALT, 0x204, 0x380), Came::Stopped(0), "HALT reads");
    for opcode in [TO_R, EXECUTE, CALL] {
        for (rp, came) in [
            (0x204, READ_ONLY),
            (0x208, READ_ONLY),
            (0x200, Came::On),
            (0x20C, Came::On),
        ] {
            assert_eq!(cycle(opcode, 0x300, rp), came, "{opcode:X}h, RP {rp:X}h");
        }
    }
}

/// (DO), whose limit is written before its index, and a loop's index.
fn looping(calls: &Implementation, order: u8) {
    let cycle = |opcode, rp| Machine::new(calls, order, opcode, [0x300, rp]);
    assert_eq!(cycle(DO, 0x20C).cycle(), READ_ONLY, "the index");
    assert_eq!(cycle(DO, 0x204).cycle(), READ_ONLY, "the limit");
    assert_eq!(cycle(DO, 0x200).cycle(), Came::On);
    assert_eq!(cycle(DO, 0x210).cycle(), Came::On);
    let limit_first = cycle(DO, 0x404).with_table([0x3FC, 0x400]).cycle();
    assert_eq!(limit_first, Came::Threw(-9, 0x400), "-9 before -20");
    let limit_first = cycle(DO, 0x204).with(0x300, &[0, 0]).with_areas().cycle();
    assert_eq!(limit_first, READ_ONLY, "-20 before -5");
    let off = cycle(DO, 0x214).with_areas().with_table([0x210, 0x214]);
    assert_eq!({ off }.cycle(), Came::Threw(-6, KEPT), "-6 before -20");
    assert_eq!(cycle(LOOP, 0x200).with(0x200, &[1, 9]).cycle(), READ_ONLY);
    let ending = cycle(LOOP, 0x200).with(0x200, &[8, 9]).cycle();
    assert_eq!(ending, Came::On, "a loop that ends writes nothing");
}

/// ROLL, which writes from the deepest item up, and faults that come before any write.
fn rolling(calls: &Implementation, order: u8) {
    let roll = |sp: u32, u| {
        let machine = Machine::new(calls, order, ROLL, [sp, 0x380]);
        machine.with(sp as usize, &[u]).cycle()
    };
    assert_eq!(roll(0x1F4, 2), READ_ONLY, "1F8h to 200h");
    assert_eq!(roll(0x1F0, 2), Came::On, "1F4h to 1FCh");
    assert_eq!(roll(0x1FC, 1), READ_ONLY, "200h to 204h");
    assert_eq!(roll(0x200, 1), READ_ONLY, "204h to 208h: the last store");
    assert_eq!(roll(0x204, 1), Came::On, "208h to 20Ch");
    assert_eq!(roll(0x1FC, 0), Came::On, "ROLL by 0 writes nothing");
    assert_eq!(roll(0x1FC, 0x81), Came::Threw(-9, 0x404), "read first");
    let tuck = Machine::new(calls, order, TUCK, [0x300, 0x380]).with_areas();
    let came = tuck.with_table([0x304, 0x308]).cycle();
    assert_eq!(came, READ_ONLY, "TUCK's deepest item before its push's -3");
    let by_zero = Machine::new(calls, order, SLASH, [0x1FC, 0x380]).cycle();
    assert_eq!(by_zero, Came::Threw(-10, KEPT), "-10 before -20");
}

/// A throw for another cause whose code would fall into the table; and a start's.
fn throwing(calls: &Implementation, order: u8) {
    let illegal = |sp| Machine::new(calls, order, 0x5C, [sp, 0x380]).cycle();
    assert_eq!(illegal(0x204), NO_PLACE);
    assert_eq!(illegal(0x208), NO_PLACE);
    assert_eq!(illegal(0x200), Came::Threw(-256, KEPT));
    assert_eq!(illegal(0x20C), Came::Threw(-256, KEPT));
    let held = |sp| {
        let machine = Machine::new(calls, order, ZERO, [sp, 0x210]).with_areas();
        machine.with_table([0x2FC, 0x300]).cycle()
    };
    assert_eq!(held(0x300), NO_PLACE, "a held cell in the table");
    assert_eq!(held(0x304), Came::On);

    let start = |table| {
        let (mut memory, mut registers, mut out) = (vec![0; 0x400], [9; 8], [9]);
        let [first, end] = table;
        let (m, r) = (&mut memory, &mut registers);
        let answer = (calls.start)(order, m, 0x400, 0x20, 0, 0, 0, 0, first, end, r, &mut out);
        (
            answer,
            out[0] as i32,
            registers[2],
            memory[0x2FC..0x300].to_vec(),
        )
    };
    let code = order_of(order).bytes_of(-9_i32 as u32).to_vec();
    assert_eq!(start([0x2FC, 0x300]), (1, -258, 0x300, vec![0; 4]));
    assert_eq!(start([0x300, 0x400]), (0, 0, 0x2FC, code.clone()));
    assert_eq!(start([0x2FC, 0x2FC]), (0, 0, 0x2FC, code));
}

/// What a start answers to areas and a table in 1,024 bytes.
fn judged(calls: &Implementation, order: u8, [a, b, c, d]: [u32; 4], table: [u32; 2]) -> i32 {
    let (m, r, [first, end]) = (&mut [0; 0x400], &mut [0; 8], table);
    (calls.start)(order, m, 0x10, 0x10, a, b, c, d, first, end, r, &mut [0]) as i32
}

fn judging(calls: &Implementation, order: u8) {
    for good in [[0, 0], [0x10, 0x10], [0x10, 0x400], [0x400, 0x400], TABLE] {
        assert_eq!(judged(calls, order, NO_AREAS, good), 0, "{good:X?}");
    }
    for bad in [
        [0, 0x20],
        [0, 4],
        [0x20, 0],
        [0xC, 0x20],
        [4, 4],
        [0x20, 0x1C],
        [0x12, 0x20],
        [0x10, 0x22],
        [0x3FC, 0x404],
        [0x404, 0x404],
        [0x10, 0xFFFF_FFFC],
    ] {
        assert_eq!(judged(calls, order, NO_AREAS, bad), -4112, "{bad:X?}");
        let with_areas = judged(calls, order, [0, 1, 0, 0], bad);
        assert_eq!(with_areas, -4111, "areas before {bad:X?}");
        assert_eq!(judged(calls, 2, NO_AREAS, bad), -4102, "{bad:X?}");
    }
    let (m, r) = (&mut [0; 0x400], &mut [0; 4]);
    let short = (calls.cycle)(order, m, 0, 4, r, &mut [0]) as i32;
    assert_eq!(short, -4112, "judged where the registers are too short");
    let short = (calls.cycle)(order, m, 0x10, 0x10, r, &mut [0]) as i32;
    assert_eq!(short, -4105);
}

/// A rule that stores 7 at an address, run from its start; the handler stops with what was thrown.
fn run(calls: &Implementation, order: u8, address: u32, budget: u32) -> (u32, [u32; 2]) {
    let rule = [0x0000_0753, address << 8 | 0x53, STORE, 0];
    let machine = Machine::new(calls, order, 0, [0x300, 0x380]);
    let mut machine = machine.with(0x10, &rule).with(0x20, &[HALT]);
    let (m, r, [table, end]) = (&mut machine.memory, &mut machine.registers, TABLE);
    (r[0], r[1]) = (0x14, rule[0]);
    let mut out = [0; 2];
    let answer = (calls.run)(order, m, table, end, r, budget, &mut out);
    (answer, out)
}

fn running(calls: &Implementation, order: u8) {
    let thrown = -20_i32 as u32;
    assert_eq!(run(calls, order, 0x204, 100), (1, [thrown, 4]));
    assert_eq!(run(calls, order, 0x204, 3), (0, [0, 3]));
    assert_eq!(run(calls, order, 0x208, 3), (0, [0, 3]));
}

/// A rule at 10h runs on the list machine: what it came to, and the cell at 200h.
fn listed(
    calls: &Implementation,
    order: u8,
    items: &[(u8, u32)],
    sp: u32,
    [table, end]: [u32; 2],
) -> (u32, i32, u32, u32) {
    let (kinds, operands): (Vec<u8>, Vec<u32>) = items.iter().copied().unzip();
    let mut memory = vec![0; 0x400];
    let handler = order_of(order).bytes_of(0x10);
    memory[..4].copy_from_slice(&handler);
    let (m, mut out) = (&mut memory, [0; 5]);
    let pointers = &mut [sp, 0x380, 0, 0, 0, 0];
    let answer = (calls.list_run)(
        order, &kinds, &operands, 0x10, m, table, end, pointers, 3, &mut out,
    );
    let bytes = memory[0x200..0x204].try_into().expect("four bytes");
    let cell = order_of(order).cell_of(bytes);
    (answer, out[0] as i32, pointers[0], cell)
}

/// A listing taken up at its !, with an address on the stack: the answer, and SP.
fn resumed(calls: &Implementation, order: u8, address: u32) -> (u32, u32) {
    let machine = Machine::new(calls, order, 0, [0x300, 0x380]);
    let mut machine = machine.with(0, &[0x10]).with(0x300, &[address, 7]);
    let (m, [table, end]) = (&mut machine.memory, TABLE);
    let pointers = &mut [0x300, 0x380, 0, 0, 0, 0];
    let kinds = &[ZERO as u8, STORE as u8, ZERO as u8];
    let answer = (calls.list_resume)(
        order,
        kinds,
        &[0; 3],
        0x10,
        m,
        table,
        end,
        1,
        0,
        pointers,
        1,
        &mut [0; 5],
    );
    (answer, pointers[0])
}

/// The list machine keeps to the table too; over its own image -20 comes before the stop outside.
fn listing(calls: &Implementation, order: u8) {
    let to = |address: u32| [(0x52, 7), (0x52, address), (STORE as u8, 0), (0x19, 0)];
    let run = |address, sp, table| listed(calls, order, &to(address), sp, table);
    assert_eq!(run(0x200, 0x300, [0, 0]), (0, 0, 0x300, 7));
    assert_eq!(
        run(0x200, 0x300, TABLE),
        (0, 0, 0x2F4, 0),
        "-20, then item 0"
    );
    assert_eq!(run(0x208, 0x300, TABLE), (0, 0, 0x300, 0));
    assert_eq!(run(0x10, 0x300, [0, 0]), (2, 1, 0x2F8, 0), "outside");
    assert_eq!(run(0x10, 0x300, [0x10, 0x20]), (0, 0, 0x2F4, 0), "-20");
    assert_eq!(run(0x200, 0x208, TABLE), (1, -258, 0x208, 0), "a push");
    assert_eq!(run(0x200, 0x300, [0x10, 0]).0 as i32, -4112);
    assert_eq!(resumed(calls, order, 0x200), (0, 0x2FC), "-20, then item 0");
    assert_eq!(resumed(calls, order, 0x208), (0, 0x308));
}

/// All rows.
pub fn rows(calls: &Implementation) {
    for order in [0, 1] {
        naming(calls, order);
        stacking(calls, order);
        looping(calls, order);
        rolling(calls, order);
        throwing(calls, order);
        judging(calls, order);
        running(calls, order);
        listing(calls, order);
    }
}
