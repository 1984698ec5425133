//! The loops whose cycles are measured, and the machines that run them.

use beetle_tests::call::reference;

use crate::sides::{Run, Side};

/// A loop: its cells stand at 10h and run for ever.
pub struct Loop {
    name: &'static str,
    cells: &'static [u32],
    /// 'THROW.
    handler: u32,
}

/// 'THROW of a loop that throws nothing.
const NONE: u32 = u32::MAX;

static LOOPS: [Loop; 4] = [
    Loop {
        name: "stack and arithmetic",
        cells: &[0x031E_0401, 0x0125_1A34, 0xFD43_2E08],
        handler: NONE,
    },
    Loop {
        name: "memory, bytes, literals",
        cells: &[
            0x0001_0053,
            0x4053_2139,
            0x4153_3A2C,
            0x033B_012C,
            0xFFFB_433C,
        ],
        handler: NONE,
    },
    Loop {
        name: "calls, branches, (LOOP)",
        cells: &[
            0x0000_0749,
            0x0002_4519,
            0,
            0,
            0x0000_0553,
            0x0000_4B19,
            0xFF4D_0201,
            0xFFFF_F843,
            0x0000_004A,
        ],
        handler: NONE,
    },
    Loop {
        name: "(+LOOP)",
        cells: &[0x0001_9053, 0x0000_4B19, 0xFFFF_4F1C, 0xFFFF_FC43],
        handler: NONE,
    },
];

/// Pushes until -3 is thrown. The handler at 18h drops the code and an item, sets SP to its start
/// and begins again: with an area of four cells a throw in every 13 cycles.
static OVERFLOW: Loop = Loop {
    name: "overflow again and again",
    cells: &[
        0x1A1A_1A1A,
        0xFFFF_FE43,
        0x0000_0202,
        0x00FF_0053,
        0xFFFB_433F,
    ],
    handler: 0x18,
};

/// Stores into its own first cell. The handler at 18h drops the code and the address and begins
/// again: with its cells in the table a throw in every five cycles.
static REFUSED: Loop = Loop {
    name: "refused store again and again",
    cells: &[0x0000_1053, 0x0000_003A, 0xFD43_0202],
    handler: 0x18,
};

const MEMORY: usize = 65_536;
const BASE: u32 = 0x10;

/// Items that lie on the data stack when a loop begins.
const ITEMS: [u32; 4] = [3, 5, 7, 11];

/// Top and cells of the data stack's area and of the return stack's. The stacks start where they do
/// without areas.
type Areas = [u32; 4];
const NO_AREAS: Areas = [0; 4];
const WIDE: Areas = [0xFF00, 1024, 0x10000, 64];
const NARROW: Areas = [0xFF00, 4, 0x10000, 64];

/// What rules cannot write.
#[derive(Clone, Copy, PartialEq, Eq)]
enum Table {
    None,
    /// The loop's own cells, as offices will have it.
    Own,
    /// From the loop's end up to 100h, where the second loop stores.
    Behind,
}

/// The machines that each loop runs in.
const MACHINES: [(Areas, Table); 5] = [
    (NO_AREAS, Table::None),
    (NO_AREAS, Table::Own),
    (WIDE, Table::None),
    (WIDE, Table::Own),
    (WIDE, Table::Behind),
];

/// How many they are.
pub const EACH: usize = MACHINES.len();

/// A machine after a run.
#[derive(PartialEq, Eq)]
pub struct Left {
    memory: Vec<u8>,
    registers: [u32; 8],
}

/// A loop in a machine.
pub struct Case {
    looping: &'static Loop,
    areas: Areas,
    table: Table,
}

/// Every loop in `EACH` machines, then the two that throw.
pub fn cases() -> Vec<Case> {
    let case = |looping, (areas, table)| Case {
        looping,
        areas,
        table,
    };
    let each = LOOPS
        .iter()
        .flat_map(|looping| MACHINES.map(|machine| case(looping, machine)));
    let overflow = case(&OVERFLOW, (NARROW, Table::None));
    let refused = case(&REFUSED, (NO_AREAS, Table::Own));
    each.chain([overflow, refused]).collect()
}

impl Case {
    /// The loop's name, the cells of the areas and what is in the table, as columns.
    pub fn columns(&self) -> String {
        let areas = match self.areas {
            NO_AREAS => "none".to_string(),
            [_, data, _, back] => format!("{data} and {back} cells"),
        };
        let table = match self.table {
            Table::None => "none",
            Table::Own => "the loop",
            Table::Behind => "behind the loop",
        };
        format!("{} | {areas} | {table}", self.looping.name)
    }

    /// The table's first byte and its end.
    fn table(&self) -> [u32; 2] {
        let end = BASE + 4 * self.looping.cells.len() as u32;
        match self.table {
            Table::None => [0; 2],
            Table::Own => [BASE, end],
            Table::Behind => [end, 0x100],
        }
    }

    /// The run of a side, if it has one for this case: the peer has no areas.
    pub fn run_of(&self, side: Side) -> Option<Run> {
        let able = side != Side::C || self.areas == NO_AREAS;
        side.run().filter(|_| able)
    }

    /// So many cycles from the loop's start. Each side gets the same machine to begin with.
    pub fn run(&self, run: Run, cycles: u32) -> Left {
        let mut memory = vec![0; MEMORY];
        store(&mut memory, BASE, self.looping.cells);
        let (mut r, mut out) = ([0; 8], [0; 2]);
        let ([data, data_cells, back, back_cells], handler) = (self.areas, self.looping.handler);
        let (m, [first, end]) = (&mut memory, self.table());
        let answer = (reference().start)(
            0, m, BASE, handler, data, data_cells, back, back_cells, first, end, &mut r, &mut out,
        );
        assert_eq!(answer, 0, "the machine is ready");
        r[2] -= 4 * ITEMS.len() as u32;
        store(&mut memory, r[2], &ITEMS);
        let answer = run(0, &mut memory, first, end, &mut r, cycles, &mut out);
        assert_eq!((answer, out[1]), (0, cycles), "the loop does not stop");
        Left {
            memory,
            registers: r,
        }
    }
}

/// Puts cells into memory, least byte first.
pub fn store(memory: &mut [u8], address: u32, cells: &[u32]) {
    let bytes = cells.iter().flat_map(|cell| cell.to_le_bytes());
    for (place, byte) in memory[address as usize..].iter_mut().zip(bytes) {
        *place = byte;
    }
}

#[cfg(test)]
mod tests {
    use super::*;

    #[test]
    fn all_sides_leave_one_machine() {
        for case in cases() {
            let runs = Side::ALL.into_iter().filter_map(|side| case.run_of(side));
            let left: Vec<Left> = runs.map(|run| case.run(run, 9_999)).collect();
            let same = left.iter().all(|other| *other == left[0]);
            assert!(same, "{}", case.columns());
        }
    }
}
