//! Modules loaded together, worked on paper (document 02, (d)): what the memory holds afterwards, or why
//! a set is turned back.

use crate::call::Implementation;

/// What is lent, before it is written.
const LENT: u8 = 0x5A;
const LENT_NUMBER: u32 = 0x5A5A_5A5A;

/// Three modules end to end: 55h in order 0; 01020304h and A0B0C0D0h in order 1; no cell.
const BUFFER: &[u8] = b"BEETLE\0\0\x01\0\0\0\x55\0\0\0\
    BEETLE\0\x01\0\0\0\x02\x01\x02\x03\x04\xA0\xB0\xC0\xD0\
    BEETLE\0\0\0\0\0\0";

/// A module's numbers.
type Numbers = [u32; 3];

/// The three modules, each at an address.
const fn one(address: u32) -> Numbers {
    [address, 0, 16]
}

const fn two(address: u32) -> Numbers {
    [address, 16, 20]
}

const fn none(address: u32) -> Numbers {
    [address, 36, 12]
}

/// A set that goes in: its cells in all, and the bytes that it leaves from some addresses on, in order 0
/// and in order 1.
struct Row {
    modules: &'static [Numbers],
    cells: u32,
    least: &'static [(usize, &'static [u8])],
    most: &'static [(usize, &'static [u8])],
}

const LEAST: &[u8] = &[4, 3, 2, 1, 0xD0, 0xC0, 0xB0, 0xA0];
const MOST: &[u8] = &[1, 2, 3, 4, 0xA0, 0xB0, 0xC0, 0xD0];
const LEAST_55: &[u8] = &[0x55, 0, 0, 0];
const MOST_55: &[u8] = &[0, 0, 0, 0x55];

#[rustfmt::skip]
const ROWS: [Row; 12] = [
    // One alone; end to end, given from below and from above; from 0h and up to MEMORY.
    Row { modules: &[one(0x10)], cells: 1, least: &[(0x10, LEAST_55)], most: &[(0x10, MOST_55)] },
    Row { modules: &[one(0x10), two(0x14)], cells: 3,
        least: &[(0x10, LEAST_55), (0x14, LEAST)], most: &[(0x10, MOST_55), (0x14, MOST)] },
    Row { modules: &[one(0x18), two(0x10)], cells: 3,
        least: &[(0x10, LEAST), (0x18, LEAST_55)], most: &[(0x10, MOST), (0x18, MOST_55)] },
    Row { modules: &[two(0x3F8), one(0)], cells: 3,
        least: &[(0, LEAST_55), (0x3F8, LEAST)], most: &[(0, MOST_55), (0x3F8, MOST)] },
    // The same bytes twice, and three times.
    Row { modules: &[one(0x3FC), one(0)], cells: 2,
        least: &[(0, LEAST_55), (0x3FC, LEAST_55)], most: &[(0, MOST_55), (0x3FC, MOST_55)] },
    Row { modules: &[two(0x20), two(0x30), two(0x28)], cells: 6,
        least: &[(0x20, LEAST), (0x28, LEAST), (0x30, LEAST)], most: &[(0x20, MOST), (0x28, MOST), (0x30, MOST)] },
    // No cell: inside another, where it begins and where it ends, before it in the list and after.
    Row { modules: &[two(0x10), none(0x14)], cells: 2, least: &[(0x10, LEAST)], most: &[(0x10, MOST)] },
    Row { modules: &[none(0x14), two(0x10)], cells: 2, least: &[(0x10, LEAST)], most: &[(0x10, MOST)] },
    Row { modules: &[none(0x10), two(0x10), none(0x10), none(0x18)], cells: 2,
        least: &[(0x10, LEAST)], most: &[(0x10, MOST)] },
    Row { modules: &[none(0x3FC)], cells: 0, least: &[], most: &[] },
    Row { modules: &[none(0); 16], cells: 0, least: &[], most: &[] },
    // Given from the buffer's end to its start.
    Row { modules: &[none(0x3FC), two(0), one(8)], cells: 3,
        least: &[(0, LEAST), (8, LEAST_55)], most: &[(0, MOST), (8, MOST_55)] },
];

/// Cells and memory, or the number with which the set is refused; nothing else may be written.
type Loaded = Result<(u32, Vec<u8>), i32>;

/// What is lent beside the buffer: order, the memory's length, and that of `out`.
type Lent = (u8, usize, usize);

fn loaded_in(calls: &Implementation, (order, length, out): Lent, set: (&[u8], &[u32])) -> Loaded {
    let (mut memory, mut out) = (vec![LENT; length], vec![LENT_NUMBER; out]);
    let answer = (calls.load_set)(order, &mut memory, set.0, set.1, &mut out);
    let counts = usize::from(answer == 0);
    let beside = out.iter().skip(counts);
    assert!(beside.into_iter().all(|number| *number == LENT_NUMBER));
    if answer == 0 {
        return Ok((out[0], memory));
    }
    assert!(memory.iter().all(|byte| *byte == LENT));
    Err(answer as i32)
}

/// The same with what is good enough, in this order.
fn loaded(calls: &Implementation, order: u8, numbers: &[u32]) -> Loaded {
    loaded_in(calls, (order, 0x400, 2), (BUFFER, numbers))
}

/// A memory of 400h bytes with some of them changed.
fn memory(changed: &[(usize, &[u8])]) -> Vec<u8> {
    let mut memory = vec![LENT; 0x400];
    for (at, bytes) in changed {
        memory[*at..at + bytes.len()].copy_from_slice(bytes);
    }
    memory
}

/// Each row in both orders, with just enough room and with none.
fn loading(calls: &Implementation) {
    for row in &ROWS {
        let numbers = row.modules.concat();
        for (order, changed) in [(0, row.least), (1, row.most)] {
            let came = Ok((row.cells, memory(changed)));
            assert_eq!(loaded(calls, order, &numbers), came, "{numbers:X?}");
            let set = (BUFFER, &numbers[..]);
            assert_eq!(loaded_in(calls, (order, 0x400, 1), set), came);
            assert_eq!(loaded_in(calls, (order, 0x400, 0), set), Err(-4105));
        }
    }
}

/// Sets that are refused, whether there is room for a count or not.
#[rustfmt::skip]
const REFUSED: [(&[u32], i32); 46] = [
    // No module, and numbers left over.
    (&[], -4113),
    (&[0x10], -4113),
    (&[0x12, 99], -4113),
    (&[0x10, 0, 16, 0x20], -4113),
    (&[0x10, 0, 16, 0x20, 0], -4113),
    (&[0x12, 0, 16, 0x20], -4104),
    (&[0x10, 0, 17, 0x20, 0], -4103),
    // Two that share: a cell at either end, both from one address, one around the other; the same bytes.
    (&[0x10, 16, 20, 0x14, 0, 16], -4113),
    (&[0x14, 0, 16, 0x10, 16, 20], -4113),
    (&[0x10, 0, 16, 0xC, 16, 20], -4113),
    (&[0x10, 0, 16, 0x10, 16, 20], -4113),
    (&[0x10, 16, 20, 0x14, 16, 20], -4113),
    (&[0x10, 0, 16, 0x10, 0, 16], -4113),
    (&[0x10, 0, 16, 0x20, 16, 20, 0x10, 36, 12, 0x24, 0, 16], -4113),
    // Past the buffer: by a byte, by a place outside, by sums of 2^32 and of 2^32 + 16.
    (&[0x10, 36, 13], -2),
    (&[0x10, 37, 12], -2),
    (&[0x10, 48, 1], -2),
    (&[0x10, 49, 0], -2),
    (&[0x10, 0, 49], -2),
    (&[0x10, 48, 0xFFFF_FFD0], -2),
    (&[0x10, 0xFFFF_FFF0, 16], -2),
    (&[0x10, 0xFFFF_FFF0, 32], -2),
    (&[0x10, 16, 0xFFFF_FFFF], -2),
    (&[0x10, 0xFFFF_FFFF, 0xFFFF_FFFF], -2),
    (&[0x12, 36, 13], -2),
    // Inside it: no byte, a part of a header, another start, a byte too many or too few.
    (&[0x10, 0, 0], -2),
    (&[0x10, 48, 0], -2),
    (&[0x10, 0, 7], -2),
    (&[0x10, 1, 16], -2),
    (&[0x10, 0, 8], -4103),
    (&[0x10, 0, 15], -4103),
    (&[0x10, 0, 17], -4103),
    (&[0x12, 0, 48], -4103),
    // Addresses.
    (&[0x12, 0, 16], -4104),
    (&[0x401, 36, 12], -4104),
    (&[0x400, 36, 12], -1),
    (&[0x3FC, 16, 20], -1),
    (&[0xFFFF_FFFC, 0, 16], -1),
    // Two refusals of their own: that of the first module, all of it before the second's.
    (&[0x12, 0, 16, 0x10, 37, 12], -4104),
    (&[0x10, 37, 12, 0x12, 0, 16], -2),
    (&[0x400, 36, 12, 0x10, 0, 17], -1),
    (&[0x10, 0, 17, 0x400, 36, 12], -4103),
    // A later module's own refusal before what is shared.
    (&[0x10, 0, 16, 0x10, 0, 16, 0x12, 0, 16], -4104),
    (&[0x10, 0, 16, 0x10, 0, 16, 0x400, 36, 12], -1),
    (&[0x10, 0, 16, 0x10, 0, 16, 0x10, 36, 13], -2),
    (&[0x10, 0, 16, 0x10, 0, 16, 0x10, 0, 12, 0x10], -4103),
];

/// Refusals, with the memory and the order judged before them.
fn refusing(calls: &Implementation) {
    for (numbers, number) in REFUSED {
        let came = |lent| loaded_in(calls, lent, (BUFFER, numbers));
        for order in [0, 1] {
            assert_eq!(came((order, 0x400, 2)), Err(number), "{numbers:X?}");
            assert_eq!(came((order, 0x400, 0)), Err(number), "{numbers:X?}");
        }
        for length in [0, 0x3FC, 0x3FF, 0x401] {
            assert_eq!(came((0, length, 2)), Err(-4101), "{numbers:X?}");
            assert_eq!(came((2, length, 0)), Err(-4101), "{numbers:X?}");
        }
        assert_eq!(came((2, 0x400, 2)), Err(-4102), "{numbers:X?}");
        assert_eq!(came((255, 0x400, 0)), Err(-4102), "{numbers:X?}");
    }
}

/// Sixteen modules and seventeen: 55h from 40h on, or no cell; and a bad one behind sixteen.
fn counting(calls: &Implementation) {
    let full: Vec<Numbers> = (0..17).map(|cell| one(0x40 + 4 * cell)).collect();
    let sixteen = full[..16].concat();
    let all = memory(&[(0x40, &LEAST_55.repeat(16))]);
    assert_eq!(loaded(calls, 0, &sixteen), Ok((16, all)));
    let fifteen = memory(&[(0x40, &MOST_55.repeat(15))]);
    assert_eq!(loaded(calls, 1, &full[..15].concat()), Ok((15, fifteen)));
    for behind in [one(0x80), one(0x40), none(0), none(0x40), two(0x7C)] {
        let seventeen = [&sixteen[..], &behind].concat();
        assert_eq!(loaded(calls, 0, &seventeen), Err(-4113), "{behind:X?}");
    }
    for (bad, number) in [
        ([0x82, 0, 16], -4104),
        ([0x80, 37, 12], -2),
        ([0x80, 0, 15], -4103),
        ([0x3FC, 16, 20], -1),
    ] {
        let seventeen = [&sixteen[..], &bad].concat();
        assert_eq!(loaded(calls, 0, &seventeen), Err(number), "{bad:X?}");
        let shared = [&one(0x40), &seventeen[..], &bad, &[0]].concat();
        assert_eq!(loaded(calls, 1, &shared), Err(number), "{bad:X?}");
    }
}

/// A module of four cells that are the first module's file: both go in, and so does each alone.
fn nesting(calls: &Implementation) {
    let buffer = [b"BEETLE\0\0\x04\0\0\0", &BUFFER[..16]].concat();
    let least = b"BEETLE\0\0\x01\0\0\0\x55\0\0\0";
    let most = b"TEEB\0\0EL\0\0\0\x01\0\0\0\x55";
    let sequences = [[0x20, 0, 28, 0x10, 12, 16], [0x10, 12, 16, 0x20, 0, 28]];
    for numbers in sequences {
        let came = |order| loaded_in(calls, (order, 0x400, 1), (&buffer, &numbers));
        let left = memory(&[(0x10, LEAST_55), (0x20, least)]);
        assert_eq!(came(0), Ok((5, left)));
        let left = memory(&[(0x10, MOST_55), (0x20, most)]);
        assert_eq!(came(1), Ok((5, left)));
    }
}

/// All rows.
pub fn rows(calls: &Implementation) {
    loading(calls);
    refusing(calls);
    counting(calls);
    nesting(calls);
}
