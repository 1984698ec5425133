//! Images worked on paper (document 02, (h)): what is read out of them, or why no listing packs to them.

use crate::call::Implementation;
use crate::cases::order_of;

/// What is lent, before it is written.
const LENT: u8 = 0x5A;
const LENT_NUMBER: u32 = 0x5A5A_5A5A;

const NO_LISTING: i32 = -4116;

/// A listing at a base, and its cells.
struct Row {
    base: u32,
    kinds: &'static [u8],
    operands: &'static [u32],
    cells: &'static [u32],
}

const fn row(
    base: u32,
    kinds: &'static [u8],
    operands: &'static [u32],
    cells: &'static [u32],
) -> Row {
    Row {
        base,
        kinds,
        operands,
        cells,
    }
}

/// Document 01's rows; then each form of each kind, at the lowest base and the highest.
#[rustfmt::skip]
const ROWS: [Row; 25] = [
    row(0x10, &[0x52, 0x52, 0x1E, 0x55], &[2, 3, 0, 0], &[0x0000_0253, 0x0000_0353, 0x0000_551E]),
    row(0x10, &[0x01, 0x01, 0x52], &[0, 0, 0xFFFF_FFFF], &[0xFF53_0101]),
    row(0x10, &[0x01, 0x01, 0x52], &[0, 0, 0xFFFF_FF80], &[0x8053_0101]),
    row(0x10, &[0x01, 0x01, 0x52], &[0, 0, 0xFFFF_FF7F], &[0x0052_0101, 0xFFFF_FF7F]),
    row(0x10, &[0x52], &[8_388_607], &[0x7FFF_FF53]),
    row(0x10, &[0x52], &[8_388_608], &[0x0000_0052, 0x0080_0000]),
    row(0x10, &[0x01, 0x01, 0x01, 0x52], &[0, 0, 0, 0], &[0x5201_0101, 0x0000_0000]),
    row(0x10, &[0x42], &[0], &[0xFFFF_FF43]),
    // A plain item alone: HALT, LIB.
    row(0xFF_FFFC, &[0x55], &[0], &[0x0000_0055]),
    row(0x10, &[0x57], &[0], &[0x0000_0057]),
    // Two operand cells behind one cell, in the order of their items; and a third in the next.
    row(0x10, &[0x52, 0x01, 0x52, 0x55], &[0x8000_0000, 0, 0x1234_5678, 0],
        &[0x5552_0152, 0x8000_0000, 0x1234_5678]),
    row(0x10, &[0x52, 0x52, 0x52, 0x52, 0x52], &[128_000_000, 40_000, 200, 0, 1],
        &[0x5252_5252, 128_000_000, 40_000, 200, 0, 0x0000_0153]),
    // A branch is measured from behind the operand cells that came before it.
    row(0x10, &[0x52, 0x42], &[0x8000_0000, 0], &[0xFFFE_4352, 0x8000_0000]),
    row(0x10, &[0x52, 0x42], &[0x8000_0000, 1], &[0x0000_0052, 0x8000_0000, 0xFFFF_FF43]),
    row(0x20, &[0x01, 0x44, 0x52], &[0, 2, 0x8000_0000], &[0x0000_4501, 0x0000_0052, 0x8000_0000]),
    // A branch at the end of its cell has the address in a cell.
    row(0x10, &[0x01, 0x01, 0x01, 0x42], &[0, 0, 0, 0], &[0x4201_0101, 0x0000_0010]),
    row(0xFF_FFF4, &[0x01, 0x01, 0x01, 0x44, 0x55], &[0, 0, 0, 4, 0],
        &[0x4401_0101, 0x00FF_FFFC, 0x0000_0055]),
    row(0x40, &[0x01, 0x01, 0x01, 0x4C], &[0, 0, 0, 0], &[0x4C01_0101, 0x0000_0040]),
    row(0x40, &[0x01, 0x01, 0x01, 0x4E], &[0, 0, 0, 0], &[0x4E01_0101, 0x0000_0040]),
    // An item after a call opens a cell.
    row(0x10, &[0x46, 0x55], &[0, 0], &[0x0000_0046, 0x0000_0055]),
    row(0x10, &[0x47, 0x55], &[0, 0], &[0x0000_0047, 0x0000_0055]),
    row(0x10, &[0x48, 0x55], &[1, 0], &[0x0000_0049, 0x0000_0055]),
    row(0x10, &[0x01, 0x01, 0x01, 0x48, 0x55], &[0, 0, 0, 0, 0],
        &[0x4801_0101, 0x0000_0010, 0x0000_0055]),
    // Loops.
    row(0x10, &[0x01, 0x4C, 0x4E], &[0, 0, 0], &[0xFFFF_4D01, 0xFFFF_FE4F]),
    // The second of five DUPs' cells is opened whether it is an entry or not.
    row(0x10, &[0x01, 0x01, 0x01, 0x01, 0x01, 0x42], &[0, 0, 0, 0, 0, 4], &[0x0101_0101, 0xFFFF_4301]),
];

/// Kinds and operands, or the number with which the image is refused; nothing else may be written.
type Listing = Result<(Vec<u8>, Vec<u32>), i32>;

/// An image's bytes.
fn bytes(order: u8, cells: &[u32]) -> Vec<u8> {
    let order = order_of(order);
    cells
        .iter()
        .flat_map(|cell| order.bytes_of(*cell))
        .collect()
}

/// Reads an image, with arrays of these lengths lent.
fn read_in(
    calls: &Implementation,
    (order, base): (u8, u32),
    image: &[u8],
    [kinds, operands, out]: [usize; 3],
) -> Listing {
    let (mut kinds, mut operands) = (vec![LENT; kinds], vec![LENT_NUMBER; operands]);
    let mut out = vec![LENT_NUMBER; out];
    let answer = (calls.unpack)(order, image, base, &mut kinds, &mut operands, &mut out);
    let counts = usize::from(answer == 0);
    let items: u32 = out.iter().take(counts).sum();
    let (kinds, kinds_left) = kinds.split_at(items as usize);
    let (operands, operands_left) = operands.split_at(items as usize);
    assert!(kinds_left.iter().all(|byte| *byte == LENT));
    let numbers = operands_left.iter().chain(&out[counts.min(out.len())..]);
    assert!(numbers.into_iter().all(|number| *number == LENT_NUMBER));
    match answer {
        0 => Ok((kinds.to_vec(), operands.to_vec())),
        refusal => Err(refusal as i32),
    }
}

fn read(calls: &Implementation, at: (u8, u32), image: &[u8]) -> Listing {
    read_in(calls, at, image, [4100, 4100, 2])
}

/// The same for cells at 10h, whatever the order.
fn read_cells(calls: &Implementation, cells: &[u32]) -> Listing {
    let [least, most] = [0, 1].map(|order| read(calls, (order, 0x10), &bytes(order, cells)));
    assert_eq!(least, most, "{cells:X?}");
    least
}

/// Each row in both orders, with just enough room, and with one less of each; and the way back.
fn reading(calls: &Implementation) {
    for row in &ROWS {
        for order in [0, 1] {
            let image = bytes(order, row.cells);
            let (at, items) = ((order, row.base), row.kinds.len());
            let listing: Listing = Ok((row.kinds.to_vec(), row.operands.to_vec()));
            assert_eq!(read(calls, at, &image), listing);
            let with = |room| read_in(calls, at, &image, room);
            assert_eq!(with([items, items, 1]), listing);
            assert_eq!(with([items + 1, items, 1]), listing);
            assert_eq!(with([items, items + 1, 3]), listing);
            assert_eq!(with([items - 1, items, 1]), Err(-4105));
            assert_eq!(with([items, items - 1, 1]), Err(-4105));
            assert_eq!(with([items, items, 0]), Err(-4105));
            let (mut output, mut out) = (vec![LENT; image.len()], [0]);
            let pack = calls.pack;
            let answer = pack(
                order,
                row.kinds,
                row.operands,
                row.base,
                &mut output,
                &mut out,
            );
            assert_eq!((answer, output), (0, image));
        }
    }
}

/// Cells at 10h to which no listing packs.
const NO_IMAGES: [&[u32]; 47] = [
    // A byte 00h in front of an item, or a cell of them.
    &[0x0001_0001],
    &[0x0100_0001],
    &[0x0000_0100],
    &[0x0000_0000],
    &[0x0000_0001, 0x0000_0000],
    &[0x0000_0000, 0x0000_0001],
    // A literal in a cell of its own, though the bytes that were left would do.
    &[0x0000_0001, 0x0000_0553],
    &[0x0000_0101, 0x0000_7F53],
    &[0x0000_0052, 0x8000_0000, 0x0000_0153],
    // A literal in an operand cell that would fit.
    &[0x0000_0052, 0x0000_0005],
    &[0x0000_0052, 0x007F_FFFF],
    &[0x0052_0101, 0xFFFF_FF80],
    // An item in a cell of its own, though the one before it has room.
    &[0x0000_0001, 0x0000_0001],
    &[0x0001_0101, 0x0000_0055],
    &[0x0000_0052, 0x8000_0000, 0x0000_0055],
    // An item after a call in its cell.
    &[0x0000_5546],
    &[0x0000_5547],
    &[0x0055_4601],
    &[0x5548_0101, 0x0000_0010],
    &[0x0000_5548, 0x0000_0010],
    // A branch in an operand cell that would fit.
    &[0x0000_0042, 0x0000_0010],
    &[0x0042_0101, 0x0000_0010],
    // A branch to the end, and beyond either end.
    &[0x0000_0043],
    &[0x0000_0143],
    &[0xFFFF_FE43],
    &[0x8000_0043],
    &[0x7FFF_FF43],
    &[0x4201_0101, 0x0000_0018],
    &[0x4201_0101, 0x0000_000C],
    &[0x4201_0101, 0x8000_0010],
    // A branch to an operand cell, or into the midst of a cell.
    &[0x4201_0101, 0x0000_0014],
    &[0x4201_0101, 0x0000_0011],
    &[0x4201_0101, 0x0000_0012],
    &[0x0000_0052, 0x8000_0000, 0xFFFF_FE43],
    // A branch that reads well: to item 0, and so it would stand beside it.
    &[0x0000_0052, 0x8000_0000, 0xFFFF_FD43],
    &[0x0000_0001, 0xFFFF_FE43],
    // Opcodes with a value, and no byte left for it.
    &[0x5301_0101],
    &[0x4301_0101],
    // Too little: an operand cell, or an item that a branch leads to.
    &[0x0000_0052],
    &[0x4201_0101],
    &[0x5552_0152, 0x8000_0000],
    &[0x0000_4501],
    &[0x0000_0049],
    // A byte behind an item that is no opcode of a listing, FFh among them.
    &[0x0000_5601],
    &[0x0001_5C01],
    &[0xFF01_0101],
    &[0xFF00_0001],
];

fn refusing(calls: &Implementation) {
    for cells in NO_IMAGES {
        assert_eq!(read_cells(calls, cells), Err(NO_LISTING), "{cells:X?}");
        let image = bytes(0, cells);
        let without_room = read_in(calls, (0, 0x10), &image, [0, 0, 0]);
        assert_eq!(without_room, Err(NO_LISTING), "{cells:X?}");
    }
}

/// Every byte alone in a cell, and with FFh in the rest of it: a plain kind; a literal of 0 or -1; a
/// branch to the end or to itself; or nothing.
fn opcodes(calls: &Implementation) {
    for byte in 0..=0xFF_u8 {
        let item = |kind, operand| Ok((vec![kind], vec![operand]));
        let (alone, signed) = match byte {
            0x53 => (item(0x52, 0), item(0x52, 0xFFFF_FFFF)),
            0x43 | 0x45 | 0x49 | 0x4D | 0x4F => (Err(NO_LISTING), item(byte - 1, 0)),
            0x00 | 0x42 | 0x44 | 0x48 | 0x4C | 0x4E | 0x52 => (Err(NO_LISTING), Err(NO_LISTING)),
            0x01..=0x55 | 0x57 => (item(byte, 0), Err(NO_LISTING)),
            _ => (Err(NO_LISTING), Err(NO_LISTING)),
        };
        let cell = u32::from(byte);
        assert_eq!(read_cells(calls, &[cell]), alone, "{byte:X}h");
        assert_eq!(
            read_cells(calls, &[0xFFFF_FF00 | cell]),
            signed,
            "{byte:X}h"
        );
    }
}

/// Lengths: no byte, some more or some less than cells.
fn lengths(calls: &Implementation) {
    let image = [0x53, 2, 0, 0, 0x1E, 0x55, 0, 0, 0];
    let listing = |items: usize| {
        let (kinds, operands) = (&[0x52, 0x1E, 0x55][..items], &[2, 0, 0][..items]);
        Ok((kinds.to_vec(), operands.to_vec()))
    };
    for length in 0..=image.len() {
        let came = match length {
            4 => listing(1),
            8 => listing(3),
            _ => Err(NO_LISTING),
        };
        assert_eq!(read(calls, (0, 0x10), &image[..length]), came, "{length}");
    }
}

/// As many items as there may be, in one form and in the other, and one more.
fn sizes(calls: &Implementation) {
    let dups = vec![0x0101_0101; 1024];
    assert_eq!(
        read_cells(calls, &dups),
        Ok((vec![0x01; 4096], vec![0; 4096]))
    );
    let one_more = [&dups[..], &[0x0000_0001]].concat();
    assert_eq!(read_cells(calls, &one_more), Err(NO_LISTING));
    let literals = [0x5252_5252, 1 << 31, 1 << 31, 1 << 31, 1 << 31].repeat(1024);
    let listing = Ok((vec![0x52; 4096], vec![1 << 31; 4096]));
    assert_eq!(read_cells(calls, &literals), listing);
    let one_more = [&literals[..], &[0x0000_0053]].concat();
    assert_eq!(read_cells(calls, &one_more), Err(NO_LISTING));
}

/// Two DUPs and a branch to the end, twice, with 520 DUPs behind. A byte is too little for either branch
/// where it is first laid out. Once both are marked, the second stands behind one DUP only, where two
/// bytes would do: it keeps its operand cell, and no listing packs to the image where it does not.
fn marks(calls: &Implementation) {
    let start = [0x01, 0x01, 0x44, 0x01, 0x01, 0x4C];
    let kinds = [&start[..], &[0x01; 520], &[0x55]].concat();
    let targets = kinds.iter().map(|kind| match kind {
        0x44 | 0x4C => 526,
        _ => 0,
    });
    let operands = targets.collect();
    let four_dups = 0x0101_0101;
    let kept = [
        &[0x0144_0101, 0x228, 0x0101_4C01, 0x228][..],
        &[four_dups; 129],
        &[0x0000_0101, 0x0000_0055],
    ];
    assert_eq!(read_cells(calls, &kept.concat()), Ok((kinds, operands)));
    let not_kept = [
        &[0x0144_0101, 0x224, 0x0082_4D01][..],
        &[four_dups; 130],
        &[0x0000_0055],
    ];
    assert_eq!(read_cells(calls, &not_kept.concat()), Err(NO_LISTING));
}

/// An image for another base or another order.
fn moving(calls: &Implementation) {
    let to_itself = bytes(0, &[0xFFFF_FF43]);
    let to_10h = bytes(0, &[0x4201_0101, 0x0000_0010]);
    for base in [0x10, 0x14, 0x18, 0xFF_FFF8] {
        let listing = Ok((vec![0x42], vec![0]));
        assert_eq!(read(calls, (0, base), &to_itself), listing, "{base:X}h");
        let here = (base == 0x10).then(|| (vec![0x01, 0x01, 0x01, 0x42], vec![0; 4]));
        assert_eq!(
            read(calls, (0, base), &to_10h),
            here.ok_or(NO_LISTING),
            "{base:X}h"
        );
    }
    assert_eq!(read(calls, (1, 0x10), &to_itself), Err(NO_LISTING));
    assert_eq!(read(calls, (1, 0x10), &[0x55, 0, 0, 0]), Err(NO_LISTING));
    assert_eq!(
        read(calls, (1, 0x10), &[1, 1, 1, 1]),
        Ok((vec![1; 4], vec![0; 4]))
    );
}

/// Past the last byte of any image.
const END: u32 = 0x100_0000;

/// HALT in order 0.
const HALT: &[u8] = &[0x55, 0, 0, 0];

/// Order, base and image, and the number with which they are refused if nothing is lent.
const JUDGED: [(u8, u32, &[u8], i32); 26] = [
    (2, 0x10, HALT, -4102),
    (255, 0x11, &[], -4102),
    (2, 0, HALT, -4102),
    (0, 0x11, HALT, -4104),
    (1, 0x12, &[], -4104),
    (0, 0x13, &[0; 5], -4104),
    (0, 3, HALT, -4104),
    (0, END + 1, HALT, -4104),
    (0, u32::MAX, HALT, -4104),
    (0, 0, HALT, -4110),
    (0, 0xC, HALT, -4110),
    (1, 0xC, &[], -4110),
    (0, END - 4, &[0x55, 0, 0, 0, 0], -4110),
    (0, END - 4, &[0x01, 0x01, 0x01, 0x01, 0x55, 0, 0, 0], -4110),
    (0, END, HALT, -4110),
    (0, END, &[0], -4110),
    (0, END + 4, &[], -4110),
    (0, u32::MAX - 3, HALT, -4110),
    (1, u32::MAX - 3, &[], -4110),
    (0, END, &[], -4116),
    (0, END - 4, &[0x55, 0, 0], -4116),
    (0, END - 4, &[0; 4], -4116),
    (0, 0x10, &[], -4116),
    (1, 0x10, HALT, -4116),
    (0, END - 4, HALT, -4105),
    (0, 0x10, HALT, -4105),
];

/// Refusals in their order: the room is judged last, and just before it the image.
fn judging(calls: &Implementation) {
    for (order, base, image, number) in JUDGED {
        let came = read_in(calls, (order, base), image, [0, 0, 0]);
        assert_eq!(came, Err(number), "{order}, {base:X}h, {image:X?}");
    }
}

/// All rows.
pub fn rows(calls: &Implementation) {
    reading(calls);
    refusing(calls);
    opcodes(calls);
    lengths(calls);
    sizes(calls);
    marks(calls);
    moving(calls);
    judging(calls);
}
