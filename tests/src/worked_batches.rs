//! Batches of forms, worked on paper (document 02, (k)): the figures and the memory that is left, or why a
//! batch is turned back.

use crate::call::{Batch, Implementation};
use crate::cases::order_of;
use crate::reference::batch::End;

/// What is lent, before it is written.
const LENT: u8 = 0x5A;
const LENT_NUMBER: u32 = 0x5A5A_5A5A;

const M1: u32 = -1_i32 as u32;
const M258: u32 = -258_i32 as u32;
const M259: u32 = -259_i32 as u32;

/// Cells, each after its address.
type Cells = &'static [(usize, u32)];

/// A batch that is run, every form of which has its cells from the address on. The machine begins with NEXT
/// at 10h, SP is 300h, and the memory has 400h bytes, zeros but for the cells given.
struct Row {
    start: Cells,
    address: u32,
    forms: &'static [&'static [u32]],
    budget: u32,
    figures: [u32; 11],
    /// What the last form leaves, beside the start memory and its own cells.
    left: Cells,
}

/// Stops with the cell at 40h, after 4 cycles. It is pushed to 2FCh.
const STOPS: Cells = &[(0x10, 0x0000_4053), (0x14, 0x0000_5539)];

/// Goes round a loop as often as the cell at 40h says, then stops with the cell at 44h: so many cycles and
/// 9. Limit and index are at 3FCh and 3F8h.
const COUNTS: Cells = &[
    (0x10, 0x0000_4053),
    (0x14, 0x004B_193B),
    (0x18, 0xFFFF_FF4D),
    (0x1C, 0x0000_4453),
    (0x20, 0x0000_5539),
];

/// Adds 1 to the cell at 100h, which is -1 at first, and stops with it, after 7 cycles.
const MARKS: Cells = &[
    (0x10, 0x0100_531A),
    (0x14, 0x0100_533D),
    (0x18, 0x0000_5539),
    (0x100, M1),
];

/// A machine whose code is its form; 'THROW is bad.
const NO_CODE: Cells = &[(0, M1), (0xC, 0x77)];

#[rustfmt::skip]
const ROWS: [Row; 19] = [
    // By reasons alone; HALT's -258 and -259 count as the machine's do.
    Row { start: STOPS, address: 0x40, forms: &[&[0], &[M258], &[M259], &[5], &[0]], budget: 4,
        figures: [5, 2, 1, 1, 1, 0, 20, 0, 4, 4, 0], left: &[(0x2FC, 0)] },
    Row { start: STOPS, address: 0x40, forms: &[&[0], &[5], &[M1], &[258]], budget: M1,
        figures: [4, 1, 0, 0, 3, 0, 16, 0, 4, 4, 0], left: &[(0x2FC, 258)] },
    // One cycle less, and none: spent with the whole budget. Memory is made for the last form all the same.
    Row { start: STOPS, address: 0x40, forms: &[&[0], &[M258], &[5]], budget: 3,
        figures: [3, 0, 0, 0, 0, 3, 9, 0, 3, 3, 0], left: &[(0x2FC, 5)] },
    Row { start: STOPS, address: 0x40, forms: &[&[0], &[M258], &[5]], budget: 2,
        figures: [3, 0, 0, 0, 0, 3, 6, 0, 2, 2, 0], left: &[(0x2FC, 0x40)] },
    Row { start: STOPS, address: 0x40, forms: &[&[0], &[M258], &[5]], budget: 0,
        figures: [3, 0, 0, 0, 0, 3, 0, 0, 0, 0, 0], left: &[] },
    // One form, and none.
    Row { start: STOPS, address: 0x40, forms: &[&[M259]], budget: 9,
        figures: [1, 0, 0, 1, 0, 0, 4, 0, 4, 4, 0], left: &[(0x2FC, M259)] },
    Row { start: STOPS, address: 0x40, forms: &[], budget: 9, figures: [0; 11], left: &[] },
    // Cycles that differ: largest first, last and inside; the mean rounded down.
    Row { start: COUNTS, address: 0x40, forms: &[&[1, 0], &[5, M259], &[250, 7]], budget: 1000,
        figures: [3, 1, 0, 1, 1, 0, 283, 0, 259, 94, 1],
        left: &[(0x2F8, 0), (0x2FC, 7), (0x3F8, 249), (0x3FC, 250)] },
    Row { start: COUNTS, address: 0x40, forms: &[&[5, M259], &[250, 7], &[1, 0]], budget: 1000,
        figures: [3, 1, 0, 1, 1, 0, 283, 0, 259, 94, 1],
        left: &[(0x2F8, 0), (0x2FC, 0), (0x3F8, 0), (0x3FC, 1)] },
    // A loop of 0 turns has 2^32; with the budget at the longest, one less, and far less.
    Row { start: COUNTS, address: 0x40, forms: &[&[0, 0], &[1, 0], &[250, 7], &[5, M259]], budget: 259,
        figures: [4, 1, 0, 1, 1, 1, 542, 0, 259, 135, 2],
        left: &[(0x2F8, 0), (0x2FC, M259), (0x3F8, 4), (0x3FC, 5)] },
    Row { start: COUNTS, address: 0x40, forms: &[&[0, 0], &[1, 0], &[250, 7], &[5, M259]], budget: 258,
        figures: [4, 1, 0, 1, 0, 2, 540, 0, 258, 135, 0],
        left: &[(0x2F8, 0), (0x2FC, M259), (0x3F8, 4), (0x3FC, 5)] },
    Row { start: COUNTS, address: 0x40, forms: &[&[0, 0], &[1, 0], &[250, 7], &[5, M259]], budget: 13,
        figures: [4, 1, 0, 0, 0, 3, 49, 0, 13, 12, 1],
        left: &[(0x2F8, 0), (0x2FC, M259), (0x3F8, 4), (0x3FC, 5)] },
    // Nothing goes over from one form to the next; forms of no byte are forms.
    Row { start: MARKS, address: 0x40, forms: &[&[1], &[2], &[3]], budget: 50,
        figures: [3, 3, 0, 0, 0, 0, 21, 0, 7, 7, 0], left: &[(0x100, 0), (0x2F8, 0x100), (0x2FC, 0)] },
    Row { start: MARKS, address: 0x400, forms: &[&[], &[]], budget: 50,
        figures: [2, 2, 0, 0, 0, 0, 14, 0, 7, 7, 0], left: &[(0x100, 0), (0x2F8, 0x100), (0x2FC, 0)] },
    // A form over a cell of the start memory, which its run alters.
    Row { start: MARKS, address: 0x100, forms: &[&[4], &[M259 - 1], &[4]], budget: 50,
        figures: [3, 0, 0, 1, 2, 0, 21, 0, 7, 7, 0], left: &[(0x100, 5), (0x2F8, 0x100), (0x2FC, 5)] },
    // A form over 0h to Fh: 'THROW is in it, and 5Ch raises -256.
    Row { start: &[(0x10, 0x5C), (0x20, 0x5519), (0x24, 0x55)], address: 0,
        forms: &[&[M1, 0, 0, 0], &[0x20, 0, 0, 0], &[0x24, 0, 0, 0]], budget: 50,
        figures: [3, 1, 0, 1, 1, 0, 9, 0, 4, 3, 0], left: &[(8, 0x14), (0x2FC, -256_i32 as u32)] },
    // A form that is the code: 0 HALT; -258 HALT; a push with SP 0; -259 HALT; 5Ch; a loop; -1 HALT.
    Row { start: NO_CODE, address: 0x10,
        forms: &[&[0x5519, 0], &[0xFFFE_FE53, 0x55], &[0x0019_3F19, 0], &[0xFFFE_FD53, 0x55], &[0x5C, 0],
            &[0xFFFF_FF43, 0], &[0x551B, 0]],
        budget: 50, figures: [7, 1, 2, 2, 1, 1, 68, 0, 50, 9, 5], left: &[(0x2FC, M1)] },
    // The machine's own -258 and -259, and what they leave.
    Row { start: NO_CODE, address: 0x10, forms: &[&[0x5C], &[0x0019_3F19]], budget: 50,
        figures: [2, 0, 1, 1, 0, 0, 6, 0, 4, 3, 0], left: &[(0x2FC, 0)] },
    Row { start: NO_CODE, address: 0x10, forms: &[&[0x0019_3F19], &[0x5C]], budget: 50,
        figures: [2, 0, 1, 1, 0, 0, 6, 0, 4, 3, 0], left: &[(8, 0x14), (0x2FC, -256_i32 as u32)] },
];

/// EP, A, SP, RP and no areas.
const REGISTERS: [u32; 8] = [0x10, 0, 0x300, 0x400, 0, 0, 0, 0];

/// Cells put into a memory.
fn put(order: u8, memory: &mut [u8], cells: &[(usize, u32)]) {
    for (at, cell) in cells {
        memory[*at..at + 4].copy_from_slice(&order_of(order).bytes_of(*cell));
    }
}

/// The forms' bytes, end to end.
fn bytes_of(order: u8, forms: &[&[u32]]) -> Vec<u8> {
    let cells = forms.iter().copied().flatten();
    cells
        .flat_map(|cell| order_of(order).bytes_of(*cell))
        .collect()
}

/// Runs a row, lending so much for the figures; the memory and `out` afterwards.
fn ran(calls: &Implementation, order: u8, row: &Row, behind: usize) -> (Vec<u8>, Vec<u32>) {
    let (mut start, mut memory) = (vec![0; 0x400], vec![LENT; 0x400]);
    put(order, &mut start, row.start);
    let mut forms = bytes_of(order, row.forms);
    forms.extend(vec![LENT; behind]);
    let (before, lent) = (start.clone(), forms.clone());
    let count = row.forms.len() as u16;
    let length = 4 * row.forms.first().map_or(1, |form| form.len() as u32);
    let mut out = vec![LENT_NUMBER; 11 + behind];
    let (m, o) = (&mut memory, &mut out);
    let answer = (calls.batch)(
        order,
        &start,
        m,
        &forms,
        count,
        length,
        row.address,
        REGISTERS,
        0,
        0,
        row.budget,
        o,
    );
    assert_eq!(answer, 0, "{:X?}", row.forms);
    assert!(start == before && forms == lent);
    (memory, out)
}

/// Each row in both orders, with just what is needed and with more.
fn running(calls: &Implementation) {
    for row in &ROWS {
        for order in [0, 1] {
            let mut left = vec![0; 0x400];
            put(order, &mut left, row.start);
            let at = row.address as usize;
            match row.forms.last() {
                None => left.fill(LENT),
                Some(form) => {
                    let bytes = bytes_of(order, &[*form]);
                    left[at..at + bytes.len()].copy_from_slice(&bytes);
                }
            }
            put(order, &mut left, row.left);
            for behind in [0, 1, 7] {
                let (memory, out) = ran(calls, order, row, behind);
                let told = (&out[..11], &out[11..]);
                let rest = vec![LENT_NUMBER; behind];
                let expected = (&row.figures[..], &rest[..]);
                assert_eq!(told, expected, "{:X?}", row.forms);
                let differs = (0..0x400).find(|at| memory[*at] != left[*at]);
                assert_eq!(differs, None, "{:X?}, order {order}", row.forms);
            }
        }
    }
}

/// Forms of two bytes from 3Fh on, of which the second is the low byte of the cell at 40h in order 0; of one
/// byte at 43h in order 1. The others are FFh, FFh and FEh.
fn unaligned(calls: &Implementation) {
    for (order, address, length, forms) in [
        (0, 0x3F, 2, &[9, 0xFE, 8, 0xFD, 7, 0xFE, 6, 0xFC][..]),
        (1, 0x43, 1, &[0xFE, 0xFD, 0xFE, 0xFC][..]),
    ] {
        let (mut start, mut memory) = (vec![0; 0x400], vec![LENT; 0x400]);
        put(order, &mut start, STOPS);
        put(order, &mut start, &[(0x40, 0xFFFF_FEAA)]);
        let (m, mut out) = (&mut memory, vec![LENT_NUMBER; 11]);
        let answer = (calls.batch)(
            order, &start, m, forms, 4, length, address, REGISTERS, 0, 0, 9, &mut out,
        );
        assert_eq!(
            (answer, &out[..]),
            (0, &[4, 0, 2, 1, 1, 0, 16, 0, 4, 4, 0][..])
        );
        put(
            order,
            &mut start,
            &[(0x40, 0xFFFF_FEFC), (0x2FC, 0xFFFF_FEFC)],
        );
        start[0x3F] = if order == 0 { 6 } else { 0 };
        assert_eq!(memory, start);
    }
}

/// What is lent and given; the registers are good but for the areas.
#[derive(Clone)]
struct Given {
    order: u8,
    start: usize,
    memory: usize,
    forms: usize,
    count: u16,
    length: u32,
    address: u32,
    areas: [u32; 4],
    table: [u32; 2],
    out: usize,
}

/// Nothing wrong: three forms of five bytes at 40h.
const GOOD: Given = Given {
    order: 0,
    start: 0x400,
    memory: 0x400,
    forms: 15,
    count: 3,
    length: 5,
    address: 0x40,
    areas: [0; 4],
    table: [0; 2],
    out: 11,
};

/// The answer, where a refusal has written nothing.
fn answered(calls: &Implementation, given: &Given) -> i32 {
    let (start, forms) = (vec![1; given.start], vec![2; given.forms]);
    let (mut memory, mut out) = (vec![LENT; given.memory], vec![LENT_NUMBER; given.out]);
    let [data_top, data, return_top, back] = given.areas;
    let registers = [0x10, 0, 0x300, 0x400, data_top, data, return_top, back];
    let ([t, end], address) = (given.table, given.address);
    let (order, count, length) = (given.order, given.count, given.length);
    let (m, o) = (&mut memory, &mut out);
    let answer = (calls.batch)(
        order, &start, m, &forms, count, length, address, registers, t, end, 5, o,
    );
    if answer != 0 {
        assert!(memory.iter().all(|byte| *byte == LENT));
        assert!(out.iter().all(|number| *number == LENT_NUMBER));
    }
    assert!(start.iter().all(|byte| *byte == 1) && forms.iter().all(|byte| *byte == 2));
    answer as i32
}

/// An answer, and what is given otherwise for it.
type Case = (i32, fn(&mut Given));

/// Faults in the order in which they are judged; each makes the answer its own, whatever follows.
#[rustfmt::skip]
const FAULTS: [Case; 25] = [
    (-4101, |given| (given.start, given.memory) = (0x3FC, 0x3FC)),
    (-4101, |given| (given.start, given.memory) = (0x402, 0x402)),
    (-4101, |given| (given.start, given.memory) = (0, 0)),
    (-4101, |given| given.start = 0x3FC),
    (-4101, |given| given.start = 0x404),
    (-4101, |given| given.memory = 0x404),
    (-4101, |given| given.memory = 0x3FC),
    (-4101, |given| given.memory = 0x401),
    (-4101, |given| given.memory = 0),
    (-4102, |given| given.order = 2),
    (-4102, |given| given.order = 255),
    (-4111, |given| given.areas = [0x300, 1, 0, 0]),
    (-4111, |given| given.areas = [0x300, 1, 0x404, 1]),
    (-4112, |given| given.table = [0x10, 0x404]),
    (-4112, |given| given.table = [0xC, 0x40]),
    (-1, |given| given.address = 0x3FC),
    (-1, |given| given.address = 0xFFFF_FFFF),
    (-1, |given| given.address = 0xFFFF_FFC0),
    (-1, |given| (given.address, given.length) = (0x401, 0)),
    (-1, |given| given.length = 0x3C1),
    (-1, |given| given.length = 0xFFFF_FFC0),
    (-4105, |given| given.forms = 14),
    (-4105, |given| given.forms = 0),
    (-4105, |given| given.count = 0xFFFF),
    (-4105, |given| given.out = 10),
];

/// Each fault alone, and with each one behind it in the list.
fn refusing(calls: &Implementation) {
    for (number, (refusal, fault)) in FAULTS.iter().enumerate() {
        let mut one = GOOD;
        fault(&mut one);
        assert_eq!(answered(calls, &one), *refusal, "fault {number}");
        for (other, (then, later)) in FAULTS.iter().enumerate().skip(number + 1) {
            let mut two = GOOD;
            later(&mut two);
            fault(&mut two);
            if then != refusal {
                let answer = answered(calls, &two);
                assert_eq!(answer, *refusal, "faults {number} and {other}");
            }
        }
    }
}

/// Just good enough, and just not.
#[rustfmt::skip]
const EDGES: [Case; 14] = [
    (0, |_| ()),
    (0, |given| given.order = 1),
    (0, |given| given.forms = 16),
    (0, |given| given.out = 12),
    (0, |given| given.address = 0x3FB),
    (0, |given| (given.address, given.length) = (0x400, 0)),
    (0, |given| (given.address, given.length, given.count) = (0x400, 0, 0xFFFF)),
    (0, |given| (given.address, given.length, given.forms) = (0, 0x400, 0xC00)),
    // No form: of any length that fits, and all else judged as before.
    (0, |given| (given.count, given.forms) = (0, 0)),
    (0, |given| (given.count, given.length) = (0, 0x3C0)),
    (-1, |given| (given.count, given.address) = (0, 0x3FC)),
    (-1, |given| (given.count, given.length) = (0, 0xFFFF_FFFF)),
    (-4105, |given| (given.count, given.out) = (0, 10)),
    (-4101, |given| (given.count, given.memory) = (0, 0x404)),
];

fn edges(calls: &Implementation) {
    for (number, (answer, edit)) in EDGES.iter().enumerate() {
        let mut given = GOOD;
        edit(&mut given);
        assert_eq!(answered(calls, &given), *answer, "edge {number}");
    }
}

/// All rows but those of many cycles.
pub fn rows(calls: &Implementation) {
    running(calls);
    unaligned(calls);
    refusing(calls);
    edges(calls);
}

/// Runs and the figures of them, beyond 32 bits too.
#[rustfmt::skip]
const REPORTS: [(&[End], [u32; 11]); 6] = [
    (&[], [0; 11]),
    (&[(None, 0)], [1, 0, 0, 0, 0, 1, 0, 0, 0, 0, 0]),
    (&[(Some(0), 1), (None, 9), (Some(M258), 2), (Some(M259), 3), (Some(M1), 4)],
        [5, 1, 1, 1, 1, 1, 19, 0, 9, 3, 4]),
    (&[(None, M1), (None, 1)], [2, 0, 0, 0, 0, 2, 0, 1, M1, 0x8000_0000, 0]),
    (&[(None, M1), (None, M1), (Some(0), 1)], [3, 1, 0, 0, 0, 2, M1, 1, M1, 0xAAAA_AAAA, 1]),
    (&[(Some(5), M1); 4], [4, 0, 0, 0, 4, 0, 0xFFFF_FFFC, 3, M1, M1, 0]),
];

/// The figures of a list of ends.
pub type Report = fn(&[End]) -> [u32; 11];

/// The reports worked on paper, and one of as many forms as there may be.
pub fn reports(report: Report) -> bool {
    let most = vec![(None, M1); 0xFFFF];
    let figures = [0xFFFF, 0, 0, 0, 0, 0xFFFF, 0xFFFF_0001, 0xFFFE, M1, M1, 0];
    REPORTS.iter().all(|row| report(row.0) == row.1) && report(&most) == figures
}

/// 65,535 forms, of which each but the first goes round for 65,539 cycles: 2^32 + 65,533 with the first's
/// three. The figures, which are an error where they are not those.
pub fn past_32_bits(batch: Batch) -> Result<[u32; 11], String> {
    let (mut start, mut memory) = (vec![0; 0x400], vec![LENT; 0x400]);
    start[0x10..0x200].copy_from_slice(&[0x19, 0x02].repeat(0xF8));
    put(0, &mut start, &[(0x200, 0xFFFF_8343)]);
    let mut forms = [0x19, 0x02].repeat(0xFFFF);
    forms[..2].copy_from_slice(&[0x19, 0x55]);
    let mut out = [0; 11];
    let answer = batch(
        0,
        &start,
        &mut memory,
        &forms,
        0xFFFF,
        2,
        0x10,
        REGISTERS,
        0,
        0,
        65_539,
        &mut out,
    );
    let figures = [
        0xFFFF, 1, 0, 0, 0, 0xFFFE, 65_533, 1, 65_539, 65_537, 65_534,
    ];
    match (answer, out == figures) {
        (0, true) => Ok(out),
        _ => Err(format!("{} {out:?}", answer as i32)),
    }
}
