//! Listing files of both sorts worked on paper (document 02, (l)), tried on an implementation.

use crate::call::Implementation;
use crate::cases::order_of;
use crate::reference::listing::file;

const DUP: u8 = 0x01;
const BRANCH: u8 = 0x42;
const LITERAL: u8 = 0x52;
const HALT: u8 = 0x55;
/// BRANCHI: no kind.
const NO_KIND: u8 = 0x43;

/// What is lent, before it is written.
const LENT: u8 = 0x5A;
const LENT_OUT: u32 = 0x5A5A_5A5A;

/// A listing in both sorts of file, and its cells.
struct Row {
    old: &'static [u8],
    short: &'static [u8],
    cells: &'static [u32],
}

/// Document 01's sum and its branch to itself; HALT alone; and at 20h DUP, ?BRANCH to the literal after
/// it, 80000000h.
const ROWS: [Row; 4] = [
    Row {
        old: b"\x04\0\0\0\x10\0\0\0\x52\x52\x1E\x55\x02\0\0\0\x03\0\0\0\0\0\0\0\0\0\0\0",
        short: b"\x04\0\0\0\x02\0\0\0\x10\0\0\0\x52\x52\x1E\x55\x02\0\0\0\x03\0\0\0",
        cells: &[0x0000_0253, 0x0000_0353, 0x0000_551E],
    },
    Row {
        old: b"\x01\0\0\0\x10\0\0\0\x42\0\0\0\0",
        short: b"\x01\0\0\0\x01\0\0\0\x10\0\0\0\x42\0\0\0\0",
        cells: &[0xFFFF_FF43],
    },
    Row {
        old: b"\x01\0\0\0\x10\0\0\0\x55\0\0\0\0",
        short: b"\x01\0\0\0\0\0\0\0\x10\0\0\0\x55",
        cells: &[0x0000_0055],
    },
    Row {
        old: b"\x03\0\0\0\x20\0\0\0\x01\x44\x52\0\0\0\0\x02\0\0\0\0\0\0\x80",
        short: b"\x03\0\0\0\x02\0\0\0\x20\0\0\0\x01\x44\x52\x02\0\0\0\0\0\0\x80",
        cells: &[0x0000_4501, 0x0000_0052, 0x8000_0000],
    },
];

/// A call that turns a file into the other sort.
type Turn = fn(&[u8], &mut [u8], &mut [u32]) -> u32;

/// The bytes that a call wrote, or the number with which it refused; nothing else may be written.
type Written = Result<Vec<u8>, i32>;

/// What came of a call whose count is of so many bytes each.
fn written(answer: u32, output: &[u8], out: &[u32], bytes: usize) -> Written {
    let counts = usize::from(answer == 0);
    let count = out.iter().take(counts).map(|count| bytes * *count as usize);
    let (output, rest) = output.split_at(count.sum());
    assert!(rest.iter().all(|byte| *byte == LENT), "the rest");
    assert!(out.iter().skip(counts).all(|number| *number == LENT_OUT));
    match answer {
        0 => Ok(output.to_vec()),
        refusal => Err(refusal as i32),
    }
}

/// Turns a file, with so many bytes and so many numbers lent.
fn turned_in(turn: Turn, file: &[u8], room: usize, numbers: usize) -> Written {
    let (mut output, mut out) = (vec![LENT; room], vec![LENT_OUT; numbers]);
    let answer = turn(file, &mut output, &mut out);
    written(answer, &output, &out, 1)
}

fn turned(turn: Turn, file: &[u8]) -> Written {
    turned_in(turn, file, 12 + 5 * 4096, 2)
}

/// Packs a short file into so many bytes.
fn packed_in(calls: &Implementation, order: u8, file: &[u8], room: usize) -> Written {
    let (mut output, mut out) = (vec![LENT; room], [LENT_OUT; 2]);
    let answer = (calls.pack_short)(order, file, &mut output, &mut out);
    written(answer, &output, &out, 4)
}

fn packed(calls: &Implementation, file: &[u8]) -> Written {
    packed_in(calls, 0, file, 8 * 4096)
}

/// Each row there and back, and its image; just enough room, and a byte less.
fn turning(calls: &Implementation) {
    for Row { old, short, cells } in &ROWS {
        for (turn, from, to) in [(calls.shorten, old, short), (calls.lengthen, short, old)] {
            let length = to.len();
            assert_eq!(turned(turn, from), Ok(to.to_vec()));
            assert_eq!(turned_in(turn, from, length, 1), Ok(to.to_vec()));
            assert_eq!(turned_in(turn, from, length - 1, 1), Err(-4105));
            assert_eq!(turned_in(turn, from, length, 0), Err(-4105));
        }
        for order in [0, 1] {
            let image = cells
                .iter()
                .flat_map(|cell| order_of(order).bytes_of(*cell));
            let image: Vec<u8> = image.collect();
            let room = image.len();
            assert_eq!(packed_in(calls, order, short, room), Ok(image));
            assert_eq!(packed_in(calls, order, short, room - 1), Err(-4105));
        }
    }
}

/// Short files that are refused, whoever reads them.
fn judging_short(calls: &Implementation) {
    let max = u32::MAX;
    for (header, kinds, operands, number) in [
        (&[][..], &[][..], &[][..], -4119),
        (&[1, 0], &[HALT], &[], -4119),
        (&[0, 0], &[0, 0, 0], &[], -4119),
        (&[0, 0, 0x10], &[], &[], -4106),
        (&[0, 1, 0x10], &[], &[2], -4106),
        (&[4097, 0, 0x10], &[], &[], -4106),
        (&[max, max, 0x10], &[], &[], -4106),
        (&[4096, 0, 0x10], &[], &[], -4119),
        (&[1, 0, 0x10], &[], &[], -4119),
        (&[1, 0, 0x10], &[HALT, HALT], &[], -4119),
        (&[1, 1, 0x10], &[HALT], &[0], -4119),
        (&[1, 0, 0x10], &[LITERAL], &[], -4119),
        (&[1, 1, 0x10], &[LITERAL], &[], -4119),
        (&[1, 2, 0x10], &[LITERAL], &[2, 3], -4119),
        (&[1, 0x4000_0000, 0x10], &[HALT], &[], -4119),
        (&[1, 0x4000_0001, 0x10], &[LITERAL], &[2], -4119),
        (&[5, 0, 0x10], &[LITERAL], &[2], -4119),
        (&[1, 0, 0x10], &[NO_KIND], &[], -4107),
        (&[1, 1, 0x10], &[NO_KIND], &[0], -4119),
        (&[2, 1, 0x10], &[NO_KIND, LITERAL], &[2], -4107),
        (&[2, 0, 0x10], &[NO_KIND, LITERAL], &[], -4119),
        (&[2, 1, 0x10], &[NO_KIND, BRANCH], &[2], -4107),
        (&[2, 1, 0x10], &[BRANCH, NO_KIND], &[2], -4109),
        (&[2, 1, 0x10], &[BRANCH, NO_KIND], &[1], -4107),
        (&[2, 2, 0x10], &[BRANCH, BRANCH], &[1, 2], -4109),
        (&[1, 1, 0x10], &[BRANCH], &[max], -4109),
    ] {
        let bad = file(header, kinds, operands);
        assert_eq!(turned(calls.lengthen, &bad), Err(number), "{bad:X?}");
        assert_eq!(turned_in(calls.lengthen, &bad, 0, 0), Err(number));
        assert_eq!(packed(calls, &bad), Err(number), "{bad:X?}");
        assert_eq!(packed_in(calls, 2, &bad, 0), Err(-4102), "{bad:X?}");
    }
}

/// Every byte as the only kind, with no operand and with one: what is no kind counts for none.
fn counting(calls: &Implementation) {
    for byte in 0..=255 {
        let plain = match byte {
            0x42 | 0x44 | 0x48 | 0x4C | 0x4E | LITERAL => None,
            0x00 | 0x43 | 0x45 | 0x49 | 0x4D | 0x4F | 0x53 => Some(false),
            0x01..=0x55 | 0x57 => Some(true),
            _ => Some(false),
        };
        let old = || Ok(file(&[1, 0x10], &[byte], &[0]));
        let (without, with) = match plain {
            Some(true) => (old(), Err(-4119)),
            Some(false) => (Err(-4107), Err(-4119)),
            None => (Err(-4119), old()),
        };
        let lengthened = |m, held| turned(calls.lengthen, &file(&[1, m, 0x10], &[byte], held));
        assert_eq!(lengthened(0, &[]), without, "{byte:X}h");
        assert_eq!(lengthened(1, &[0]), with, "{byte:X}h");
    }
}

/// Old files that are refused.
fn judging_old(calls: &Implementation) {
    for (header, kinds, operands, number) in [
        (&[][..], &[][..], &[][..], -4106),
        (&[1], &[0x10, 0, 0], &[], -4106),
        (&[0, 0x10], &[], &[], -4106),
        (&[1, 0x10], &[HALT], &[], -4106),
        (&[0x3333_3334, 0x10], &[DUP, DUP, DUP, DUP], &[], -4106),
        (&[1, 1, 0x10], &[LITERAL], &[2], -4106),
        (&[1, 0x10], &[NO_KIND], &[0], -4107),
        (&[1, 0x10], &[HALT], &[1], -4108),
        (&[1, 0x10], &[BRANCH], &[1], -4109),
        (&[2, 0x10], &[BRANCH, HALT], &[2, 1], -4109),
        (&[2, 0x10], &[HALT, BRANCH], &[1, 2], -4108),
        (&[2, 0x10], &[NO_KIND, HALT], &[1, 1], -4107),
    ] {
        let bad = file(header, kinds, operands);
        assert_eq!(turned(calls.shorten, &bad), Err(number), "{bad:X?}");
        assert_eq!(turned_in(calls.shorten, &bad, 0, 0), Err(number));
    }
}

/// Bases: each is turned there and back; the packer judges them.
fn basing(calls: &Implementation) {
    let image = Ok(vec![HALT, 0, 0, 0]);
    for (base, came) in [
        (0, Err(-4110)),
        (0xC, Err(-4110)),
        (0x10, image.clone()),
        (0x11, Err(-4104)),
        (0xFF_FFFC, image),
        (0x100_0000, Err(-4110)),
        (u32::MAX, Err(-4104)),
    ] {
        let old = file(&[1, base], &[HALT], &[0]);
        let short = file(&[1, 0, base], &[HALT], &[]);
        assert_eq!(turned(calls.shorten, &old), Ok(short.clone()));
        assert_eq!(turned(calls.lengthen, &short), Ok(old));
        assert_eq!(packed(calls, &short), came, "base {base:X}h");
        let without_room = came.and(Err(-4105));
        assert_eq!(packed_in(calls, 0, &short, 0), without_room);
        assert_eq!(packed_in(calls, 255, &short, 0), Err(-4102));
    }
}

/// A file of either sort: literal 55302010h at 0, or HALT at 30201052h.
fn of_both_sorts(calls: &Implementation) {
    let both = b"\x01\0\0\0\0\0\0\0\x52\x10\x20\x30\x55";
    let short = file(&[1, 1, 0], &[LITERAL], &[0x5530_2010]);
    let old = file(&[1, 0x3020_1052], &[HALT], &[0]);
    assert_eq!(turned(calls.shorten, both), Ok(short));
    assert_eq!(turned(calls.lengthen, both), Ok(old));
}

/// As many items as there may be, with no operand and all of them; and one more.
fn sizes(calls: &Implementation) {
    for (kind, held) in [(DUP, 0), (LITERAL, 1)] {
        for (n, good) in [(4096, true), (4097, false)] {
            let (kinds, zeros) = (vec![kind; n as usize], vec![0; n as usize]);
            let old = file(&[n, 0x10], &kinds, &zeros);
            let short = file(&[n, held * n, 0x10], &kinds, &zeros[..(held * n) as usize]);
            let came = |file: Vec<u8>| good.then_some(file).ok_or(-4106);
            assert_eq!(turned(calls.shorten, &old), came(short.clone()));
            assert_eq!(turned(calls.lengthen, &short), came(old));
        }
    }
}

/// All rows.
pub fn rows(calls: &Implementation) {
    turning(calls);
    judging_short(calls);
    counting(calls);
    judging_old(calls);
    basing(calls);
    of_both_sorts(calls);
    sizes(calls);
}
