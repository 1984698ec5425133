//! The rows of document 01's "Worked on paper" and the cases of document 02, tried on an
//! implementation.

use crate::call::Implementation;

const DUP: u8 = 0x01;
const LITERAL: u8 = 0x52;

/// The cells of a listing's image at 10h.
fn image(calls: &Implementation, items: &[(u8, u32)]) -> Vec<u32> {
    let kinds: Vec<u8> = items.iter().map(|(kind, _)| *kind).collect();
    let operands: Vec<u32> = items.iter().map(|(_, operand)| *operand).collect();
    let mut output = vec![0; 8 * items.len()];
    let mut out = [0];
    let answer = (calls.pack)(0, &kinds, &operands, 0x10, &mut output, &mut out);
    assert_eq!(answer, 0, "the listing is packed");
    output[..4 * out[0] as usize]
        .chunks(4)
        .map(|cell| u32::from_le_bytes([cell[0], cell[1], cell[2], cell[3]]))
        .collect()
}

/// The literal after two DUPs.
fn after_two_dups(calls: &Implementation, value: i32) -> Vec<u32> {
    image(calls, &[(DUP, 0), (DUP, 0), (LITERAL, value as u32)])
}

pub fn packing(calls: &Implementation) {
    let sum = [(LITERAL, 2), (LITERAL, 3), (0x1E, 0), (0x55, 0)];
    assert_eq!(image(calls, &sum), [0x0000_0253, 0x0000_0353, 0x0000_551E]);
    assert_eq!(after_two_dups(calls, -1), [0xFF53_0101]);
    for fits in [127, -128] {
        assert_eq!(after_two_dups(calls, fits).len(), 1);
    }
    for does_not in [128, -129] {
        assert_eq!(
            after_two_dups(calls, does_not),
            [0x0052_0101, does_not as u32]
        );
    }
    assert_eq!(image(calls, &[(LITERAL, 8_388_607)]), [0x7FFF_FF53]);
    assert_eq!(image(calls, &[(LITERAL, 8_388_608)]), [0x52, 0x0080_0000]);
    let dups = [(DUP, 0), (DUP, 0), (DUP, 0), (LITERAL, 0)];
    assert_eq!(image(calls, &dups), [0x5201_0101, 0]);
    assert_eq!(image(calls, &[(0x42, 0)]), [0xFFFF_FF43]);
}

fn put(memory: &mut [u8], address: usize, cell: u32) {
    memory[address..address + 4].copy_from_slice(&cell.to_le_bytes());
}

fn cell(memory: &[u8], address: usize) -> u32 {
    let bytes = memory[address..address + 4].try_into();
    u32::from_le_bytes(bytes.expect("four bytes"))
}

/// Started at 10h with these cells there.
fn started(calls: &Implementation, cells: &[u32]) -> (Vec<u8>, [u32; 8]) {
    let mut memory = vec![0; 0x400];
    for (number, cell) in cells.iter().enumerate() {
        put(&mut memory, 0x10 + 4 * number, *cell);
    }
    let mut registers = [0; 8];
    let mut out = [0];
    let answer = (calls.start)(
        0,
        &mut memory,
        0x10,
        0x10,
        0,
        0,
        0,
        0,
        0,
        0,
        &mut registers,
        &mut out,
    );
    assert_eq!(answer, 0, "the machine is ready");
    (memory, registers)
}

/// Second and top item after dividing -7 by 2.
fn divided(calls: &Implementation, opcode: u32) -> (i32, i32) {
    let (mut memory, mut registers) = started(calls, &[opcode]);
    put(&mut memory, 0x204, -7_i32 as u32);
    put(&mut memory, 0x200, 2);
    registers[2] = 0x200;
    assert_eq!(
        (calls.cycle)(0, &mut memory, 0, 0, &mut registers, &mut [0]),
        0
    );
    (cell(&memory, 0x204) as i32, cell(&memory, 0x200) as i32)
}

pub fn running(calls: &Implementation) {
    let sum = [0x0000_0253, 0x0000_0353, 0x0000_551E];
    let (mut memory, mut registers) = started(calls, &sum);
    let mut out = [0; 2];
    let answer = (calls.run)(0, &mut memory, 0, 0, &mut registers, 100, &mut out);
    assert_eq!((answer, out), (1, [5, 4]), "reason 5, four cycles");

    assert_eq!(divided(calls, 0x28), (1, -4), "/MOD");
    assert_eq!(divided(calls, 0x2A), (-1, -3), "S/REM");

    let (mut memory, mut registers) = started(calls, &[0x0D]);
    assert_eq!(
        (calls.cycle)(0, &mut memory, 0, 0, &mut registers, &mut [0]),
        0
    );
    assert_eq!(cell(&memory, 0x2FC) as i32, -9, "R> at start");
    assert_eq!(cell(&memory, 0xC), 0x400, "R> at start");

    let (mut memory, mut registers) = started(calls, &[0x01]);
    registers[2] = 0;
    let (before, mut out) = (memory.clone(), [0]);
    let answer = (calls.cycle)(0, &mut memory, 0, 0, &mut registers, &mut out);
    assert_eq!((answer, out[0] as i32), (1, -258), "DUP with SP 0");
    assert_eq!(memory, before, "DUP with SP 0");
}

/// The index with which (+LOOP)I goes on, or none where it ends.
fn counted(calls: &Implementation, index: u32, limit: u32, step: i32) -> Option<u32> {
    let (mut memory, mut registers) = started(calls, &[0xFFFF_FF4F]);
    put(&mut memory, 0x200, step as u32);
    put(&mut memory, 0x300, index);
    put(&mut memory, 0x304, limit);
    (registers[2], registers[3]) = (0x200, 0x300);
    assert_eq!(
        (calls.cycle)(0, &mut memory, 0, 0, &mut registers, &mut [0]),
        0
    );
    assert_eq!(registers[2], 0x204, "the step is dropped");
    match registers[3] {
        0x300 => Some(cell(&memory, 0x300)),
        rp => {
            assert_eq!((rp, cell(&memory, 0x300)), (0x308, index));
            None
        }
    }
}

pub fn counting(calls: &Implementation) {
    const HALF: u32 = 0x8000_0000;
    assert_eq!(counted(calls, HALF - 1, HALF, 1), None);
    assert_eq!(counted(calls, HALF - 1, 0, 1), Some(HALF));
    assert_eq!(counted(calls, HALF - 8, HALF, 4), Some(HALF - 4));
    assert_eq!(counted(calls, HALF + 4, HALF, -4), Some(HALF));
    assert_eq!(counted(calls, HALF, HALF, -4), None);
    assert_eq!(counted(calls, HALF, HALF, 0), Some(HALF));
    assert_eq!(counted(calls, 0xFFFF_FFF0, 0x10, 0x10), Some(0));
    assert_eq!(counted(calls, 0, 0x10, 0x10), None);
}

/// Two cells of a file of order 0, a load told to halt after so many: the count, and eight bytes.
fn halted(calls: &Implementation, order: u8, cells: u32) -> (u32, Vec<u8>) {
    let mut memory = vec![0x5A; 0x400];
    let file = b"BEETLE\0\0\x02\0\0\0\x55\0\0\0\x04\x03\x02\x01";
    let mut out = [0xFFFF_FFFF];
    let answer = (calls.load_first)(order, &mut memory, file, 0x10, cells, &mut out);
    assert_eq!(answer, 0, "the module is loaded");
    (out[0], memory[0x10..0x18].to_vec())
}

pub fn halting(calls: &Implementation) {
    let lent = [0x5A; 4];
    let in_order = [
        (0, [0x55, 0, 0, 0], [4, 3, 2, 1]),
        (1, [0, 0, 0, 0x55], [1, 2, 3, 4]),
    ];
    for (order, first, second) in in_order {
        assert_eq!(halted(calls, order, 0), (0, [lent, lent].concat()));
        assert_eq!(halted(calls, order, 1), (1, [first, lent].concat()));
        for cells in [2, 3, u32::MAX] {
            assert_eq!(halted(calls, order, cells), (2, [first, second].concat()));
        }
    }
}

pub fn loading(calls: &Implementation) {
    let mut memory = vec![0xFF; 0x400];
    let file = b"BEETLE\0\0\x01\0\0\0\x55\0\0\0";
    let answer = (calls.load)(1, &mut memory, file, 0x10, &mut [0]);
    assert_eq!((answer, &memory[0x10..0x14]), (0, &[0, 0, 0, 0x55][..]));
}
