//! Loading and saving modules of a megabyte, and of the greatest memory.

use std::hint::black_box;

use beetle_tests::call::Implementation;

use crate::measure::{instructions, nanoseconds};
use crate::sides::{whole, Side};
use crate::tables::{beside, head};

/// What is done with a module; a load with the byte order of its file. The machine's order is 0.
#[derive(Clone, Copy)]
enum Act {
    Load(u8),
    /// All cells, by the load that can halt.
    First(u8),
    Save,
}

const ACTS: [(&str, Act); 5] = [
    ("load, same byte order", Act::Load(0)),
    ("load, other byte order", Act::Load(1)),
    ("load_first of all cells, same byte order", Act::First(0)),
    ("load_first of all cells, other byte order", Act::First(1)),
    ("save", Act::Save),
];

/// The cells of the modules: a megabyte, and what the greatest memory holds from 10h on.
const SIZES: [u32; 2] = [1 << 18, (1 << 22) - 4];

/// The cells of the module whose instructions are counted, and how often it is loaded or saved.
const COUNTED: u32 = 20_000;
const TIMES: [u32; 2] = [1, 11];

/// The bytes of so many cells.
pub fn code(cells: u32) -> Vec<u8> {
    (0..4 * cells).map(|at| (at % 251) as u8).collect()
}

/// A module file of these cells, in an order.
pub fn module(order: u8, code: &[u8]) -> Vec<u8> {
    let cells = (code.len() / 4) as u32;
    let mut file = b"BEETLE\0".to_vec();
    file.push(order);
    file.extend(if order == 0 {
        cells.to_le_bytes()
    } else {
        cells.to_be_bytes()
    });
    file.extend(code);
    file
}

/// The act on a module of so many cells at 10h.
fn doing(calls: Implementation, act: Act, cells: u32) -> impl FnMut() {
    let mut memory = vec![7; 16 + 4 * cells as usize];
    let mut file = match act {
        Act::Load(order) | Act::First(order) => module(order, &code(cells)),
        Act::Save => vec![0; 12 + 4 * cells as usize],
    };
    move || {
        let (memory, file, out) = (&mut memory[..], &mut file[..], &mut [0][..]);
        let answer = match act {
            Act::Load(_) => (calls.load)(0, memory, file, 0x10, out),
            Act::First(_) => (calls.load_first)(0, memory, file, 0x10, cells, out),
            Act::Save => (calls.save)(0, memory, 0x10, cells, file, out),
        };
        assert_eq!(black_box(answer), 0, "the call is accepted");
    }
}

/// Does the act with this number so many times.
pub fn repeat(calls: &Implementation, at: usize, times: u32) -> Option<()> {
    let (_, act) = ACTS.get(at)?;
    let mut act = doing(*calls, *act, COUNTED);
    (0..times).for_each(|_| act());
    Some(())
}

/// The shortest time of an act in microseconds. Each is timed by itself, with its bytes in the
/// host's caches where they fit, so that a plain copy can be held against it.
pub fn microseconds(act: impl FnMut()) -> f64 {
    let [time] = nanoseconds([act]);
    time / 1000.0
}

/// A plain copy of as many bytes.
fn copy(cells: u32) -> f64 {
    let bytes = 4 * cells as usize;
    let (from, mut to) = (vec![7_u8; bytes], vec![0_u8; bytes]);
    microseconds(|| black_box(&mut to).copy_from_slice(black_box(&from)))
}

/// The lines of the acts on a module of so many cells.
fn lines(cells: u32) {
    let copy = copy(cells);
    for (name, act) in ACTS {
        let times = whole().map(|calls| microseconds(doing(calls, act, cells)));
        let against = times[0] / copy;
        println!(
            "| {cells} | {name} | {} | {against:.2} |",
            beside(&times.map(Some))
        );
    }
    println!("| {cells} | plain copy | {copy:.1} | | | 1.00 |");
}

/// Two tables: times, and instructions.
pub fn tables() {
    let columns = [
        "cells",
        "act",
        "microseconds, proved",
        "independent",
        "ratio",
        "proved against a copy",
    ];
    head(
        "Modules by beetle_load, beetle_load_first and beetle_save",
        &columns,
    );
    SIZES.into_iter().for_each(lines);
    println!();
    let columns = ["act", "instructions a cell, proved"];
    head("Instructions a cell", &columns);
    for (at, (name, _)) in ACTS.iter().enumerate() {
        let count = instructions(Side::Proved, "module", at, TIMES);
        let count = count.map(|count| count / f64::from(COUNTED));
        let count = count.map_or("-".to_string(), |count| format!("{count:.2}"));
        println!("| {name} | {count} |");
    }
    println!();
}
