//! Rule sets: cells loaded together in sixteen modules, against one load of the same cells.

use std::hint::black_box;

use beetle_tests::call::Implementation;

use crate::measure::instructions;
use crate::modules::{code, microseconds, module};
use crate::sides::{whole, Side};
use crate::tables::{beside, head};

/// The modules of a set, and where the first of them goes; the others follow end to end.
const MODULES: usize = 16;
const BASE: u32 = 0x10;

/// The cells in all: four to a module, and a megabyte.
const SIZES: [u32; 2] = [64, 1 << 18];

/// A call is timed so often that it goes over so many cells.
const TIMED: u32 = 1 << 18;

/// How often a call is carried out for its instructions to be counted.
const TIMES: [u32; 2] = [1, 11];

/// What is done; with the byte order of the files. The machine's order is 0.
#[derive(Clone, Copy)]
enum Act {
    One(u8),
    Set(u8),
}

/// Each set after the load that it is held against.
const ACTS: [(&str, Act); 4] = [
    ("load, same byte order", Act::One(0)),
    ("load_set, same byte order", Act::Set(0)),
    ("load, other byte order", Act::One(1)),
    ("load_set, other byte order", Act::Set(1)),
];

/// The files of modules, and of each address, place and length.
fn set(order: u8, cells: u32) -> (Vec<u8>, Vec<u32>) {
    let code = code(cells);
    let (mut buffer, mut modules, mut address) = (Vec::new(), Vec::new(), BASE);
    for part in code.chunks(code.len() / MODULES) {
        let file = module(order, part);
        modules.extend([address, buffer.len() as u32, file.len() as u32]);
        buffer.extend(file);
        address += part.len() as u32;
    }
    (buffer, modules)
}

/// A memory for so many cells.
fn memory(cells: u32) -> Vec<u8> {
    vec![7; (16 + 4 * cells as usize).max(1024)]
}

/// The act on so many cells in all, into a memory.
fn doing(calls: Implementation, act: Act, cells: u32) -> Box<dyn FnMut(&mut [u8])> {
    let accepted = |answer| assert_eq!(black_box(answer), 0, "the call is accepted");
    match act {
        Act::One(order) => {
            let file = module(order, &code(cells));
            Box::new(move |memory| accepted((calls.load)(0, memory, &file, BASE, &mut [0])))
        }
        Act::Set(order) => {
            let (buffer, modules) = set(order, cells);
            Box::new(move |memory| {
                accepted((calls.load_set)(0, memory, &buffer, &modules, &mut [0]));
            })
        }
    }
}

/// The same so often, into a memory of its own.
fn often(calls: Implementation, act: Act, cells: u32, times: u32) -> impl FnMut() {
    let (mut act, mut memory) = (doing(calls, act, cells), memory(cells));
    move || (0..times).for_each(|_| act(&mut memory))
}

/// Carries out the act with this number so many times.
pub fn repeat(calls: &Implementation, at: usize, times: u32) -> Option<()> {
    let cells = SIZES.get(at / ACTS.len())?;
    let (_, act) = ACTS[at % ACTS.len()];
    often(*calls, act, *cells, times)();
    Some(())
}

/// Every act of one byte order leaves the same memory, on both sides.
fn agree(cells: u32) {
    let left = |calls, act| {
        let mut memory = memory(cells);
        doing(calls, act, cells)(&mut memory);
        memory
    };
    for pair in ACTS.chunks(2) {
        let [proved, independent] = whole();
        let one = left(proved, pair[0].1);
        assert!(left(independent, pair[0].1) == one);
        assert!(left(proved, pair[1].1) == one);
        assert!(left(independent, pair[1].1) == one);
    }
}

/// Instructions a call of the act with this number.
fn counted(at: usize) -> String {
    let count = instructions(Side::Proved, "set", at, TIMES);
    count.map_or("-".to_string(), |count| format!("{count:.0}"))
}

/// The lines of the acts on so many cells, from this number of an act on.
fn lines(from: usize, cells: u32) {
    agree(cells);
    let times = TIMED / cells;
    let mut against = f64::NAN;
    for (at, (name, act)) in ACTS.into_iter().enumerate() {
        let each = |calls| microseconds(often(calls, act, cells, times)) / f64::from(times);
        let took = whole().map(each);
        if let Act::One(_) = act {
            against = took[0];
        }
        let (count, ratio) = (counted(from + at), took[0] / against);
        let took = beside(&took.map(|time| Some(1000.0 * time)));
        println!("| {cells} | {name} | {count} | {took} | {ratio:.2} |");
    }
}

/// A line for each act on each number of cells.
pub fn table() {
    let columns = [
        "cells in all",
        "act",
        "instructions a call, proved",
        "ns a call, proved",
        "independent",
        "ratio",
        "proved against one load",
    ];
    head("Sixteen modules by beetle_load_set", &columns);
    for (size, cells) in SIZES.into_iter().enumerate() {
        lines(size * ACTS.len(), cells);
    }
    println!();
}
