//! Listings in each form that a call takes: files and short ones, made of each other and packed;
//! arrays, packed to images and read back.

use std::hint::black_box;

use beetle_bindings::{lengthen, pack, pack_file, pack_short, shorten, unpack};

use crate::listings::{self, Listing};
use crate::measure::{instructions, nanoseconds};
use crate::sides::Side;
use crate::tables::head;

/// Calls the library once each time, and gives its answer.
type Caller = Box<dyn FnMut() -> u32>;

/// A call on a listing.
struct Act {
    name: &'static str,
    /// The act, by its number, that it is held against.
    against: usize,
    caller: fn(&Listing) -> Caller,
}

/// The packings that others are held against.
const PACK_FILE: usize = 0;
const PACK: usize = 4;

const ACTS: [Act; 6] = [
    Act {
        name: "pack_file",
        against: PACK_FILE,
        caller: |listing| on_file(|f, w, o| pack_file(0, f, w, o), file_of(listing)),
    },
    Act {
        name: "pack_short",
        against: PACK_FILE,
        caller: |listing| on_file(|f, w, o| pack_short(0, f, w, o), short_of(listing)),
    },
    Act {
        name: "shorten",
        against: PACK_FILE,
        caller: |listing| on_file(shorten, file_of(listing)),
    },
    Act {
        name: "lengthen",
        against: PACK_FILE,
        caller: |listing| on_file(lengthen, short_of(listing)),
    },
    Act {
        name: "pack",
        against: PACK,
        caller: packing,
    },
    Act {
        name: "unpack",
        against: PACK,
        caller: unpacking,
    },
];

/// The items of the listings.
const SIZES: [u32; 2] = [4096, 64];

/// A call is timed so often that it goes over so many items.
const TIMED: u32 = 1 << 16;

/// How often a call is carried out for its instructions to be counted.
const TIMES: [u32; 2] = [1, 11];

/// Room for any image and any file.
const OUTPUT: usize = 4 * 2 * 4096;

/// Where the listings are packed for.
const BASE: u32 = 0x10;

/// A call on a file.
type OnFile = fn(&[u8], &mut [u8], &mut [u32]) -> u32;

fn on_file(call: OnFile, file: Vec<u8>) -> Caller {
    let mut output = vec![0; OUTPUT];
    Box::new(move || call(black_box(&file), &mut output, &mut [0]))
}

fn packing(listing: &Listing) -> Caller {
    let (kinds, operands) = (listing.kinds.clone(), listing.operands.clone());
    let mut output = vec![0; OUTPUT];
    Box::new(move || pack(0, black_box(&kinds), &operands, BASE, &mut output, &mut [0]))
}

/// The arrays are as long as the listing that comes back.
fn unpacking(listing: &Listing) -> Caller {
    let image = image_of(listing);
    let (mut kinds, mut operands) = (listing.kinds.clone(), listing.operands.clone());
    Box::new(move || {
        unpack(
            0,
            black_box(&image),
            BASE,
            &mut kinds,
            &mut operands,
            &mut [0],
        )
    })
}

/// What a call writes, told in units of so many bytes.
fn written(unit: usize, call: impl FnOnce(&mut [u8], &mut [u32]) -> u32) -> Vec<u8> {
    let (mut output, mut out) = (vec![0; OUTPUT], [0]);
    assert_eq!(call(&mut output, &mut out), 0, "the call is accepted");
    output.truncate(unit * out[0] as usize);
    output
}

/// The file of a listing.
fn file_of(listing: &Listing) -> Vec<u8> {
    let mut file = (listing.kinds.len() as u32).to_le_bytes().to_vec();
    file.extend(BASE.to_le_bytes());
    file.extend(&listing.kinds);
    file.extend(listing.operands.iter().flat_map(|v| v.to_le_bytes()));
    file
}

/// Its short file.
fn short_of(listing: &Listing) -> Vec<u8> {
    let file = file_of(listing);
    written(1, |output, out| shorten(&file, output, out))
}

/// Its image.
fn image_of(listing: &Listing) -> Vec<u8> {
    let (kinds, operands) = (&listing.kinds, &listing.operands);
    written(4, |output, out| pack(0, kinds, operands, BASE, output, out))
}

/// Every form gives the same image, and each the other back.
fn agree(listing: &Listing) {
    let (file, short, image) = (file_of(listing), short_of(listing), image_of(listing));
    assert!(written(1, |w, o| lengthen(&short, w, o)) == file);
    assert!(written(4, |w, o| pack_file(0, &file, w, o)) == image);
    assert!(written(4, |w, o| pack_short(0, &short, w, o)) == image);
    let items = listing.kinds.len();
    let (mut kinds, mut operands, mut out) = (vec![0; items], vec![0; items], [0]);
    let answer = unpack(0, &image, BASE, &mut kinds, &mut operands, &mut out);
    assert_eq!((answer, out[0] as usize), (0, items));
    assert!(kinds == listing.kinds && operands == listing.operands);
}

impl Act {
    /// Itself, so often, on a listing.
    fn doing(&self, listing: &Listing, times: u32) -> impl FnMut() {
        let mut call = (self.caller)(listing);
        move || {
            for _ in 0..times {
                assert_eq!(black_box(call()), 0, "the listing is accepted");
            }
        }
    }
}

/// Carries out the act with this number so many times.
pub fn repeat(at: usize, times: u32) -> Option<()> {
    let items = SIZES.get(at / ACTS.len())?;
    ACTS[at % ACTS.len()].doing(&listings::plain(*items), times)();
    Some(())
}

/// Instructions an item of the act with this number.
fn counted(at: usize, items: u32) -> String {
    let count = instructions(Side::Proved, "listing", at, TIMES);
    let count = count.map(|count| count / f64::from(items));
    count.map_or("-".to_string(), |count| format!("{count:.1}"))
}

/// A line for each act on a listing.
pub fn table() {
    let columns = [
        "items",
        "act",
        "instructions an item, proved",
        "ns an item, proved",
        "ratio",
        "to",
    ];
    head("Listing files, short files and images", &columns);
    for (size, items) in SIZES.into_iter().enumerate() {
        let listing = listings::plain(items);
        agree(&listing);
        let times = nanoseconds(ACTS.map(|act| act.doing(&listing, TIMED / items)));
        for (at, (act, time)) in ACTS.iter().zip(times).enumerate() {
            let count = counted(size * ACTS.len() + at, items);
            let (name, each) = (act.name, time / f64::from(TIMED));
            let (ratio, to) = (time / times[act.against], ACTS[act.against].name);
            println!("| {items} | {name} | {count} | {each:.1} | {ratio:.2} | {to} |");
        }
    }
    println!();
}
