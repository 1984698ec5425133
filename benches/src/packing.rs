//! Packing of long listings, and the way back.

use std::hint::black_box;

use beetle_bindings::unpack;
use beetle_tests::call::Implementation;

use crate::listings::{self, Listing};
use crate::measure::nanoseconds;
use crate::sides::whole;
use crate::tables::{beside, head};

/// Room for any image.
const IMAGE: usize = 4 * 2 * 4096;

/// Packs a listing: its number of cells.
fn pack(calls: &Implementation, listing: &Listing, image: &mut [u8]) -> u32 {
    let mut out = [0];
    let (kinds, operands) = (&listing.kinds, &listing.operands);
    let answer = (calls.pack)(0, kinds, operands, 0x10, image, &mut out);
    assert_eq!(black_box(answer), 0, "the listing is packed");
    out[0]
}

/// The image of a listing.
fn image(calls: &Implementation, listing: &Listing) -> Vec<u8> {
    let mut image = vec![0; IMAGE];
    let cells = pack(calls, listing, &mut image);
    image.truncate(4 * cells as usize);
    image
}

/// Reads an image back into arrays that a listing fills.
fn read_back(image: &[u8], kinds: &mut [u8], operands: &mut [u32]) {
    let answer = unpack(0, image, 0x10, kinds, operands, &mut [0]);
    assert_eq!(black_box(answer), 0, "the image is read back");
}

/// An act to be timed.
type Timed<'l> = Box<dyn FnMut() + 'l>;

/// Packs by both sides, and reads the image back.
fn acts<'l>(calls: [Implementation; 2], listing: &'l Listing, packed: &'l [u8]) -> [Timed<'l>; 3] {
    let [proved, independent] = calls.map(|calls| -> Timed<'l> {
        let mut image = vec![0; IMAGE];
        Box::new(move || {
            pack(&calls, listing, &mut image);
        })
    });
    let (mut kinds, mut operands) = (listing.kinds.clone(), listing.operands.clone());
    let back = Box::new(move || read_back(packed, &mut kinds, &mut operands));
    [proved, independent, back]
}

/// A line for each listing.
pub fn table() {
    let columns = [
        "listing",
        "items",
        "rounds",
        "microseconds, proved",
        "independent",
        "ratio",
        "microseconds, unpacked",
        "ratio to packing",
    ];
    head(
        "Packing by beetle_pack, and back by beetle_unpack",
        &columns,
    );
    let calls = whole();
    for listing in [listings::plain(4096), listings::most_rounds()] {
        let [left, right] = calls.map(|calls| image(&calls, &listing));
        assert!(left == right, "both pack to the same image");
        let times = nanoseconds(acts(calls, &listing, &left)).map(|time| time / 1000.0);
        let [proved, independent, back] = times;
        let packing = beside(&[Some(proved), Some(independent)]);
        let ratio = back / proved;
        let (name, items, rounds) = (listing.name, listing.kinds.len(), listing.rounds());
        println!("| {name} | {items} | {rounds} | {packing} | {back:.1} | {ratio:.2} |");
    }
    println!();
}
