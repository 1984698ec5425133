//! Calls on listing files and images, with the listing in what they take or opened into kinds, operands
//! and base.

use crate::call::{Call, Entry};
use crate::cases::order_of;
use crate::reference::{listing, packer, short, unpack};

/// The call with its listing in an image; what it lends is just long enough.
fn closed_image(mut call: Call) -> Call {
    let image = listing::accept(&call.kinds, &call.operands).map(|listing| {
        let cells = packer::image(&listing, &packer::layout(&listing), call.numbers[0]);
        packer::bytes(&cells, order_of(call.order))
    });
    call.file = image.unwrap_or_default();
    call.kinds.fill(0xC3);
    call.operands.fill(0xC3C3_C3C3);
    call
}

/// The call with its image opened, where it is one of a listing.
fn opened_image(call: &Call) -> Option<Call> {
    let (image, base) = (&call.file, call.numbers[0]);
    packer::accept_place(base, image.len()).ok()?;
    let listing = unpack::read(order_of(call.order), image, base).ok()?;
    let mut call = call.clone();
    (call.kinds, call.operands) = (listing.kinds, listing.operands);
    call.file.clear();
    Some(call)
}

/// The call with its listing in the file that it takes.
pub fn closed(mut call: Call) -> Call {
    let write = match call.entry {
        Entry::Unpack => return closed_image(call),
        Entry::Lengthen | Entry::PackShort => short::write,
        _ => listing::write,
    };
    call.file = write(&call.kinds, &call.operands, call.numbers[0]);
    call.kinds.clear();
    call.operands.clear();
    call.numbers[0] = 0;
    call
}

/// The call with its file opened, where the file's sizes are good; its items may be bad.
pub fn opened(call: &Call) -> Option<Call> {
    let parts = match call.entry {
        Entry::Lengthen | Entry::PackShort => short::parts,
        Entry::Shorten | Entry::PackFile => listing::parts,
        Entry::Unpack => return opened_image(call),
        _ => return None,
    };
    let mut call = call.clone();
    (call.kinds, call.operands, call.numbers[0]) = parts(&call.file).ok()?;
    call.file.clear();
    Some(call)
}
