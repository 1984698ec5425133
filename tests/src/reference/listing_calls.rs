//! The calls on listings, their files and their images.

use super::judging::{byte_order, give_file, number, room, WENT_ON};
use super::listing::{self, Listing};
use super::memory::Order;
use super::packer;
use super::refusal::Refusal;
use super::short;
use super::unpack;

/// The image of an accepted listing goes to the output.
fn pack_listing(
    order: Order,
    listing: &Listing,
    base: u32,
    output: &mut [u8],
    out: &mut [u32],
) -> Result<u32, Refusal> {
    let layout = packer::layout(listing);
    packer::accept_base(base, &layout)?;
    room(output, 4 * layout.cells)?;
    room(out, 1)?;
    let image = packer::bytes(&packer::image(listing, &layout, base), order);
    output[..image.len()].copy_from_slice(&image);
    out[0] = layout.cells as u32;
    Ok(WENT_ON)
}

pub fn pack(
    order: u8,
    kinds: &[u8],
    operands: &[u32],
    base: u32,
    output: &mut [u8],
    out: &mut [u32],
) -> u32 {
    number((|| {
        let order = byte_order(order)?;
        let listing = listing::accept(kinds, operands)?;
        pack_listing(order, &listing, base, output, out)
    })())
}

pub fn pack_file(order: u8, file: &[u8], output: &mut [u8], out: &mut [u32]) -> u32 {
    number((|| {
        let order = byte_order(order)?;
        let (listing, base) = listing::read(file)?;
        pack_listing(order, &listing, base, output, out)
    })())
}

/// An old listing file turned into a short one (document 02, (l)).
pub fn shorten(file: &[u8], output: &mut [u8], out: &mut [u32]) -> u32 {
    number((|| {
        let (listing, base) = listing::read(file)?;
        let short = short::write(&listing.kinds, &listing.operands, base);
        give_file(&short, output, out)
    })())
}

/// A short listing file turned into an old one.
pub fn lengthen(file: &[u8], output: &mut [u8], out: &mut [u32]) -> u32 {
    number((|| {
        let (listing, base) = short::read(file)?;
        let old = listing::write(&listing.kinds, &listing.operands, base);
        give_file(&old, output, out)
    })())
}

pub fn pack_short(order: u8, file: &[u8], output: &mut [u8], out: &mut [u32]) -> u32 {
    number((|| {
        let order = byte_order(order)?;
        let (listing, base) = short::read(file)?;
        pack_listing(order, &listing, base, output, out)
    })())
}

/// The listing that packs to an image (document 02, (h)).
pub fn unpack(
    order: u8,
    image: &[u8],
    base: u32,
    kinds: &mut [u8],
    operands: &mut [u32],
    out: &mut [u32],
) -> u32 {
    number((|| {
        let order = byte_order(order)?;
        packer::accept_place(base, image.len())?;
        let listing = unpack::read(order, image, base)?;
        let items = listing.items();
        room(kinds, items)?;
        room(operands, items)?;
        room(out, 1)?;
        kinds[..items].copy_from_slice(&listing.kinds);
        operands[..items].copy_from_slice(&listing.operands);
        out[0] = items as u32;
        Ok(WENT_ON)
    })())
}
