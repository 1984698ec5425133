//! Listing files (document 01): n, base, n kinds, n operands; numbers have 4 bytes, least first.

use crate::arguments::Arguments;
use crate::failure::Failure;
use crate::files;
use crate::library::{self, Listing};

/// The file of a listing, or its short one. Nothing in the bytes tells which: some files read as
/// either, so that it is for the caller to say.
pub struct File {
    pub bytes: Vec<u8>,
    short: bool,
}

impl File {
    /// The one that a command is given, a short one with `--short`.
    pub fn given(arguments: &Arguments) -> Result<Self, Failure> {
        let bytes = files::read(arguments.file(0))?;
        let short = arguments.switch("--short");
        Ok(File { bytes, short })
    }

    /// That of a listing.
    pub fn of(listing: &Listing, short: bool) -> Result<Self, Failure> {
        let bytes = to_file(listing);
        let bytes = if short {
            library::shorten(&bytes)?
        } else {
            bytes
        };
        Ok(File { bytes, short })
    }

    /// The bytes of the image that it packs to.
    pub fn image(&self, order: u8) -> Result<Vec<u8>, Failure> {
        if self.short {
            library::pack_short(order, &self.bytes)
        } else {
            library::pack_file(order, &self.bytes)
        }
    }

    /// Packs it. The packer judges it, so that what it accepted can be taken apart here.
    pub fn packed(&self, order: u8) -> Result<Packed, Failure> {
        let image = self.image(order)?;
        let listing = if self.short {
            from_file(&library::lengthen(&self.bytes)?)
        } else {
            from_file(&self.bytes)
        };
        Ok(Packed {
            listing,
            order,
            image,
        })
    }
}

/// An accepted listing, with the image that it packs to.
pub struct Packed {
    pub listing: Listing,
    pub order: u8,
    pub image: Vec<u8>,
}

impl Packed {
    /// The listing that packs to an image at a base.
    pub fn unpacked(order: u8, image: Vec<u8>, base: u32) -> Result<Self, Failure> {
        let listing = library::unpack(order, &image, base)?;
        Ok(Packed {
            listing,
            order,
            image,
        })
    }

    /// What was written to a file with this name.
    pub fn told(&self, target: &str) -> String {
        let (items, base, cells) = (self.listing.kinds.len(), self.listing.base, self.cells());
        format!("{target}: {items} items, base {base:X}h, packs to {cells} cells")
    }

    pub fn cells(&self) -> u32 {
        (self.image.len() / 4) as u32
    }

    /// The address just past the image.
    pub fn end(&self) -> u32 {
        self.listing.base + 4 * self.cells()
    }
}

fn to_file(listing: &Listing) -> Vec<u8> {
    let items = listing.kinds.len() as u32;
    let mut file = Vec::new();
    file.extend(items.to_le_bytes());
    file.extend(listing.base.to_le_bytes());
    file.extend(&listing.kinds);
    for operand in &listing.operands {
        file.extend(operand.to_le_bytes());
    }
    file
}

/// The listing of a file that was accepted.
fn from_file(file: &[u8]) -> Listing {
    let items = number_at(file, 0) as usize;
    let operands = (0..items).map(|item| number_at(file, 8 + items + 4 * item));
    Listing {
        base: number_at(file, 4),
        kinds: file[8..8 + items].to_vec(),
        operands: operands.collect(),
    }
}

/// The number of 4 bytes at a place.
pub fn number_at(file: &[u8], at: usize) -> u32 {
    u32::from_le_bytes([file[at], file[at + 1], file[at + 2], file[at + 3]])
}
