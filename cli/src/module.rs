//! The modules of packed rules, each by way of a memory of its own; and the files of modules.

use crate::failure::Failure;
use crate::listing::Packed;
use crate::memory::{LONGEST, SHORTEST};
use crate::{library, memory};

/// How a module's file begins; the byte order follows, and the number of its cells.
const MAGIC: &[u8] = b"BEETLE\0";

/// The bytes in front of its cells.
const HEAD: usize = 12;

/// Puts the image into a memory at its base and saves it from there: the module's file.
pub fn saved(packed: &Packed) -> Result<Vec<u8>, Failure> {
    let (base, end) = (packed.listing.base as usize, packed.end() as usize);
    let mut memory = vec![0; end.max(SHORTEST)];
    memory[base..end].copy_from_slice(&packed.image);
    library::save(packed.order, &memory, packed.listing.base, packed.cells())
}

/// The bytes of a module's cells in a byte order, whichever the file has. It is loaded to 0h, so
/// that where it belongs is not judged here.
pub fn image(order: u8, file: &[u8]) -> Result<Vec<u8>, Failure> {
    let length = file.len().next_multiple_of(4).clamp(SHORTEST, LONGEST);
    let mut memory = vec![0; length];
    let cells = library::load(order, &mut memory, file, 0)?;
    memory.truncate(4 * cells as usize);
    Ok(memory)
}

/// The cells of a file that was accepted, and so is as long as its count says.
pub fn cells_of(file: &[u8]) -> u32 {
    ((file.len() - HEAD) / 4) as u32
}

/// What is wrong with a module at an address of a memory with so many bytes: the first of what the
/// library judges.
pub fn fault(file: &[u8], address: u32, memory: usize) -> Option<String> {
    let length = file.len();
    let order = file.strip_prefix(MAGIC).and_then(|rest| rest.first());
    let Some(order @ (0 | 1)) = order.copied() else {
        let text = "it does not begin with BEETLE, a byte 0 and a byte order, 0 or 1";
        return Some(text.to_string());
    };
    let Some(count) = file.get(8..HEAD) else {
        return Some(format!(
            "it has {length} bytes, but a module's head alone has {HEAD}"
        ));
    };
    let cells = u64::from(memory::cells(order, count)[0]);
    let (asked_for, end) = (HEAD as u64 + 4 * cells, u64::from(address) + 4 * cells);
    if asked_for != length as u64 {
        Some(format!(
            "it has {length} bytes, but its count of {cells} cells asks for {asked_for}"
        ))
    } else if !address.is_multiple_of(4) {
        Some("the address is no multiple of 4".to_string())
    } else if address as usize >= memory {
        Some(format!("the address is not below the memory's {memory:X}h"))
    } else {
        let past = end > memory as u64;
        past.then(|| format!("its {cells} cells end at {end:X}h, past the memory's {memory:X}h"))
    }
}

#[cfg(test)]
mod tests {
    use super::*;

    /// What is wrong with these bytes at an address of a memory of 400h bytes.
    fn told(file: &[u8], address: u32) -> String {
        fault(file, address, 0x400).unwrap_or_default()
    }

    #[test]
    fn each_fault_of_a_file_is_told() {
        let start = "it does not begin with BEETLE, a byte 0 and a byte order, 0 or 1";
        let rows: [(&[u8], &str); 9] = [
            (b"", start),
            (b"BEETLE\0", start),
            (b"BEETLE \0\0\0\0\0", start),
            (b"BEETLE\0\x02\0\0\0\0", start),
            (
                b"BEETLE\0\0\0\0\0",
                "it has 11 bytes, but a module's head alone has 12",
            ),
            (
                b"BEETLE\0\0\x01\0\0\0",
                "it has 12 bytes, but its count of 1 cells asks for 16",
            ),
            (
                b"BEETLE\0\x01\xFF\xFF\xFF\xFF",
                "it has 12 bytes, but its count of 4294967295 cells asks for 17179869192",
            ),
            (b"BEETLE\0\x01\0\0\0\x01....", ""),
            (b"BEETLE\0\0\x01\0\0\0....", ""),
        ];
        for (file, expected) in rows {
            assert_eq!(told(file, 0x10), expected, "{file:?}");
        }
    }

    #[test]
    fn each_fault_of_an_address_is_told() {
        let two = b"BEETLE\0\0\x02\0\0\0........";
        let rows = [
            (0x402, "the address is no multiple of 4"),
            (0x400, "the address is not below the memory's 400h"),
            (0xFFFF_FFFC, "the address is not below the memory's 400h"),
            (0x3FC, "its 2 cells end at 404h, past the memory's 400h"),
            (0x3F8, ""),
        ];
        for (address, expected) in rows {
            assert_eq!(told(two, address), expected, "{address:X}");
        }
        let none = b"BEETLE\0\0\0\0\0\0";
        assert_eq!(told(none, 0x400), rows[1].1);
        assert_eq!(told(none, 0x3FC), "");
    }
}
