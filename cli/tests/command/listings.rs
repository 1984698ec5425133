//! Listings of many shapes: whatever the packer accepts can be shown, followed beside the processor,
//! shortened, and read back from its cells.

use crate::folder::Folder;

/// Numbers that look random, the same in every run.
struct Numbers(u64);

impl Numbers {
    fn below(&mut self, limit: u32) -> u32 {
        self.0 = self.0.wrapping_mul(6_364_136_223_846_793_005);
        self.0 = self.0.wrapping_add(1_442_695_040_888_963_407);
        ((self.0 >> 33) % u64::from(limit)) as u32
    }
}

/// A kind and an operand for a listing of so many items.
fn item(numbers: &mut Numbers, items: u32) -> (u8, u32) {
    let branches = [0x42, 0x44, 0x48, 0x4C, 0x4E];
    let plain = [0x01, 0x03, 0x04, 0x0C, 0x0D, 0x19, 0x1A, 0x1E, 0x46, 0x4B];
    match numbers.below(10) {
        0..=1 => {
            let kind = branches[numbers.below(5) as usize];
            (kind, numbers.below(items))
        }
        2..=4 => {
            let bits = numbers.below(33);
            let wide = u64::from(numbers.below(1 << 31)) * 2 + u64::from(numbers.below(2));
            (0x52, (wide >> bits) as u32)
        }
        _ => (plain[numbers.below(10) as usize], 0),
    }
}

/// A listing file.
fn file(numbers: &mut Numbers, items: u32) -> Vec<u8> {
    let all: Vec<(u8, u32)> = (0..items).map(|_| item(numbers, items)).collect();
    let mut file = items.to_le_bytes().to_vec();
    file.extend(0x400_u32.to_le_bytes());
    file.extend(all.iter().map(|(kind, _)| *kind));
    file.extend(all.iter().flat_map(|(_, operand)| operand.to_le_bytes()));
    file
}

/// Areas that such listings soon leave.
const AREAS: &str = "--data-area F000h,3 --return-area F800h,2";

#[test]
fn accepted_listings_are_shown_and_followed() {
    let folder = Folder::new("listings");
    let mut numbers = Numbers(1);
    for items in [1, 2, 3, 5, 8, 13, 30, 60, 100, 200, 400, 800, 1500, 4096] {
        for order in ["0", "1"] {
            folder.write("rule.lst", file(&mut numbers, items));
            let shown = folder.done(&format!("show rule.lst --order {order}"));
            assert_eq!(shown.lines().count(), items as usize + 2);
            let words = format!("follow rule.lst --beside --items 40 --order {order}");
            folder.done(&words);
            folder.done(&format!("{words} {AREAS}"));
        }
    }
}

#[test]
fn accepted_listings_are_shortened() {
    let folder = Folder::new("shortened_listings");
    let mut numbers = Numbers(2);
    for items in [1, 2, 3, 5, 8, 13, 30, 100, 400, 1500, 4096] {
        let file = file(&mut numbers, items);
        folder.write("rule.lst", &file);
        folder.done("shorten rule.lst -o rule.short");
        folder.done("lengthen rule.short -o back.lst");
        assert_eq!(folder.read("back.lst"), file);
        let packed = folder.done("pack rule.short --short");
        assert_eq!(packed, folder.done("pack rule.lst"));
    }
}

#[test]
fn accepted_listings_are_read_back() {
    let folder = Folder::new("unpacked_listings");
    let mut numbers = Numbers(3);
    for items in [1, 2, 3, 5, 8, 13, 30, 100, 400, 1500, 4096] {
        for order in ["0", "1"] {
            let file = file(&mut numbers, items);
            folder.write("rule.lst", &file);
            let shown = folder.done("show rule.lst");
            folder.done(&format!("pack rule.lst -o cells.bin --order {order}"));
            folder.done(&format!(
                "unpack cells.bin --base 400h -o back.lst --order {order}"
            ));
            assert_eq!(folder.read("back.lst"), file);
            folder.done(&format!("save rule.lst -o rule.mod --order {order}"));
            let of_module = folder.done("show rule.mod --base 400h");
            assert_eq!(of_module.replace("rule.mod", "rule.lst"), shown);
        }
    }
}
