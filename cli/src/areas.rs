//! The areas of the two stacks, and what is wrong with areas that the library turns away.

use std::ops::Range;

use crate::arguments::Arguments;
use crate::failure::Failure;
use crate::memory::share_bytes;

/// An area: so many cells, all below its top.
#[derive(Clone, Copy, PartialEq, Eq, Debug, Default)]
pub struct Area {
    pub top: u32,
    pub cells: u32,
}

/// The areas of both stacks; none where all four numbers are 0.
#[derive(Clone, Copy, PartialEq, Eq, Debug, Default)]
pub struct Areas {
    pub data: Area,
    pub back: Area,
}

/// The cells held under the data area, for the code of a throw.
const HELD: i64 = 1;

impl Area {
    /// From its first byte to its top, so many cells held under it counted.
    fn bytes(self, held: i64) -> Range<i64> {
        let (top, cells) = (i64::from(self.top), i64::from(self.cells));
        top - 4 * (cells + held)..top
    }

    /// What is wrong with an area by itself, so many cells held under it counted.
    fn faults(self, name: &str, held: i64, memory: usize) -> Vec<String> {
        let Area { top, cells } = self;
        let with_held = if held > 0 { " with its held cell" } else { "" };
        let rows = [
            (top % 4 != 0, format!("'s top {top:X}h is no multiple of 4")),
            (cells == 0, " has no cell".to_string()),
            (
                self.bytes(held).start < 0,
                format!("{with_held} begins below 0"),
            ),
            (
                top as usize > memory,
                format!(" ends past the memory's {memory:X}h"),
            ),
        ];
        let holding = rows.into_iter().filter(|(holds, _)| *holds);
        let told = holding.map(|(_, what)| format!("the {name}{what}"));
        told.collect()
    }
}

impl Areas {
    /// The areas that `--data-area` and `--return-area` give: both or none.
    pub fn asked_for(arguments: &Arguments) -> Result<Self, Failure> {
        let alone = |given: &str, missing: &str| {
            let text = format!("{given} is given and {missing} is not: a machine has both areas");
            Err(Failure::Usage(text))
        };
        let data = arguments.two_cells("--data-area", "TOP,CELLS")?;
        let back = arguments.two_cells("--return-area", "TOP,CELLS")?;
        match (data, back) {
            (None, None) => Ok(Areas::default()),
            (Some(data), Some(back)) => Ok(Areas::of([data[0], data[1], back[0], back[1]])),
            (Some(_), None) => alone("--data-area", "--return-area"),
            (None, Some(_)) => alone("--return-area", "--data-area"),
        }
    }

    /// The areas with these numbers: top and cells of each.
    pub fn of(numbers: [u32; 4]) -> Self {
        let [top, cells, back_top, back_cells] = numbers;
        Areas {
            data: Area { top, cells },
            back: Area {
                top: back_top,
                cells: back_cells,
            },
        }
    }

    pub fn numbers(&self) -> [u32; 4] {
        let Areas { data, back } = self;
        [data.top, data.cells, back.top, back.cells]
    }

    /// The bytes of the data area, with the cell held under it, and of the return area.
    fn bytes(&self) -> [Range<i64>; 2] {
        [self.data.bytes(HELD), self.back.bytes(0)]
    }

    /// The same of areas that the library accepted, if there are any.
    pub fn given(&self) -> Option<[Range<u32>; 2]> {
        let given = *self != Areas::default();
        let bytes = self.bytes().map(|b| b.start as u32..b.end as u32);
        given.then_some(bytes)
    }

    /// From where to where each stack reaches; SP and RP start at the ends.
    pub fn reaches(&self, memory: &[u8]) -> [Range<u32>; 2] {
        let length = memory.len() as u32;
        let all = [0..length.saturating_sub(0x100), 0..length];
        self.given().unwrap_or(all)
    }

    /// What of -4111 holds of these areas.
    pub fn faults(&self, memory: usize) -> Vec<String> {
        let [data, back] = self.bytes();
        let mut faults = self.data.faults("data area", HELD, memory);
        faults.extend(self.back.faults("return area", 0, memory));
        if share_bytes(&self.data.bytes(0), &back) {
            faults.push("the two areas overlap".to_string());
        } else if share_bytes(&data, &back) {
            faults.push("the return area lies over the data area's held cell".to_string());
        }
        faults
    }
}

#[cfg(test)]
mod tests {
    use super::*;

    fn faults(numbers: [u32; 4]) -> String {
        Areas::of(numbers).faults(0x400).join(", ")
    }

    #[test]
    fn each_fault_of_the_data_area_is_told() {
        let rows = [
            ([0x102, 4], "the data area's top 102h is no multiple of 4"),
            ([0x100, 0], "the data area has no cell"),
            (
                [0x100, 0x40],
                "the data area with its held cell begins below 0",
            ),
            ([0x404, 4], "the data area ends past the memory's 400h"),
            ([0x200, 4], "the two areas overlap"),
            (
                [0x210, 4],
                "the return area lies over the data area's held cell",
            ),
            ([0x214, 4], ""),
            ([0x1F0, 4], ""),
        ];
        for ([top, cells], expected) in rows {
            assert_eq!(faults([top, cells, 0x200, 4]), expected, "{top:X}");
        }
    }

    #[test]
    fn each_fault_of_the_return_area_is_told() {
        let rows = [
            ([0x201, 4], "the return area's top 201h is no multiple of 4"),
            ([0x200, 0], "the return area has no cell"),
            ([0x80, 0x21], "the return area begins below 0"),
            ([0x80, 0x4000_0001], "the return area begins below 0"),
            ([0x404, 4], "the return area ends past the memory's 400h"),
            ([0x400, 0xBF], "the two areas overlap"),
            ([0x80, 0x20], ""),
            ([0xEC, 0x3B], ""),
            ([0x400, 0xBC], ""),
        ];
        for ([top, cells], expected) in rows {
            assert_eq!(
                faults([0x110, 8, top, cells]),
                expected,
                "{top:X} {cells:X}"
            );
        }
    }

    #[test]
    fn all_faults_are_told_together() {
        let expected = "the data area's top 1h is no multiple of 4, the data area has no cell, \
                        the data area with its held cell begins below 0, \
                        the return area has no cell";
        assert_eq!(faults([1, 0, 0, 0]), expected);
    }
}
