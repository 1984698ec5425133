//! The table that rules can read but not write, and what is wrong with one that the library turns
//! away.

use std::ops::Range;

use crate::arguments::Arguments;
use crate::failure::Failure;

/// The bytes from its first up to its end, which is not in it; none where both numbers are 0.
#[derive(Clone, Copy, PartialEq, Eq, Debug, Default)]
pub struct Table {
    pub first: u32,
    pub end: u32,
}

/// What `--table` asks for.
#[derive(Clone, Copy, PartialEq, Eq, Debug)]
pub enum Asked {
    /// The rule's own cells, wherever they come to lie.
    Code,
    These(Table),
}

/// Below it lie the cells that the machine itself writes.
const LOWEST: u32 = 0x10;

impl Asked {
    /// Reads `--table`; no table without it.
    pub fn read(arguments: &Arguments) -> Result<Self, Failure> {
        if arguments.option("--table") == Some("code") {
            return Ok(Asked::Code);
        }
        let both = arguments.two_cells("--table", "code or FIRST,END")?;
        let [first, end] = both.unwrap_or_default();
        Ok(Asked::These(Table { first, end }))
    }

    /// The table, where the rule's own cells are these, if they are one range.
    pub fn table(
        self,
        code: impl FnOnce() -> Result<Range<u32>, Failure>,
    ) -> Result<Table, Failure> {
        match self {
            Asked::Code => {
                let Range { start: first, end } = code()?;
                Ok(Table { first, end })
            }
            Asked::These(table) => Ok(table),
        }
    }
}

impl Table {
    /// Whether a byte is in it.
    pub fn holds(&self, address: u32) -> bool {
        (self.first..self.end).contains(&address)
    }

    /// Whether it holds no byte.
    pub fn is_empty(&self) -> bool {
        self.first >= self.end
    }

    /// What of -4112 holds of this table.
    pub fn faults(&self, memory: usize) -> Vec<String> {
        let Table { first, end } = *self;
        let rows = [
            (
                !first.is_multiple_of(4),
                format!("'s first address {first:X}h is no multiple of 4"),
            ),
            (
                !end.is_multiple_of(4),
                format!("'s end {end:X}h is no multiple of 4"),
            ),
            (
                first > end,
                format!("'s end {end:X}h is below its first address {first:X}h"),
            ),
            (
                first < LOWEST,
                format!(" begins at {first:X}h, below {LOWEST:X}h"),
            ),
            (
                end as usize > memory,
                format!(" ends at {end:X}h, past the memory's {memory:X}h"),
            ),
        ];
        let holding = rows.into_iter().filter(|(holds, _)| *holds);
        let told = holding.map(|(_, what)| format!("the table{what}"));
        told.collect()
    }
}

#[cfg(test)]
mod tests {
    use super::*;

    fn faults(first: u32, end: u32) -> String {
        Table { first, end }.faults(0x400).join(", ")
    }

    #[test]
    fn each_fault_is_told() {
        let rows = [
            (
                [0x12, 0x20],
                "the table's first address 12h is no multiple of 4",
            ),
            ([0x10, 0x21], "the table's end 21h is no multiple of 4"),
            (
                [0x24, 0x20],
                "the table's end 20h is below its first address 24h",
            ),
            ([0xC, 0x20], "the table begins at Ch, below 10h"),
            ([0, 0x20], "the table begins at 0h, below 10h"),
            (
                [0x10, 0x404],
                "the table ends at 404h, past the memory's 400h",
            ),
            ([0x10, 0x400], ""),
            ([0x10, 0x10], ""),
            ([0x400, 0x400], ""),
        ];
        for ([first, end], expected) in rows {
            assert_eq!(faults(first, end), expected, "{first:X} {end:X}");
        }
    }

    #[test]
    fn all_faults_are_told_together() {
        let expected = "the table's first address 406h is no multiple of 4, \
                        the table's end 405h is no multiple of 4, \
                        the table's end 405h is below its first address 406h, \
                        the table ends at 405h, past the memory's 400h";
        assert_eq!(faults(0x406, 0x405), expected);
    }

    #[test]
    fn its_end_is_not_in_it() {
        let table = Table {
            first: 0x10,
            end: 0x20,
        };
        let held = [0xF, 0x10, 0x1F, 0x20].map(|address| table.holds(address));
        assert_eq!(held, [false, true, true, false]);
        assert!(!table.is_empty() && Table::default().is_empty());
    }
}
