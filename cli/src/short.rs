//! Short listing files (document 02): n, m, base, n kinds and m operands, those of literals and
//! branches alone; and what is wrong with one that the library turns away.

use crate::failure::{Failure, BAD_SHORT_FILE};
use crate::listing::number_at;
use crate::names::{kind_of, Kind};

/// The bytes of n, m and base.
const HEAD: usize = 12;

/// A refusal of a file with -4119 says what is bad; any other failure stays.
pub fn explain(failure: Failure, file: &[u8]) -> Failure {
    match failure {
        Failure::Refused(BAD_SHORT_FILE) => Failure::Bad(BAD_SHORT_FILE, faults(file)),
        other => other,
    }
}

/// What was made of what, of two files with this short one among them.
pub fn made(target: &str, short: &[u8], before: usize, after: usize) -> String {
    let (items, operands) = (number_at(short, 0), number_at(short, 4));
    format!("{target}: {items} items, {operands} operands, {after} bytes, {before} before")
}

/// What of -4119 holds of a file.
fn faults(file: &[u8]) -> Vec<String> {
    let length = file.len();
    if length < HEAD {
        let text = format!("it has {length} bytes, but n, m and base alone have {HEAD}");
        return vec![text];
    }
    let (n, m) = (number_at(file, 0), number_at(file, 4));
    let mut faults = Vec::new();
    let kinds = file[HEAD..].get(..n as usize);
    if let Some(operands) = kinds.map(operands_of).filter(|count| *count != m as usize) {
        faults.push(format!(
            "m is {m}, but {operands} of its {n} items take an operand"
        ));
    }
    let asked_for = HEAD as u64 + u64::from(n) + 4 * u64::from(m);
    if asked_for != length as u64 {
        faults.push(format!(
            "it has {length} bytes, but n = {n} and m = {m} ask for {asked_for}"
        ));
    }
    faults
}

/// How many of these kinds take an operand.
fn operands_of(kinds: &[u8]) -> usize {
    let with_operand = |kind: &&u8| matches!(kind_of(**kind), Some(Kind::Literal | Kind::Branch));
    kinds.iter().filter(with_operand).count()
}

#[cfg(test)]
mod tests {
    use super::*;

    /// A file of n, m, any base, and these bytes after them.
    fn file(n: u32, m: u32, rest: &[u8]) -> Vec<u8> {
        let head = [n, m, 0x10].map(u32::to_le_bytes);
        [&head.concat(), rest].concat()
    }

    #[test]
    fn each_fault_is_told() {
        let rows = [
            (vec![], "it has 0 bytes, but n, m and base alone have 12"),
            (
                file(1, 0, &[])[..11].to_vec(),
                "it has 11 bytes, but n, m and base alone have 12",
            ),
            (
                file(3, 1, &[0x52, 0x4E, 0x55, 1, 0, 0, 0]),
                "m is 1, but 2 of its 3 items take an operand",
            ),
            (
                file(1, 1, &[0x52, 1, 0, 0]),
                "it has 16 bytes, but n = 1 and m = 1 ask for 17",
            ),
            (
                file(1, 0, &[0x55, 0]),
                "it has 14 bytes, but n = 1 and m = 0 ask for 13",
            ),
            // kinds cut short: what they take cannot be counted
            (
                file(2, 0, &[0x52]),
                "it has 13 bytes, but n = 2 and m = 0 ask for 14",
            ),
        ];
        for (file, expected) in rows {
            assert_eq!(faults(&file), [expected], "{file:?}");
        }
    }

    #[test]
    fn lengths_past_a_cell_are_told() {
        let m = u32::MAX;
        let expected = [
            "m is 4294967295, but 0 of its 1 items take an operand",
            "it has 13 bytes, but n = 1 and m = 4294967295 ask for 17179869193",
        ];
        assert_eq!(faults(&file(1, m, &[0x55])), expected);
    }

    /// A byte that is no kind takes no operand, the immediate forms of those that do among them.
    #[test]
    fn literals_and_branches_take_an_operand() {
        let all: Vec<u8> = (0..=255).collect();
        assert_eq!(operands_of(&all), 6);
        let with_operand = [0x42, 0x44, 0x48, 0x4C, 0x4E, 0x52];
        assert_eq!(operands_of(&with_operand), 6);
        assert_eq!(operands_of(&with_operand.map(|kind| kind + 1)), 0);
    }
}
