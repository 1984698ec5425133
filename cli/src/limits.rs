//! What a machine keeps to: the areas of its stacks, and a table that rules cannot write.

use crate::areas::Areas;
use crate::failure::{Failure, BAD_AREAS, BAD_TABLE};
use crate::table::Table;

#[derive(Clone, Copy, PartialEq, Eq, Debug, Default)]
pub struct Limits {
    pub areas: Areas,
    pub table: Table,
}

impl Limits {
    /// A refusal with -4111 or -4112 says what is bad; any other failure stays.
    pub fn explain(&self, failure: Failure, memory: usize) -> Failure {
        match failure {
            Failure::Refused(BAD_AREAS) => Failure::Bad(BAD_AREAS, self.areas.faults(memory)),
            Failure::Refused(BAD_TABLE) => Failure::Bad(BAD_TABLE, self.table.faults(memory)),
            other => other,
        }
    }

    /// What the machine throws by itself to keep to them, by its code (document 02, (a) and (b)).
    pub fn kept_off(&self, code: i32) -> Option<String> {
        let over = match code {
            -3 => "the data stack went below its area (overflow)",
            -4 => "the data stack went above its area (underflow)",
            -5 => "the return stack went below its area (overflow)",
            -6 => "the return stack went above its area (underflow)",
            -20 => return self.stored(),
            _ => return None,
        };
        self.areas.given().map(|_| over.to_string())
    }

    /// A store into the table.
    fn stored(&self) -> Option<String> {
        let Table { first, end } = self.table;
        let text = format!("a store into the table from {first:X}h up to {end:X}h");
        (!self.table.is_empty()).then_some(text)
    }
}
