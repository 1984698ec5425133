//! Modules that are in memory, as they are told and as the code of a rule.

use std::ops::Range;

use crate::failure::Failure;
use crate::placed::Placed;

/// A module that the library accepts at its address, and its number of cells.
#[derive(Clone, PartialEq, Eq, Debug)]
pub struct Module {
    pub placed: Placed,
    pub cells: u32,
}

/// One module or several, in the order given, and their cells in all.
#[derive(Clone, PartialEq, Eq, Debug)]
pub struct Loaded {
    pub modules: Vec<Module>,
    pub cells: u32,
}

impl Module {
    /// Where its cells lie.
    pub fn bytes(&self) -> Range<u32> {
        let address = self.placed.address;
        address..address + 4 * self.cells
    }
}

impl Loaded {
    /// The line of one of these modules, with its name where there are several.
    pub fn line(&self, module: &Module) -> String {
        let Placed { name, address } = &module.placed;
        let line = format!("{} cells at {address:X}h", module.cells);
        match self.modules.len() {
            1 => line,
            _ => format!("{line}: {name}"),
        }
    }

    /// The last line, where there are several.
    pub fn last_line(&self) -> Option<String> {
        let several = self.modules.len() > 1;
        several.then(|| format!("{} cells in all", self.cells))
    }

    /// The bytes of all their cells, with no others between them: a table is one range.
    pub fn code(&self) -> Result<Range<u32>, Failure> {
        let with_cells = self.modules.iter().filter(|module| module.cells > 0);
        let mut with_cells: Vec<&Module> = with_cells.collect();
        with_cells.sort_by_key(|module| module.placed.address);
        for pair in with_cells.windows(2) {
            let [left, right] = [pair[0], pair[1]];
            if left.bytes().end != right.bytes().start {
                return Err(apart(left, right));
            }
        }
        let nowhere = self.modules[0].placed.address;
        let first = with_cells.first().map_or(nowhere, |m| m.bytes().start);
        let end = with_cells.last().map_or(nowhere, |m| m.bytes().end);
        Ok(first..end)
    }
}

/// Two neighbours that other bytes lie between.
fn apart(left: &Module, right: &Module) -> Failure {
    let (end, start) = (left.bytes().end, right.bytes().start);
    let (left, right) = (&left.placed.name, &right.placed.name);
    Failure::Usage(format!(
        "--table code wants modules that lie end to end, but {left} ends at {end:X}h and {right} \
         begins at {start:X}h: --table FIRST,END takes any range"
    ))
}
