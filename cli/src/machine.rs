//! A machine as a command line asks for it: modules loaded, then started.

use crate::areas::Areas;
use crate::arguments::Arguments;
use crate::failure::Failure;
use crate::library::{self, Registers};
use crate::limits::Limits;
use crate::loaded::Loaded;
use crate::memory;
use crate::placed::Given;
use crate::table::Asked;

/// 'THROW without a handler: no address of any memory.
pub const NO_HANDLER: u32 = 0xFFFF_FFFF;

/// A machine with its modules in memory, and what it is to be started with.
pub struct Machine {
    pub order: u8,
    pub memory: Vec<u8>,
    pub loaded: Loaded,
    pub limits: Limits,
    entry: u32,
    handler: u32,
}

impl Machine {
    /// Loads the modules as `--memory`, `--order` and `--table` say, and notes the rest.
    pub fn load(arguments: &Arguments, given: &Given) -> Result<Self, Failure> {
        let order = arguments.order()?;
        let entry = arguments.cell("--entry")?.unwrap_or(given.address());
        let handler = arguments.cell("--handler")?.unwrap_or(NO_HANDLER);
        let areas = Areas::asked_for(arguments)?;
        let table = Asked::read(arguments)?;
        let mut memory = memory::lent(arguments)?;
        let loaded = given.load(order, &mut memory)?;
        let table = table.table(|| loaded.code())?;
        Ok(Machine {
            order,
            memory,
            loaded,
            limits: Limits { areas, table },
            entry,
            handler,
        })
    }

    /// Starts it: its registers, and the reason if it stopped at once.
    pub fn start(&mut self) -> Result<(Registers, Option<u32>), Failure> {
        let (entry, handler) = (self.entry, self.handler);
        library::start(self.order, &mut self.memory, entry, handler, self.limits)
    }
}
