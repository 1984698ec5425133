//! A rule set: modules that go into memory together (document 02, (d)), and what is wrong with one
//! that the library turns away.

use std::ops::Range;

use crate::failure::{Failure, BAD_MEMORY, BAD_ORDER, BAD_SET};
use crate::loaded::Module;
use crate::memory::share_bytes;
use crate::placed::Placed;
use crate::{files, module};

/// The modules, and their files one behind the other.
pub struct Set {
    pub buffer: Vec<u8>,
    members: Vec<Member>,
}

/// A module, and where its file lies in the buffer.
struct Member {
    placed: Placed,
    file: Range<usize>,
}

/// No set has more modules.
const MOST: usize = 16;

impl Set {
    /// Reads the files of modules.
    pub fn read(modules: &[Placed]) -> Result<Self, Failure> {
        let mut set = Set {
            buffer: Vec::new(),
            members: Vec::new(),
        };
        for placed in modules {
            set.add(placed, &files::read(&placed.name)?)?;
        }
        Ok(set)
    }

    fn add(&mut self, placed: &Placed, file: &[u8]) -> Result<(), Failure> {
        let start = self.buffer.len();
        self.buffer.extend(file);
        let end = self.buffer.len();
        if u32::try_from(end).is_err() {
            let (name, most) = (&placed.name, u32::MAX);
            let text = format!("{name}: with it the set's files have more than {most} bytes");
            return Err(Failure::Other(text));
        }
        self.members.push(Member {
            placed: placed.clone(),
            file: start..end,
        });
        Ok(())
    }

    /// Of each module its address, the place of its file in the buffer, and its length.
    pub fn numbers(&self) -> Vec<u32> {
        let numbers = |member: &Member| {
            let Range { start, end } = member.file;
            [member.placed.address, start as u32, (end - start) as u32]
        };
        self.members.iter().flat_map(numbers).collect()
    }

    /// The modules, where each was accepted by itself.
    pub fn modules(&self) -> Vec<Module> {
        let module = |member: &Member| Module {
            placed: member.placed.clone(),
            cells: module::cells_of(&self.buffer[member.file.clone()]),
        };
        self.members.iter().map(module).collect()
    }

    /// A refusal of a module names it and says what is bad, one with -4113 says what of it holds; any
    /// other failure stays.
    pub fn explain(&self, failure: Failure, memory: usize) -> Failure {
        match failure {
            Failure::Refused(BAD_MEMORY | BAD_ORDER) => failure,
            Failure::Refused(BAD_SET) => Failure::Bad(BAD_SET, self.faults()),
            Failure::Refused(number) => {
                let first = self.members.iter().find_map(|m| self.fault(m, memory));
                Failure::Bad(number, first.into_iter().collect())
            }
            other => other,
        }
    }

    /// What is wrong with a module by itself.
    fn fault(&self, member: &Member, memory: usize) -> Option<String> {
        let Placed { name, address } = &member.placed;
        let file = &self.buffer[member.file.clone()];
        let fault = module::fault(file, *address, memory)?;
        Some(format!("{name} at {address:X}h: {fault}"))
    }

    /// What of -4113 holds of modules that were each accepted.
    fn faults(&self) -> Vec<String> {
        let modules = self.modules();
        let count = modules.len();
        let mut faults = Vec::new();
        if count > MOST {
            faults.push(format!("{count} modules are given, {MOST} are the most"));
        }
        for (at, right) in modules.iter().enumerate() {
            let sharing = modules[..at].iter().filter_map(|left| shared(left, right));
            faults.extend(sharing);
        }
        faults
    }
}

/// Both modules, where they share a byte.
fn shared(left: &Module, right: &Module) -> Option<String> {
    let told = |module: &Module| {
        let (name, Range { start, end }) = (&module.placed.name, module.bytes());
        format!("{name} from {start:X}h up to {end:X}h")
    };
    let share = share_bytes(&left.bytes(), &right.bytes());
    share.then(|| format!("{} and {} share bytes", told(left), told(right)))
}
