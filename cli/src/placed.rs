//! Modules as a command line gives them: one that goes to `--address`, or a rule set, each of it
//! FILE@ADDRESS.

use std::slice;

use crate::arguments::Arguments;
use crate::failure::Failure;
use crate::loaded::{Loaded, Module};
use crate::set::Set;
use crate::{files, library, number};

/// Where a module goes that is given no address.
const USUAL_ADDRESS: u32 = 0x10;

/// A module's file, and where it goes.
#[derive(Clone, PartialEq, Eq, Debug)]
pub struct Placed {
    pub name: String,
    pub address: u32,
}

#[derive(Clone, PartialEq, Eq, Debug)]
pub enum Given {
    One(Placed),
    /// At least one.
    Set(Vec<Placed>),
}

impl Placed {
    /// Reads FILE@ADDRESS, parted at the last @, or says what is wrong with it.
    fn read(word: &str) -> Result<Self, String> {
        let Some((name, address)) = word.rsplit_once('@') else {
            return Err(format!(
                "'{word}' has no address: of several modules each is FILE@ADDRESS"
            ));
        };
        if name.is_empty() {
            return Err(format!("'{word}' has no file's name before its @"));
        }
        match number::unsigned(address) {
            Some(address) => Ok(Placed {
                name: name.to_string(),
                address,
            }),
            None => Err(format!(
                "'{word}' wants an address after its last @, 0 to {}, not '{address}'",
                u32::MAX
            )),
        }
    }
}

impl Given {
    /// All words of a command line, where `--address` is that of one module.
    pub fn read(arguments: &Arguments) -> Result<Self, Failure> {
        Given::of(arguments.files(), arguments.cell("--address")?)
    }

    /// A word by itself that is the name of a file is that file, whatever @ it has.
    pub fn of(words: &[String], address: Option<u32>) -> Result<Self, Failure> {
        let set = match words {
            [word] if !word.contains('@') || files::exists(word) => {
                return Ok(Given::One(Placed {
                    name: word.clone(),
                    address: address.unwrap_or(USUAL_ADDRESS),
                }))
            }
            [word] => Placed::read(word)
                .map(|module| vec![module])
                .map_err(|why| format!("there is no file '{word}', and {why}")),
            words => words.iter().map(|word| Placed::read(word)).collect(),
        };
        let set = set.map_err(Failure::Usage)?;
        match address {
            None => Ok(Given::Set(set)),
            Some(_) => Err(Failure::Usage(
                "--address is for one MODULE: with FILE@ADDRESS each has its own".to_string(),
            )),
        }
    }

    /// One module as a set of one, of which a refusal says what is wrong.
    pub fn into_set(self) -> Self {
        match self {
            Given::One(module) => Given::Set(vec![module]),
            set => set,
        }
    }

    /// The modules, in the order given.
    pub fn modules(&self) -> &[Placed] {
        match self {
            Given::One(module) => slice::from_ref(module),
            Given::Set(modules) => modules,
        }
    }

    /// The first module's address.
    pub fn address(&self) -> u32 {
        self.modules()[0].address
    }

    /// Loads one module by itself, and a set together.
    pub fn load(&self, order: u8, memory: &mut [u8]) -> Result<Loaded, Failure> {
        match self {
            Given::One(placed) => {
                let file = files::read(&placed.name)?;
                let cells = library::load(order, memory, &file, placed.address)?;
                let placed = placed.clone();
                Ok(Loaded {
                    modules: vec![Module { placed, cells }],
                    cells,
                })
            }
            Given::Set(placed) => {
                let set = Set::read(placed)?;
                let cells = library::load_set(order, memory, &set)?;
                Ok(Loaded {
                    modules: set.modules(),
                    cells,
                })
            }
        }
    }
}
