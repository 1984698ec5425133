//! The list machine: it has memory, SP and RP as the processor and fetches from the listing
//! (document 01, Listings).

use std::collections::HashMap;
use std::ops::Range;

use super::control::{branch, call, loop_once, plus_loop, question_branch, Branch};
use super::instructions::{push, Control, Registers};
use super::listing::{Kind, Listing};
use super::memory::{Fault, Lent, Memory, Order};
use super::opcodes::plain;
use super::packer::{address, Form, Layout};
use super::processor::raise;
use super::stacks::Areas;
use super::tables::Table;

/// Lent memory that notes writes into the image and can take an item's writes back.
struct Watched<'m> {
    lent: Lent<'m>,
    image: Range<u32>,
    image_written: bool,
    before: Vec<(u32, u8)>,
}

impl Watched<'_> {
    fn note(&mut self, address: u32) {
        self.image_written |= self.image.contains(&address);
        self.before.push((address, self.lent.byte(address)));
    }

    fn take_back(&mut self) {
        while let Some((address, byte)) = self.before.pop() {
            self.lent.set_byte(address, byte);
        }
    }
}

impl Memory for Watched<'_> {
    fn length(&self) -> u32 {
        self.lent.length()
    }

    fn order(&self) -> Order {
        self.lent.order()
    }

    fn areas(&self) -> &Areas {
        self.lent.areas()
    }

    fn table(&self) -> Table {
        self.lent.table()
    }

    fn cell(&self, address: u32) -> u32 {
        self.lent.cell(address)
    }

    fn set_cell(&mut self, address: u32, cell: u32) {
        for byte in 0..4 {
            self.note(address + byte);
        }
        self.lent.set_cell(address, cell);
    }

    fn byte(&self, address: u32) -> u8 {
        self.lent.byte(address)
    }

    fn set_byte(&mut self, address: u32, byte: u8) {
        self.note(address);
        self.lent.set_byte(address, byte);
    }
}

/// How an item leaves, the outside stops apart.
enum Leave {
    RunOn,
    Transfer(u32),
    Throw(u32),
    Stop(u32),
}

/// Why the machine stops outside: document 01's four causes, in its order.
#[derive(Clone, Copy, PartialEq, Eq, Debug)]
pub enum Outside {
    WritesImage = 1,
    NoEntry = 2,
    NoHandler = 3,
    PastEnd = 4,
}

/// What became of an item.
#[derive(Clone, Copy, PartialEq, Eq, Debug)]
pub enum Step {
    WentOn,
    Stopped(u32),
    Outside(Outside),
}

/// Where a run is taken up: an item, whether it was run on into from an item not in its immediate
/// form, and the stack pointers.
#[derive(Clone, Copy)]
pub struct Position {
    pub item: u32,
    pub run_on_into: bool,
    pub sp: u32,
    pub rp: u32,
}

/// What a run came to, with the items carried out and the cycles counted.
#[derive(Clone, Copy, PartialEq, Eq, Debug)]
pub struct Ran {
    pub end: Step,
    pub items: u32,
    pub cycles: u64,
}

pub struct ListMachine<'m> {
    listing: &'m Listing,
    layout: &'m Layout,
    base: u32,
    /// The entry placed at an address.
    entry_at: HashMap<u32, usize>,
    memory: Watched<'m>,
    pub item: usize,
    pub sp: u32,
    pub rp: u32,
    /// Run on into, from an item not in its immediate form.
    run_on_into: bool,
}

impl<'m> ListMachine<'m> {
    pub fn new(
        listing: &'m Listing,
        layout: &'m Layout,
        base: u32,
        lent: Lent<'m>,
        position: Position,
    ) -> Self {
        let entries = listing.entries();
        let entry_at = (0..listing.items())
            .filter(|item| entries[*item])
            .map(|item| (address(base, layout.placements[item].cell), item))
            .collect();
        ListMachine {
            listing,
            layout,
            base,
            entry_at,
            memory: Watched {
                lent,
                image: base..address(base, layout.cells),
                image_written: false,
                before: Vec::new(),
            },
            item: position.item as usize,
            sp: position.sp,
            rp: position.rp,
            run_on_into: position.run_on_into,
        }
    }

    /// The current item up to its leaving: a fault raises.
    fn perform(&mut self, r: &mut Registers) -> Leave {
        let control = match self.listing.kind(self.item) {
            Kind::Plain => plain(self.listing.kinds[self.item], &mut self.memory, r),
            Kind::Literal => push(&mut self.memory, r, self.listing.operands[self.item]),
            Kind::Branch => self.perform_branch(r),
        };
        let raised = match control {
            Ok(Control::Continue) => return Leave::RunOn,
            Ok(Control::Jump(address)) => return Leave::Transfer(address),
            Ok(Control::Stop(reason)) => return Leave::Stop(reason),
            Ok(Control::Throw) => raise(&mut self.memory, r, None),
            Err(fault) => raise(&mut self.memory, r, Some(fault)),
        };
        match raised {
            Ok(handler) => Leave::Throw(handler),
            Err(reason) => Leave::Stop(reason),
        }
    }

    fn perform_branch(&mut self, r: &mut Registers) -> Result<Control, Fault> {
        let target = self.layout.placements[self.listing.target(self.item)];
        let target = address(self.base, target.cell);
        let following = self.layout.placements[self.item].following();
        let back = address(self.base, following);
        let m = &mut self.memory;
        let branching = match self.listing.kinds[self.item] {
            0x42 => branch(m, |_: &Watched| Ok(target)),
            0x44 => question_branch(m, r, |_| Ok(target)),
            0x48 => call(m, r, back, |_| Ok(target)),
            0x4C => loop_once(m, r, |_| Ok(target)),
            _ => plus_loop(m, r, |_| Ok(target)),
        };
        Ok(match branching? {
            Branch::Taken(address) => Control::Jump(address),
            Branch::NotTaken => Control::Continue,
        })
    }

    /// The entry at an address.
    fn entry(&self, address: u32, without: Outside) -> Result<usize, Outside> {
        self.entry_at.get(&address).copied().ok_or(without)
    }

    /// Where an item leads, or why it is outside; the item that stops the machine stays.
    fn led_to(&self, leave: &Leave) -> Result<usize, Outside> {
        if self.memory.image_written {
            return Err(Outside::WritesImage);
        }
        match leave {
            Leave::Stop(_) => Ok(self.item),
            Leave::Transfer(address) => self.entry(*address, Outside::NoEntry),
            Leave::Throw(address) => self.entry(*address, Outside::NoHandler),
            Leave::RunOn if self.item + 1 < self.listing.items() => Ok(self.item + 1),
            Leave::RunOn => Err(Outside::PastEnd),
        }
    }

    /// One item: carried out, or stopped in front of, with nothing of it done.
    pub fn step(&mut self) -> Step {
        let placement = self.layout.placements[self.item];
        let mut r = Registers {
            ep: address(self.base, placement.ep),
            a: 0,
            sp: self.sp,
            rp: self.rp,
        };
        self.memory.before.clear();
        self.memory.image_written = false;
        let leave = self.perform(&mut r);
        let next = match self.led_to(&leave) {
            Ok(next) => next,
            Err(why) => {
                self.memory.take_back();
                return Step::Outside(why);
            }
        };
        self.item = next;
        self.sp = r.sp;
        self.rp = r.rp;
        self.run_on_into = matches!(leave, Leave::RunOn) && placement.form != Form::Immediate;
        match leave {
            Leave::Stop(reason) => Step::Stopped(reason),
            _ => Step::WentOn,
        }
    }

    /// The cycles that the current item counts.
    fn cycles(&self) -> u64 {
        if self.layout.placements[self.item].opens && self.run_on_into {
            2
        } else {
            1
        }
    }

    /// Carries out so many items, or fewer where it stops. Past the last item it stands outside.
    pub fn run(&mut self, items: u32) -> Ran {
        let past = self.item >= self.listing.items();
        let mut ran = Ran {
            end: if past {
                Step::Outside(Outside::PastEnd)
            } else {
                Step::WentOn
            },
            items: 0,
            cycles: 0,
        };
        while ran.items < items && ran.end == Step::WentOn {
            let cycles = self.cycles();
            ran.end = self.step();
            if !matches!(ran.end, Step::Outside(_)) {
                ran.items += 1;
                ran.cycles += cycles;
            }
        }
        ran
    }
}
