//! Writes listings that have something to run: idioms of a few items each.

use super::{any_cell, pointer};
use crate::random::Random;
use crate::reference::listing::{accept, kind_of, Kind, Listing};
use crate::reference::packer;

/// An operand that is known only later.
#[derive(Clone, Copy)]
enum Operand {
    Known(u32),
    /// Some item near this one, or any.
    SomeItem,
    /// Any item, mostly far away in a long listing.
    AnyItem,
    /// This item.
    Item(usize),
    /// A literal: the address of some entry.
    EntryAddress,
}

pub struct Writer<'r> {
    random: &'r mut Random,
    length: u32,
    items: Vec<(u8, Operand)>,
}

const LITERAL: u8 = 0x52;

impl<'r> Writer<'r> {
    /// `length` is the memory that the listing's addresses are drawn for.
    pub fn new(random: &'r mut Random, length: u32) -> Self {
        Writer {
            random,
            length,
            items: Vec::new(),
        }
    }

    fn plain(&mut self, opcode: u8) {
        self.items.push((opcode, Operand::Known(0)));
    }

    fn literal(&mut self, value: u32) {
        self.items.push((LITERAL, Operand::Known(value)));
    }

    fn some_literal(&mut self) {
        let value = any_cell(self.random);
        self.literal(value);
    }

    fn some_plain(&mut self, low: u8, high: u8) {
        loop {
            let opcode = self.random.between(u32::from(low), u32::from(high)) as u8;
            if kind_of(opcode) == Some(Kind::Plain) {
                return self.plain(opcode);
            }
        }
    }

    /// A counted loop around a small body.
    fn counted_loop(&mut self) {
        let count = self.random.between(1, 6);
        let first = self.random.choose(&[0_u32, 5, 0x7FFF_FFFE, 0xFFFF_FFFD]);
        self.literal(first.wrapping_add(count));
        self.literal(first);
        self.plain(0x4B);
        let body = self.items.len();
        for _ in 0..self.random.below(3) {
            self.straight();
        }
        if self.random.one_in(2) {
            self.items.push((0x4C, Operand::Item(body)));
        } else {
            let step = self.random.choose(&[1, 1, 2, 3, 0xFFFF_FFFF]);
            self.literal(step);
            self.items.push((0x4E, Operand::Item(body)));
        }
    }

    /// Some reading or writing of memory.
    fn memory_access(&mut self) {
        let address = pointer(self.random, self.length);
        if self.random.one_in(2) {
            self.some_literal();
        }
        self.literal(address);
        self.some_plain(0x39, 0x3D);
    }

    /// Items without a transfer.
    fn straight(&mut self) {
        match self.random.below(8) {
            0 => {
                self.some_literal();
                self.some_plain(0x21, 0x24);
            }
            1 => {
                self.some_literal();
                self.some_literal();
                self.some_plain(0x0F, 0x38);
            }
            2 => self.memory_access(),
            3 => self.some_plain(0x01, 0x38),
            4 => self.some_plain(0x19, 0x1D),
            5 => {
                self.some_literal();
                self.plain(0x0C);
                self.some_plain(0x0D, 0x0E);
            }
            6 => {
                let u = self.random.choose(&[0, 0, 1, 2, 5]);
                self.literal(u);
                self.some_plain(0x09, 0x0A);
            }
            _ => self.some_literal(),
        }
    }

    /// Items that move a stack pointer.
    fn move_pointer(&mut self) {
        let read = self.random.choose(&[0x3E, 0x40]);
        self.plain(read);
        let cells = self.random.below(9).wrapping_sub(4);
        self.literal(cells.wrapping_mul(4));
        self.plain(0x1E);
        let write = self.random.choose(&[0x3F, 0x41]);
        self.plain(write);
    }

    /// A call of, or a return to, an entry.
    fn call(&mut self) {
        match self.random.below(4) {
            0 => self.items.push((0x48, Operand::SomeItem)),
            1 => {
                self.items.push((LITERAL, Operand::EntryAddress));
                self.plain(0x46);
            }
            2 => {
                let cell = 4 * self.random.below(self.length / 4);
                self.items.push((LITERAL, Operand::EntryAddress));
                self.literal(cell);
                self.plain(0x3A);
                self.literal(cell);
                self.plain(0x47);
            }
            _ => {
                self.items.push((LITERAL, Operand::EntryAddress));
                self.plain(0x0C);
                self.plain(0x4A);
            }
        }
    }

    /// Up to three items before a transfer, so that it stands in any byte of its cell.
    fn pad(&mut self) {
        for _ in 0..self.random.below(4) {
            self.some_plain(0x19, 0x1D);
        }
    }

    /// In a cell's third byte a far branch is marked.
    fn far_branch(&mut self) {
        self.plain(0x19);
        self.plain(0x1A);
        let branch = self.random.choose(&[0x42, 0x44, 0x48, 0x4C, 0x4E]);
        self.items.push((branch, Operand::AnyItem));
    }

    fn idiom(&mut self) {
        if self.random.one_in(4) {
            self.pad();
        }
        match self.random.below(20) {
            0..=8 => self.straight(),
            9 | 10 => self.counted_loop(),
            11 => self.items.push((0x42, Operand::SomeItem)),
            12 | 13 => {
                let flag = self.random.choose(&[0x19, 0x1A, 0x01]);
                self.plain(flag);
                self.items.push((0x44, Operand::SomeItem));
            }
            14 | 15 => self.call(),
            16 => {
                let branch = self.random.choose(&[0x4C, 0x4E]);
                self.items.push((branch, Operand::SomeItem));
            }
            17 => self.move_pointer(),
            18 => self.some_plain(0x46, 0x57),
            _ => self.some_plain(0x01, 0x57),
        }
    }

    fn some_item(&mut self, item: usize) -> u32 {
        let items = self.items.len() as u32;
        match self.random.below(4) {
            0 => self.random.below(items),
            1 => (item as u32 + 1).min(items - 1),
            _ => (item as u32 + self.random.below(17))
                .saturating_sub(8)
                .min(items - 1),
        }
    }

    /// A listing of about so many items; addresses of entries are right for this base, unless
    /// putting them in moves the entries about.
    pub fn write(mut self, items: usize, base: u32) -> Listing {
        let long = items > 200;
        while self.items.len() < items {
            if long && (self.items.is_empty() || self.random.one_in(4)) {
                self.far_branch();
            } else {
                self.idiom();
            }
        }
        let kinds: Vec<u8> = self.items.iter().map(|(kind, _)| *kind).collect();
        let mut operands = Vec::new();
        for item in 0..self.items.len() {
            operands.push(match self.items[item].1 {
                Operand::Known(operand) => operand,
                Operand::SomeItem => self.some_item(item),
                Operand::AnyItem => self.random.below(self.items.len() as u32),
                Operand::Item(target) => target as u32,
                Operand::EntryAddress => base + 4 * item as u32,
            });
        }
        let mut listing = accept(&kinds, &operands).expect("a legal listing");
        self.put_addresses(&mut listing, base);
        listing
    }

    fn put_addresses(&mut self, listing: &mut Listing, base: u32) {
        let entries = listing.entries();
        let entries: Vec<usize> = (0..listing.items()).filter(|item| entries[*item]).collect();
        let wanted: Vec<(usize, usize)> = (0..listing.items())
            .filter(|item| matches!(self.items[*item].1, Operand::EntryAddress))
            .map(|item| (item, self.random.choose(&entries)))
            .collect();
        for _ in 0..4 {
            let layout = packer::layout(listing);
            for (item, entry) in &wanted {
                let cell = layout.placements[*entry].cell;
                listing.operands[*item] = packer::address(base, cell);
            }
        }
    }
}
