//! Words to items: instructions, literals, branches to labels, and the base.

use std::collections::HashMap;
use std::iter::Peekable;
use std::vec::IntoIter;

use super::words::{words, Mistake, Position, Word};
use crate::library::Listing;
use crate::names::{kind_of, name_of, opcode_of, Kind, LITERAL};
use crate::number::{self, NoCell};

/// The base of a text that names none.
const USUAL_BASE: u32 = 0x10;

/// A label: the item it stands before.
struct Label {
    at: Position,
    item: u32,
}

/// What was read so far.
struct Assembler<'t> {
    words: Peekable<IntoIter<Word<'t>>>,
    base: Option<u32>,
    kinds: Vec<u8>,
    operands: Vec<u32>,
    labels: HashMap<String, Label>,
    /// Branches by their item, with the label's name.
    branches: Vec<(usize, Word<'t>)>,
    mistakes: Vec<Mistake>,
}

/// Reads a whole text.
pub fn assemble(text: &str) -> Result<Listing, Vec<Mistake>> {
    let (words, mistakes) = words(text);
    let mut assembler = Assembler {
        words: words.into_iter().peekable(),
        base: None,
        kinds: Vec::new(),
        operands: Vec::new(),
        labels: HashMap::new(),
        branches: Vec::new(),
        mistakes,
    };
    while let Some(word) = assembler.words.next() {
        assembler.word(word);
    }
    assembler.resolve();
    assembler.finish()
}

impl<'t> Assembler<'t> {
    fn mistake(&mut self, at: Position, text: String) {
        self.mistakes.push(Mistake { at, text });
    }

    fn item(&mut self, kind: u8, operand: u32) {
        self.kinds.push(kind);
        self.operands.push(operand);
    }

    /// A label, a directive, an instruction or a number, judged in this order.
    fn word(&mut self, word: Word<'t>) {
        if let Some(name) = word.text.strip_suffix(':') {
            self.label(word.at, name);
        } else if word.text.eq_ignore_ascii_case("base") {
            self.base(word);
        } else if let Some(opcode) = opcode_of(word.text) {
            self.instruction(word, opcode);
        } else if let Some(digits) = word.text.strip_prefix('#') {
            self.literal(word.at, digits);
        } else if number::cell(word.text) == Err(NoCell::NotANumber) {
            let text = format!("unknown instruction '{}'", word.text);
            self.mistake(word.at, text);
        } else {
            self.literal(word.at, word.text);
        }
    }

    /// The next word, if it stands on the same line.
    fn operand_of(&mut self, word: Word<'t>) -> Option<Word<'t>> {
        self.words.next_if(|next| next.at.line == word.at.line)
    }

    fn instruction(&mut self, word: Word<'t>, opcode: u8) {
        let name = name_of(opcode);
        match kind_of(opcode) {
            Some(Kind::Plain) => self.item(opcode, 0),
            Some(Kind::Literal) => match self.operand_of(word) {
                Some(operand) => self.literal(operand.at, operand.text),
                None => self.mistake(word.at, format!("{name} wants a number after it")),
            },
            Some(Kind::Branch) => match self.operand_of(word) {
                Some(label) => {
                    self.branches.push((self.kinds.len(), label));
                    self.item(opcode, 0);
                }
                None => self.mistake(word.at, format!("{name} wants a label after it")),
            },
            None => self.mistake(word.at, format!("{name} may not stand in a listing")),
        }
    }

    fn literal(&mut self, at: Position, digits: &str) {
        if let Some(value) = self.number(at, digits) {
            self.item(LITERAL, value);
        }
    }

    /// A number that a cell holds; otherwise a mistake is noted.
    fn number(&mut self, at: Position, digits: &str) -> Option<u32> {
        match number::cell(digits) {
            Ok(value) => return Some(value),
            Err(NoCell::NotANumber) => self.mistake(at, format!("'{digits}' is no number")),
            Err(NoCell::TooLarge) => {
                let range = "-2147483648 to 4294967295 or FFFFFFFFh";
                let text = format!("number too large: '{digits}' (a cell holds {range})");
                self.mistake(at, text);
            }
        }
        None
    }

    /// `base N`, once, before the first item.
    fn base(&mut self, word: Word<'t>) {
        let Some(operand) = self.operand_of(word) else {
            return self.mistake(word.at, "base wants a number after it".to_string());
        };
        if self.base.is_some() {
            self.mistake(word.at, "base is given twice".to_string());
        } else if !self.kinds.is_empty() {
            self.mistake(word.at, "base must stand before the first item".to_string());
        } else {
            self.base = self.number(operand.at, operand.text);
        }
    }

    fn label(&mut self, at: Position, name: &str) {
        if let Some(text) = bad_label(name) {
            return self.mistake(at, text);
        }
        let item = self.kinds.len() as u32;
        let key = name.to_ascii_lowercase();
        if let Some(first) = self.labels.get(&key) {
            let text = format!("label '{name}' stands at line {} too", first.at.line);
            return self.mistake(at, text);
        }
        self.labels.insert(key, Label { at, item });
    }

    /// Gives every branch its target.
    fn resolve(&mut self) {
        for (item, word) in std::mem::take(&mut self.branches) {
            match self.labels.get(&word.text.to_ascii_lowercase()) {
                Some(label) => self.operands[item] = label.item,
                None => self.mistake(word.at, format!("unknown label '{}'", word.text)),
            }
        }
        let items = self.kinds.len() as u32;
        let at_end = self.labels.iter().filter(|(_, label)| label.item == items);
        let mistakes = at_end.map(|(name, label)| Mistake {
            at: label.at,
            text: format!("label '{name}' has no item after it"),
        });
        self.mistakes.extend(mistakes);
    }

    fn finish(self) -> Result<Listing, Vec<Mistake>> {
        if !self.mistakes.is_empty() {
            return Err(self.mistakes);
        }
        Ok(Listing {
            base: self.base.unwrap_or(USUAL_BASE),
            kinds: self.kinds,
            operands: self.operands,
        })
    }
}

/// What is wrong with a label's name: it is to begin with a letter and to read as nothing else.
fn bad_label(name: &str) -> Option<String> {
    let mut letters = name.chars();
    let good = letters.next().is_some_and(|c| c.is_ascii_alphabetic())
        && letters.all(|c| c.is_ascii_alphanumeric() || matches!(c, '-' | '_' | '.'));
    if !good {
        let rule = "a letter, then letters, digits, '-', '_' or '.'";
        Some(format!("'{name}' is no name for a label: {rule}"))
    } else if opcode_of(name).is_some() || name.eq_ignore_ascii_case("base") {
        Some(format!("label '{name}' has the name of an instruction"))
    } else if number::whole(name) != Err(NoCell::NotANumber) {
        Some(format!("label '{name}' reads as a number"))
    } else {
        None
    }
}

#[cfg(test)]
mod tests {
    use super::*;

    fn items(text: &str) -> Vec<(u8, u32)> {
        let listing = assemble(text).expect("no mistakes");
        let pairs = listing.kinds.into_iter().zip(listing.operands);
        pairs.collect()
    }

    fn first_mistake(text: &str) -> String {
        let mistakes = assemble(text).expect_err("a mistake");
        let first = &mistakes[0];
        format!("{}:{}: {}", first.at.line, first.at.column, first.text)
    }

    #[test]
    fn a_name_that_is_also_a_number_is_the_instruction() {
        assert_eq!(items("0 1 -1"), [(0x19, 0), (0x1A, 0), (0x1B, 0)]);
        let literals = [(0x52, 0), (0x52, 1), (0x52, u32::MAX), (0x52, 0)];
        assert_eq!(items("#0 (literal) 1 #-1 0h"), literals);
    }

    #[test]
    fn labels_are_item_numbers() {
        let rule = "start: DUP ?branch End\nBRANCH START\nend: 5 HALT";
        let expected = [(0x01, 0), (0x44, 3), (0x42, 0), (0x52, 5), (0x55, 0)];
        assert_eq!(items(rule), expected);
    }

    #[test]
    fn mistakes_name_line_and_column() {
        let rows = [
            ("DUP\n  DUPP", "2:3: unknown instruction 'DUPP'"),
            ("1 BRANCH away", "1:10: unknown label 'away'"),
            ("BRANCH\nDUP", "1:1: BRANCH wants a label after it"),
            ("(LITERAL) DUP", "1:11: 'DUP' is no number"),
            ("#", "1:1: '' is no number"),
            ("NEXT", "1:1: NEXT may not stand in a listing"),
            ("a: 1 a: 2", "1:6: label 'a' stands at line 1 too"),
            ("1 end:", "1:3: label 'end' has no item after it"),
            ("each: 1", "1:1: label 'each' reads as a number"),
            ("max: 1", "1:1: label 'max' has the name of an instruction"),
            ("1 base 20h", "1:3: base must stand before the first item"),
            ("base 20h base 20h", "1:10: base is given twice"),
            ("base", "1:1: base wants a number after it"),
        ];
        for (text, expected) in rows {
            assert_eq!(first_mistake(text), expected);
        }
        assert!(first_mistake("4294967296").starts_with("1:1: number too large: '4294967296'"));
    }

    #[test]
    fn the_base_is_10h_unless_given() {
        assert_eq!(assemble("1").expect("good").base, 0x10);
        assert_eq!(assemble("BASE 400h 1").expect("good").base, 0x400);
    }
}
