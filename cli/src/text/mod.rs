//! A rule's text becomes a listing.

mod assembler;
mod words;

use crate::library::Listing;

/// The listing of a text, or its mistakes, a line for each: `FILE:LINE:COLUMN: what is wrong`.
pub fn assemble(file: &str, text: &str) -> Result<Listing, Vec<String>> {
    assembler::assemble(text).map_err(|mut mistakes| {
        mistakes.sort_by_key(|mistake| mistake.at);
        let line = |m: &words::Mistake| format!("{file}:{}:{}: {}", m.at.line, m.at.column, m.text);
        mistakes.iter().map(line).collect()
    })
}
