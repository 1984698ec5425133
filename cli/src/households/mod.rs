//! Tables of persons and forms of households, each made of the other as a record describes it.

mod back;
mod column;
pub mod csv;
pub mod forms;
pub mod record;
pub mod table;

pub use back::{beside, plain};

use crate::failure::Failure;

/// A household as a table and a form both have it.
#[derive(Clone, PartialEq, Eq, Debug)]
pub struct Household {
    pub number: u32,
    /// The cells of each person, in the record's order.
    pub persons: Vec<Vec<u32>>,
}

/// Something made, where there is no mistake.
fn unless<T>(mistakes: Vec<String>, made: T) -> Result<T, Failure> {
    match mistakes.is_empty() {
        true => Ok(made),
        false => Err(Failure::Mistakes(mistakes)),
    }
}
