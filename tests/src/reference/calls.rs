//! The sixteen calls of the C interface: refusals in document 01's order, with -4111 and -4112 after
//! -4102, -4116 and -4113 after -4110, and -4105 last; what is lent is written on success only.

pub use super::batch_calls::batch;
pub use super::list_calls::{list_resume, list_run};
pub use super::listing_calls::{lengthen, pack, pack_file, pack_short, shorten, unpack};
pub use super::machine_calls::{cycle, run, start};
pub use super::module_calls::{load, load_first, load_set, save};
