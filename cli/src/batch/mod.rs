//! A rule over many forms (document 02, (k)): what each form is given, the forms cut into parts, the
//! parts run on all cores, and the figures of all of them.

pub mod digest;
pub mod figures;
pub mod forms;
pub mod job;
pub mod parts;
pub mod progress;
pub mod read_back;
pub mod saved;
pub mod setting;
mod threads;
