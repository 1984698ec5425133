//! The command as an office uses it: good and bad input, what is printed, the exit status.

mod areas;
mod batches;
mod batches_refused;
mod district;
mod examples;
mod folder;
mod forms;
mod forms_refused;
mod listings;
mod machines;
mod refused;
mod reports;
mod sets;
mod sets_refused;
mod short;
mod short_refused;
mod tables;
mod unpack;
mod unpack_refused;
mod worked;
