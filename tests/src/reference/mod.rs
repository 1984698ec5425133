//! A second implementation of the Beetle processor, its object modules, the packer and the list
//! machine, written from the documents alone. "Document 01" is the scope page; the paper is
//! documents 000 and 001.

pub mod arithmetic;
pub mod batch;
pub mod batch_calls;
pub mod calls;
pub mod control;
pub mod instructions;
pub mod judging;
pub mod list_calls;
pub mod list_machine;
pub mod listing;
pub mod listing_calls;
pub mod machine_calls;
pub mod memory;
pub mod module;
pub mod module_calls;
pub mod opcodes;
pub mod packer;
pub mod processor;
pub mod refusal;
pub mod set;
pub mod short;
pub mod stacks;
pub mod tables;
pub mod unpack;
