//! The commands, each in a file.

mod assemble;
mod batch;
mod follow;
mod forms;
mod lengthen;
mod load;
mod pack;
mod report;
mod run;
mod save;
mod shorten;
mod show;
mod unpack;

use std::io::Write;

use crate::failure::Failure;

/// A command: it is given the words after its name and answers its exit status.
pub struct Command {
    pub name: &'static str,
    pub help: &'static str,
    pub carry_out: fn(&[String], &mut dyn Write) -> Result<u8, Failure>,
}

/// All commands, in the order in which a rule goes through them.
pub const COMMANDS: [Command; 13] = [
    Command {
        name: "assemble",
        help: assemble::HELP,
        carry_out: assemble::carry_out,
    },
    Command {
        name: "shorten",
        help: shorten::HELP,
        carry_out: shorten::carry_out,
    },
    Command {
        name: "lengthen",
        help: lengthen::HELP,
        carry_out: lengthen::carry_out,
    },
    Command {
        name: "show",
        help: show::HELP,
        carry_out: show::carry_out,
    },
    Command {
        name: "pack",
        help: pack::HELP,
        carry_out: pack::carry_out,
    },
    Command {
        name: "unpack",
        help: unpack::HELP,
        carry_out: unpack::carry_out,
    },
    Command {
        name: "save",
        help: save::HELP,
        carry_out: save::carry_out,
    },
    Command {
        name: "load",
        help: load::HELP,
        carry_out: load::carry_out,
    },
    Command {
        name: "run",
        help: run::HELP,
        carry_out: run::carry_out,
    },
    Command {
        name: "batch",
        help: batch::HELP,
        carry_out: batch::carry_out,
    },
    Command {
        name: "report",
        help: report::HELP,
        carry_out: report::carry_out,
    },
    Command {
        name: "forms",
        help: forms::HELP,
        carry_out: forms::carry_out,
    },
    Command {
        name: "follow",
        help: follow::HELP,
        carry_out: follow::carry_out,
    },
];
