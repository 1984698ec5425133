//! Why a command did not do what it was asked, and the exit status of each cause.

use std::io;

/// What stands in a command's way.
#[derive(Debug)]
pub enum Failure {
    /// The command line is wrong.
    Usage(String),
    /// The library refused, with this number.
    Refused(i32),
    /// It refused so, and these are the reasons.
    Bad(i32, Vec<String>),
    /// Mistakes in a rule's text, a line for each.
    Mistakes(Vec<String>),
    /// Anything else, as a file that cannot be read.
    Other(String),
    /// Nobody reads what the command prints.
    Unread,
}

impl From<io::Error> for Failure {
    fn from(error: io::Error) -> Self {
        match error.kind() {
            io::ErrorKind::BrokenPipe => Failure::Unread,
            _ => Failure::Other(error.to_string()),
        }
    }
}

impl Failure {
    /// 2 for a wrong command line, 1 for all else.
    pub fn status(&self) -> u8 {
        match self {
            Failure::Usage(_) => 2,
            _ => 1,
        }
    }

    /// The number of a refusal.
    pub fn number(&self) -> Option<i32> {
        match self {
            Failure::Refused(number) | Failure::Bad(number, _) => Some(*number),
            _ => None,
        }
    }

    /// Says on the error stream what happened.
    pub fn tell(&self) {
        match self {
            Failure::Usage(text) => {
                eprintln!("beetle: {text}");
                eprintln!("'beetle --help' and 'beetle COMMAND --help' say more");
            }
            Failure::Refused(number) => {
                eprintln!("beetle: refused with {number}: {}", meaning(*number));
            }
            Failure::Bad(number, reasons) => {
                eprintln!("beetle: refused with {number}: {}", meaning(*number));
                reasons.iter().for_each(|reason| eprintln!("  {reason}"));
            }
            Failure::Mistakes(lines) => lines.iter().for_each(|line| eprintln!("{line}")),
            Failure::Other(text) => eprintln!("beetle: {text}"),
            Failure::Unread => {}
        }
    }
}

/// The refusals of a module or a form outside memory, of a memory, of a byte order, of stack areas, of a
/// table, of a rule set and of a short file.
pub const OUTSIDE: i32 = -1;
pub const BAD_MEMORY: i32 = -4101;
pub const BAD_ORDER: i32 = -4102;
pub const BAD_AREAS: i32 = -4111;
pub const BAD_TABLE: i32 = -4112;
pub const BAD_SET: i32 = -4113;
pub const BAD_SHORT_FILE: i32 = -4119;

/// What a refusal's number means (document 01, the two lists of refusals; document 02).
pub fn meaning(refusal: i32) -> &'static str {
    match refusal {
        OUTSIDE => "a module, or a form of a batch, would not lie whole inside memory",
        -2 => "the file does not begin as a module does, or its byte order is above 1",
        BAD_MEMORY => "the memory's length is not a multiple of 4 from 1,024 to 16,777,216",
        BAD_ORDER => "the byte order is above 1",
        -4103 => "the file's length is not 12 and 4 for each cell of the module",
        -4104 => "the address or base is no multiple of 4",
        -4105 => "a lent output is too short",
        -4106 => {
            "no item, more than 4,096 items, or a listing file, not a short one, of other than 8 \
             bytes and 5 for each item"
        }
        -4107 => "an item's kind is none that a listing may have",
        -4108 => "a plain item has an operand",
        -4109 => "a branch leads to no item",
        -4110 => "the base is below 10h, or the image passes 16,777,216",
        BAD_AREAS => {
            "the stack areas, with the cell held under that of the data stack, are unaligned, \
             empty, outside memory or overlapping"
        }
        BAD_TABLE => "the table is unaligned, ends before it begins, lies below 10h or past memory",
        BAD_SET => "no module, over sixteen of them, or two with a byte of memory in common",
        -4116 => "no listing packs to this image at this base and in this byte order",
        BAD_SHORT_FILE => {
            "the short file has under 12 bytes, an m that is not the number of its literals and \
             branches, or a length that is not 12 + n + 4m"
        }
        _ => "a number that the documents do not list",
    }
}
