//! `beetle`: rules from text to cells, modules and runs. The work is done by the proved library;
//! reading text and printing is not proved.

mod areas;
mod arguments;
mod batch;
mod beside;
mod commands;
mod failure;
mod files;
mod following;
mod households;
mod library;
mod limits;
mod listing;
mod loaded;
mod machine;
mod memory;
mod module;
mod names;
mod number;
mod placed;
mod reading;
mod reasons;
mod replacing;
mod report;
mod set;
mod short;
mod table;
mod text;

use std::env;
use std::io::{self, BufWriter, Write};
use std::process::ExitCode;

use commands::{Command, COMMANDS};
use failure::Failure;

const HELP: &str = "\
beetle COMMAND ..

  assemble RULE.txt -o RULE.lst    a rule's text to a listing file
  shorten RULE.lst -o RULE.short   a listing file to a short one
  lengthen RULE.short -o RULE.lst  and back
  show RULE.lst                    the listing and its packed cells, side by side
  show MODULE --base ADDRESS       the same of a module: the listing that packs to it
  pack RULE.lst                    the packed cells
  unpack CELLS.bin --base ADDRESS [-o RULE.lst]
                                   packed cells back to the listing, or its file
  save RULE.lst -o RULE.mod        the packed cells as an object module
  load MODULE                      the cells of a module, all or the first of them
  load FILE@ADDRESS ..             a rule set: modules that go in together, all or none
  run MODULE                       a module, run until it stops
  run FILE@ADDRESS ..              a rule set, run from the address of its first module
  batch RULE.mod FORMS --form-length BYTES --address ADDRESS
                                   a rule, or a rule set, over all forms of a file: a report
  report FILE ..                   reports of batches put together
  forms TABLE.csv --record RECORD -o FORMS [--back]
                                   a table of persons to forms, and back
  follow RULE.lst                  the listing, carried out item by item

With --short, show, pack, save and follow read a short file, and assemble and unpack write
one.

'beetle COMMAND --help' says more of each. Shortening and lengthening, packing and
unpacking, loading, saving, running, also over forms, and following are done by the proved
library; reading text and tables, putting reports together and printing is not proved.

Exit status: 0 done; 1 refused, mistakes in a text, a table or a report, a file that
cannot be read or written, a run that HALT did not end, or two machines that differ; 2
wrong command line.
";

/// Whether the words ask for help.
fn wants_help(words: &[String]) -> bool {
    words.iter().any(|word| word == "--help" || word == "-h")
}

/// Finds the command and carries it out, or prints its help.
fn carry_out(words: &[String], out: &mut dyn Write) -> Result<u8, Failure> {
    let Some((name, rest)) = words.split_first() else {
        return Err(Failure::Usage("a command is missing".to_string()));
    };
    let command: Option<&Command> = COMMANDS.iter().find(|command| command.name == name);
    let help = match command {
        Some(command) if wants_help(rest) => command.help,
        Some(command) => return (command.carry_out)(rest, out),
        None if name == "help" || wants_help(words) => HELP,
        None => return Err(Failure::Usage(format!("unknown command {name}"))),
    };
    out.write_all(help.as_bytes())?;
    Ok(0)
}

fn main() -> ExitCode {
    let words: Vec<String> = env::args_os()
        .skip(1)
        .map(|word| word.to_string_lossy().into_owned())
        .collect();
    let mut out = BufWriter::new(io::stdout().lock());
    let carried_out = carry_out(&words, &mut out);
    let flushed = out.flush().map_err(Failure::from);
    match carried_out.and_then(|status| flushed.map(|()| status)) {
        Ok(status) => ExitCode::from(status),
        Err(failure) => {
            failure.tell();
            ExitCode::from(failure.status())
        }
    }
}
