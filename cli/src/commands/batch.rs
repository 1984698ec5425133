//! `beetle batch`: a rule is run over all forms of a file, and their figures are printed.

use std::io::Write;

use crate::arguments::{Arguments, Takes};
use crate::batch::forms::Forms;
use crate::batch::job::Job;
use crate::batch::saved::Saved;
use crate::batch::setting::Setting;
use crate::failure::{Failure, BAD_MEMORY, BAD_ORDER};
use crate::library;
use crate::loaded::Module;
use crate::machine::Machine;
use crate::memory::share_bytes;
use crate::placed::Given;
use crate::report::{self, State};

pub const HELP: &str = "\
beetle batch RULE.mod FORMS --form-length BYTES --address ADDRESS
             [--budget CYCLES] [-o OUT] [--each FILE] [--jobs N] [--quiet]
             [--memory BYTES] [--order 0|1] [--entry ADDRESS] [--handler ADDRESS]
             [--data-area TOP,CELLS --return-area TOP,CELLS]
             [--table code | --table FIRST,END]
beetle batch FILE@ADDRESS .. FORMS [the same]

Runs a rule over every form of a file and prints a report of how the runs ended. The rule,
at 10h or as FILE@ADDRESS, or a rule set, is loaded and the machine is started as 'beetle
run' does it. What memory and registers are then, each form is given: memory is made so
afresh, the form's bytes go in at the address, over whatever is there, and the machine runs.
Nothing goes over from one form to the next. Where forms lie over the rule's cells or 0h to
Fh, a note says so. A start that stops is told, and no form is run.

FORMS holds forms of one length, end to end, any number of them; '-' reads standard input.
It is the last of the words, and its length has to be that of whole forms.

  --form-length BYTES  the length of a form, 1 or more
  --address ADDRESS    where it goes in memory, aligned or not
  --budget CYCLES      the most cycles of a form, 1000000 without it, at most 4294967295;
                       a run that needs more is spent
  -o OUT               the forms as the rule left them: the bytes from the address on after
                       each form's run, in the order of FORMS. Those of a run that HALT did
                       not end are written too, as they stood when it ended
  --each FILE          a line for each form, in their order: 'form 17: ', counted from 1,
                       its cycles, and what it stopped with, in the words of 'beetle run'
  --jobs N             how many threads, 1 to 1024; without it one for each core. Figures,
                       OUT and FILE are the same for any number
  --quiet              nothing on the error stream of how many forms are done, which is
                       told about once a second after the first
  --memory, --order, --entry, --handler, --data-area, --return-area, --table
                       as for 'beetle run', whose --help tells of them

OUT and FILE are written beside their places, as OUT.NUMBER.part, and put there when both
are whole: a failure leaves what was there before.

The report has a line of a key and a value each:

  beetle batch report 1        always so
  given                        a digest of what every form was given; 'beetle report' puts
                               only reports together that have the same
  forms                        how many there are; the next five add up to it
  stopped with 0               by HALT with the reason 0
  stopped with -258            no place for a throw's code or HALT's reason
  stopped with -259            a throw found no valid address in 'THROW
  stopped with another reason  by HALT with any other
  spent                        not stopped after the budget's cycles
  cycles                       of all forms
  largest                      the most cycles of a form
  mean                         cycles by forms, rounded down; 0 where there is no form
  remainder                    what that leaves of the cycles
  end of report                always so

A reason counts by its number: where a rule gives -258 to HALT it counts there.

Numbers on the command line are decimal, or hexadecimal with an h. The exit status is 0 if
HALT ended every form's run, with whatever reason; 1 if a run ended with -258 or -259 or was
spent, where the report is printed all the same, and for a refusal or a file that cannot be
read or written, where none is; 2 for a wrong command line.
";

const TAKES: Takes = Takes {
    files: &["RULE.mod", "FORMS"],
    options: &[
        "--form-length",
        "--address",
        "--budget",
        "-o",
        "--each",
        "--jobs",
        "--memory",
        "--order",
        "--entry",
        "--handler",
        "--data-area",
        "--return-area",
        "--table",
    ],
    switches: &["--quiet"],
};

/// The cycles of a form where no number is given.
const USUAL_BUDGET: u32 = 1_000_000;

/// Below it lie the cells that the machine itself writes.
const MACHINES_OWN: u64 = 0x10;

pub fn carry_out(words: &[String], out: &mut dyn Write) -> Result<u8, Failure> {
    let arguments = Arguments::read_several(words, &TAKES)?;
    let (modules, forms) = arguments.files().split_at(arguments.files().len() - 1);
    let given = Given::of(modules, None)?.into_set();
    let job = Job::read(&arguments, &forms[0], &given)?;
    let setting = setting(&arguments, &given)?;
    // with no form the library judges all that the forms have in common
    let mut memory = setting.start.clone();
    library::batch(&setting, &mut memory, &[], 0)?;
    let forms = Forms::open(&forms[0], setting.form_length)?;
    let done = job.run(&setting, &forms)?;
    let (given, figures) = (setting.digest(), done.figures);
    write!(out, "{}", Saved { given, figures })?;
    if figures.not_halted() == 0 {
        return Ok(0);
    }
    job.tell_not_halted(&done);
    Ok(1)
}

/// Loads and starts the machine: what each form is given.
fn setting(arguments: &Arguments, given: &Given) -> Result<Setting, Failure> {
    let form_length = arguments.needed_length("--form-length")?;
    let address = arguments.needed_address("--address")?;
    let budget = arguments.cell("--budget")?.unwrap_or(USUAL_BUDGET);
    let loaded = Machine::load(arguments, given);
    let mut machine = loaded.map_err(|failure| with_number(failure, arguments))?;
    let (registers, stopped) = machine.start()?;
    let (order, table) = (machine.order, machine.limits.table);
    if stopped.is_some() {
        let state = State {
            order,
            memory: &machine.memory,
            registers,
            table,
        };
        let end = report::end(stopped, &state);
        let text = format!("no form was run, as the start {end}");
        return Err(Failure::Other(text));
    }
    let setting = Setting {
        order,
        start: machine.memory,
        registers,
        table,
        budget,
        address,
        form_length,
    };
    note_overlaps(&setting, &machine.loaded.modules);
    Ok(setting)
}

/// A refusal of the memory's length or of the byte order says which it was.
fn with_number(failure: Failure, arguments: &Arguments) -> Failure {
    let (number, option) = match failure {
        Failure::Refused(BAD_MEMORY) => (BAD_MEMORY, "--memory"),
        Failure::Refused(BAD_ORDER) => (BAD_ORDER, "--order"),
        other => return other,
    };
    let given = arguments.option(option).unwrap_or_default();
    Failure::Bad(number, vec![format!("{option} is {given}")])
}

/// Says where the forms lie over the rule's cells or the machine's own: it may be meant.
fn note_overlaps(setting: &Setting, modules: &[Module]) {
    let forms = setting.bytes();
    let note = |what: &str| {
        let (start, end) = (forms.start, forms.end);
        eprintln!("beetle: note: each form, from {start:X}h up to {end:X}h, lies over {what}");
    };
    if forms.start < MACHINES_OWN {
        note("the machine's own cells, 0h to Fh");
    }
    for module in modules {
        let cells = module.bytes();
        let (start, end) = (u64::from(cells.start), u64::from(cells.end));
        if share_bytes(&forms, &(start..end)) {
            let name = &module.placed.name;
            note(&format!("cells of {name}, from {start:X}h up to {end:X}h"));
        }
    }
}
