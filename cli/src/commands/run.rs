//! `beetle run`: a module, or a rule set, is loaded, started and run until it stops.

use std::io::Write;
use std::time::{Duration, Instant};

use crate::arguments::{Arguments, Takes};
use crate::failure::Failure;
use crate::library::{self, Registers};
use crate::machine::Machine;
use crate::placed::Given;
use crate::reasons::{BAD_HANDLER, BAD_STACK};
use crate::report::{self, State};
use crate::table::Table;

pub const HELP: &str = "\
beetle run MODULE [--memory BYTES] [--order 0|1] [--address ADDRESS]
           [--entry ADDRESS] [--handler ADDRESS] [--budget CYCLES]
           [--data-area TOP,CELLS --return-area TOP,CELLS]
           [--table code | --table FIRST,END]
beetle run FILE@ADDRESS .. [the same without --address]

Loads an object module, starts the machine and runs it, all by the proved library, then
prints why it stopped, the cycles done, the registers and the tops of both stacks. With
FILE@ADDRESS a rule set is loaded instead, up to sixteen modules each at its own address,
all of them or none: 'beetle load --help' says more.

  --memory BYTES     length of the machine's memory, 65536 without it
  --order 0|1        the machine's byte order: 0 (as without it) least byte first
  --address ADDRESS  where to load MODULE, 10h without it
  --entry ADDRESS    where to begin, the address of loading without it; of a rule set that
                     of the module named first
  --handler ADDRESS  'THROW, where a throw leads. FFFFFFFFh without it, which is no
                     address: the first throw stops the machine with -259
  --budget CYCLES    the most cycles to run; without it the run ends when the machine
                     stops. A long run tells its cycles on the error stream
  --data-area TOP,CELLS, --return-area TOP,CELLS
                     the areas of the two stacks, both or neither: CELLS cells each, the
                     last one just below TOP, where SP and RP start. The cell under the
                     data area is held for an exception's code. An access outside its
                     area throws -3 (data, below), -4 (data, above), -5 or -6 (return)
  --table code, --table FIRST,END
                     cells that the rule can read but not write: with 'code' those of the
                     module as it was loaded, else those from FIRST up to END, END not one
                     of them. The cells of a rule set are all those of its modules, which
                     have to lie end to end for 'code', named in whatever sequence. A
                     store there throws -20. A throw whose own code would go there stops
                     the machine with -258

Numbers are decimal, or hexadecimal with an h. The exit status is 0 if HALT stopped the
machine, and 1 for a refusal, a stop with -258 or -259, or a budget that was spent. (A
rule may give -258 or -259 to HALT; the status is 1 then too.)
";

const TAKES: Takes = Takes {
    files: &["MODULE or FILE@ADDRESS"],
    options: &[
        "--memory",
        "--order",
        "--address",
        "--entry",
        "--handler",
        "--budget",
        "--data-area",
        "--return-area",
        "--table",
    ],
    switches: &[],
};

/// The cycles of one call of the library.
const SLICE: u64 = 10_000_000;

/// How a run in slices ended.
struct Ended {
    reason: Option<u32>,
    cycles: u64,
}

pub fn carry_out(words: &[String], out: &mut dyn Write) -> Result<u8, Failure> {
    let arguments = Arguments::read_several(words, &TAKES)?;
    let given = Given::read(&arguments)?;
    let budget = arguments.number("--budget", u64::MAX)?;
    let mut machine = Machine::load(&arguments, &given)?;
    let loaded = &machine.loaded;
    let lines = loaded.modules.iter().map(|module| loaded.line(module));
    for line in lines.chain(loaded.last_line()) {
        writeln!(out, "loaded {line}")?;
    }
    let (mut registers, stopped) = machine.start()?;
    let (order, table) = (machine.order, machine.limits.table);
    let ended = match stopped {
        Some(_) => Ended {
            reason: stopped,
            cycles: 0,
        },
        None => run_on(order, &mut machine.memory, table, &mut registers, budget)?,
    };
    let state = State {
        order,
        memory: &machine.memory,
        registers,
        table,
    };
    tell(out, &ended, &state)
}

/// Runs in slices until a stop or the end of the budget. Slices do together what one run would have
/// done (`CutCall`, crate `calls`), so a budget may be larger than the library takes at once.
fn run_on(
    order: u8,
    memory: &mut [u8],
    table: Table,
    registers: &mut Registers,
    budget: Option<u64>,
) -> Result<Ended, Failure> {
    let mut ended = Ended {
        reason: None,
        cycles: 0,
    };
    let mut told = Instant::now();
    loop {
        let left = budget.map_or(SLICE, |budget| budget - ended.cycles);
        let ran = library::run(order, memory, table, registers, left.min(SLICE) as u32)?;
        ended.cycles += u64::from(ran.cycles);
        ended.reason = ran.reason;
        if ran.reason.is_some() || budget == Some(ended.cycles) {
            return Ok(ended);
        }
        if told.elapsed() >= Duration::from_secs(1) {
            eprintln!("{} cycles so far", ended.cycles);
            told = Instant::now();
        }
    }
}

/// Prints the end and the state.
fn tell(out: &mut dyn Write, ended: &Ended, state: &State<'_>) -> Result<u8, Failure> {
    writeln!(out, "{}", report::end(ended.reason, state))?;
    writeln!(out, "{} cycles", ended.cycles)?;
    report::state(out, state)?;
    if let Some(more) = ended.reason.and_then(|reason| report::more(reason, state)) {
        writeln!(out, "{more}")?;
    }
    match ended.reason {
        None | Some(BAD_STACK) => Ok(1),
        Some(BAD_HANDLER) => {
            report::throw_cells(out, state)?;
            Ok(1)
        }
        Some(_) => Ok(0),
    }
}
