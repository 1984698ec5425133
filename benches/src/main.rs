//! Measures the proved library beside the independent implementation and a processor in C, and
//! prints tables.

mod batches;
mod bounds;
mod cycles;
mod files;
mod listings;
mod loops;
mod measure;
mod modules;
mod packing;
mod peer;
mod sets;
mod sides;
mod tables;

use std::env;
use std::process::ExitCode;

use sides::Side;

/// `count SIDE loop AT CYCLES` runs a loop, `count SIDE batch AT FORMS` a rule on so many forms, `count SIDE
/// module AT TIMES` loads or saves, `count SIDE set AT TIMES` loads cells as one module or as sixteen, `count
/// proved listing AT TIMES` takes a listing in one of its forms, and does nothing else, for callgrind to
/// count.
fn count(words: &[String]) -> Option<()> {
    let [_, side, what, at, amount] = words else {
        return None;
    };
    let side = Side::named(side)?;
    let (at, amount): (usize, u32) = (at.parse().ok()?, amount.parse().ok()?);
    match what.as_str() {
        "loop" => {
            let cases = loops::cases();
            let case = cases.get(at)?;
            drop(case.run(case.run_of(side)?, amount));
        }
        "batch" => batches::repeat(&side.calls()?, at, amount)?,
        "module" => modules::repeat(&side.calls()?, at, amount)?,
        "set" => sets::repeat(&side.calls()?, at, amount)?,
        "listing" if side == Side::Proved => files::repeat(at, amount)?,
        _ => return None,
    }
    Some(())
}

fn main() -> ExitCode {
    let words: Vec<String> = env::args().skip(1).collect();
    let done = match words.first().map(String::as_str) {
        None => {
            cycles::table();
            batches::tables();
            packing::table();
            files::table();
            modules::tables();
            sets::table();
            Some(ExitCode::SUCCESS)
        }
        Some("bounds") if words.len() == 1 => Some(bounds::check()),
        Some("count") => count(&words).map(|()| ExitCode::SUCCESS),
        Some(_) => None,
    };
    done.unwrap_or_else(|| {
        eprintln!("give no word for all tables, or `bounds` to hold cycles to their bounds");
        ExitCode::from(2)
    })
}
