//! Compares the library with the reference on all suites, and tries demand 3 and the other claims on both.

use std::process::ExitCode;
use std::time::Instant;

use beetle_tests::call::{library, reference, Implementation};
use beetle_tests::compare::{
    compare, explain, explain_rule, raised, try_batches, try_budgets, try_cuts, try_firsts,
    try_images, try_rules, try_sets, try_shorts,
};
use beetle_tests::compare::{RULES, SUITES};
use beetle_tests::worked_batches::past_32_bits;

/// Prints what a part came to; whether it was good.
fn report<T: std::fmt::Debug>(name: &str, since: Instant, result: Result<T, String>) -> bool {
    let seconds = since.elapsed().as_secs_f32();
    match &result {
        Ok(tally) => println!("{name}: agree, {tally:?}, {seconds:.1} s"),
        Err(difference) => println!("{name}: DIFFER\n{difference}"),
    }
    result.is_ok()
}

fn demand_3(name: &str, implementation: &Implementation) -> bool {
    let since = Instant::now();
    let result = try_rules(implementation, raised(RULES));
    let result = result.map_err(|difference| explain_rule(&difference, implementation));
    report(&format!("demand 3, {name}"), since, result)
}

/// A claim that an implementation has to meet by itself.
fn claim<T: std::fmt::Debug>(
    claim: &str,
    attempt: fn(&Implementation, u32) -> Result<T, String>,
    name: &str,
    implementation: &Implementation,
) -> bool {
    let since = Instant::now();
    let result = attempt(implementation, raised(RULES));
    report(&format!("{claim}, {name}"), since, result)
}

/// Demand 3, runs cut in two, budgets cut and raised, batches and their forms one by one, loads that halt, modules loaded together and singly,
/// files turned and turned back, images read and listings packed and each turned back.
fn claims(name: &str, implementation: &Implementation) -> bool {
    let mut good = demand_3(name, implementation);
    good &= claim("cuts", try_cuts, name, implementation);
    good &= claim("budgets", try_budgets, name, implementation);
    good &= claim("form by form", try_batches, name, implementation);
    good &= claim("halts", try_firsts, name, implementation);
    good &= claim("any sequence", try_sets, name, implementation);
    good &= claim("there and back", try_shorts, name, implementation);
    good & claim("packed and read", try_images, name, implementation)
}

fn main() -> ExitCode {
    let (reference, library) = (reference(), library());
    let mut good = claims("reference", &reference);
    for suite in &SUITES {
        let since = Instant::now();
        let result = compare(suite, &reference, &library, raised(suite.cases));
        let result = result.map_err(|difference| explain(&difference, &reference, &library));
        good &= report(suite.name, since, result);
    }
    let since = Instant::now();
    let figures = past_32_bits(library.batch);
    good &= report("cycles past 2^32, library", since, figures);
    good &= claims("library", &library);
    if good {
        ExitCode::SUCCESS
    } else {
        ExitCode::FAILURE
    }
}
