//! Holds the outcomes and the memory of `calls` against the Rust, its logs and counts against the oracle's own lists.

mod batch;
mod exhaustive;
mod lines;
mod random;

use batch::Batch;
use oracle::arguments::{exit, grouped, write, Arguments};
use oracle::program::Program;
use std::path::Path;
use std::process::ExitCode;

/// The faults of the program `wrong`; each must be seen.
#[rustfmt::skip]
const FAULTS: [&str; 13] = [
    "byte", "far", "beyond", "adjacent", "order", "sign", "last",
    "exchanged", "kind", "address", "forward", "left-out", "early",
];

fn main() -> ExitCode {
    exit(run())
}

fn run() -> Result<bool, String> {
    let mut arguments = Arguments::new()?;
    let short = arguments.flag("--short");
    let calls = arguments.number("--random")?.unwrap_or(if short { 100_000 } else { 1_000_000 }) as usize;
    let seed = arguments.number("--seed")?.unwrap_or(1);
    let repeat = arguments.built("differs");
    if arguments.flag("--self-test") {
        arguments.none_left()?;
        return self_test(&arguments, calls.min(100_000), seed);
    }
    let program = Program::calls(&mut arguments)?;
    arguments.none_left()?;
    compare(&program, calls, seed, &repeat)
}

fn compare(program: &Program, calls: usize, seed: u64, repeat: &Path) -> Result<bool, String> {
    let random = random::batches(calls, seed);
    let same = part("exhaustive", program, exhaustive::batches(), repeat)?
        && part(&format!("random, seed {seed}"), program, random, repeat)?;
    if same {
        println!("0 differ");
    }
    Ok(same)
}

/// Holds batch after batch against the Rust, up to the first that differs.
fn part(name: &str, program: &Program, batches: impl Iterator<Item = Batch>, repeat: &Path) -> Result<bool, String> {
    let (mut calls, mut accepted) = (0, 0);
    for (number, batch) in batches.enumerate() {
        let answers = batch.answers();
        calls += answers.calls;
        accepted += answers.accepted;
        if let Some(place) = batch.first_difference(&answers, program)? {
            println!("{name}: {} calls, {} accepted", grouped(calls), grouped(accepted));
            let difference = batch.narrow(place, program)?;
            println!("{}", difference.said);
            write(repeat, &difference.input)?;
            println!("target/oracle/differs is an input that ends there, for calls to be fed again");
            return Ok(false);
        }
        if number % 10 == 9 {
            eprintln!("{name}: {} calls so far", grouped(calls));
        }
    }
    println!("{name}: {} calls, {} accepted", grouped(calls), grouped(accepted));
    Ok(true)
}

/// Each wrong program must be seen, and one that is not wrong must pass.
fn self_test(arguments: &Arguments, calls: usize, seed: u64) -> Result<bool, String> {
    let repeat = arguments.built("differs");
    let wrong = |fault: &str| Program::new(arguments.built("release/wrong"), vec![fault.to_string()]);
    for fault in FAULTS {
        println!("-- {fault}");
        if compare(&wrong(fault), calls, seed, &repeat)? {
            println!("the fault was not seen");
            return Ok(false);
        }
    }
    println!("-- none");
    compare(&wrong("none"), calls, seed, &repeat)
}
