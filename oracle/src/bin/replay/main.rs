//! Makes the input and the answers that stand beside `calls`: outcome and memory from the Rust, counts and logs from its traced
//! accesses.

mod list;

use oracle::arguments::{exit, grouped, write, Arguments};
use oracle::trace::trace;
use std::path::Path;
use std::process::ExitCode;

fn main() -> ExitCode {
    exit(run())
}

fn run() -> Result<bool, String> {
    let mut arguments = Arguments::new()?;
    let check = arguments.flag("--check");
    arguments.none_left()?;
    let input = list::input();
    let lines = trace(&arguments.built("release/traced"), &input)?;
    let mut output = String::new();
    for line in &lines {
        if let Some(answer) = &line.answer {
            output += &answer.words(line.accesses.as_deref());
            output.push('\n');
        }
    }
    let calls = lines.iter().filter(|line| line.answer.as_ref().is_some_and(|answer| answer.call())).count();
    let accepted = lines.iter().filter(|line| line.accesses.is_some()).count();
    println!("{} calls, {} accepted and traced", grouped(calls), grouped(accepted));
    let files = [("stdin", input.as_slice()), ("stdout", output.as_bytes())];
    let stand = arguments.root.join("crates/calls");
    let made = if check { arguments.built("") } else { stand.clone() };
    for (name, contents) in files {
        write(&made.join(name), contents)?;
        println!("{name}: {} bytes", grouped(contents.len()));
    }
    Ok(!check || files.iter().all(|(name, contents)| stands(&stand, name, contents)))
}

/// Whether a file that stands there has these contents; says where it does not.
fn stands(place: &Path, name: &str, contents: &[u8]) -> bool {
    let found = match std::fs::read(place.join(name)) {
        Ok(found) => found,
        Err(why) => {
            println!("crates/calls/{name}: {why}");
            return false;
        }
    };
    if found == contents {
        println!("crates/calls/{name} is the same");
        return true;
    }
    let same = found.iter().zip(contents).take_while(|(found, made)| found == made).count();
    let line = 1 + contents[..same].iter().filter(|byte| **byte == b'\n').count();
    println!("crates/calls/{name} differs in line {line}");
    false
}
