//! Answers the text form from standard input by the Rust, counts and logs by the oracle's lists. Those of accepted compares, bcmps
//! and strings are left out.

use oracle::machine::Machine;
use std::io::{self, BufRead, BufWriter, Write};

fn main() -> io::Result<()> {
    let mut input = io::stdin().lock();
    let mut output = BufWriter::new(io::stdout().lock());
    let mut machine = Machine::default();
    let mut line = Vec::new();
    while input.read_until(b'\n', &mut line)? > 0 {
        if let Some(answer) = machine.answer(line.strip_suffix(b"\n").unwrap_or(&line)) {
            writeln!(output, "{}", answer.words(None))?;
        }
        line.clear();
    }
    output.flush()
}
