//! The accesses that the Rust makes: the program `traced` is run under valgrind's lackey, which writes a line for each access of
//! the machine, and those between the two marks of a call that meet the memory are kept.

use crate::access::{Access, Kind};
use crate::call::{Call, Outcome, Routine, BYTES};
use crate::machine::{Answer, Machine};
use crate::memory::{Places, GUARD};
use crate::text;
use std::io::{BufRead, BufReader, Read, Write};
use std::ops::Range;
use std::path::Path;
use std::process::{Child, Command, Stdio};
use std::sync::{Arc, OnceLock};
use std::thread;

/// A line of an input with its answer. The accesses are those of an accepted call.
pub struct Traced<'a> {
    pub line: &'a [u8],
    pub answer: Option<Answer>,
    pub accesses: Option<Vec<Access>>,
}

/// Answers an input, and has the Rust traced on it.
pub fn trace<'a>(traced: &Path, input: &'a [u8]) -> Result<Vec<Traced<'a>>, String> {
    let mut calls = run(traced, input)?.into_iter();
    let mut machine = Machine::default();
    let mut lines = Vec::new();
    for line in text::lines(input) {
        let answer = machine.answer(line);
        let accesses = match &answer {
            Some(answer) if answer.accepted() => Some(calls.next().ok_or("the trace has too few calls")?),
            _ => None,
        };
        lines.push(Traced { line, answer, accesses });
    }
    match calls.next() {
        Some(_) => Err("the trace has too many calls".to_string()),
        None => Ok(lines),
    }
}

/// The accesses of each accepted call of an input.
fn run(traced: &Path, input: &[u8]) -> Result<Vec<Vec<Access>>, String> {
    let mut command = Command::new("valgrind");
    command.args(["--tool=lackey", "--trace-mem=yes"]).arg(traced);
    command.stdin(Stdio::piped()).stdout(Stdio::piped()).stderr(Stdio::piped());
    let mut child = command.spawn().map_err(|why| format!("valgrind cannot be started: {why}"))?;
    let places = Arc::new(OnceLock::new());
    let reader = {
        let (log, places) = (child.stderr.take(), places.clone());
        thread::spawn(move || log.map_or(Ok(Vec::new()), |log| read_log(log, &places)))
    };
    let fed = feed(&mut child, &places, input);
    let status = child.wait().map_err(|why| format!("valgrind: {why}"))?;
    let calls = reader.join().map_err(|_| "the reader of the trace failed")??;
    fed.map_err(|why| format!("the traced program: {why}"))?;
    if !status.success() {
        return Err(format!("the traced program ended with {status}"));
    }
    Ok(calls)
}

/// The traced program says where its memory is, and then waits for its input: so the places are known before the first call.
fn feed(child: &mut Child, places: &OnceLock<Places>, input: &[u8]) -> std::io::Result<()> {
    let mut said = String::new();
    if let Some(stdout) = child.stdout.take() {
        BufReader::new(stdout).read_line(&mut said)?;
    }
    let numbers: Vec<u64> = said.split_whitespace().filter_map(|number| number.parse().ok()).collect();
    let [memory, begin, end] = numbers[..] else {
        return Err(std::io::Error::other("it does not say where its memory is"));
    };
    let _ = places.set(Places { memory, begin, end });
    child.stdin.take().map_or(Ok(()), |mut stdin| stdin.write_all(input))
}

fn read_log(log: impl Read, places: &OnceLock<Places>) -> Result<Vec<Vec<Access>>, String> {
    let mut log = BufReader::with_capacity(1 << 16, log);
    let mut line = Vec::new();
    let mut calls = Calls::default();
    loop {
        line.clear();
        if log.read_until(b'\n', &mut line).map_err(|why| format!("the trace: {why}"))? == 0 {
            return Ok(calls.ended);
        }
        // Lines of instructions, which are most, and valgrind's own do not begin with a space.
        if let (b' ', Some(places)) = (line[0], places.get()) {
            calls.access(&String::from_utf8_lossy(&line), places)?;
        }
    }
}

#[derive(Default)]
struct Calls {
    ended: Vec<Vec<Access>>,
    /// The accesses of the call that has begun, and not ended.
    begun: Option<Vec<Access>>,
}

impl Calls {
    /// Takes in a line of lackey's, as in ` L 1ffeffe7e0,8`: L a load, S a store, M a load and then a store.
    fn access(&mut self, line: &str, places: &Places) -> Result<(), String> {
        let unclear = || format!("a line of the trace is unclear: {line}");
        let (kind, place) = line.trim().split_once(' ').ok_or_else(unclear)?;
        let (address, width) = place.split_once(',').ok_or_else(unclear)?;
        let address = u64::from_str_radix(address, 16).map_err(|_| unclear())?;
        let width: u64 = width.parse().map_err(|_| unclear())?;
        if address == places.begin {
            if self.begun.replace(Vec::new()).is_some() {
                return Err("a call begins before another has ended".to_string());
            }
        } else if address == places.end {
            self.ended.push(self.begun.take().ok_or("a call ends that has not begun")?);
        } else if let Some(accesses) = &mut self.begun {
            let kinds = match kind {
                "L" => &[Kind::Load][..],
                "S" => &[Kind::Store],
                "M" => &[Kind::Load, Kind::Store],
                _ => return Err(unclear()),
            };
            if let Some(address) = in_memory(address, width, places)? {
                accesses.extend(kinds.iter().map(|kind| Access { kind: *kind, width, address }));
            }
        }
        Ok(())
    }
}

/// The address within the memory; none, where an access meets neither the memory nor the bytes beside it.
fn in_memory(address: u64, width: u64, places: &Places) -> Result<Option<u64>, String> {
    let (guard, bytes) = (GUARD as u64, BYTES as u64);
    if address + width <= places.memory - guard || address >= places.memory + bytes + guard {
        return Ok(None);
    }
    let inside = address >= places.memory && address + width <= places.memory + bytes;
    if !inside || ![1, 2, 4, 8].contains(&width) {
        let offset = i128::from(address) - i128::from(places.memory);
        return Err(format!("the Rust makes an access of {width} bytes at {offset}"));
    }
    Ok(Some(address - places.memory))
}

/// What is wrong with an access by itself: it must be aligned, and lie in a range that the call may load or store.
pub fn fault(call: &Call, outcome: &Outcome, access: &Access) -> Option<&'static str> {
    if !access.address.is_multiple_of(access.width) {
        return Some("is not aligned");
    }
    let [loads, stores] = ranges(call, outcome);
    let allowed = if access.kind == Kind::Load { loads } else { stores };
    let inside = |range: &Range<u64>| range.start <= access.address && access.address + access.width <= range.end;
    (!allowed.iter().any(inside)).then_some("is outside the ranges of its kind")
}

/// The ranges that a call may load, and those that it may store.
fn ranges(call: &Call, outcome: &Outcome) -> [Vec<Range<u64>>; 2] {
    let range = |start: u64, n: u64| start..start + n;
    // A string's zero is read too.
    let string = if let Outcome::Length(length) = outcome { length + 1 } else { 0 };
    match call.routine {
        Routine::Copy { dest, src, n } | Routine::Move { dest, src, n } => [vec![range(src, n)], vec![range(dest, n)]],
        Routine::Fill { dest, n, .. } => [vec![], vec![range(dest, n)]],
        Routine::Compare { first, second, n } | Routine::Bcmp { first, second, n } => {
            [vec![range(first, n), range(second, n)], vec![]]
        }
        Routine::Strlen { start } => [vec![range(start, string)], vec![]],
    }
}
