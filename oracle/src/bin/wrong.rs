//! Stands in for `calls` with one fault, by which the comparison shows that it would see one. Its counts of compares and strings
//! are no counts.

use oracle::access::log;
use oracle::call::{Call, Outcome, Routine, BYTES};
use oracle::list;
use oracle::machine::{Answer, Machine};
use std::io::{self, BufRead, BufWriter, Write};

fn main() -> io::Result<()> {
    let fault = std::env::args().nth(1).unwrap_or_default();
    let mut input = io::stdin().lock();
    let mut output = BufWriter::new(io::stdout().lock());
    let mut machine = Machine::default();
    let mut line = Vec::new();
    while input.read_until(b'\n', &mut line)? > 0 {
        if let Some(answer) = machine.answer(line.strip_suffix(b"\n").unwrap_or(&line)) {
            writeln!(output, "{}", words(&fault, answer, machine.memory.bytes_mut()))?;
        }
        line.clear();
    }
    output.flush()
}

/// What the fault makes of an answer, in words.
fn words(fault: &str, answer: Answer, memory: &mut [u8; BYTES]) -> String {
    let (call, outcome) = match answer {
        Answer::Call(call, Outcome::Refusal(number)) => (call, refused(fault, &call, number)),
        Answer::Call(call, outcome) => (call, accepted(fault, &call, outcome, memory)),
        Answer::Other(answer) => return answer,
    };
    let none = match call.routine {
        Routine::Copy { .. } | Routine::Move { .. } | Routine::Fill { .. } => None,
        _ => Some(&[][..]),
    };
    logged(fault, &call, Answer::Call(call, outcome).words(none))
}

/// What the fault makes of the log at the end of an answer. The counts before it stay.
fn logged(fault: &str, call: &Call, answer: String) -> String {
    let Some((start, numbers)) = answer.split_once(" log ") else {
        return answer;
    };
    let mut entries: Vec<u64> = numbers.split(' ').filter_map(|number| number.parse().ok()).collect();
    match (fault, call.routine) {
        // Two loads of a partial load, in the other order.
        ("exchanged", Routine::Move { dest: 8, src: 17, n: 24 }) => entries.swap(0, 1),
        // A store that is written as a load.
        ("kind", Routine::Fill { dest, n, .. }) if dest % 8 == 3 && n == 21 => entries[5] -= 262_144,
        // A store of the word above the right one.
        ("address", Routine::Move { dest, src, n }) if dest == src + 3 && dest % 8 == 5 && n == 29 => entries[12] += 8,
        // Equal addresses that go forward.
        ("forward", Routine::Move { dest, src, n }) if dest == src && n == 16 => {
            return start.to_string() + &log(&list::of_copy(8, dest, src, n));
        }
        // The last entry left out.
        ("left-out", Routine::Move { dest, n, .. }) if dest % 8 == 7 && n == 25 => entries.truncate(entries.len() - 1),
        _ => {}
    }
    let numbers: Vec<String> = entries.iter().map(u64::to_string).collect();
    format!("{start} log {}", numbers.join(" "))
}

/// What the fault makes of a refused call.
fn refused(fault: &str, call: &Call, number: u8) -> Outcome {
    match (fault, call.routine, number) {
        // The second range looked at before the first.
        ("order", Routine::Compare { second, n, .. }, 2) if second.saturating_add(n) > 8 * call.k => {
            Outcome::Refusal(3)
        }
        _ => Outcome::Refusal(number),
    }
}

/// What the fault makes of an accepted call.
fn accepted(fault: &str, call: &Call, outcome: Outcome, memory: &mut [u8; BYTES]) -> Outcome {
    let end = 8 * call.k;
    match (fault, call.routine, outcome) {
        // One byte, at one alignment and overlap.
        ("byte", Routine::Move { dest, src, n }, _) if dest == src + 3 && dest % 8 == 5 && n == 29 => {
            memory[dest as usize + 7] ^= 1;
        }
        // The same where only the calls at random come.
        ("far", Routine::Move { dest, src, n }, _) if src > 48 && dest == src + 3 && n > 64 => {
            memory[(dest + n / 2) as usize] ^= 128;
        }
        // The byte behind the lent words.
        ("beyond", Routine::Fill { dest, n, .. }, _) if dest + n == end && n == 41 => memory[end as usize] ^= 1,
        // Neighbours that are held to overlap.
        ("adjacent", Routine::Copy { dest, src, n }, _) if src == dest + n && n == 20 => return Outcome::Refusal(4),
        // A log that its list just fills.
        ("early", Routine::Fill { n: 8, .. }, _) if call.room == Some(8) => return Outcome::Refusal(6),
        // The sign of a compare on signed bytes.
        ("sign", _, Outcome::Number(number)) if number > 127 => return Outcome::Number(number - 256),
        // A zero at the last byte.
        ("last", Routine::Strlen { start }, Outcome::Length(length)) if start + length == end - 1 && length > 300 => {
            return Outcome::Refusal(5);
        }
        _ => {}
    }
    outcome
}
