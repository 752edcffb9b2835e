//! Holds the logs and the counts of `calls`, and the oracle's own lists, against the traced accesses of the Rust.

use oracle::access::{log, log_difference, Access};
use oracle::arguments::{exit, grouped, write, Arguments};
use oracle::call::Call;
use oracle::machine::Answer;
use oracle::program::Program;
use oracle::trace::{fault, trace, Traced};
use std::path::PathBuf;
use std::process::ExitCode;

/// Every length that is traced.
const LENGTHS: std::ops::RangeInclusive<usize> = 0..=50;

fn main() -> ExitCode {
    exit(run())
}

fn run() -> Result<bool, String> {
    let mut arguments = Arguments::new()?;
    let program = Program::calls(&mut arguments)?;
    let kept = arguments.value("--keep")?.map_or(arguments.built("accesses"), PathBuf::from);
    arguments.none_left()?;
    let input = commands().join("\n").into_bytes();
    let lines = trace(&arguments.built("release/traced"), &input)?;
    keep(&kept, &lines)?;
    let calls = lines.iter().filter(|line| line.accesses.is_some()).count();
    let accesses: usize = lines.iter().filter_map(|line| line.accesses.as_ref()).map(Vec::len).sum();
    println!("{} calls and {} accesses traced", grouped(calls), grouped(accesses));
    let asked: Vec<Asked> = lines.iter().flat_map(asked).collect();
    let input = asked.iter().flat_map(|asked| [asked.line.as_bytes(), b"\n"]).flatten().copied().collect();
    let answers = program.answers(input, asked.len())?;
    let (mut logs, mut answers) = (0, answers.iter());
    for asked in &asked {
        if let Some(difference) = asked.difference(answers.next().map_or("", String::as_str)) {
            println!("differs: {}\n{difference}", asked.line);
            return Ok(false);
        }
        logs += usize::from(asked.logged());
    }
    println!("{} logs compared entry by entry, with the Rust and with the oracle's list", grouped(logs));
    println!("each access aligned and inside its range, 0 differ");
    Ok(true)
}

/// A line that `calls` is asked, with what the Rust makes of it.
struct Asked<'a> {
    line: String,
    answer: Answer,
    traced: Option<&'a [Access]>,
}

/// A traced line as it is, and then the same call with a log. No line here is silent.
fn asked<'a>(line: &'a Traced) -> Vec<Asked<'a>> {
    let plain = line.answer.clone().map(|answer| Asked {
        line: String::from_utf8_lossy(line.line).into_owned(),
        answer,
        traced: line.accesses.as_deref(),
    });
    let logged = plain.as_ref().and_then(Asked::with_log);
    plain.into_iter().chain(logged).collect()
}

impl Asked<'_> {
    /// The same call with a log that its list just fills; none, where it has no list.
    fn with_log(&self) -> Option<Self> {
        let Answer::Call(call, outcome) = self.answer else {
            return None;
        };
        let room = call.list()?.len();
        let answer = Answer::Call(Call { room: Some(room as u64), ..call }, outcome);
        Some(Asked { line: format!("{} {room}", self.line.replacen(' ', "-log ", 1)), answer, ..*self })
    }

    fn logged(&self) -> bool {
        matches!(self.answer, Answer::Call(Call { room: Some(_), .. }, _))
    }

    fn difference(&self, found: &str) -> Option<String> {
        self.fault().or_else(|| {
            let wanted = self.answer.words(self.traced);
            let entry = log_difference(found, &wanted).map_or(String::new(), |entry| format!("\n  {entry}"));
            let agrees = self.answer.is(found, self.traced);
            (!agrees).then(|| format!("  calls {found}\n  Rust  {wanted}{entry}"))
        })
    }

    /// What is wrong with the Rust's accesses, or with the oracle's own list of them.
    fn fault(&self) -> Option<String> {
        let (Answer::Call(call, outcome), Some(traced)) = (&self.answer, self.traced) else {
            return None;
        };
        for access in traced {
            if let Some(fault) = fault(call, outcome, access) {
                return Some(format!("  the Rust's {access} {fault}"));
            }
        }
        let list = call.list().filter(|list| list != traced)?;
        Some(format!("  list{}\n  Rust{}", log(&list), log(traced)))
    }
}

/// Writes the commands, each accepted call with its accesses behind it as a comment: `calls` can read the file as it is.
fn keep(path: &std::path::Path, lines: &[Traced]) -> Result<(), String> {
    let mut text = String::new();
    for line in lines {
        text += &String::from_utf8_lossy(line.line);
        if let Some(accesses) = &line.accesses {
            text += " #";
            for access in accesses {
                text += &format!(" {access}");
            }
        }
        text.push('\n');
    }
    write(path, text.as_bytes())
}

fn commands() -> Vec<String> {
    [apart(), overlapping(), fills(), compares("compare"), compares("bcmp"), strings()].concat()
}

/// Copies and moves at every alignment, the destination below the source and above it.
fn apart() -> Vec<String> {
    let mut lines = Vec::new();
    for n in LENGTHS {
        for (low, high) in (0..64).map(|place| (8 + place / 8, 72 + place % 8)) {
            for word in ["copy", "move"] {
                lines.push(format!("{word} 17 {low} {high} {n}"));
                lines.push(format!("{word} 17 {high} {low} {n}"));
            }
        }
    }
    lines
}

/// Moves at every distance up to the length, and copies of neighbouring ranges, at each alignment.
fn overlapping() -> Vec<String> {
    let mut lines = Vec::new();
    for n in LENGTHS {
        for src in 56..64 {
            lines.extend((src - n..=src + n).map(|dest| format!("move 21 {dest} {src} {n}")));
            lines.push(format!("copy 21 {} {src} {n}", src - n));
            lines.push(format!("copy 21 {} {src} {n}", src + n));
        }
    }
    lines
}

fn fills() -> Vec<String> {
    let fill = |place: usize| format!("fill 9 {} {} {}", 8 + place % 8, place as i32 - 200, place / 8);
    (0..8 * 51).map(fill).collect()
}

/// Compares of zeros at every alignment, and then with a difference at each place.
fn compares(word: &str) -> Vec<String> {
    let mut lines = vec!["clear".to_string()];
    for n in LENGTHS {
        for (first, second) in (0..64).map(|place| (8 + place / 8, 72 + place % 8)) {
            lines.push(format!("{word} 17 {first} {second} {n}"));
        }
        for place in 0..n {
            let (first, second) = (8 + n % 8, 72 + place % 8);
            lines.push(format!("put {} ff", second + place));
            lines.push(format!("{word} 17 {first} {second} {n}"));
            lines.push(format!("{word} 17 {second} {first} {n}"));
            lines.push(format!("put {} 00", second + place));
        }
    }
    lines
}

/// Strings from each alignment, with the first zero at each place.
fn strings() -> Vec<String> {
    let mut lines = vec!["fill 9 0 255 72".to_string()];
    for length in LENGTHS {
        for start in 8..16 {
            lines.push(format!("put {} 00", start + length));
            lines.push(format!("strlen 9 {start}"));
            lines.push(format!("put {} ff", start + length));
        }
    }
    lines
}
