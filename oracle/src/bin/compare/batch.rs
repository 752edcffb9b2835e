//! Commands that go to one run of `calls`, which starts with a cleared memory.

use oracle::access::log_difference;
use oracle::call::BYTES;
use oracle::machine::{Answer, Machine};
use oracle::program::Program;
use oracle::text;

/// Reads the whole memory back.
pub const WHOLE: &str = "get 0 65536";
/// How many bytes a `put` has at most, for its line not to be too long.
const PUT: usize = 4_096;

/// Every line has an answer.
#[derive(Default)]
pub struct Batch {
    pub lines: Vec<String>,
}

/// What the Rust answers.
pub struct Answers {
    answers: Vec<Answer>,
    pub calls: usize,
    pub accepted: usize,
}

/// The first line that differs.
pub struct Difference {
    pub said: String,
    /// An input that ends in that line, and shows the difference.
    pub input: Vec<u8>,
}

impl Batch {
    pub fn line(&mut self, line: String) {
        self.lines.push(line);
    }

    /// Sets bytes, of any number.
    pub fn put(&mut self, address: usize, bytes: &[u8]) {
        for (place, part) in bytes.chunks(PUT).enumerate() {
            self.line(format!("put {} {}", address + PUT * place, text::hex(part)));
        }
    }

    pub fn answers(&self) -> Answers {
        let mut machine = Machine::default();
        let answers: Vec<Answer> = self.lines.iter().filter_map(|line| machine.answer(line.as_bytes())).collect();
        let calls = answers.iter().filter(|answer| answer.call()).count();
        let accepted = answers.iter().filter(|answer| answer.accepted()).count();
        Answers { answers, calls, accepted }
    }

    pub fn first_difference(&self, answers: &Answers, program: &Program) -> Result<Option<usize>, String> {
        let found = program.answers(self.input(), self.lines.len())?;
        let same = |place: usize| found.get(place).is_some_and(|line| answers.answers[place].is(line, None));
        Ok((0..answers.answers.len()).find(|place| !same(*place)))
    }

    fn input(&self) -> Vec<u8> {
        self.lines.iter().flat_map(|line| [line.as_bytes(), b"\n"]).flatten().copied().collect()
    }

    /// Finds the line that made the answer at `place` differ: runs the batch again up to there, and reads the whole memory back
    /// after each line since it was last seen to be right.
    pub fn narrow(&self, place: usize, program: &Program) -> Result<Difference, String> {
        let right = self.lines[..place].iter().rposition(|line| line == WHOLE).map_or(0, |right| right + 1);
        let mut again = Batch { lines: self.lines[..right].to_vec() };
        for line in &self.lines[right..=place] {
            again.line(line.clone());
            if !line.starts_with("get") {
                again.line(WHOLE.to_string());
            }
        }
        let Some(place) = again.first_difference(&again.answers(), program)? else {
            let said = format!("differs: {}\n  but not when it is run again", self.lines[place]);
            return Ok(Difference { said, input: self.input() });
        };
        again.lines.truncate(place + 1);
        let said = again.last_difference(program)?;
        let short = again.with_its_memory_put();
        // A fault that comes from more than the memory needs all that went before.
        let shown = matches!(short.first_difference(&short.answers(), program), Ok(Some(_)));
        Ok(Difference { said, input: if shown { short.input() } else { again.input() } })
    }

    /// Where the line stands that the last answer speaks of: the last, or the one whose memory it reads back.
    fn culprit(&self) -> usize {
        let last = self.lines.len() - 1;
        if self.lines[last] == WHOLE && last > 0 {
            last - 1
        } else {
            last
        }
    }

    /// Both answers to the last line, in words.
    fn last_difference(&self, program: &Program) -> Result<String, String> {
        let found = program.answers(self.input(), self.lines.len())?;
        let last = self.lines.len() - 1;
        let calls = found.get(last).map_or("nothing", String::as_str);
        let rust = self.answers().answers[last].words(None);
        // The file has a long put whole.
        let line: String = self.lines[self.culprit()].chars().take(120).collect();
        let byte = (0..BYTES).find(|byte| byte_of(calls, *byte) != byte_of(&rust, *byte));
        Ok(match byte {
            Some(byte) if self.lines[last] == WHOLE => format!(
                "differs: {line}\n  byte {byte} of the memory after it: calls {}, Rust {}",
                byte_of(calls, byte),
                byte_of(&rust, byte)
            ),
            _ => {
                let entry = log_difference(calls, &rust).map_or(String::new(), |entry| format!("\n  {entry}"));
                format!("differs: {line}\n  calls  {}\n  oracle {}{entry}", short(calls), short(&rust))
            }
        })
    }

    /// The memory before the line that differs, that line, and the memory after it.
    fn with_its_memory_put(&self) -> Batch {
        let mut machine = Machine::default();
        for line in &self.lines[..self.culprit()] {
            machine.answer(line.as_bytes());
        }
        let mut short = Batch::default();
        short.put(0, machine.memory.bytes());
        short.line(self.lines[self.culprit()].clone());
        short.line(WHOLE.to_string());
        short
    }
}

/// A long log is cut: the entry that differs is said by itself.
fn short(answer: &str) -> String {
    const MOST: usize = 1_000;
    match answer.char_indices().nth(MOST) {
        Some((end, _)) => format!("{} ..", &answer[..end]),
        None => answer.to_string(),
    }
}

/// The digits of a byte in the answer to `get`.
fn byte_of(answer: &str, byte: usize) -> &str {
    answer.strip_prefix("bytes ").and_then(|hex| hex.get(2 * byte..2 * byte + 2)).unwrap_or("nothing")
}
