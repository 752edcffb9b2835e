//! The meaning of the text form: a memory that lasts from line to line, and an answer for each line.

use crate::access::{self, Access};
use crate::call::{Call, Counts, Outcome};
use crate::memory::Memory;
use crate::text::{self, Command};
use std::borrow::Cow;

/// What a line must be answered.
#[derive(Clone)]
pub enum Answer {
    Call(Call, Outcome),
    Other(String),
}

#[derive(Default)]
pub struct Machine {
    pub memory: Memory,
    /// How many lines have been read.
    line: u64,
}

impl Machine {
    /// The answer to the next line; none, where it says nothing.
    pub fn answer(&mut self, line: &[u8]) -> Option<Answer> {
        self.line += 1;
        match text::parse(line) {
            Ok(command) => command.map(|command| self.command(command)),
            Err(why) => Some(Answer::Other(format!("error {} {why}", self.line))),
        }
    }

    fn command(&mut self, command: Command) -> Answer {
        match command {
            Command::Call(call) => Answer::Call(call, self.memory.call(&call)),
            Command::Put { address, bytes } => {
                self.memory.bytes_mut()[address as usize..][..bytes.len()].copy_from_slice(&bytes);
                Answer::Other(format!("put {}", bytes.len()))
            }
            Command::Get { address, count } => {
                let bytes = &self.memory.bytes()[address as usize..][..count as usize];
                Answer::Other(format!("bytes {}", text::hex(bytes)).trim_end().to_string())
            }
            Command::Clear => {
                self.memory.bytes_mut().fill(0);
                Answer::Other("clear".to_string())
            }
        }
    }
}

impl Answer {
    pub fn call(&self) -> bool {
        matches!(self, Answer::Call(..))
    }

    pub fn accepted(&self) -> bool {
        matches!(self, Answer::Call(_, outcome) if !matches!(outcome, Outcome::Refusal(_)))
    }

    /// The accesses of an accepted call: those that were traced, or else those of its list, where it has one.
    fn accesses<'a>(&self, traced: Option<&'a [Access]>) -> Option<Cow<'a, [Access]>> {
        match self {
            Answer::Call(call, _) if self.accepted() => {
                traced.map(Cow::Borrowed).or_else(|| call.list().map(Cow::Owned))
            }
            _ => None,
        }
    }

    /// Those of a refusal stand in document 01's table. Those of an accepted call need its accesses.
    fn counts(&self, accesses: Option<&[Access]>) -> Option<Counts> {
        match self {
            Answer::Call(call, Outcome::Refusal(number)) => Some(call.refused_counts(*number)),
            _ => accesses.map(access::counts),
        }
    }

    /// The log at the end of the answer to a logged call, in words.
    fn log(&self, accesses: Option<&[Access]>) -> Option<String> {
        match self {
            Answer::Call(Call { room: Some(_), .. }, _) => Some(access::log(accesses.unwrap_or_default())),
            _ => None,
        }
    }

    /// Whether a line that `calls` wrote is this answer, its counts too where they are known, and its log to the last entry. There
    /// may be more words behind the counts of a call without a log.
    pub fn is(&self, line: &str, traced: Option<&[Access]>) -> bool {
        let outcome = match self {
            Answer::Other(answer) => return line == answer,
            Answer::Call(_, outcome) => outcome.to_string(),
        };
        let rest = line.strip_prefix(&outcome).and_then(|rest| rest.strip_prefix(' '));
        let Some((found, rest)) = rest.and_then(Counts::read) else {
            return false;
        };
        let accesses = self.accesses(traced);
        let same = self.counts(accesses.as_deref()).is_none_or(|counts| counts == found);
        same && match self.log(accesses.as_deref()) {
            Some(log) => rest == log,
            None => rest.is_empty() || rest.starts_with(' '),
        }
    }

    /// The answer in words, with the counts that are known.
    pub fn words(&self, traced: Option<&[Access]>) -> String {
        let outcome = match self {
            Answer::Other(answer) => return answer.clone(),
            Answer::Call(_, outcome) => outcome,
        };
        let accesses = self.accesses(traced);
        let counts = self.counts(accesses.as_deref()).map_or(String::new(), |counts| format!(" {counts}"));
        let log = self.log(accesses.as_deref()).unwrap_or_default();
        format!("{outcome}{counts}{log}")
    }
}
