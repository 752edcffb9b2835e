//! The calls of document 01, when they are refused, and what they answer.

use crate::access::Access;
use crate::list;
use std::fmt;

/// How many bytes a word has.
pub const WORD: u64 = 8;
/// How many words the memory has, and the largest K of a call.
pub const WORDS: u64 = 8_192;
/// How many bytes the memory has.
pub const BYTES: usize = 65_536;
/// The largest room of a log: more than the longest list needs.
pub const LARGEST_ROOM: u64 = 40_960;

#[derive(Clone, Copy)]
pub enum Routine {
    Copy { dest: u64, src: u64, n: u64 },
    Move { dest: u64, src: u64, n: u64 },
    Fill { dest: u64, value: i32, n: u64 },
    Compare { first: u64, second: u64, n: u64 },
    Bcmp { first: u64, second: u64, n: u64 },
    Strlen { start: u64 },
}

#[derive(Clone, Copy)]
pub struct Call {
    /// How many words are lent, at most `WORDS`: the text form has no call with more, so refusal 1 is not met here.
    pub k: u64,
    pub routine: Routine,
    /// How many numbers the log that is lent has room for; none, where the call has no log.
    pub room: Option<u64>,
}

#[derive(Clone, Copy, PartialEq, Eq)]
pub enum Outcome {
    Address(u64),
    Number(i32),
    Length(u64),
    Refusal(u8),
}

/// Loads of 1, 2, 4 and 8 bytes, then stores.
#[derive(Clone, Copy, Default, PartialEq, Eq)]
pub struct Counts(pub [u64; 8]);

impl Call {
    /// How many bytes are lent: document 01's M.
    fn end(&self) -> u64 {
        WORD * self.k
    }

    /// Document 01's table, and behind it refusal 6 of a logged call: the first line that holds.
    pub fn refusal(&self, memory: &[u8; BYTES]) -> Option<u8> {
        self.refusal_without_log(memory).or_else(|| self.log_too_short().then_some(6))
    }

    /// Refusal 6. Asked last, when the ranges are known to lie in the memory.
    fn log_too_short(&self) -> bool {
        self.room.is_some_and(|room| self.list().is_some_and(|list| room < list.len() as u64))
    }

    /// The list of a call whose ranges lie in the memory; none, where addresses and length alone do not make it.
    pub fn list(&self) -> Option<Vec<Access>> {
        match self.routine {
            Routine::Copy { dest, src, n } => Some(list::of_copy(WORD, dest, src, n)),
            Routine::Move { dest, src, n } => Some(list::of_move(WORD, dest, src, n)),
            Routine::Fill { dest, n, .. } => Some(list::of_fill(WORD, dest, n)),
            Routine::Compare { .. } | Routine::Bcmp { .. } | Routine::Strlen { .. } => None,
        }
    }

    fn refusal_without_log(&self, memory: &[u8; BYTES]) -> Option<u8> {
        let leaves = |address: u64, n: u64| u128::from(address) + u128::from(n) > u128::from(self.end());
        match self.routine {
            Routine::Copy { dest, src, n } => {
                first_that_holds(&[(2, leaves(dest, n)), (3, leaves(src, n)), (4, overlap(dest, src, n))])
            }
            Routine::Move { dest, src, n } => first_that_holds(&[(2, leaves(dest, n)), (3, leaves(src, n))]),
            Routine::Fill { dest, n, .. } => first_that_holds(&[(2, leaves(dest, n))]),
            Routine::Compare { first, second, n } | Routine::Bcmp { first, second, n } => {
                first_that_holds(&[(2, leaves(first, n)), (3, leaves(second, n))])
            }
            Routine::Strlen { start } if start >= self.end() => Some(2),
            Routine::Strlen { start } => {
                let zero = memory[start as usize..self.end() as usize].contains(&0);
                first_that_holds(&[(5, !zero)])
            }
        }
    }

    /// What the table says that a refusal of this call counts.
    pub fn refused_counts(&self, refusal: u8) -> Counts {
        match self.routine {
            Routine::Strlen { start } if refusal == 5 => Counts([self.end() - start, 0, 0, 0, 0, 0, 0, 0]),
            _ => Counts::default(),
        }
    }
}

fn first_that_holds(lines: &[(u8, bool)]) -> Option<u8> {
    lines.iter().find(|(_, holds)| *holds).map(|(number, _)| *number)
}

fn overlap(dest: u64, src: u64, n: u64) -> bool {
    let (dest, src, n) = (u128::from(dest), u128::from(src), u128::from(n));
    n > 0 && dest < src + n && src < dest + n
}

impl fmt::Display for Outcome {
    fn fmt(&self, f: &mut fmt::Formatter) -> fmt::Result {
        match self {
            Outcome::Address(address) => write!(f, "address {address}"),
            Outcome::Number(number) => write!(f, "number {number}"),
            Outcome::Length(length) => write!(f, "length {length}"),
            Outcome::Refusal(refusal) => write!(f, "refusal {refusal}"),
        }
    }
}

impl fmt::Display for Counts {
    fn fmt(&self, f: &mut fmt::Formatter) -> fmt::Result {
        let [a, b, c, d, e, g, h, i] = self.0;
        write!(f, "loads {a}/{b}/{c}/{d} stores {e}/{g}/{h}/{i}")
    }
}

impl Counts {
    /// Reads the counts at the start of a text, and hands back what follows them.
    pub fn read(text: &str) -> Option<(Counts, &str)> {
        let (loads, text) = four(text.strip_prefix("loads ")?)?;
        let (stores, text) = four(text.strip_prefix(" stores ")?)?;
        let mut counts = Counts::default();
        counts.0[..4].copy_from_slice(&loads);
        counts.0[4..].copy_from_slice(&stores);
        Some((counts, text))
    }
}

fn four(text: &str) -> Option<([u64; 4], &str)> {
    let (numbers, rest) = text.split_at(text.find(' ').unwrap_or(text.len()));
    let numbers: Vec<u64> = numbers.split('/').map(plain).collect::<Option<_>>()?;
    Some((numbers.try_into().ok()?, rest))
}

/// A number as the text form prints it: digits, with no zero in front.
fn plain(digits: &str) -> Option<u64> {
    let number: u64 = digits.parse().ok()?;
    (number.to_string() == digits).then_some(number)
}
