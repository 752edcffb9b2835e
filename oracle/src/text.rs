//! The text form of docs/TEXT-FORM.md: what a line asks, or why it is a bad one.

use crate::call::{Call, Routine, BYTES, LARGEST_ROOM, WORDS};

const LONGEST_LINE: usize = 16_383;

const LONG_LINE: &str = "a line above 16,383 bytes";
const UNKNOWN_WORD: &str = "unknown word";
const WRONG_FIELDS: &str = "wrong number of fields";
const NO_NUMBER: &str = "no number or one too large";
const MANY_WORDS: &str = "k above 8192";
const LONG_LOG: &str = "a log above 40960 numbers";
const ODD_HEX: &str = "an odd number of hex digits";
const OUTSIDE: &str = "a byte outside the memory";

/// Why a line is bad.
pub type Why = &'static str;

pub enum Command {
    Call(Call),
    Put { address: u64, bytes: Vec<u8> },
    Get { address: u64, count: u64 },
    Clear,
}

/// The lines of an input, without their newlines. The last may have none.
pub fn lines(input: &[u8]) -> impl Iterator<Item = &[u8]> {
    input.split_inclusive(|byte| *byte == b'\n').map(|line| line.strip_suffix(b"\n").unwrap_or(line))
}

/// What a line asks; nothing, where it has no field.
pub fn parse(line: &[u8]) -> Result<Option<Command>, Why> {
    if line.len() > LONGEST_LINE {
        return Err(LONG_LINE);
    }
    let read = line.split(|byte| *byte == b'#').next().unwrap_or_default();
    let fields = read.split(|byte| matches!(byte, b' ' | b'\t' | b'\r'));
    let mut fields = Fields(fields.filter(|field| !field.is_empty()));
    let Some(word) = fields.0.next() else {
        return Ok(None);
    };
    let command = fields.command(word)?;
    if fields.0.next().is_some() {
        return Err(WRONG_FIELDS);
    }
    if leaves_memory(&command) {
        return Err(OUTSIDE);
    }
    Ok(Some(command))
}

/// The fields that are still to be looked at, from left to right.
struct Fields<I>(I);

impl<'a, I: Iterator<Item = &'a [u8]>> Fields<I> {
    fn command(&mut self, word: &[u8]) -> Result<Command, Why> {
        Ok(match word {
            b"put" => Command::Put { address: self.number()?, bytes: self.hex()? },
            b"get" => Command::Get { address: self.number()?, count: self.number()? },
            b"clear" => Command::Clear,
            b"copy" | b"move" | b"fill" | b"compare" | b"bcmp" | b"strlen" => {
                Command::Call(Call { k: self.words()?, routine: self.routine(word)?, room: None })
            }
            b"copy-log" => self.logged(b"copy")?,
            b"move-log" => self.logged(b"move")?,
            b"fill-log" => self.logged(b"fill")?,
            _ => return Err(UNKNOWN_WORD),
        })
    }

    /// The call of this word, with the room of its log behind it.
    fn logged(&mut self, word: &[u8]) -> Result<Command, Why> {
        let (k, routine) = (self.words()?, self.routine(word)?);
        Ok(Command::Call(Call { k, routine, room: Some(self.room()?) }))
    }

    fn routine(&mut self, word: &[u8]) -> Result<Routine, Why> {
        Ok(match word {
            b"copy" => Routine::Copy { dest: self.number()?, src: self.number()?, n: self.number()? },
            b"move" => Routine::Move { dest: self.number()?, src: self.number()?, n: self.number()? },
            b"fill" => Routine::Fill { dest: self.number()?, value: self.value()?, n: self.number()? },
            b"compare" => Routine::Compare { first: self.number()?, second: self.number()?, n: self.number()? },
            b"bcmp" => Routine::Bcmp { first: self.number()?, second: self.number()?, n: self.number()? },
            _ => Routine::Strlen { start: self.number()? },
        })
    }

    fn field(&mut self) -> Result<&'a [u8], Why> {
        self.0.next().ok_or(WRONG_FIELDS)
    }

    fn words(&mut self) -> Result<u64, Why> {
        let k = self.number()?;
        if k > WORDS {
            return Err(MANY_WORDS);
        }
        Ok(k)
    }

    fn room(&mut self) -> Result<u64, Why> {
        let room = self.number()?;
        if room > LARGEST_ROOM {
            return Err(LONG_LOG);
        }
        Ok(room)
    }

    fn number(&mut self) -> Result<u64, Why> {
        let field = self.field()?;
        match field.strip_prefix(b"0x") {
            Some(digits) => unsigned(digits, 16),
            None => unsigned(field, 10),
        }
    }

    fn value(&mut self) -> Result<i32, Why> {
        let field = self.field()?;
        let value = match field.strip_prefix(b"-") {
            Some(digits) => -i128::from(unsigned(digits, 10)?),
            None => i128::from(unsigned(field, 10)?),
        };
        i32::try_from(value).map_err(|_| NO_NUMBER)
    }

    fn hex(&mut self) -> Result<Vec<u8>, Why> {
        let field = self.field()?;
        if field.len() % 2 == 1 {
            return Err(ODD_HEX);
        }
        field.chunks(2).map(|pair| Ok(digit(pair[0], 16)? * 16 + digit(pair[1], 16)?)).collect()
    }
}

fn unsigned(digits: &[u8], radix: u8) -> Result<u64, Why> {
    if digits.is_empty() {
        return Err(NO_NUMBER);
    }
    digits.iter().try_fold(0u64, |number, byte| {
        let digit = u64::from(digit(*byte, radix)?);
        number.checked_mul(radix.into()).and_then(|number| number.checked_add(digit)).ok_or(NO_NUMBER)
    })
}

fn digit(byte: u8, radix: u8) -> Result<u8, Why> {
    char::from(byte).to_digit(radix.into()).map(|digit| digit as u8).ok_or(NO_NUMBER)
}

fn leaves_memory(command: &Command) -> bool {
    let (address, count) = match command {
        Command::Put { address, bytes } => (*address, bytes.len() as u64),
        Command::Get { address, count } => (*address, *count),
        Command::Call(_) | Command::Clear => return false,
    };
    u128::from(address) + u128::from(count) > BYTES as u128
}

/// Bytes as the text form has them: two digits for each.
pub fn hex(bytes: &[u8]) -> String {
    const DIGITS: &[u8; 16] = b"0123456789abcdef";
    let digits = bytes.iter().flat_map(|byte| [byte >> 4, byte & 15]);
    digits.map(|digit| char::from(DIGITS[usize::from(digit)])).collect()
}
