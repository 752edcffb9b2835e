//! What the commands share: their arguments, their exit, and how they print a large number.

use std::path::{Path, PathBuf};
use std::process::ExitCode;

/// The arguments that have not been asked for yet.
pub struct Arguments {
    /// The top of the repository, which the scripts hand over first.
    pub root: PathBuf,
    rest: Vec<String>,
}

impl Arguments {
    pub fn new() -> Result<Arguments, String> {
        let mut arguments = std::env::args().skip(1);
        let root = arguments.next().ok_or("the top of the repository is the first argument")?;
        Ok(Arguments { root: PathBuf::from(root), rest: arguments.collect() })
    }

    pub fn flag(&mut self, name: &str) -> bool {
        let place = self.rest.iter().position(|argument| argument == name);
        place.map(|place| self.rest.remove(place)).is_some()
    }

    /// What follows the argument of this name.
    pub fn value(&mut self, name: &str) -> Result<Option<String>, String> {
        let Some(place) = self.rest.iter().position(|argument| argument == name) else {
            return Ok(None);
        };
        self.rest.remove(place);
        if place == self.rest.len() {
            return Err(format!("{name} is followed by nothing"));
        }
        Ok(Some(self.rest.remove(place)))
    }

    pub fn number(&mut self, name: &str) -> Result<Option<u64>, String> {
        let Some(value) = self.value(name)? else {
            return Ok(None);
        };
        value.parse().map(Some).map_err(|_| format!("{name} is followed by {value}, which is no number"))
    }

    /// A program or file by its name under target/oracle.
    pub fn built(&self, name: &str) -> PathBuf {
        self.root.join("target/oracle").join(name)
    }

    pub fn none_left(&self) -> Result<(), String> {
        match self.rest.first() {
            Some(argument) => Err(format!("unknown argument {argument}")),
            None => Ok(()),
        }
    }
}

/// Exit 0 where all is well, 1 where something differs or could not be done.
pub fn exit(result: Result<bool, String>) -> ExitCode {
    match result {
        Ok(true) => ExitCode::SUCCESS,
        Ok(false) => ExitCode::FAILURE,
        Err(why) => {
            eprintln!("{why}");
            ExitCode::FAILURE
        }
    }
}

/// A number with a comma before each three digits.
pub fn grouped(number: usize) -> String {
    let digits = number.to_string();
    let mut text = String::new();
    for (place, digit) in digits.chars().enumerate() {
        if place > 0 && (digits.len() - place).is_multiple_of(3) {
            text.push(',');
        }
        text.push(digit);
    }
    text
}

pub fn write(path: &Path, contents: &[u8]) -> Result<(), String> {
    std::fs::write(path, contents).map_err(|why| format!("{}: {why}", path.display()))
}
