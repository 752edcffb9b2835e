//! The program that is held against the Rust.

use crate::arguments::Arguments;
use crate::text;
use std::io::{Read, Write};
use std::path::PathBuf;
use std::process::{Command, Stdio};
use std::thread;

pub struct Program {
    path: PathBuf,
    arguments: Vec<String>,
}

impl Program {
    pub fn new(path: PathBuf, arguments: Vec<String>) -> Program {
        Program { path, arguments }
    }

    /// `--calls PATH`, or else where the project's build puts `calls`.
    pub fn calls(arguments: &mut Arguments) -> Result<Program, String> {
        let path = match arguments.value("--calls")? {
            Some(path) => PathBuf::from(path),
            None => arguments.root.join("crates/calls/out/calls"),
        };
        if !path.is_file() {
            return Err(format!("{} is not there: build it, or name another by --calls PATH", path.display()));
        }
        Ok(Program::new(path, Vec::new()))
    }

    /// What a fresh run answers to this input, line by line. More lines than are wanted are a failure.
    pub fn answers(&self, input: Vec<u8>, wanted: usize) -> Result<Vec<String>, String> {
        let failed = |why| format!("{}: {why}", self.path.display());
        let mut command = Command::new(&self.path);
        command.args(&self.arguments).stdin(Stdio::piped()).stdout(Stdio::piped());
        let mut child = command.spawn().map_err(failed)?;
        let (stdin, stdout) = (child.stdin.take(), child.stdout.take());
        // A program that ends before it has read everything shows by the answers that are missing.
        let writer = thread::spawn(move || stdin.map(|mut stdin| stdin.write_all(&input)));
        let mut output = Vec::new();
        stdout.map_or(Ok(0), |mut stdout| stdout.read_to_end(&mut output)).map_err(failed)?;
        let status = child.wait().map_err(failed)?;
        let _ = writer.join();
        let answers: Vec<String> = text::lines(&output).map(|line| String::from_utf8_lossy(line).into()).collect();
        // Where it failed too early, the answers that are missing say more.
        if answers.len() > wanted || answers.len() == wanted && !status.success() {
            let (path, count) = (self.path.display(), answers.len());
            return Err(format!("{path} wrote {count} lines for {wanted} commands, and ended with {status}"));
        }
        Ok(answers)
    }
}
