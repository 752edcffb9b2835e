//! An access, as document 01 speaks of it; what a list of them counts, and how a log has it.

use crate::call::Counts;
use std::fmt;

#[derive(Clone, Copy, PartialEq, Eq)]
pub enum Kind {
    Load,
    Store,
}

#[derive(Clone, Copy, PartialEq, Eq)]
pub struct Access {
    pub kind: Kind,
    pub width: u64,
    pub address: u64,
}

/// What a log adds to an address: this for each step of the width code, which is 0, 1, 2, 3 for 1, 2, 4, 8 bytes.
const WIDTH_CODE: u64 = 65_536;
/// And this for a store.
const STORE: u64 = 262_144;

impl Access {
    /// The number that a log has for it.
    pub fn entry(&self) -> u64 {
        let store = if self.kind == Kind::Store { STORE } else { 0 };
        self.address + WIDTH_CODE * u64::from(self.width.ilog2()) + store
    }

    /// The access that a log's number stands for, if any.
    pub fn of_entry(entry: u64) -> Option<Access> {
        let kind = if entry < STORE { Kind::Load } else { Kind::Store };
        let (code, address) = (entry % STORE / WIDTH_CODE, entry % WIDTH_CODE);
        (entry < 2 * STORE).then_some(Access { kind, width: 1 << code, address })
    }
}

impl fmt::Display for Access {
    fn fmt(&self, f: &mut fmt::Formatter) -> fmt::Result {
        let kind = match self.kind {
            Kind::Load => 'L',
            Kind::Store => 'S',
        };
        write!(f, "{kind}{}@{}", self.width, self.address)
    }
}

/// What a list counts.
pub fn counts(list: &[Access]) -> Counts {
    let mut counts = Counts::default();
    for access in list {
        let stores = if access.kind == Kind::Store { 4 } else { 0 };
        counts.0[stores + access.width.ilog2() as usize] += 1;
    }
    counts
}

/// A list as the end of a logged call's answer has it.
pub fn log(list: &[Access]) -> String {
    let mut log = " log".to_string();
    for access in list {
        log.push(' ');
        log += &access.entry().to_string();
    }
    log
}

/// The first entry in which the logs at the end of two answers differ, in words; none, where not both have one.
pub fn log_difference(calls: &str, wanted: &str) -> Option<String> {
    let (_, calls) = calls.split_once(" log")?;
    let (_, wanted) = wanted.split_once(" log")?;
    let (mut calls, mut wanted) = (calls.split_whitespace(), wanted.split_whitespace());
    let mut place = 1;
    loop {
        match (calls.next(), wanted.next()) {
            (None, None) => return None,
            (found, wanted) if found == wanted => place += 1,
            (found, wanted) => {
                return Some(format!("entry {place} of the log: calls {}, wanted {}", spoken(found), spoken(wanted)))
            }
        }
    }
}

/// An entry with the access that it stands for.
fn spoken(entry: Option<&str>) -> String {
    let access = entry.and_then(|entry| entry.parse().ok()).and_then(Access::of_entry);
    match (entry, access) {
        (None, _) => "none".to_string(),
        (Some(entry), None) => entry.to_string(),
        (Some(entry), Some(access)) => format!("{entry} ({access})"),
    }
}
