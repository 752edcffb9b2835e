//! Every call of its kind on a small memory.

use crate::batch::{Batch, WHOLE};
use crate::lines;
use oracle::call::{LARGEST_ROOM, WORD};
use oracle::list;

/// How many lines go to one run, and after how many of them the whole memory is read back.
const LINES: usize = 30_000;
const LINES_BETWEEN: usize = 1_000;
const PAIRS: [&str; 4] = ["copy", "move", "compare", "bcmp"];
const LOGGED: [&str; 2] = ["copy-log", "move-log"];

pub fn batches() -> impl Iterator<Item = Batch> {
    let lines = lines::groups()
        .chain(copies())
        .chain(fills())
        .chain(logged_copies())
        .chain(logged_fills())
        .chain(compares())
        .chain(all_bytes())
        .chain(strings())
        .chain(refusals());
    let mut groups = lines.peekable();
    std::iter::from_fn(move || {
        groups.peek()?;
        let mut batch = Batch::default();
        let mut read_back = 0;
        while let Some(group) = groups.next_if(|_| batch.lines.len() < LINES) {
            batch.lines.extend(group);
            if batch.lines.len() >= read_back + LINES_BETWEEN || groups.peek().is_none() {
                batch.line(WHOLE.to_string());
                read_back = batch.lines.len();
            }
        }
        Some(batch)
    })
}

/// Lines that go to the same run.
pub type Group = Vec<String>;

/// 64 distinct bytes, others at every second turn, a call, and the bytes afterwards.
fn seen(turn: usize, call: String) -> Group {
    let bytes: Vec<u8> = (0..64).map(|place| place + 1 + 128 * (turn as u8 % 2)).collect();
    vec![format!("put 0 {}", oracle::text::hex(&bytes)), call, "get 0 64".to_string()]
}

/// Two ranges of every length in 48 bytes: destination, source and length.
fn pairs() -> impl Iterator<Item = (u64, u64, u64)> {
    (0..=48).flat_map(|n| (0..=48 - n).flat_map(move |dest| (0..=48 - n).map(move |src| (dest, src, n))))
}

/// Every copy and move with both ranges in 48 bytes, and 16 bytes beyond them that must stay.
fn copies() -> impl Iterator<Item = Group> {
    pairs().flat_map(|(dest, src, n)| {
        ["copy", "move"].map(|word| seen((dest + src) as usize, format!("{word} 6 {dest} {src} {n}")))
    })
}

/// The same with a log.
fn logged_copies() -> impl Iterator<Item = Group> {
    pairs().flat_map(|(dest, src, n)| {
        let copy = rooms(list::of_copy(WORD, dest, src, n).len(), format!("copy-log 6 {dest} {src} {n}"));
        let shift = rooms(list::of_move(WORD, dest, src, n).len(), format!("move-log 6 {dest} {src} {n}"));
        copy.chain(shift)
    })
}

/// A logged call with room for its list, for one number less, for one more, for none and for the most.
fn rooms(list: usize, call: String) -> impl Iterator<Item = Group> {
    let rooms = [list as u64, (list as u64).saturating_sub(1), list as u64 + 1, 0, LARGEST_ROOM];
    rooms.into_iter().enumerate().map(move |(turn, room)| seen(turn, format!("{call} {room}")))
}

fn fills() -> impl Iterator<Item = Group> {
    const VALUES: [i32; 8] = [0, 90, 255, 256, -1, -256, i32::MAX, i32::MIN];
    (0..=48).flat_map(|n| {
        (0..=48 - n).flat_map(move |dest| VALUES.map(|value| seen(dest, format!("fill 6 {dest} {value} {n}"))))
    })
}

/// Every fill in 48 bytes with a log.
fn logged_fills() -> impl Iterator<Item = Group> {
    let places = (0..=48).flat_map(|n| (0..=48 - n).map(move |dest| (dest, n)));
    places.flat_map(|(dest, n)| rooms(list::of_fill(WORD, dest, n).len(), format!("fill-log 6 {dest} {dest} {n}")))
}

/// Every compare with both ranges in 16 bytes that are all the same but one, or but none.
fn compares() -> impl Iterator<Item = Group> {
    let contents = (0..=16).flat_map(|place| [(0, 255), (255, 0), (127, 128), (1, 0)].map(|bytes| (place, bytes)));
    contents.map(|(place, (most, one))| {
        let mut bytes = [most; 17];
        bytes[place] = one;
        let mut group = vec![format!("put 0 {}", oracle::text::hex(&bytes))];
        for n in 0..=16 {
            for (first, second) in (0..=16 - n).flat_map(|first| (0..=16 - n).map(move |second| (first, second))) {
                group.push(format!("compare 2 {first} {second} {n}"));
                group.push(format!("bcmp 2 {first} {second} {n}"));
            }
        }
        group.push("get 0 24".to_string());
        group
    })
}

/// Every byte against every byte.
fn all_bytes() -> impl Iterator<Item = Group> {
    let bytes: Vec<u8> = (0..=255).collect();
    let put = format!("put 0 {}", oracle::text::hex(&bytes));
    (0..256).map(move |first| {
        let compare = |second: usize| ["compare", "bcmp"].map(|word| format!("{word} 32 {first} {second} 1"));
        [vec![put.clone()], (0..256).flat_map(compare).collect()].concat()
    })
}

/// Strings from every start in up to 24 bytes, with a zero at one place, and another behind them.
fn strings() -> impl Iterator<Item = Group> {
    (0..=32).map(|place| {
        let mut bytes: Vec<u8> = (0..40).map(|place| place + 216).collect();
        bytes[place] = 0;
        let mut group = vec![format!("put 0 {}", oracle::text::hex(&bytes))];
        for k in 0..=3 {
            group.extend((0..=26).map(|start| format!("strlen {k} {start}")));
        }
        group.push("get 0 48".to_string());
        group
    })
}

/// Every call on 0, 1 and 2 words, with each address and length up to a little past their end, and some near 2^64. A log has no
/// room, so that each other refusal must come before that of the log.
fn refusals() -> impl Iterator<Item = Group> {
    (0..=2).flat_map(|k: u64| {
        let far = [1 << 63, 0u64.wrapping_sub(8 * k + 1), u64::MAX - 15, u64::MAX - 7, u64::MAX - 1, u64::MAX];
        let numbers: Vec<u64> = (0..=8 * k + 2).chain(far).collect();
        let mut calls: Vec<String> = Vec::new();
        for first in &numbers {
            calls.push(format!("strlen {k} {first}"));
            for n in &numbers {
                calls.push(format!("fill {k} {first} 77 {n}"));
                calls.push(format!("fill-log {k} {first} 77 {n} 0"));
                for second in &numbers {
                    calls.extend(PAIRS.map(|word| format!("{word} {k} {first} {second} {n}")));
                    calls.extend(LOGGED.map(|word| format!("{word} {k} {first} {second} {n} 0")));
                }
            }
        }
        calls.into_iter().enumerate().map(|(turn, call)| seen(turn, call))
    })
}
