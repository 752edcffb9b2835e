//! Calls at random, on a memory that lasts from one to the next.

use crate::batch::{Batch, WHOLE};
use oracle::call::{BYTES, LARGEST_ROOM, WORD, WORDS};
use oracle::list;

/// How many calls go to one run, and after how many of them the whole memory is read back and given fresh contents.
const CALLS: usize = 10_000;
const CALLS_BETWEEN: usize = 500;

pub fn batches(calls: usize, seed: u64) -> impl Iterator<Item = Batch> {
    let mut source = Source { state: seed, calls: 0 };
    std::iter::from_fn(move || {
        (source.calls < calls).then(|| {
            let mut batch = Batch::default();
            let end = calls.min(source.calls + CALLS);
            while source.calls < end {
                source.stretch(&mut batch, end.min(source.calls + CALLS_BETWEEN));
            }
            batch
        })
    })
}

struct Source {
    state: u64,
    /// How many calls have been made.
    calls: usize,
}

/// Two ranges of one length, in or near the memory of k words.
struct Ranges {
    k: u64,
    first: u64,
    second: u64,
    n: u64,
}

impl Source {
    /// The next number of a fixed generator (splitmix64).
    fn next(&mut self) -> u64 {
        self.state = self.state.wrapping_add(0x9e37_79b9_7f4a_7c15);
        let mut mixed = self.state;
        mixed = (mixed ^ (mixed >> 30)).wrapping_mul(0xbf58_476d_1ce4_e5b9);
        mixed = (mixed ^ (mixed >> 27)).wrapping_mul(0x94d0_49bb_1331_11eb);
        mixed ^ (mixed >> 31)
    }

    /// From 0 to `most`.
    fn up_to(&mut self, most: u64) -> u64 {
        self.next() % (most + 1)
    }

    fn one_in(&mut self, turns: u64) -> bool {
        self.up_to(turns - 1) == 0
    }

    fn bytes(&mut self, count: usize) -> Vec<u8> {
        (0..count).map(|_| self.next() as u8).collect()
    }

    /// Fresh contents, calls up to `end`, and the whole memory.
    fn stretch(&mut self, batch: &mut Batch, end: usize) {
        let contents = self.bytes(BYTES);
        batch.put(0, &contents);
        while self.calls < end {
            let ranges = self.ranges();
            match self.up_to(9) {
                0..=2 => self.copy(batch, ranges),
                3..=5 => self.shift(batch, ranges),
                6 => self.fill(batch, ranges),
                7 => self.compare(batch, ranges),
                8 => self.string(batch, ranges),
                _ => self.near_edges(batch, ranges),
            }
        }
        batch.line(WHOLE.to_string());
    }

    fn call(&mut self, batch: &mut Batch, call: String) {
        self.calls += 1;
        batch.line(call);
    }

    /// A call, every third time with a log.
    fn call_or_logged(&mut self, batch: &mut Batch, word: &str, fields: String, list: usize) {
        if self.one_in(3) {
            let room = self.room(list as u64);
            self.call(batch, format!("{word}-log {fields} {room}"));
        } else {
            self.call(batch, format!("{word} {fields}"));
        }
    }

    /// Most often room for the list; else about that much, or any.
    fn room(&mut self, list: u64) -> u64 {
        match self.up_to(7) {
            0..=3 => list,
            4 => list.saturating_sub(1),
            5 => list + self.up_to(16),
            6 => LARGEST_ROOM,
            _ => self.up_to(LARGEST_ROOM),
        }
    }

    /// Every second time the next size in turn, so that each is met; otherwise a small one or any.
    fn words(&mut self) -> u64 {
        if self.calls.is_multiple_of(2) {
            self.calls as u64 / 2 % (WORDS + 1)
        } else if self.one_in(2) {
            self.up_to(16)
        } else {
            self.up_to(WORDS)
        }
    }

    fn length(&mut self, most: u64) -> u64 {
        let most = match self.up_to(31) {
            0 => most,
            1..=3 => most.min(4_096),
            4..=12 => most.min(512),
            _ => most.min(64),
        };
        self.up_to(most)
    }

    /// An address from 0 to `last`, often near one of the two.
    fn place(&mut self, last: u64) -> u64 {
        match self.up_to(3) {
            0 => self.up_to(last.min(16)),
            1 => last - self.up_to(last.min(16)),
            _ => self.up_to(last),
        }
    }

    /// Two ranges in the memory: at a small distance, at one that overlaps, side by side, the same, or anywhere.
    fn ranges(&mut self) -> Ranges {
        let k = self.words();
        let n = self.length(8 * k);
        let last = 8 * k - n;
        let first = self.place(last);
        let distance = match self.up_to(9) {
            0..=2 => self.up_to(24),
            3 => self.up_to(n),
            4 => n,
            5 => 0,
            _ => return Ranges { k, first, second: self.place(last), n },
        };
        let second = if self.one_in(2) { first + distance } else { first.saturating_sub(distance) };
        Ranges { k, first, second: second.min(last), n }
    }

    fn copy(&mut self, batch: &mut Batch, Ranges { k, first, second, n }: Ranges) {
        // As ranges that overlap are refused, most of these are shortened until they do not.
        let n = if self.one_in(8) { n } else { n.min(first.abs_diff(second)) };
        let list = list::of_copy(WORD, first, second, n).len();
        self.call_or_logged(batch, "copy", format!("{k} {first} {second} {n}"), list);
        self.look(batch, first, n);
    }

    fn shift(&mut self, batch: &mut Batch, Ranges { k, first, second, n }: Ranges) {
        let list = list::of_move(WORD, first, second, n).len();
        self.call_or_logged(batch, "move", format!("{k} {first} {second} {n}"), list);
        self.look(batch, first, n);
    }

    fn fill(&mut self, batch: &mut Batch, Ranges { k, first, n, .. }: Ranges) {
        let value = self.next() as i32;
        let list = list::of_fill(WORD, first, n).len();
        self.call_or_logged(batch, "fill", format!("{k} {first} {value} {n}"), list);
        self.look(batch, first, n);
    }

    /// Reads a short destination back at once, with the bytes beside it, before another call stores there.
    fn look(&mut self, batch: &mut Batch, address: u64, n: u64) {
        if n <= 256 && self.one_in(2) {
            let (start, end) = (address.saturating_sub(8), (address + n + 8).min(BYTES as u64));
            batch.line(format!("get {start} {}", end - start));
        }
    }

    /// Compares two ranges as they are, or made equal first, or then made different at one byte.
    fn compare(&mut self, batch: &mut Batch, Ranges { k, first, second, n }: Ranges) {
        let kind = self.up_to(5);
        if kind > 0 {
            self.call(batch, format!("move {k} {first} {second} {n}"));
        }
        if kind > 1 && n > 0 {
            let place = if self.one_in(2) { first } else { second } + self.place(n - 1);
            batch.line(format!("put {place} {:02x}", self.next() as u8));
        }
        let word = if self.one_in(3) { "bcmp" } else { "compare" };
        self.call(batch, format!("{word} {k} {first} {second} {n}"));
    }

    /// A string as it stands, or n bytes without a zero and then perhaps one.
    fn string(&mut self, batch: &mut Batch, Ranges { k, first, n, .. }: Ranges) {
        if !self.one_in(4) {
            let value = 1 + self.up_to(254);
            self.call(batch, format!("fill {k} {first} {value} {n}"));
            if first + n < BYTES as u64 && !self.one_in(4) {
                batch.line(format!("put {} 00", first + n));
            }
        }
        self.call(batch, format!("strlen {k} {first}"));
    }

    /// Any call, one of its numbers moved to an edge of what is accepted, or far away.
    fn near_edges(&mut self, batch: &mut Batch, mut ranges: Ranges) {
        let end = 8 * ranges.k;
        let number = match self.up_to(3) {
            0 => end.saturating_sub(ranges.n) + self.up_to(2),
            1 => end.saturating_sub(1) + self.up_to(2),
            2 => u64::MAX - self.up_to(16),
            _ => self.next(),
        };
        match self.up_to(2) {
            0 => ranges.first = number,
            1 => ranges.second = number,
            _ => ranges.n = number,
        }
        let Ranges { k, first, second, n } = ranges;
        let room = self.up_to(64);
        let call = match self.up_to(8) {
            0 => format!("fill {k} {first} {} {n}", self.next() as i32),
            1 => format!("strlen {k} {first}"),
            2 => format!("fill-log {k} {first} {} {n} {room}", self.next() as i32),
            3 => format!("copy-log {k} {first} {second} {n} {room}"),
            4 => format!("move-log {k} {first} {second} {n} {room}"),
            word => format!("{} {k} {first} {second} {n}", ["copy", "move", "compare", "bcmp"][word as usize - 5]),
        };
        self.call(batch, call);
    }
}
