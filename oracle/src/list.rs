//! Document 01's access lists, a second time: from addresses and length alone, in the document's words, and from nothing that is
//! proved. The ranges of a call that is asked for must lie in the memory.
//!
//! `word` is the word size, document 01's 8.

use crate::access::{Access, Kind};

/// Copy is forward.
pub fn of_copy(word: u64, dest: u64, src: u64, n: u64) -> Vec<Access> {
    List::new(word).forward(dest, src, n)
}

/// Move: forward if dest >= src + n or dest < src or n = 0, else backward.
pub fn of_move(word: u64, dest: u64, src: u64, n: u64) -> Vec<Access> {
    if dest >= src + n || dest < src || n == 0 {
        List::new(word).forward(dest, src, n)
    } else {
        List::new(word).backward(dest, src, n)
    }
}

/// Fill: below two words, n one-byte stores upward. Else the head, w stores of a word, the tail.
pub fn of_fill(word: u64, start: u64, n: u64) -> Vec<Access> {
    let mut list = List::new(word);
    let (head, words, tail) =
        if n < threshold(word) { (n, 0, 0) } else { phases(word, up_to_boundary(word, start), n) };
    list.stores_upward(1, start, head);
    list.stores_upward(word, start + head, words);
    list.stores_upward(1, start + head + words * word, tail);
    list.accesses
}

/// From how many bytes on a list has whole words: two words.
fn threshold(word: u64) -> u64 {
    2 * word
}

/// (-address) mod the word size.
fn up_to_boundary(word: u64, address: u64) -> u64 {
    (word - address % word) % word
}

/// h, w and t: the bytes of the head, the whole words behind it, the bytes that are left.
fn phases(word: u64, head: u64, n: u64) -> (u64, u64, u64) {
    (head, (n - head) / word, (n - head) % word)
}

/// The widths below a word, the widest first: 4, 2, 1.
fn narrower(word: u64) -> impl DoubleEndedIterator<Item = u64> {
    (0..word.ilog2()).rev().map(|digit| 1 << digit)
}

/// A list as far as it is written.
struct List {
    word: u64,
    accesses: Vec<Access>,
}

impl List {
    fn new(word: u64) -> List {
        List { word, accesses: Vec::new() }
    }

    fn load(&mut self, width: u64, address: u64) {
        self.accesses.push(Access { kind: Kind::Load, width, address });
    }

    fn store(&mut self, width: u64, address: u64) {
        self.accesses.push(Access { kind: Kind::Store, width, address });
    }

    /// `times` times load and store, from the starts upward.
    fn upward(&mut self, width: u64, dest: u64, src: u64, times: u64) {
        for place in (0..times).map(|turn| turn * width) {
            self.load(width, src + place);
            self.store(width, dest + place);
        }
    }

    /// `times` times load and store, from the ends downward.
    fn downward(&mut self, width: u64, dest_end: u64, src_end: u64, times: u64) {
        for place in (1..=times).map(|turn| turn * width) {
            self.load(width, src_end - place);
            self.store(width, dest_end - place);
        }
    }

    fn stores_upward(&mut self, width: u64, start: u64, times: u64) {
        for turn in 0..times {
            self.store(width, start + turn * width);
        }
    }

    /// Widths 4, 2, 1 in that order, each where m has that binary digit, at rising addresses from the start of a word.
    fn front_partial_load(&mut self, start: u64, m: u64) {
        let mut address = start;
        for width in narrower(self.word).filter(|width| m & width != 0) {
            self.load(width, address);
            address += width;
        }
    }

    /// Widths 1, 2, 4 in that order, at rising addresses up to the end of a word.
    fn end_partial_load(&mut self, end: u64, m: u64) {
        let mut address = end - m;
        for width in narrower(self.word).rev().filter(|width| m & width != 0) {
            self.load(width, address);
            address += width;
        }
    }

    fn forward(mut self, dest: u64, src: u64, n: u64) -> Vec<Access> {
        let word = self.word;
        if n < threshold(word) {
            self.upward(1, dest, src, n);
            return self.accesses;
        }
        let (head, words, tail) = phases(word, up_to_boundary(word, dest), n);
        self.upward(1, dest, src, head);
        let (d, s) = (dest + head, src + head);
        match s % word {
            0 => self.upward(word, d, s, words),
            offset => self.words_upward(d, s, offset, words),
        }
        self.upward(1, d + words * word, s + words * word, tail);
        self.accesses
    }

    /// The words of a source that lies `offset` bytes past a boundary: what the first word has of it, then word after word, of
    /// the last its start alone.
    fn words_upward(&mut self, d: u64, s: u64, offset: u64, words: u64) {
        let word = self.word;
        let first = s - offset;
        self.end_partial_load(first + word, word - offset);
        for place in (1..words).map(|turn| turn * word) {
            self.load(word, first + place);
            self.store(word, d + place - word);
        }
        self.front_partial_load(first + words * word, offset);
        self.store(word, d + words * word - word);
    }

    /// The mirror, from the ends.
    fn backward(mut self, dest: u64, src: u64, n: u64) -> Vec<Access> {
        let word = self.word;
        let (dest_end, src_end) = (dest + n, src + n);
        if n < threshold(word) {
            self.downward(1, dest_end, src_end, n);
            return self.accesses;
        }
        let (head, words, tail) = phases(word, dest_end % word, n);
        self.downward(1, dest_end, src_end, head);
        let (d, s) = (dest_end - head, src_end - head);
        match s % word {
            0 => self.downward(word, d, s, words),
            offset => self.words_downward(d, s, offset, words),
        }
        self.downward(1, d - words * word, s - words * word, tail);
        self.accesses
    }

    /// The words of a source that ends `offset` bytes past a boundary: the start of the word that holds the end, then word after
    /// word below it, of the last its end alone.
    fn words_downward(&mut self, d: u64, s: u64, offset: u64, words: u64) {
        let word = self.word;
        let last = s - offset;
        self.front_partial_load(last, offset);
        for place in (1..words).map(|turn| turn * word) {
            self.load(word, last - place);
            self.store(word, d - place);
        }
        self.end_partial_load(last - words * word + word, word - offset);
        self.store(word, d - words * word);
    }
}
