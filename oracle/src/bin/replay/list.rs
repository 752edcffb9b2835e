//! The commands of the replay: a fixed list.

use oracle::call::WORD;
use oracle::list;
use oracle::text::hex;

const PAIRS: [&str; 4] = ["copy", "move", "compare", "bcmp"];
/// The largest line that is read.
const LONGEST_LINE: usize = 16_383;

#[rustfmt::skip]
const BAD_LINES: [&str; 102] = [
    "", " ", "\t", "\r", " \t \r", "#", "# copy", "  # copy 1 0 0 0", "#copy", "put 0 0102030405060708", "copi",
    "COPY 1 0 0 0", "memcpy 1 0 0 0", "1", "-", "copy1 0 0 0", "copy\u{b}1 0 0 0", "put,0,00", "copy", "copy#1 0 0 0",
    "copy 1", "copy 1 0", "copy 1 0 4", "copy 1 0 4 4 4", "copy 1 0 4 4 # 4", "move 1 0 0", "fill 1 0 0",
    "compare 1 0 0", "bcmp 1 0 0", "strlen 1", "strlen", "strlen 1 0 0", "put", "put 0", "put 0 00 00", "get",
    "get 0", "get 0 0 0", "clear 0", "clear #0", "get 0 #0", "copy x", "copy -1 0 0 0", "copy 1 -1 0 0",
    "copy 1 0 +4 4", "copy 1 0 4 4x", "copy 1 0 4 4 x", "copy 0x 0 0 0", "copy 0x1g 0 0 0",
    "copy 1 0xffffffffffffffff 0 0", "copy 1 0x10000000000000000 0 0", "copy 1 0 18446744073709551615 0",
    "copy 1 0 18446744073709551616 0", "copy 1 a 0 0", "copy 1.0 0 0 0", "copy 8192 0 0 0", "copy 8193 0 0 0",
    "copy 0x2000 0 0 0", "copy 0x2001 0 0 0", "copy 8193", "copy 8193 x", "copy 18446744073709551615 0 0 0",
    "copy 18446744073709551616 0 0 0", "strlen 8193 0", "strlen 9x 0", "fill 1 0 2147483647 1",
    "fill 1 0 2147483648 1", "fill 1 0 -2147483648 1", "fill 1 0 -2147483649 1", "fill 1 0 0x10 1", "fill 1 0 - 1",
    "fill 1 0 --1 1", "fill 1 0 +1 1", "fill 1 0 -0x1 1", "fill 1 0 1- 1",
    "fill 1 0 -00000000000000000000000000000007 1", "fill 1 0 00000000000000000000000000000007 1",
    "fill 1 0 18446744073709551616 1", "fill 1 0 -18446744073709551616 1", "fill 8193 0 z 1", "get 0 8", "put 0 0",
    "put 0 000", "put 0 0g", "put 0 g", "put 0 0x", "put 0 0x00", "put x 0", "put 0 -1", "put 0 0 0", "put 65536 0",
    "put 65536 0g", "put 65536 00 00", "put 65536 00", "get 65537 x", "get 65536 1 1", "copy\t1\t0\t4\t4\r",
    " \t copy  1 \r 0 4 4 ", "get 0 8 \r", "clear\r", "get\t0 8# 9 9", "put 0 aB#cd",
];

#[rustfmt::skip]
const PUTS_AND_GETS: [&str; 28] = [
    "clear", "get 0 65536", "put 0 09afAF", "get 0 4", "get 0x0 0x4", "get 0xffff 1", "put 0xFFFF ff", "get 65535 1",
    "get 65536 0", "get 0 0", "get 65535 2", "get 65536 1", "put 65535 0102", "put 65534 0102", "get 65530 6",
    "put 65536 00", "put 18446744073709551615 00", "get 18446744073709551615 1", "get 1 18446744073709551615",
    "get 0 65537", "get 1 65536", "get 00000000000000000000000000000000000000000 0x00000000000000000000000000000003",
    "copy 0x2 0X8 0 1", "copy 0x2 0x8 0x0 0xa", "copy 002 0008 0x0 03", "get 0 16", "clear", "get 0 16",
];

/// P1 to P10 of document 01 with room for just their list, and with other rooms.
#[rustfmt::skip]
const LOGS: [&str; 41] = [
    "copy-log 16 0 33 16 7 # P3", "get 0 17", "copy-log 16 64 33 16 6 # one number short", "get 64 16",
    "copy-log 16 64 33 16 0", "get 64 16", "copy-log 16 64 33 16 8", "get 64 16", "copy-log 16 64 33 16 40960",
    "get 64 16", "copy-log 16 0 32 15 30 # P1", "copy-log 16 0 32 15 29", "copy-log 16 0 32 16 4 # P2",
    "copy-log 16 0 32 16 3", "copy-log 16 3 40 30 21 # P4", "copy-log 16 3 40 30 20", "copy-log 16 1 40 30 35 # P5",
    "copy-log 16 1 40 30 34", "get 0 40", "move-log 16 8 8 0 0 # P6", "move-log 16 8 8 0 1",
    "move-log 16 8 8 16 4 # P7", "move-log 16 8 8 16 3", "move-log 16 9 8 16 20 # one number short", "get 8 18",
    "move-log 16 9 8 16 21 # P8", "get 8 18", "move-log 16 8 9 16 7 # P9", "get 8 18", "fill-log 16 1 9 16 8",
    "fill-log 16 1 9 16 0", "get 0 18", "fill-log 16 1 7 16 9 # P10", "get 0 18", "fill-log 16 1 9 16 40960",
    "get 0 18", "copy-log 0 0 0 0 0", "copy-log 16 128 128 0 0", "move-log 16 128 0 0 0", "fill-log 0 0 0 0 0",
    "fill-log 16 128 -1 0 40960",
];

/// What is wrong with a logged call's fields, or looks so: its room is read last.
#[rustfmt::skip]
const BAD_LOGS: [&str; 41] = [
    "copy-log", "copy-log 1", "copy-log 1 0 4 4", "copy-log 1 0 4 4 # 8", "copy-log 1 0 4 4 8 8", "copy-log 1 0 4 4 8 # 8",
    "move-log 1 0 4 4", "fill-log 1 0 4 4", "copy-log 8193 0 4 4 8", "copy-log 8193", "copy-log 1 0 4 4 40960",
    "copy-log 1 0 4 4 40961", "copy-log 1 0 4 4 40961 8", "copy-log 1 0 4 4 40961 x", "copy-log 8193 0 4 4 40961",
    "copy-log 1 x 4 4 40961", "copy-log 1 0 4 -4 40961", "fill-log 1 0 2147483648 4 40961", "copy-log 1 0 4 8 40961",
    "move-log 8192 0 0 65536 40961", "fill-log 8192 0 0 65536 40961", "copy-log 1 0 4 4 x", "copy-log 1 0 4 4 -8",
    "copy-log 1 0 4 4 +8", "copy-log 1 0 4 4 8.", "copy-log 1 0 4 4 0x8", "copy-log 1 0 4 4 0xa001", "copy-log 1 0 4 4 0008",
    "copy-log 1 0 4 4 18446744073709551615", "copy-log 1 0 4 4 18446744073709551616", "copy-log 0x1 0x0 0x4 0x4 8",
    "copy-logs 1 0 4 4 8", "copy-lo 1 0 4 4 8", "copylog 1 0 4 4 8", "copy -log 1 0 4 4 8", "Copy-log 1 0 4 4 8",
    "compare-log 1 0 4 4 8", "bcmp-log 1 0 4 4 8", "strlen-log 1 0 8", "copy-log\t1\t0\t4\t4\t8\r", "copy-log#1 0 4 4 8",
];

/// The tour comes first, so that the lines of its errors have the numbers that a reader of it sees.
pub fn input() -> Vec<u8> {
    let mut list = List(include_str!("../../../../docs/tour.txt").to_string());
    list.line("clear");
    list.worked();
    list.copies();
    list.moves();
    list.fills();
    list.compares();
    list.strings();
    list.refusals();
    list.long();
    list.logs();
    list.long_logs();
    list.logs_at_alignments();
    list.logs_refused();
    list.puts_and_gets();
    list.bad_lines();
    list.long_lines();
    list.0.into_bytes()
}

struct List(String);

/// Distinct bytes, up to 251 of them.
fn distinct(count: usize) -> Vec<u8> {
    (0..count).map(|place| (place * 149 % 251) as u8 + 1).collect()
}

impl List {
    fn part(&mut self, what: &str) {
        self.line(&format!("\n# {what}"));
    }

    fn line(&mut self, line: &str) {
        self.0 += line;
        self.0.push('\n');
    }

    fn lines(&mut self, lines: &[&str]) {
        lines.iter().for_each(|line| self.line(line));
    }

    fn put(&mut self, address: usize, bytes: &[u8]) {
        self.line(&format!("put {address} {}", hex(bytes)));
    }

    /// Reads a range back, with a byte on either side.
    fn look(&mut self, start: usize, end: usize) {
        self.line(&format!("get {} {}", start - 1, end - start + 2));
    }

    fn worked(&mut self) {
        self.line("# Document 01's worked numbers, P1 to P12, and the calls that it wants run beside them.");
        self.put(0, &distinct(128));
        self.lines(&["copy 16 0 32 15 # P1", "copy 16 0 32 16 # P2", "copy 16 0 33 16 # P3", "get 0 17"]);
        self.lines(&["copy 16 3 40 30 # P4", "get 2 32", "copy 16 1 40 30 # P5", "get 0 32"]);
        self.lines(&["move 16 8 8 0 # P6", "move 16 8 8 16 # P7", "move 16 9 8 16 # P8", "get 8 18"]);
        self.lines(&["move 16 8 9 16 # P9", "get 8 18", "fill 16 1 7 16 # P10", "get 0 18"]);
        self.lines(&["put 0 00ff", "compare 16 0 1 1 # P11", "compare 16 1 0 1", "bcmp 16 0 1 1"]);
        self.lines(&["strlen 16 128 # P12", "strlen 16 0 # the string of one zero byte"]);
        self.lines(&["copy 0 0 0 0", "copy 16 0 0 1", "copy 16 18446744073709551615 0 1", "copy 16 129 129 1"]);
        self.line("get 0 128");
    }

    /// The source moves by one from call to call, so that each call changes every byte of its destination.
    fn copies(&mut self) {
        self.part("Copies at all 8 x 8 alignments, n 0 to 40.");
        self.put(0, &distinct(128));
        for n in 0..=40 {
            for (dest, src) in (0..64).map(|place| (8 + place / 8, 64 + place % 8)) {
                self.line(&format!("copy 14 {dest} {src} {n}"));
                self.look(dest, dest + n);
            }
            self.line("get 0 128");
        }
    }

    /// Before each move its 104 bytes are copied from 104 on, where they stay as they were put.
    fn moves(&mut self) {
        self.part("Moves by up to 24 bytes both ways at each alignment, on bytes that are fresh each time.");
        self.put(104, &distinct(104));
        let far: Vec<i32> = (-17..=17).chain([-24, 24]).collect();
        let near: Vec<i32> = (-3..=3).collect();
        let kinds = [(0, &near), (1, &near), (2, &near), (8, &near)];
        let kinds = kinds.into_iter().chain([15, 16, 24, 31, 40].map(|n| (n, &far)));
        for (n, distances) in kinds {
            for (src, distance) in (32..40).flat_map(|src| distances.iter().map(move |distance| (src, distance))) {
                let dest = (src + distance) as usize;
                let src = src as usize;
                self.line("copy 26 0 104 104");
                self.line(&format!("move 13 {dest} {src} {n}"));
                self.look(dest.min(src), dest.max(src) + n);
            }
        }
        self.line("get 0 208");
    }

    fn fills(&mut self) {
        self.part("Fills at 8 alignments, n 0 to 40, with all kinds of values.");
        let values = [0, 1, -1, 255, 256, -255, -256, 127, 128, -128, -129, 65535, i32::MAX, i32::MIN, 90];
        self.put(0, &distinct(72));
        for place in 0..8 * 41 {
            let (start, n) = (8 + place % 8, place / 8);
            self.line(&format!("fill 9 {start} {} {n}", values[place % values.len()]));
            self.look(start, start + n);
        }
        self.line("get 0 128");
    }

    fn compares(&mut self) {
        self.part("Compares and bcmps: no difference at all 8 x 8 alignments, then one at each place, then each sign.");
        self.line("clear");
        for (first, second) in (0..64).map(|place| (8 + place / 8, 72 + place % 8)) {
            let n = (5 * first + second) % 41;
            self.line(&format!("compare 16 {first} {second} {n}"));
            self.line(&format!("bcmp 16 {second} {first} {n}"));
        }
        for n in 1..=24 {
            for place in 0..n {
                let (first, second) = (8 + n % 8, 72 + place % 8);
                self.put(second + place, &[(place * 10 + n) as u8]);
                let word = PAIRS[2 + (n + place) % 2];
                self.line(&format!("{word} 16 {first} {second} {n}"));
                self.put(second + place, &[0]);
            }
        }
        for pair in [[0, 255], [255, 0], [127, 128], [128, 127], [0, 1], [1, 0], [254, 255], [128, 128]] {
            self.put(0, &pair);
            self.lines(&["compare 1 0 1 1", "bcmp 1 0 1 1"]);
        }
        self.line("get 0 128");
    }

    fn strings(&mut self) {
        self.part("Strings at 8 alignments, the zero at each place, and to the end of the lent words.");
        self.line("fill 16 0 128 128");
        for (start, length) in (0..=24).flat_map(|length| (8..16).map(move |start| (start, length))) {
            self.put(start + length, &[0]);
            self.line(&format!("strlen 6 {start}"));
            self.put(start + length, &[128]);
        }
        self.put(63, &[0]);
        for k in 0..=9 {
            self.lines(&[&format!("strlen {k} 0"), &format!("strlen {k} 57"), &format!("strlen {k} 64")]);
        }
        self.line("get 0 128");
    }

    fn refusals(&mut self) {
        self.part("Refusals, one byte either side of each edge.");
        self.put(0, &distinct(64));
        self.put(65_472, &distinct(64));
        for k in [0, 1, 2, 5, 8_191, 8_192] {
            self.edges(k);
            self.lines(&["get 0 64", "get 65472 64"]);
        }
        self.part("Copies that overlap by one byte, and that do not.");
        for n in [1, 2, 15, 16, 20] {
            for src in [19, 20, 21] {
                self.line(&format!("copy 8 {src} {} {n}", src + n - 1));
                self.line(&format!("copy 8 {src} {} {n}", src + n));
                self.line(&format!("copy 8 {} {src} {n}", src + n - 1));
                self.line(&format!("copy 8 {} {src} {n}", src + n));
            }
        }
        self.lines(&["copy 8 20 20 0", "copy 8 20 20 1", "copy 8 20 20 44", "get 0 64"]);
    }

    /// A memory of `end` bytes, with ranges that end at its end, one byte before it and one past it, and with far ones.
    fn edges(&mut self, k: u64) {
        let end = 8 * k;
        let far = [u64::MAX, u64::MAX - 1, u64::MAX - 7, 1 << 63, 0u64.wrapping_sub(end)];
        let mut ranges: Vec<(u64, u64)> = vec![(end, 0), (end + 1, 0), (0, end + 1), (1, end.max(1)), (0, u64::MAX)];
        ranges
            .extend([1, 2, 16].iter().flat_map(|n| [(end.saturating_sub(*n), *n), ((end + 1).saturating_sub(*n), *n)]));
        ranges
            .extend(far.iter().flat_map(|address| [(*address, 0), (*address, 1), (*address, address.wrapping_neg())]));
        for (address, n) in ranges {
            for word in PAIRS {
                self.line(&format!("{word} {k} {address} 0 {n}"));
                self.line(&format!("{word} {k} 0 {address} {n}"));
            }
            self.line(&format!("{} {k} {address} {address} {n}", PAIRS[1 + n as usize % 3]));
            self.line(&format!("fill {k} {address} {} {n}", address as i32));
            self.line(&format!("strlen {k} {address:#x}"));
        }
    }

    /// 251 bytes are doubled until they fill the memory, so that no move by a few bytes leaves it as it was.
    fn long(&mut self) {
        self.part("Long calls on all 8,192 words.");
        self.put(0, &distinct(251));
        let mut done = 251;
        while done < 65_536 {
            let n = done.min(65_536 - done);
            self.line(&format!("copy 8192 {done} 0 {n}"));
            done += n;
        }
        for call in [
            "move 8192 0 1 65535",
            "move 8192 1 0 65535",
            "move 8192 8 0 65528",
            "move 8192 0 13 65523",
            "move 8192 11 0 65525",
            "move 8192 0 0 65536",
            "copy 8192 0 32768 32768",
            "copy 8192 32773 2 32763",
            "move 8191 65400 3 128",
            "compare 8192 0 1 65535",
            "compare 8192 3 3 65533",
            "bcmp 8192 0 32771 32765",
            "strlen 8192 0",
        ] {
            self.line(call);
            self.lines(&["get 0 32", "get 32752 48", "get 65504 32"]);
        }
        self.line("get 0 65536");
        self.long_zeros();
    }

    fn long_zeros(&mut self) {
        self.lines(&["fill 8192 0 -86 65536", "strlen 8192 0", "strlen 8192 65535", "compare 8192 0 32768 32768"]);
        self.lines(&["put 65535 00", "strlen 8192 0", "strlen 8192 1", "strlen 8191 0", "strlen 8192 65535"]);
        self.lines(&["bcmp 8192 0 32768 32768", "compare 8192 32768 0 32768", "fill 8192 3 255 65530"]);
        self.line("get 0 65536");
    }

    fn logs(&mut self) {
        self.part("Logs: document 01's P1 to P10, and each edge of the room.");
        self.put(0, &distinct(128));
        self.lines(&LOGS);
    }

    fn long_logs(&mut self) {
        self.part("Logs of long calls. The move has the longest list of all: 4 x 16,411 = 65,534 + 110.");
        self.put(0, &distinct(251));
        for call in [
            "move-log 8192 1 0 65534 16410",
            "move-log 8192 1 0 65534 16411",
            "copy-log 8192 32771 0 32763 40960",
            "fill-log 8192 1 85 65535 8197",
            "fill-log 8192 1 85 65535 8198",
        ] {
            self.line(call);
            self.lines(&["get 0 32", "get 32752 48", "get 65504 32"]);
        }
    }

    fn logs_at_alignments(&mut self) {
        self.part("Logs that their list just fills: copies at all 8 x 8 alignments, moves that overlap, fills.");
        self.put(0, &distinct(160));
        for n in [1, 15, 16, 17, 23, 24, 31, 40] {
            for (dest, src) in (0..64).map(|place| (8 + place / 8, 72 + place % 8)) {
                let room = list::of_copy(WORD, dest, src, n).len();
                self.line(&format!("copy-log 14 {dest} {src} {n} {room}"));
            }
            for (dest, src) in (0..64).map(|place| (16 + place / 8, 16 + place % 8)) {
                let room = list::of_move(WORD, dest, src, n).len();
                self.line(&format!("move-log 14 {dest} {src} {n} {room}"));
            }
            for dest in 8..16 {
                let room = list::of_fill(WORD, dest, n).len();
                self.line(&format!("fill-log 14 {dest} {n} {n} {room}"));
            }
            self.line("get 0 160");
            self.put(0, &distinct(160));
        }
    }

    /// Each other refusal beats that of the log, and no refusal changes a byte.
    fn logs_refused(&mut self) {
        self.part("Refusals 2 to 4 come before 6, with no room and with enough.");
        self.put(0, &distinct(128));
        for room in [0, 1, 40_960] {
            for call in
                ["copy-log 16 113 0 16", "copy-log 16 113 113 16", "copy-log 16 129 0 0", "fill-log 16 113 7 16"]
            {
                self.line(&format!("{call} {room} # 2"));
            }
            for call in ["copy-log 16 0 113 16", "copy-log 16 0 129 0", "move-log 16 0 113 16", "move-log 16 113 0 16"]
            {
                self.line(&format!("{call} {room} # 3 or 2"));
            }
            for call in ["copy-log 16 0 15 16", "copy-log 16 15 0 16", "copy-log 16 8 8 1"] {
                self.line(&format!("{call} {room} # 4"));
            }
            self.line(&format!("copy-log 16 18446744073709551615 0 1 {room}"));
            self.line(&format!("fill-log 16 0 7 18446744073709551615 {room}"));
        }
        self.line("get 0 128");
        self.lines(&BAD_LOGS);
    }

    fn puts_and_gets(&mut self) {
        self.part("Put, get and clear: both ends, digits of both cases, numbers in both notations.");
        self.lines(&PUTS_AND_GETS);
    }

    fn bad_lines(&mut self) {
        self.part("Bad lines, and lines that look bad. The first fault from the left is the one that is named.");
        self.lines(&BAD_LINES);
    }

    /// The memory shows that a line that is too long changes nothing. The last line has no newline.
    fn long_lines(&mut self) {
        self.part("Lines of 16,383 bytes, which are read, and of 16,384, which are not.");
        let put = |byte: u8| format!("put  0 {}", hex(&vec![byte; (LONGEST_LINE - 7) / 2]));
        self.lines(&[&put(1), "get 8186 4", &format!("{}\r", put(2)), &format!("{} ", put(3)), "get 8186 4"]);
        let comment = format!("#{}", "-".repeat(LONGEST_LINE - 1));
        self.lines(&[&comment, &format!("{comment}-"), &format!("{}get 0 1", " ".repeat(LONGEST_LINE - 7))]);
        self.0 += "get 0 16 # this line has no newline";
    }
}
