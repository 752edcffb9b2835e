//! Good lines with one or two of their fields replaced, most of them bad.

use crate::exhaustive::Group;

const GOOD: [&str; 12] = [
    "copy 4 0 16 8",
    "move 4 0 16 8",
    "fill 4 0 7 8",
    "copy-log 4 0 16 8 16",
    "move-log 4 0 16 8 16",
    "fill-log 4 0 7 8 8",
    "compare 4 0 16 8",
    "bcmp 4 0 16 8",
    "strlen 4 0",
    "put 0 00",
    "get 0 8",
    "clear",
];

#[rustfmt::skip]
const FIELDS: [&str; 36] = [
    "0", "9", "00", "0a", "8192", "8193", "0x2000", "0x2001", "40960", "40961", "65535", "65536", "65537", "2147483647", "2147483648",
    "18446744073709551615", "18446744073709551616", "0xffffffffffffffff", "0x10000000000000000", "-1", "-2147483648",
    "-2147483649", "+1", "-", "0x", "0X1", "0x1g", "1x", "x", "1.0", "\u{e9}", "\0", "9\0", "9\u{b}", "9#9", "000000000000000000009",
];

pub fn groups() -> impl Iterator<Item = Group> {
    GOOD.into_iter().map(|good| {
        let fields: Vec<&str> = good.split(' ').collect();
        let mut group: Group = (1..=fields.len()).map(|count| fields[..count].join(" ")).collect();
        let mut lines = vec![fields.clone()];
        for (place, line) in replaced(&fields, 1) {
            // Two wrong fields show which is looked at first. A get keeps one good, as the text form leaves open whether no byte
            // can lie outside the memory.
            if fields[0] != "get" {
                lines.extend(replaced(&line, place + 1).into_iter().map(|(_, line)| line));
            }
            lines.push(line);
        }
        group.extend(lines.iter().flat_map(|line| [line.join(" "), line.join("\t") + " 1\r"]));
        group.push("get 0 64".to_string());
        group
    })
}

/// The line with each field from `first` on replaced by each of `FIELDS`, and the place where it is.
fn replaced<'a>(line: &[&'a str], first: usize) -> Vec<(usize, Vec<&'a str>)> {
    let places = (first..line.len()).flat_map(|place| FIELDS.map(|field| (place, field)));
    let replace = |(place, field)| {
        let mut line = line.to_vec();
        line[place] = field;
        (place, line)
    };
    places.map(replace).collect()
}
