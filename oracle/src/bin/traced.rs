//! The program that is traced: says where its memory and its marks are, and then answers its whole input, in silence.

use oracle::machine::Machine;
use oracle::text;
use std::io::{self, Read};

fn main() -> io::Result<()> {
    let mut machine = Machine::default();
    let places = machine.memory.places();
    println!("{} {} {}", places.memory, places.begin, places.end);
    let mut input = Vec::new();
    io::stdin().lock().read_to_end(&mut input)?;
    for line in text::lines(&input) {
        machine.answer(line);
    }
    Ok(())
}
