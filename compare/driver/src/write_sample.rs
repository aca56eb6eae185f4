//! `sample [SEED [KIND]]`: writes the sample of the Rust's answers that `crates/replay` replays to
//! standard output, or its records from a kind on, and says how many records it has.

use std::env;
use std::io::{self, Write};

use driver::sample::sample;

fn main() -> io::Result<()> {
    let number = |at, otherwise| {
        env::args().nth(at).map_or(otherwise, |word| {
            word.parse().expect("usage: sample [SEED [KIND]], numbers")
        })
    };
    let (seed, first) = (number(1, 1071), number(2, 0) as u8);
    let sample = sample(seed, first);
    io::stdout().write_all(&sample.bytes)?;
    eprintln!(
        "sample: {} records, {} bytes (seed {seed})",
        sample.records(),
        sample.bytes.len()
    );
    Ok(())
}
