//! `compare [--seed N] [--rounds N] [--long] [--only NAME]..`: runs every part of the comparison, or
//! only those named, prints a line for each and a last one of totals.
//!
//! Exit status: 0 if both sides agree; 1 if they differ, or a part had nothing to compare;
//! 2 if an argument is bad.

use std::env;
use std::process::ExitCode;

use driver::part::{grouped, left_out, Part};
use driver::{
    answers, arrivals, batch, cases, checksum, gtpu, malformed, measurement, observer, reflector,
    tally, traffic,
};

const USAGE: &str = "usage: compare [--seed N] [--rounds N] [--long] [--only NAME]..";

/// What a part is run with.
enum Run {
    Fixed(fn() -> Part),
    /// Whether it is to be long.
    Long(fn(bool) -> Part),
    Seed(fn(u64) -> Part),
    SeedAndRounds(fn(u64, u64) -> Part),
}

use Run::{Fixed, Long, Seed, SeedAndRounds};

/// The parts, in the order in which they run, each under the name that `--only` takes.
#[rustfmt::skip]
const PARTS: &[(&str, Run)] = &[
    ("worked cases on the Rust", Fixed(cases::worked_cases)),
    ("refusals of the Rust", Fixed(answers::refusals)),
    ("actions of the Rust", Fixed(answers::actions)),
    ("checksum, every short list", Fixed(checksum::short_lists)),
    ("sum from a start, every short list", Fixed(checksum::starts)),
    ("checksum, random lists", SeedAndRounds(checksum::random_lists)),
    ("checksum, sums in parts", SeedAndRounds(checksum::sums_in_parts)),
    ("damage, every one of a header", Fixed(checksum::damaged_header)),
    ("damage, random lists", SeedAndRounds(checksum::damaged_lists)),
    ("damage, 16 equal bits turned", SeedAndRounds(checksum::equal_bits_turned)),
    ("checksum, past the Rust's limit", Seed(checksum::long_lists)),
    ("building", SeedAndRounds(measurement::building)),
    ("reading, wild packets", SeedAndRounds(measurement::reading)),
    ("echo, wild packets", SeedAndRounds(measurement::echoing)),
    ("echo of echo", SeedAndRounds(measurement::echoing_twice)),
    ("damage, every one of some packets", Long(measurement::damaged_packets)),
    ("damage, random packets", SeedAndRounds(measurement::damaged_random_packets)),
    ("generator and forecast", SeedAndRounds(traffic::generating)),
    ("runs of plans on one engine", SeedAndRounds(traffic::runs)),
    ("element walk", SeedAndRounds(gtpu::elements)),
    ("element walk, 256 KiB of stack", Fixed(gtpu::deep_lists)),
    ("run sheet, runs", SeedAndRounds(observer::runs)),
    ("run sheet, any state", SeedAndRounds(observer::states)),
    ("run sheet, arrival times", Seed(arrivals::each_row)),
    ("run sheet, malformed", SeedAndRounds(malformed::malformed)),
    ("run sheet, batches", SeedAndRounds(batch::batches)),
    ("run sheet, malformed, batches", SeedAndRounds(batch::malformed_batches)),
    ("reflector, runs", SeedAndRounds(reflector::runs)),
    ("reflector, near copies", SeedAndRounds(reflector::near_copies)),
    ("reflector, full tables", Seed(reflector::full_tables)),
    ("reflector, error sequence", Seed(reflector::error_sequences)),
    ("reflector, refused tables and outputs", SeedAndRounds(reflector::refused)),
    ("tally", SeedAndRounds(tally::tallies)),
];

/// What the command line may choose.
struct Options {
    /// Where the random inputs start.
    seed: u64,
    /// How many random inputs a part draws.
    rounds: u64,
    /// Whether to damage every packet that there is for it, and not only the first few.
    long: bool,
    /// The names of the parts to run; none, and all are run.
    only: Vec<String>,
}

impl Options {
    fn parse(mut words: impl Iterator<Item = String>) -> Result<Self, String> {
        let mut options = Options {
            seed: 1071,
            rounds: 20_000,
            long: false,
            only: Vec::new(),
        };
        while let Some(word) = words.next() {
            let option = match word.as_str() {
                "--seed" => &mut options.seed,
                "--rounds" => &mut options.rounds,
                "--long" => {
                    options.long = true;
                    continue;
                }
                "--only" => {
                    let name = words.next().ok_or("--only needs the name of a part")?;
                    if !PARTS.iter().any(|(part, _)| *part == name) {
                        return Err(format!("no part has the name \"{name}\""));
                    }
                    options.only.push(name);
                    continue;
                }
                _ => return Err(format!("unknown argument {word}")),
            };
            *option = words
                .next()
                .and_then(|number| number.parse().ok())
                .ok_or(format!("{word} needs a number"))?;
        }
        Ok(options)
    }

    fn chooses(&self, name: &str) -> bool {
        self.only.is_empty() || self.only.iter().any(|only| only == name)
    }
}

/// The sum of the parts so far.
#[derive(Default)]
struct Total {
    parts: u64,
    cases: u64,
    differences: u64,
    fragments: u64,
    unfilled: u64,
    failed: u64,
}

fn main() -> ExitCode {
    let options = match Options::parse(env::args().skip(1)) {
        Ok(options) => options,
        Err(message) => {
            eprintln!("compare: {message}; {USAGE}");
            return ExitCode::from(2);
        }
    };

    let mut total = Total::default();
    for (name, run) in PARTS.iter().filter(|(name, _)| options.chooses(name)) {
        let part = match run {
            Fixed(part) => part(),
            Long(part) => part(options.long),
            Seed(part) => part(options.seed),
            SeedAndRounds(part) => part(options.seed, options.rounds),
        };
        println!("{name}: {part}");
        total.parts += 1;
        total.cases += part.cases();
        total.differences += part.differences();
        total.fragments += part.fragments();
        total.unfilled += part.unfilled();
        total.failed += u64::from(part.failed());
    }
    println!(
        "total: {} parts, {} failed; {} cases, {} differences{} (seed {}, rounds {})",
        total.parts,
        total.failed,
        grouped(total.cases),
        grouped(total.differences),
        left_out(total.fragments, total.unfilled),
        options.seed,
        options.rounds,
    );
    ExitCode::from(u8::from(total.failed > 0))
}
