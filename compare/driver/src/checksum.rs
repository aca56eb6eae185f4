//! Our checksum against the Rust's `checksum`, and damage against both.
//!
//! The Rust's sum is a u32 that wraps: it is right for every list of up to 131,074 bytes, and
//! wrong for 131,075 of 0xff. Longer lists are held against `model`, which is held against the
//! Rust below that length.

use crate::cases::ipv4_probe;
use crate::damage::{each_damage, excluded, turn, window, window_starts};
use crate::lists::each_list;
use crate::ours;
use crate::part::{Part, Word};
use crate::random::Random;
use crate::rust_side::measurement::{build, checksum as rust_checksum};

/// The length up to which the Rust's sum is right, whatever the bytes.
const RUST_LIMIT: usize = 131_074;

/// Bytes at which a sum of few words carries, or just does not.
const BOUNDARY: [u8; 9] = [0x00, 0x01, 0x02, 0x7e, 0x7f, 0x80, 0x81, 0xfe, 0xff];

/// Every list of up to 3 bytes, and every one of 4 to 6 boundary bytes.
pub fn short_lists() -> Part {
    let mut part = Part::new("lists");
    let all: Vec<u8> = (0..=0xff).collect();
    each_list(&all, 0..=3, |list| agree(&mut part, list, rust(list)));
    each_list(&BOUNDARY, 4..=6, |list| agree(&mut part, list, rust(list)));
    part
}

/// Sums that go on from a word: every word of boundary bytes, with every list of up to 2 bytes.
pub fn starts() -> Part {
    let mut part = Part::new("sums");
    let all: Vec<u8> = (0..=0xff).collect();
    each_list(&BOUNDARY, 2..=2, |start| {
        let word = u16::from_be_bytes([start[0], start[1]]);
        each_list(&all, 0..=2, |list| {
            let answer = (Word(word), Word(ours::sum(word, list)));
            let expected = (Word(word), Word(!rust_checksum(&[start, list])));
            part.case(list, answer, expected);
        });
    });
    part
}

/// Random lists of up to 70,000 bytes, and the longest that the Rust sums rightly.
pub fn random_lists(seed: u64, rounds: u64) -> Part {
    let mut part = Part::new("lists");
    let mut random = Random::new(seed);
    for _ in 0..rounds {
        let length = random.length(70_000);
        let list = random.bytes(length);
        agree(&mut part, &list, rust_as_model(&list));
    }
    for length in [RUST_LIMIT - 1, RUST_LIMIT] {
        let list = vec![0xff; length];
        agree(&mut part, &list, rust_as_model(&list));
    }
    part
}

/// Lists summed in two parts, the first of even length, as a pseudo-header is (12 or 40 bytes).
pub fn sums_in_parts(seed: u64, rounds: u64) -> Part {
    let mut part = Part::new("lists");
    let mut random = Random::new(seed);
    for _ in 0..rounds {
        let length = match random.below(3) {
            0 => 12,
            1 => 40,
            _ => random.length(1_500) & !1,
        };
        let first = random.bytes(length);
        let length = random.length(4_000);
        let rest = random.bytes(length);
        let list = [&first[..], &rest].concat();

        let in_parts = !ours::sum(ours::sum(0, &first), &rest);
        let answers = [in_parts, ours::checksum(&list)].map(Word);
        let expected = rust_checksum(&[&first, &rest]);
        part.case(&list, answers, [Word(expected); 2]);
    }
    part
}

/// Every damage, within 16 neighbouring bits, of case 1's IPv4 header, and of the same header
/// with one byte more.
pub fn damaged_header() -> Part {
    let mut part = Part::new("damaged lists");
    let tpdu = build(ipv4_probe(0));
    for length in [20, 21] {
        let mut header = tpdu[..length].to_vec();
        place_checksum(&mut header, 10);
        part.case(&header, verdicts(&header), Verdicts::ACCEPTED);
        each_damage(&header, |damaged| {
            part.case(damaged, verdicts(damaged), Verdicts::REFUSED);
        });
    }
    part
}

/// Random damage, within 16 neighbouring bits, of random lists with a checksum in them.
pub fn damaged_lists(seed: u64, rounds: u64) -> Part {
    let mut part = Part::new("lists, whole and damaged");
    let mut random = Random::new(seed);
    for _ in 0..rounds {
        let length = 2 + random.length(2_000);
        let mut list = random.bytes(length);
        place_checksum(&mut list, 2 * random.below(length / 2));
        part.case(&list, verdicts(&list), Verdicts::ACCEPTED);

        let start = random.below(window_starts(0, length).end() + 1);
        let mask = 1 + random.below(0xffff) as u16;
        if !excluded(&list, start, mask) {
            turn(&mut list, start, mask);
            part.case(&list, verdicts(&list), Verdicts::REFUSED);
        }
    }
    part
}

/// The damage that no sum of 16-bit words can see: 16 equal bits, all turned, from any bit of an
/// even or an odd byte on. Both sides accept it, so the parts above do not refuse everything.
pub fn equal_bits_turned(seed: u64, rounds: u64) -> Part {
    let mut part = Part::new("damaged lists");
    let mut random = Random::new(seed);
    for _ in 0..rounds {
        let length = 5 + random.length(60);
        let mut list = random.bytes(length);
        list[2] = 1; // a list of zeros has no right checksum, so this must not become one
        let starts = window_starts(3, length);
        let start = starts.start() + random.below(starts.end() - starts.start() + 1);
        let equal_bits = [0, 0xffff][random.below(2)];
        let present = window(&list, start);
        turn(&mut list, start, present ^ equal_bits);
        place_checksum(&mut list, 0);

        turn(&mut list, start, 0xffff);
        part.case(&list, verdicts(&list), Verdicts::ACCEPTED);
    }
    part
}

/// Lists past the Rust's limit, against the model. At the first such length the Rust is wrong.
pub fn long_lists(seed: u64) -> Part {
    let mut part = Part::new("lists");
    let mut random = Random::new(seed);
    for length in [RUST_LIMIT + 1, RUST_LIMIT + 2, 1 << 20, (1 << 24) + 1] {
        for list in [vec![0xff; length], random.bytes(length), vec![0; length]] {
            agree(&mut part, &list, model(&list));
        }
    }
    let list = [0xff; RUST_LIMIT + 1];
    part.case(&list, rust(&list) == model(&list), false);
    part
}

/// What our three calls say of a list.
#[derive(Debug, PartialEq)]
struct Answers {
    checksum: Word,
    sum: Word,
    verified: bool,
}

/// Holds our three calls against the list's right checksum.
fn agree(part: &mut Part, list: &[u8], checksum: u16) {
    let answers = Answers {
        checksum: Word(ours::checksum(list)),
        sum: Word(ours::sum(0, list)),
        verified: ours::verify(list),
    };
    let expected = Answers {
        checksum: Word(checksum),
        sum: Word(!checksum),
        verified: checksum == 0,
    };
    part.case(list, answers, expected);
}

fn rust(list: &[u8]) -> u16 {
    rust_checksum(&[list])
}

/// The Rust's checksum, which up to its limit is the model's: else the model is of no use.
fn rust_as_model(list: &[u8]) -> u16 {
    let checksum = rust(list);
    assert_eq!(checksum, model(list), "the model on {} bytes", list.len());
    checksum
}

/// RFC 1071 by division: a sum that is not 0 folds to its remainder by 65,535, written 65,535
/// where that is 0.
fn model(list: &[u8]) -> u16 {
    let sum: u128 = list
        .chunks(2)
        .map(|word| u128::from(word[0]) * 256 + u128::from(*word.get(1).unwrap_or(&0)))
        .sum();
    let folded = match sum {
        0 => 0,
        _ => (sum - 1) % 65_535 + 1,
    };
    !(folded as u16)
}

/// Whether ours and the Rust accept a list with its checksum in it.
#[derive(Debug, PartialEq)]
struct Verdicts {
    ours: bool,
    rust: bool,
}

impl Verdicts {
    const ACCEPTED: Self = Self {
        ours: true,
        rust: true,
    };
    const REFUSED: Self = Self {
        ours: false,
        rust: false,
    };
}

fn verdicts(list: &[u8]) -> Verdicts {
    Verdicts {
        ours: ours::verify(list),
        rust: rust(list) == 0,
    }
}

/// Puts our checksum of the list into its two bytes from `at` on, which is even.
fn place_checksum(list: &mut [u8], at: usize) {
    list[at..at + 2].fill(0);
    let checksum = ours::checksum(list);
    list[at..at + 2].copy_from_slice(&checksum.to_be_bytes());
}
