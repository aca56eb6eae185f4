//! `padded FILE`: writes a capture of padded packets, the same each time, and to standard output a line
//! for each: the status of its UDP checksum by our library, as Wireshark names it.

use std::{env, fs, io};

use driver::numbers::{
    INVALID_UDP_CHECKSUM, IPV6_UDP_CHECKSUM_IS_ZERO, MEASUREMENT_MAGIC_MISMATCH,
    TRUNCATED_MEASUREMENT_HEADER,
};
use driver::ours;
use driver::packet::{part_at, word, Covered, UDP_HEADER};
use driver::random::Random;
use driver::wild::{any_probe_of, right_packet, Extra};

/// Where the random numbers start.
const SEED: u64 = 768;

/// A payload or padding of any length up to this one, so that both fit in one packet.
const ANY: usize = 30_000;

/// A capture's header: version 2.4 of the format, its longest packet, and packets that start with their
/// IP header (link type 101).
const CAPTURE: [u32; 6] = [0xa1b2_c3d4, 0x0002_0004, 0, 0, 262_144, 101];

/// What the sum is right over, or that something is wrong.
#[derive(Clone, Copy, PartialEq)]
enum Way {
    Segment,
    WholePart,
    /// The segment, but then one bit of the payload or of the padding was turned.
    BitTurned,
    Unsummed,
}

fn main() -> io::Result<()> {
    let path = env::args().nth(1).expect("usage: padded FILE");
    let mut random = Random::new(SEED);
    let mut capture: Vec<u8> = CAPTURE.into_iter().flat_map(u32::to_be_bytes).collect();
    for version in [4, 6] {
        for payload in [0, 1, 23, 24, 25, 26, 511, ANY] {
            for padding in [0, 1, 2, 3, 22, ANY] {
                for way in [Way::Segment, Way::WholePart, Way::BitTurned, Way::Unsummed] {
                    let packet = packet(&mut random, version, [payload, padding], way);
                    let length = packet.len() as u32;
                    let record = [0, 0, length, length];
                    capture.extend(record.into_iter().flat_map(u32::to_be_bytes));
                    println!("{}", status(&packet));
                    capture.extend(packet);
                }
            }
        }
    }
    fs::write(path, capture)
}

fn packet(random: &mut Random, version: u8, lengths: [usize; 2], way: Way) -> Vec<u8> {
    let [payload, padding] = lengths.map(|length| match length {
        ANY => random.length(ANY),
        _ => length,
    });
    let extra = Extra {
        options: match version {
            4 => random.below(11),
            _ => 0,
        },
        payload,
        padding,
        behind: 0,
        unsummed: way == Way::Unsummed,
        covered: match way {
            Way::WholePart => Covered::Part,
            _ => Covered::Segment,
        },
        fragment: 0,
    };
    let probe = any_probe_of(random, version);
    let mut packet = right_packet(random, probe, &extra);
    if way == Way::BitTurned && payload + padding > 0 {
        let place = part_at(&packet) + UDP_HEADER + random.below(payload + padding);
        packet[place] ^= 1 << random.below(8);
    }
    packet
}

/// 12 is judged before 13 and 14, so that these say that the sum is right.
fn status(packet: &[u8]) -> String {
    let is_summed = word(packet, part_at(packet) + 6) != 0;
    let status = match ours::decode(packet).0 {
        INVALID_UDP_CHECKSUM => "bad",
        IPV6_UDP_CHECKSUM_IS_ZERO => "illegal",
        0 | TRUNCATED_MEASUREMENT_HEADER | MEASUREMENT_MAGIC_MISMATCH if is_summed => "good",
        0 | TRUNCATED_MEASUREMENT_HEADER | MEASUREMENT_MAGIC_MISMATCH => "not present",
        number => return format!("refused by {number}"),
    };
    status.to_string()
}
