//! Our building, reading and echoing of T-PDUs against the Rust's, on built packets, on wild
//! ones (wild.rs) and on damaged ones (damage.rs).

use std::collections::BTreeMap;
use std::net::SocketAddr;

use crate::cases::{ipv4_probe, ipv6_probe};
use crate::compared::{due, require_unfilled, without_padding, Answer};
use crate::damage::{each_damage, excluded, turn, window_starts};
use crate::numbers::{OUTPUT_TOO_SHORT, READING_EITHER, READING_IPV4, READING_IPV6};
use crate::ours::{self, Values, Written};
use crate::packet::{part_at, version, word, IPV4_HEADER_CHECKSUM_AT};
use crate::part::{grouped, Bytes, Part, Word};
use crate::random::Random;
use crate::rust_side::measurement::{build, decode, echo, Flow, Probe};
use crate::rust_side::Outcome;
use crate::wild::{any_probe, each_wild};

/// What an output has in it before a call.
const DIRT: u8 = 0xa5;

/// Of the damaged packets that both sides refuse to read, one in this many is echoed.
const ECHO_SAMPLE: u64 = 64;

/// Random and extreme probes into buffers of every kind.
pub fn building(seed: u64, rounds: u64) -> Part {
    let mut part = Part::new("calls");
    let mut random = Random::new(seed);
    for round in 0..rounds {
        let mut probe = any_probe(&mut random);
        if round % 4 == 0 {
            probe = steered(probe);
            let tpdu = build(probe);
            let due = probe.flow.source.is_ipv4().then_some(Word(0));
            part.case(&tpdu, checksums(&tpdu), (due, Word(0xffff)));
        }
        let values = with_junk(&mut random, probe);
        let tpdu = build(probe);
        writes(&mut part, &tpdu, Ok(&tpdu), |out| ours::build(&values, out));
    }
    part
}

/// A probe as a call of ours is handed it, with what must change nothing: bytes in an IPv4 address past
/// the 4 that count; for IPv6, every second time, any version but 4.
pub fn with_junk(random: &mut Random, probe: Probe) -> Values {
    let mut values = Values::from(probe);
    if values.version == 4 {
        values.src[4..].copy_from_slice(&random.bytes(12));
        values.dst[4..].copy_from_slice(&random.bytes(12));
    } else if random.below(2) == 0 {
        values.version = match random.any_u8() {
            4 => 6,
            version => version,
        };
    }
    values
}

/// Wild packets, read by both. Each cause of a refusal must have been met, in both versions. Where a
/// packet has padding, ours must answer what the Rust answers of it without the padding.
pub fn reading(seed: u64, rounds: u64) -> Part {
    let mut part = Part::new("packets");
    let mut seen = BTreeMap::new();
    each_wild(seed, rounds, |tpdu| {
        let answer = ours::decode(tpdu);
        *seen.entry(cause(tpdu, answer.0)).or_insert(0) += 1;
        let due = as_ours(due(&mut part, tpdu, decode)).due(tpdu);
        let of_bare = without_padding(tpdu).map(|bare| as_ours(decode(&bare)));
        let answers = (answer.told(), of_bare.map(|_| answer));
        part.case(tpdu, answers, (due, of_bare));
    });

    require_unfilled(&mut part);
    let mut causes = vec![(4, 0), (6, 0)];
    for (version, numbers) in [(0, READING_EITHER), (4, READING_IPV4), (6, READING_IPV6)] {
        causes.extend(numbers.iter().map(|&number| (version, number)));
    }
    causes.sort();
    part.case(&[], seen.keys().copied().collect(), causes);
    part.note(counts(&seen));
    part
}

/// Wild packets, echoed by both.
pub fn echoing(seed: u64, rounds: u64) -> Part {
    let mut part = Part::new("calls");
    each_wild(seed, rounds, |tpdu| echoes(&mut part, tpdu));
    require_unfilled(&mut part);
    part
}

/// The echo of the echo of a built packet is the packet.
pub fn echoing_twice(seed: u64, rounds: u64) -> Part {
    let mut part = Part::new("packets");
    let mut random = Random::new(seed);
    for _ in 0..rounds {
        let tpdu = build(any_probe(&mut random));
        let (mut once, mut twice) = (vec![DIRT; tpdu.len()], vec![DIRT; tpdu.len()]);
        ours::echo(&tpdu, &mut once);
        ours::echo(&once, &mut twice);
        part.case(&tpdu, Bytes(&twice), Bytes(&tpdu));
    }
    part
}

/// Every damage, within 16 neighbouring bits, of the first two of `some_probes` in both versions,
/// or of all five: refused, or read as what was sent.
pub fn damaged_packets(long: bool) -> Part {
    let count = if long { 5 } else { 2 };
    let mut part = Part::new("readings and echoes");
    for version in [4, 6] {
        for probe in some_probes(version).into_iter().take(count) {
            each_damage(&build(probe), |damaged| {
                survives(&mut part, probe, damaged);
            });
        }
    }
    part
}

/// Random damage, within 16 neighbouring bits, of random built packets.
pub fn damaged_random_packets(seed: u64, rounds: u64) -> Part {
    let mut part = Part::new("readings and echoes");
    let mut random = Random::new(seed);
    for _ in 0..rounds {
        let probe = any_probe(&mut random);
        let mut tpdu = build(probe);
        let start = random.below(window_starts(0, tpdu.len()).end() + 1);
        let mask = 1 + random.below(0xffff) as u16;
        if !excluded(&tpdu, start, mask) {
            turn(&mut tpdu, start, mask);
            survives(&mut part, probe, &tpdu);
        }
    }
    part
}

impl From<Probe> for Values {
    fn from(probe: Probe) -> Self {
        let Flow {
            source,
            destination,
        } = probe.flow;
        let address = |end: SocketAddr| {
            let mut bytes = [0; 16];
            match end {
                SocketAddr::V4(end) => bytes[..4].copy_from_slice(&end.ip().octets()),
                SocketAddr::V6(end) => bytes = end.ip().octets(),
            }
            bytes
        };
        Self {
            version: if source.is_ipv4() { 4 } else { 6 },
            src: address(source),
            dst: address(destination),
            src_port: source.port(),
            dst_port: destination.port(),
            sequence: probe.sequence,
            send_timestamp_ns: probe.send_timestamp_ns,
        }
    }
}

/// What ours has to say where the Rust reads this: values, or a number and none.
fn as_ours(outcome: Outcome<Probe>) -> (u8, Values) {
    const NONE: Values = Values {
        version: 4,
        src: ours::DIRTY_ADDRESS,
        dst: ours::DIRTY_ADDRESS,
        src_port: 0,
        dst_port: 0,
        sequence: 0,
        send_timestamp_ns: 0,
    };
    match outcome {
        Ok(probe) => (0, probe.into()),
        Err(number) => (number, NONE),
    }
}

/// Holds a call of ours that writes against what is due, in an output that is longer than need
/// be, just long enough, one byte short and empty; where a refusal is due, in a long and an empty
/// one. All but the answer must stay as it was.
fn writes(
    part: &mut Part,
    input: &[u8],
    due: Outcome<&[u8]>,
    mut call: impl FnMut(&mut [u8]) -> Written,
) {
    const LONG: usize = 96;
    let rooms: &[usize] = match due {
        Ok(bytes) => &[LONG - 8, bytes.len(), bytes.len() - 1, 0],
        Err(_) => &[LONG - 8, 0],
    };
    for &room in rooms {
        let mut out = [DIRT; LONG];
        let written = call(&mut out[..room]);

        let mut expected = [DIRT; LONG];
        let answer = match due {
            Err(number) => Err(number),
            Ok(bytes) if room < bytes.len() => Err(OUTPUT_TOO_SHORT),
            Ok(bytes) => {
                expected[..bytes.len()].copy_from_slice(bytes);
                Ok(bytes.len())
            }
        };
        let due = Written {
            number: answer.err().unwrap_or(0),
            bytes: answer.unwrap_or(0),
        };
        let due = (due.due(input), Bytes(expected));
        part.case(input, (written.told(), Bytes(out)), due);
    }
}

fn echoes(part: &mut Part, tpdu: &[u8]) {
    let due = due(part, tpdu, echo);
    let due = due.as_deref().map_err(|number| *number);
    writes(part, tpdu, due, |out| ours::echo(tpdu, out));
}

/// Ours must read the damaged packet as is due, and must refuse it or read the probe that was sent.
fn survives(part: &mut Part, sent: Probe, damaged: &[u8]) {
    let answer = ours::decode(damaged);
    let is_read = answer.0 == 0;
    let harmless = !is_read || answer.1 == sent.into();
    let due = as_ours(due(part, damaged, decode)).due(damaged);
    part.case(damaged, (answer.told(), harmless), (due, true));
    if is_read || part.cases().is_multiple_of(ECHO_SAMPLE) {
        echoes(part, damaged);
    }
}

/// An ordinary probe, the same with checksums that come out 0, all zeros, all ones, and one of
/// the worked cases.
fn some_probes(version: u8) -> [Probe; 5] {
    let case = match version {
        4 => ipv4_probe(0),
        _ => ipv6_probe(),
    };
    let ordinary = Probe {
        flow: match version {
            4 => Flow::new(([203, 0, 113, 77], 54_321), ([198, 51, 100, 9], 2_152)),
            _ => Flow::new(
                ([0x2001, 0xdb8, 0xa1, 0, 0, 0xb2, 0xc3, 0xd4], 54_321),
                ([0x2001, 0xdb8, 0xe5, 0xf6, 0, 0, 0, 9], 2_152),
            ),
        },
        sequence: 0x0123_4567_89ab_cdef,
        send_timestamp_ns: 1_700_000_000_123_456_789,
    };
    let all = |byte| {
        let port = u16::from_be_bytes([byte; 2]);
        let number = u64::from_be_bytes([byte; 8]);
        Probe {
            flow: match version {
                4 => Flow::new(([byte; 4], port), ([byte; 4], port)),
                _ => Flow::new(([byte; 16], port), ([byte; 16], port)),
            },
            sequence: number,
            send_timestamp_ns: number,
        }
    };
    [ordinary, steered(ordinary), all(0x00), all(0xff), case]
}

/// The probe with another last word of its time, and of an IPv4 destination, so that each sum
/// comes out 0xffff and each checksum 0.
fn steered(mut probe: Probe) -> Probe {
    if let SocketAddr::V4(end) = probe.flow.destination {
        let [first, second, ..] = end.ip().octets();
        let ending = |[third, fourth]: [u8; 2]| ([first, second, third, fourth], end.port()).into();
        probe.flow.destination = ending([0, 0]);
        let checksum = word(&build(probe), IPV4_HEADER_CHECKSUM_AT);
        probe.flow.destination = ending(checksum.to_be_bytes());
    }
    probe.send_timestamp_ns &= !0xffff;
    let (_, Word(checksum)) = checksums(&build(probe));
    probe.send_timestamp_ns |= u64::from(checksum);
    probe
}

/// The header checksum, which IPv4 has, and the UDP checksum of a built packet.
fn checksums(tpdu: &[u8]) -> (Option<Word>, Word) {
    let header = (version(tpdu) == 4).then(|| Word(word(tpdu, IPV4_HEADER_CHECKSUM_AT)));
    (header, Word(word(tpdu, part_at(tpdu) + 6)))
}

/// Why a packet was refused, or 0: the number, with the IP version if the number has one.
fn cause(tpdu: &[u8], number: u8) -> (u8, u8) {
    match READING_EITHER.contains(&number) {
        true => (0, number),
        false => (version(tpdu), number),
    }
}

/// How often each cause was met, in the order in which they are judged, and how often none.
fn counts(seen: &BTreeMap<(u8, u8), u64>) -> String {
    let count = |version, number| grouped(seen.get(&(version, number)).copied().unwrap_or(0));
    let counts = |version, numbers: &[u8]| {
        let each = numbers.iter();
        each.map(|&number| format!("{number}: {}", count(version, number)))
            .collect::<Vec<_>>()
            .join(", ")
    };
    format!(
        "{}; IPv4 {}, read: {}; IPv6 {}, read: {}",
        counts(0, READING_EITHER),
        counts(4, READING_IPV4),
        count(4, 0),
        counts(6, READING_IPV6),
        count(6, 0),
    )
}
