//! Wild packets: T-PDUs that no builder makes, right ones among them, so that the reader meets
//! each of its causes, and each just missed.

use crate::lists::each_list;
use crate::packet::{
    length_at, part_at, set_lengths, set_word, sum_again, version, Covered, DONT_FRAGMENT,
    IPV4_FLAGS_AT, MORE_FRAGMENTS, RESERVED, UDP_HEADER,
};
use crate::random::Random;
use crate::rust_side::measurement::{build, Flow, Probe};

/// The length of a probe, and of the UDP part that a builder makes of it.
pub const PROBE: usize = 24;
const UDP_LENGTH: usize = UDP_HEADER + PROBE;

/// More bytes than the longest IPv4 header and a UDP header have.
const FEW: usize = 72;

/// The longest that a length field can say.
const MOST: usize = 65_535;

/// What a right packet may have that a built one does not have.
pub struct Extra {
    /// IPv4 options, in words of 4 bytes.
    pub options: usize,
    /// The length of the UDP payload. It starts with the probe, or with as much of it as there is room
    /// for.
    pub payload: usize,
    /// Bytes behind the UDP payload, within the length that the IP header gives. They start with what
    /// the payload has no room for.
    pub padding: usize,
    /// Bytes past the length that the IP header gives.
    pub behind: usize,
    /// A UDP checksum of 0.
    pub unsummed: bool,
    /// What any other UDP checksum is right over.
    pub covered: Covered,
    /// Of an IPv4 packet, More Fragments and a fragment offset.
    pub fragment: u16,
}

/// Calls `each` with every list of up to 2 bytes; with every first byte before every number of bytes
/// up to `FEW`; with some packets, cut at every length and with every value of their words and
/// lengths; and with random packets and random bytes.
pub fn each_wild(seed: u64, rounds: u64, mut each: impl FnMut(&[u8])) {
    let all: Vec<u8> = (0..=0xff).collect();
    each_list(&all, 0..=2, &mut each);

    let mut random = Random::new(seed);
    for first in 0..=0xff {
        let mut packet = random.bytes(1 + FEW);
        packet[0] = first;
        for length in 1..=packet.len() {
            each(&packet[..length]);
        }
    }
    for packet in some_packets(&mut random) {
        for length in 0..packet.len() {
            each(&packet[..length]);
        }
        each_word(&packet, &mut each);
        each_two_lengths(&packet, &mut each);
    }
    for _ in 0..rounds {
        each(&any_packet(&mut random));
        let length = random.length(100);
        each(&random.bytes(length));
    }
}

/// A probe of either version.
pub fn any_probe(random: &mut Random) -> Probe {
    let version = [4, 6][random.below(2)];
    any_probe_of(random, version)
}

/// A flow, a sequence and a time, each one of `Random::bytes`' kinds or 1.
pub fn any_probe_of(random: &mut Random, version: u8) -> Probe {
    let mut number = || match random.below(8) {
        0 => 1,
        _ => u128::from_be_bytes(random.bytes(16).try_into().expect("16 bytes")),
    };
    let flow = match version {
        4 => Flow::new(
            ((number() as u32).to_be_bytes(), number() as u16),
            ((number() as u32).to_be_bytes(), number() as u16),
        ),
        _ => Flow::new(
            (number().to_be_bytes(), number() as u16),
            (number().to_be_bytes(), number() as u16),
        ),
    };
    Probe {
        flow,
        sequence: number() as u64,
        send_timestamp_ns: number() as u64,
    }
}

/// Built packets of both versions, and packets with the shortest and the longest options, with
/// odd payload and bytes behind, and with a UDP checksum of 0; a first fragment and a last one. Padded
/// ones: odd payload and one byte, even payload and two, a UDP checksum of 0, and a payload that has no
/// room for a probe where the part has.
fn some_packets(random: &mut Random) -> Vec<Vec<u8>> {
    let extras = [
        (4, 0, 24, 0, 0, false, 0),
        (4, 1, 27, 0, 2, false, 0),
        (4, 10, 24, 0, 0, false, 0),
        (4, 0, 25, 0, 1, true, 0),
        (4, 0, 24, 0, 0, false, MORE_FRAGMENTS),
        (4, 1, 27, 0, 2, false, 1),
        (4, 0, 25, 1, 0, false, 0),
        (4, 1, 24, 2, 3, false, 0),
        (4, 0, 26, 3, 0, true, 0),
        (4, 0, 0, 24, 0, false, 0),
        (6, 0, 24, 0, 0, false, 0),
        (6, 0, 27, 0, 2, false, 0),
        (6, 0, 25, 0, 1, true, 0),
        (6, 0, 25, 1, 0, false, 0),
        (6, 0, 24, 2, 3, false, 0),
        (6, 0, 26, 3, 0, true, 0),
        (6, 0, 23, 5, 0, false, 0),
    ];
    extras
        .into_iter()
        .map(
            |(version, options, payload, padding, behind, unsummed, fragment)| {
                let extra = Extra {
                    options,
                    payload,
                    padding,
                    behind,
                    unsummed,
                    covered: Covered::Segment,
                    fragment,
                };
                let probe = any_probe_of(random, version);
                right_packet(random, probe, &extra)
            },
        )
        .collect()
}

/// Every value of every 16-bit word before the probe's sequence, the checksums made right; every 16th
/// also as the Rust has it.
fn each_word(packet: &[u8], each: &mut impl FnMut(&[u8])) {
    for at in (0..part_at(packet) + UDP_HEADER + 8).step_by(2) {
        for value in 0..=0xffff {
            let mut changed = packet.to_vec();
            set_word(&mut changed, at, value);
            sum_again(&mut changed, Covered::Segment);
            each(&changed);
            if value % 16 == 0 {
                sum_again(&mut changed, Covered::Part);
                each(&changed);
            }
        }
    }
}

/// Every length of the packet with every length of UDP, from 0 to beyond the packet's own, the
/// checksums made right as the RFCs have it and as the Rust has it; and then with a wrong UDP checksum.
fn each_two_lengths(packet: &[u8], each: &mut impl FnMut(&[u8])) {
    let most = packet.len() as u16 + 2;
    for length in 0..=most {
        for udp_length in 0..=most {
            let mut changed = packet.to_vec();
            set_word(&mut changed, length_at(packet), length);
            set_word(&mut changed, part_at(packet) + 4, udp_length);
            for covered in [Covered::Segment, Covered::Part] {
                sum_again(&mut changed, covered);
                each(&changed);
            }
            let place = part_at(packet) + 6;
            changed[place] ^= 1;
            each(&changed);
        }
    }
}

/// A right packet with anything extra, changed in up to two ways.
pub(crate) fn any_packet(random: &mut Random) -> Vec<u8> {
    let probe = any_probe(random);
    let extra = any_extra(random, &probe);
    let mut packet = right_packet(random, probe, &extra);
    for _ in 0..random.below(3) {
        change(random, &mut packet);
    }
    packet
}

/// Any options, payload, padding and bytes behind, their lengths of few digits as often as of many; now
/// and then no UDP checksum.
fn any_extra(random: &mut Random, probe: &Probe) -> Extra {
    let (options, most) = match probe.flow.source.is_ipv4() {
        true => {
            let options = random.below(11);
            (options, MOST - 20 - 4 * options - UDP_HEADER)
        }
        false => (0, MOST - UDP_HEADER),
    };
    let payload = match random.below(16) {
        0 => most,
        1 => random.below(PROBE),
        2..8 => PROBE,
        _ => PROBE + random.length(most - PROBE),
    };
    Extra {
        options,
        payload,
        padding: match random.below(16) {
            0 => most - payload,
            1 => random.below(most - payload + 1),
            2..6 => random.length(most - payload),
            _ => 0,
        },
        behind: match random.below(16) {
            0 => random.length(70_000),
            1..8 => 0,
            _ => random.length(100),
        },
        unsummed: random.below(8) == 0,
        covered: any_covered(random),
        fragment: 0,
    }
}

/// As the RFCs have it, three times out of four.
pub(crate) fn any_covered(random: &mut Random) -> Covered {
    match random.below(4) {
        0 => Covered::Part,
        _ => Covered::Segment,
    }
}

/// A packet with padding, which a GTP-U message has room for: most are read with this probe, and of the
/// others some are refused by each number from 10 to 14.
pub(crate) fn padded_packet(random: &mut Random, probe: Probe) -> Vec<u8> {
    let way = random.below(10);
    let payload = match way {
        0 => random.below(PROBE),
        _ => PROBE + random.length(MOST / 2),
    };
    let extra = Extra {
        payload,
        padding: 1 + random.length(MOST - FEW - payload),
        behind: 0,
        unsummed: way == 1,
        covered: [Covered::Segment, Covered::Part][usize::from(way == 2)],
        ..any_extra(random, &probe)
    };
    let mut packet = right_packet(random, probe, &extra);
    let at = part_at(&packet);
    match way {
        3 => {
            let past = packet.len() - at + 1;
            let lengths = [random.below(UDP_HEADER), past, MOST];
            set_word(&mut packet, at + 4, lengths[random.below(3)] as u16);
        }
        4 => {
            let place = at + UDP_HEADER + random.below(8);
            packet[place] = random.other_byte(packet[place]);
            sum_again(&mut packet, Covered::Segment);
        }
        _ => {}
    }
    packet
}

/// The built packet with something extra, and with anything where the reader does not look.
pub fn right_packet(random: &mut Random, probe: Probe, extra: &Extra) -> Vec<u8> {
    let built = build(probe);
    let (header, udp) = built.split_at(built.len() - UDP_LENGTH);
    let options = random.bytes(4 * extra.options);
    let payload = random.bytes(extra.payload.saturating_sub(PROBE));
    let padding = random.bytes(extra.padding);
    let mut packet = [header, &options, udp, &payload, &padding].concat();

    match version(&packet) {
        4 => {
            packet[0] += extra.options as u8;
            packet[1] = random.number() as u8;
            packet[4..9].copy_from_slice(&random.bytes(5));
            let flags = random.any_u16() & (RESERVED | DONT_FRAGMENT);
            set_word(&mut packet, IPV4_FLAGS_AT, flags | extra.fragment);
        }
        _ => {
            packet[0] |= random.below(16) as u8;
            packet[1..4].copy_from_slice(&random.bytes(3));
            packet[7] = random.number() as u8;
        }
    }
    let at = part_at(&packet);
    packet.truncate(at + UDP_HEADER + extra.payload + extra.padding);
    set_lengths(&mut packet, extra.payload, extra.padding);
    if extra.unsummed {
        set_word(&mut packet, at + 6, 0);
    }
    sum_again(&mut packet, extra.covered);
    packet.extend(random.bytes(extra.behind));
    packet
}

/// Gives an IPv4 packet any IHL.
pub(crate) fn set_any_ihl(random: &mut Random, packet: &mut [u8]) {
    if version(packet) == 4 {
        packet[0] = 0x40 | random.below(16) as u8;
    }
}

/// Gives an IPv4 packet one flag alone, an offset at an end of a byte, or any flags with any offset.
pub(crate) fn set_any_flags(random: &mut Random, packet: &mut [u8]) {
    if version(packet) == 4 {
        let flags = match random.below(3) {
            0 => [RESERVED, DONT_FRAGMENT, MORE_FRAGMENTS][random.below(3)],
            1 => [1, 0x00ff, 0x0100, 0x1fff][random.below(4)],
            _ => random.any_u16(),
        };
        set_word(packet, IPV4_FLAGS_AT, flags);
    }
}

/// Cuts the packet, turns bits of it or changes a field; then may make the checksums right.
fn change(random: &mut Random, packet: &mut Vec<u8>) {
    let at = part_at(packet);
    let near = packet.len().min(at + UDP_LENGTH);
    if near == 0 {
        return;
    }
    match random.below(8) {
        0 => packet.truncate(random.length(packet.len())),
        1 => {
            for _ in 0..=random.below(3) {
                packet[random.below(near)] ^= 1 << random.below(8);
            }
        }
        2 => {
            let place = random.below(packet.len());
            packet[place] = random.number() as u8;
        }
        3 => {
            let values = [7, 8, 31, 32, 33, 0x7fff, 0x8000, random.any_u16()];
            let value = values[random.below(values.len())];
            set_word(packet, random.below(near), value);
        }
        4 => {
            let length = packet.len().saturating_sub(at).min(MOST);
            let shorter = length - random.length(length);
            set_word(packet, at + 4, shorter as u16);
        }
        5 => set_any_ihl(random, packet),
        6 => set_any_flags(random, packet),
        _ => set_word(packet, at + 6, 0),
    }
    if random.below(2) == 0 {
        let covered = any_covered(random);
        sum_again(packet, covered);
    }
}
