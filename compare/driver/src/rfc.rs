//! A reader of UDP segments written from RFC 768, RFC 8200 (section 8.1) and RFC 1071, and from no
//! other reader: the judge where the Rust is none, since it sums the whole part.

use crate::numbers::{
    INVALID_UDP_CHECKSUM, INVALID_UDP_LENGTH, IPV6_UDP_CHECKSUM_IS_ZERO,
    MEASUREMENT_MAGIC_MISMATCH, TRUNCATED_MEASUREMENT_HEADER,
};
use crate::packet::{part_range, version, word, UDP_HEADER};
use crate::rust_side::measurement::{Flow, Probe};
use crate::rust_side::Outcome;

/// The protocol number of UDP (RFC 768).
const UDP: u8 = 17;

/// What a probe starts with, and its length: document 01.
const MAGIC: &[u8] = b"OPCDPTK1";
const PROBE: usize = 24;

/// Reads a T-PDU that no cause before 10 refuses: its part is all there, and has room for a UDP header.
pub fn read(tpdu: &[u8]) -> Outcome<Probe> {
    let segment = segment(&tpdu[part_range(tpdu)])?;
    judge_checksum(tpdu, segment)?;
    let data = &segment[UDP_HEADER..];
    if data.len() < PROBE {
        return Err(TRUNCATED_MEASUREMENT_HEADER);
    }
    if !data.starts_with(MAGIC) {
        return Err(MEASUREMENT_MAGIC_MISMATCH);
    }
    Ok(Probe {
        flow: flow(tpdu, segment),
        sequence: u64::from_be_bytes(octets(data, 8)),
        send_timestamp_ns: u64::from_be_bytes(octets(data, 16)),
    })
}

/// The datagram within its part. RFC 768: "Length is the length in octets of this user datagram
/// including this header and the data. (This means the minimum value of the length is eight.)"
fn segment(part: &[u8]) -> Outcome<&[u8]> {
    match usize::from(word(part, 4)) {
        length if length < UDP_HEADER => Err(INVALID_UDP_LENGTH),
        length => part.get(..length).ok_or(INVALID_UDP_LENGTH),
    }
}

/// RFC 768: "An all zero transmitted checksum value means that the transmitter generated no checksum".
/// RFC 8200: "IPv6 receivers must discard UDP packets containing a zero checksum". RFC 1071: "If the
/// result is all 1 bits [..], the check succeeds."
fn judge_checksum(tpdu: &[u8], segment: &[u8]) -> Outcome<()> {
    if word(segment, 6) == 0 {
        return match version(tpdu) {
            4 => Ok(()),
            _ => Err(IPV6_UDP_CHECKSUM_IS_ZERO),
        };
    }
    let mut octets = pseudo_header(tpdu, segment.len());
    octets.extend(segment);
    match sum(&octets) {
        0xffff => Ok(()),
        _ => Err(INVALID_UDP_CHECKSUM),
    }
}

/// RFC 768: "the source address, the destination address, the protocol, and the UDP length." RFC 8200
/// has the same in another order, the length in four octets: of a protocol that carries its own length,
/// "that is the length used in the pseudo-header".
fn pseudo_header(tpdu: &[u8], udp_length: usize) -> Vec<u8> {
    let [.., high, low] = udp_length.to_be_bytes();
    match version(tpdu) {
        4 => [&tpdu[12..20], &[0, UDP, high, low]].concat(),
        _ => [&tpdu[8..40], &[0, 0, high, low, 0, 0, 0, UDP]].concat(),
    }
}

/// RFC 1071: "Adjacent octets to be checksummed are paired to form 16-bit integers", the last with 0 if
/// it is alone, and their ones' complement sum is formed: a carry is added in at once.
fn sum(octets: &[u8]) -> u16 {
    octets.chunks(2).fold(0, |sum: u16, pair| {
        let (sum, carry) = sum.overflowing_add(word(pair, 0));
        sum + u16::from(carry)
    })
}

fn flow(tpdu: &[u8], segment: &[u8]) -> Flow {
    let (source_port, destination_port) = (word(segment, 0), word(segment, 2));
    match version(tpdu) {
        4 => Flow::new(
            (octets::<4>(tpdu, 12), source_port),
            (octets::<4>(tpdu, 16), destination_port),
        ),
        _ => Flow::new(
            (octets::<16>(tpdu, 8), source_port),
            (octets::<16>(tpdu, 24), destination_port),
        ),
    }
}

fn octets<const COUNT: usize>(bytes: &[u8], at: usize) -> [u8; COUNT] {
    std::array::from_fn(|k| bytes[at + k])
}
