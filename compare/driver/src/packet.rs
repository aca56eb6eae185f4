//! Where the fields of a T-PDU stand, and how they are set. Nothing here judges a packet.

use std::ops::Range;

use crate::rust_side::measurement::checksum;

pub const IPV4_HEADER_CHECKSUM_AT: usize = 10;
pub const IPV4_UDP_CHECKSUM_AT: usize = 26;
pub const IPV6_UDP_CHECKSUM_AT: usize = 46;

/// The length of a UDP header.
pub const UDP_HEADER: usize = 8;

/// The upper four bits of byte 0; of no bytes, 0.
pub fn version(tpdu: &[u8]) -> u8 {
    tpdu.first().map_or(0, |byte| byte >> 4)
}

/// The lower four bits of byte 0: in IPv4, how many words of 4 bytes the header has. Of no bytes, 0.
pub fn ipv4_ihl(tpdu: &[u8]) -> usize {
    tpdu.first().map_or(0, |byte| usize::from(byte & 0x0f))
}

/// Where an IPv4 header has its three flags and the fragment offset, 16 bits in all.
pub const IPV4_FLAGS_AT: usize = 6;

/// Of these 16 bits: the flags, of which the first is reserved (RFC 791, section 3.1).
pub const RESERVED: u16 = 0x8000;
pub const DONT_FRAGMENT: u16 = 0x4000;
pub const MORE_FRAGMENTS: u16 = 0x2000;

/// Whether it is an IPv4 packet with More Fragments set or a fragment offset other than 0.
pub fn is_ipv4_fragment(tpdu: &[u8]) -> bool {
    let flags = word(tpdu, IPV4_FLAGS_AT);
    let offset = flags & !(RESERVED | DONT_FRAGMENT | MORE_FRAGMENTS);
    version(tpdu) == 4 && (flags & MORE_FRAGMENTS != 0 || offset != 0)
}

/// Where the UDP part starts: after the IPv4 header and its options, or the IPv6 header.
pub fn part_at(tpdu: &[u8]) -> usize {
    match version(tpdu) {
        4 => 4 * ipv4_ihl(tpdu),
        _ => 40,
    }
}

/// Where the IP header says how long the packet is: in all, or, in IPv6, past the header.
pub fn length_at(tpdu: &[u8]) -> usize {
    match version(tpdu) {
        4 => 2,
        _ => 4,
    }
}

/// Where the IP header says which protocol follows it.
pub fn protocol_at(tpdu: &[u8]) -> usize {
    match version(tpdu) {
        4 => 9,
        _ => 6,
    }
}

/// The UDP part: the bytes from the end of the IP header to where that header says that the packet
/// ends. They need not all be there.
pub fn part_range(tpdu: &[u8]) -> Range<usize> {
    let at = part_at(tpdu);
    let length = usize::from(word(tpdu, length_at(tpdu)));
    match version(tpdu) {
        4 => at..length,
        _ => at..at + length,
    }
}

/// The length that the UDP header gives.
pub fn udp_length(tpdu: &[u8]) -> usize {
    usize::from(word(tpdu, part_at(tpdu) + 4))
}

/// The word at a place. A byte that is not there counts as 0.
pub fn word(bytes: &[u8], at: usize) -> u16 {
    let byte = |at: usize| bytes.get(at).copied().unwrap_or(0);
    u16::from_be_bytes([byte(at), byte(at + 1)])
}

/// Writes a word, unless it would stand past the end.
pub fn set_word(bytes: &mut [u8], at: usize, value: u16) {
    if let Some(place) = bytes.get_mut(at..at + 2) {
        place.copy_from_slice(&value.to_be_bytes());
    }
}

/// Sets the lengths of both headers, for a UDP payload and padding behind it.
pub fn set_lengths(tpdu: &mut [u8], payload: usize, padding: usize) {
    let at = part_at(tpdu);
    let part = UDP_HEADER + payload + padding;
    let length = match version(tpdu) {
        4 => at + part,
        _ => part,
    };
    set_word(tpdu, length_at(tpdu), length as u16);
    set_word(tpdu, at + 4, (UDP_HEADER + payload) as u16);
}

/// What a UDP checksum is made right over.
#[derive(Debug, Clone, Copy, PartialEq, Eq)]
pub enum Covered {
    /// As many bytes as the UDP length says, as the RFCs have it; where the part has not so many, or
    /// they are too few for a UDP header, the part.
    Segment,
    /// The whole part, as the Rust has it.
    Part,
}

/// Makes the checksums right, as far as the lengths leave room for them. A UDP checksum of 0
/// stays 0.
pub fn sum_again(tpdu: &mut [u8], covered: Covered) {
    sum_header_again(tpdu);
    let part = part_range(tpdu);
    let addresses = match version(tpdu) {
        4 if part.start >= 20 => 12..20,
        6 => 8..40,
        _ => return,
    };
    let at = part.start + 6;
    if part.len() < UDP_HEADER || part.end > tpdu.len() || word(tpdu, at) == 0 {
        return;
    }
    let length = match udp_length(tpdu) {
        length if covered == Covered::Segment && (UDP_HEADER..=part.len()).contains(&length) => {
            length
        }
        _ => part.len(),
    };
    set_word(tpdu, at, 0);
    let sum = checksum(&[
        &tpdu[addresses],
        &[0, 17],
        &(length as u16).to_be_bytes(),
        &tpdu[part.start..part.start + length],
    ]);
    set_word(tpdu, at, if sum == 0 { 0xffff } else { sum });
}

/// Makes the checksum of an IPv4 header right, if the header is all there.
pub fn sum_header_again(tpdu: &mut [u8]) {
    let end = part_at(tpdu);
    if version(tpdu) == 4 && end >= 20 && tpdu.len() >= end {
        set_word(tpdu, IPV4_HEADER_CHECKSUM_AT, 0);
        let sum = checksum(&[&tpdu[..end]]);
        set_word(tpdu, IPV4_HEADER_CHECKSUM_AT, sum);
    }
}
