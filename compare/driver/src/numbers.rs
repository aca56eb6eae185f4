//! The numbers of document 01 ("The card in the pouch") and of document 02, under the names that
//! crates/error gives them; which of them each of our calls answers; and from the Rust's errors to
//! these numbers. `.ci/card` holds the constants and each list to the crates.

use std::collections::BTreeSet;

use testkit_open::DataplaneTestkitError as Error;

use crate::compared::{as_the_rust_tells, NOT_COMPARED};

pub const TRUNCATED_IP_HEADER: u8 = 1;
pub const UNSUPPORTED_IP_VERSION: u8 = 2;
pub const TRUNCATED_IPV4_HEADER: u8 = 3;
pub const INVALID_IPV4_IHL: u8 = 4;
pub const INVALID_IPV4_TOTAL_LENGTH: u8 = 5;
pub const PAYLOAD_IS_NOT_UDP: u8 = 6;
pub const INVALID_IPV4_HEADER_CHECKSUM: u8 = 7;
pub const TRUNCATED_IPV6_UDP_PACKET: u8 = 8;
pub const INVALID_IPV6_PAYLOAD_LENGTH: u8 = 9;
pub const INVALID_UDP_LENGTH: u8 = 10;
pub const IPV6_UDP_CHECKSUM_IS_ZERO: u8 = 11;
pub const INVALID_UDP_CHECKSUM: u8 = 12;
pub const TRUNCATED_MEASUREMENT_HEADER: u8 = 13;
pub const MEASUREMENT_MAGIC_MISMATCH: u8 = 14;
pub const OUTPUT_TOO_SHORT: u8 = 15;
pub const TARGET_RATE_IS_ZERO: u8 = 16;
pub const TARGET_RATE_EXCEEDS_RESOLUTION: u8 = 17;
pub const TOO_MANY_PACKETS: u8 = 18;
pub const SEQUENCE_OVERFLOW: u8 = 19;
pub const SEND_TIMESTAMP_OVERFLOW: u8 = 20;
pub const MALFORMED_OBSERVER: u8 = 21;
pub const OBSERVER_FULL: u8 = 22;
pub const SEQUENCE_WAS_NOT_SENT: u8 = 23;
pub const TIMESTAMP_REVERSED: u8 = 24;
pub const TRUNCATED_ELEMENT: u8 = 25;
pub const INVALID_PEER_ADDRESS_LENGTH: u8 = 26;
pub const UNSUPPORTED_FIXED_LENGTH_ELEMENT: u8 = 27;
pub const MISSING_TEID_DATA_I: u8 = 28;
pub const MISSING_PEER_ADDRESS: u8 = 29;
pub const INVALID_REFLECTOR_CAPACITY: u8 = 30;
pub const MALFORMED_REFLECTOR_TABLE: u8 = 31;
pub const INVALID_REFLECTOR_SESSION: u8 = 32;
pub const REFLECTOR_SESSION_CONFLICT: u8 = 33;
pub const REFLECTOR_SESSION_CAPACITY_EXCEEDED: u8 = 34;
pub const ECHO_REQUEST_TEID_NOT_ZERO: u8 = 35;
pub const ECHO_REQUEST_MISSING_SEQUENCE: u8 = 36;
pub const UNSUPPORTED_MESSAGE_TYPE: u8 = 37;
pub const IPV4_FRAGMENT: u8 = 38;
pub const TRUNCATED_IPV4_UDP_PACKET: u8 = 39;

/// The card's numbers, in their order.
pub const CARD: &[u8] = &[
    TRUNCATED_IP_HEADER,
    UNSUPPORTED_IP_VERSION,
    TRUNCATED_IPV4_HEADER,
    INVALID_IPV4_IHL,
    INVALID_IPV4_TOTAL_LENGTH,
    PAYLOAD_IS_NOT_UDP,
    INVALID_IPV4_HEADER_CHECKSUM,
    TRUNCATED_IPV6_UDP_PACKET,
    INVALID_IPV6_PAYLOAD_LENGTH,
    INVALID_UDP_LENGTH,
    IPV6_UDP_CHECKSUM_IS_ZERO,
    INVALID_UDP_CHECKSUM,
    TRUNCATED_MEASUREMENT_HEADER,
    MEASUREMENT_MAGIC_MISMATCH,
    OUTPUT_TOO_SHORT,
    TARGET_RATE_IS_ZERO,
    TARGET_RATE_EXCEEDS_RESOLUTION,
    TOO_MANY_PACKETS,
    SEQUENCE_OVERFLOW,
    SEND_TIMESTAMP_OVERFLOW,
    MALFORMED_OBSERVER,
    OBSERVER_FULL,
    SEQUENCE_WAS_NOT_SENT,
    TIMESTAMP_REVERSED,
    TRUNCATED_ELEMENT,
    INVALID_PEER_ADDRESS_LENGTH,
    UNSUPPORTED_FIXED_LENGTH_ELEMENT,
    MISSING_TEID_DATA_I,
    MISSING_PEER_ADDRESS,
    INVALID_REFLECTOR_CAPACITY,
    MALFORMED_REFLECTOR_TABLE,
    INVALID_REFLECTOR_SESSION,
    REFLECTOR_SESSION_CONFLICT,
    REFLECTOR_SESSION_CAPACITY_EXCEEDED,
    ECHO_REQUEST_TEID_NOT_ZERO,
    ECHO_REQUEST_MISSING_SEQUENCE,
    UNSUPPORTED_MESSAGE_TYPE,
    IPV4_FRAGMENT,
    TRUNCATED_IPV4_UDP_PACKET,
];

/// What a reader of T-PDUs answers.
pub const READING: &[u8] = &[
    TRUNCATED_IP_HEADER,
    UNSUPPORTED_IP_VERSION,
    TRUNCATED_IPV4_HEADER,
    INVALID_IPV4_IHL,
    INVALID_IPV4_TOTAL_LENGTH,
    PAYLOAD_IS_NOT_UDP,
    INVALID_IPV4_HEADER_CHECKSUM,
    TRUNCATED_IPV6_UDP_PACKET,
    INVALID_IPV6_PAYLOAD_LENGTH,
    INVALID_UDP_LENGTH,
    IPV6_UDP_CHECKSUM_IS_ZERO,
    INVALID_UDP_CHECKSUM,
    TRUNCATED_MEASUREMENT_HEADER,
    MEASUREMENT_MAGIC_MISMATCH,
    IPV4_FRAGMENT,
    TRUNCATED_IPV4_UDP_PACKET,
];

/// What it judges before it knows the IP version, and for each version, in the order of judging.
pub const READING_EITHER: &[u8] = &[TRUNCATED_IP_HEADER, UNSUPPORTED_IP_VERSION];
pub const READING_IPV4: &[u8] = &[
    TRUNCATED_IPV4_HEADER,
    INVALID_IPV4_IHL,
    TRUNCATED_IPV4_UDP_PACKET,
    INVALID_IPV4_TOTAL_LENGTH,
    PAYLOAD_IS_NOT_UDP,
    INVALID_IPV4_HEADER_CHECKSUM,
    IPV4_FRAGMENT,
    INVALID_UDP_LENGTH,
    INVALID_UDP_CHECKSUM,
    TRUNCATED_MEASUREMENT_HEADER,
    MEASUREMENT_MAGIC_MISMATCH,
];
pub const READING_IPV6: &[u8] = &[
    TRUNCATED_IPV6_UDP_PACKET,
    PAYLOAD_IS_NOT_UDP,
    INVALID_IPV6_PAYLOAD_LENGTH,
    INVALID_UDP_LENGTH,
    IPV6_UDP_CHECKSUM_IS_ZERO,
    INVALID_UDP_CHECKSUM,
    TRUNCATED_MEASUREMENT_HEADER,
    MEASUREMENT_MAGIC_MISMATCH,
];

/// What judges a plan.
pub const PLANNING: &[u8] = &[
    TARGET_RATE_IS_ZERO,
    TARGET_RATE_EXCEEDS_RESOLUTION,
    TOO_MANY_PACKETS,
    SEQUENCE_OVERFLOW,
    SEND_TIMESTAMP_OVERFLOW,
];

/// What the run sheet answers by itself.
pub const OBSERVING: &[u8] = &[
    MALFORMED_OBSERVER,
    OBSERVER_FULL,
    SEQUENCE_WAS_NOT_SENT,
    TIMESTAMP_REVERSED,
];

/// What the walk over elements answers.
pub const WALKING: &[u8] = &[
    TRUNCATED_ELEMENT,
    INVALID_PEER_ADDRESS_LENGTH,
    UNSUPPORTED_FIXED_LENGTH_ELEMENT,
    MISSING_TEID_DATA_I,
    MISSING_PEER_ADDRESS,
];

/// What the session table answers.
pub const REGISTERING: &[u8] = &[
    INVALID_REFLECTOR_CAPACITY,
    MALFORMED_REFLECTOR_TABLE,
    INVALID_REFLECTOR_SESSION,
    REFLECTOR_SESSION_CONFLICT,
    REFLECTOR_SESSION_CAPACITY_EXCEEDED,
];

/// What the reflector answers a message by itself.
pub const HANDLING: &[u8] = &[
    OUTPUT_TOO_SHORT,
    ECHO_REQUEST_TEID_NOT_ZERO,
    ECHO_REQUEST_MISSING_SEQUENCE,
    UNSUPPORTED_MESSAGE_TYPE,
];

/// The numbers for what a caller lends and sets up, which have parts of their own.
const LENT: &[u8] = &[
    OUTPUT_TOO_SHORT,
    MALFORMED_OBSERVER,
    INVALID_REFLECTOR_CAPACITY,
    MALFORMED_REFLECTOR_TABLE,
];

/// 0 and the numbers of these lists: what calls answer that are lent what is in order.
pub fn answers(lists: &[&[u8]]) -> Vec<u8> {
    let mut numbers = lists.concat();
    numbers.retain(|number| !LENT.contains(number));
    numbers.push(0);
    numbers
}

/// The numbers for causes at which the Rust refuses nothing: output too short, count above
/// 2,048, run sheet malformed, run sheet full, session table malformed.
const NOT_IN_THE_RUST: &[u8] = &[
    OUTPUT_TOO_SHORT,
    TOO_MANY_PACKETS,
    MALFORMED_OBSERVER,
    OBSERVER_FULL,
    MALFORMED_REFLECTOR_TABLE,
];

/// Our numbers for causes at which the Rust refuses too.
pub fn in_the_rust() -> BTreeSet<u8> {
    let numbers = CARD.iter().copied();
    numbers
        .filter(|number| !NOT_IN_THE_RUST.contains(number) && !NOT_COMPARED.contains(number))
        .collect()
}

/// The numbers of the Rust's refusals.
pub fn of_the_rust() -> BTreeSet<u8> {
    in_the_rust().into_iter().map(as_the_rust_tells).collect()
}

/// The number of an error: one for each, though several errors may share it.
///
/// # Panics
///
/// On an error that cannot occur in the compared domain: a part too short for a UDP header, the
/// overflow of a length or of a packet count, a datagram that the stand-in codec refuses,
/// `UnknownTeid`, which the Rust never gives, and a violation of redaction.
pub fn number(error: &Error) -> u8 {
    match error {
        Error::Truncated { context } => match *context {
            "IP header" => TRUNCATED_IP_HEADER,
            "IPv4 header" => TRUNCATED_IPV4_HEADER,
            "IPv6 UDP packet" => TRUNCATED_IPV6_UDP_PACKET,
            "measurement header" => TRUNCATED_MEASUREMENT_HEADER,
            "TEID Data I IE" => TRUNCATED_ELEMENT,
            "GTP-U Peer Address IE" => TRUNCATED_ELEMENT,
            "GTP-U TLV IE" => TRUNCATED_ELEMENT,
            _ => unexpected(error),
        },
        Error::UnsupportedIpVersion { .. } => UNSUPPORTED_IP_VERSION,
        Error::InvalidPacket { reason } => match *reason {
            "invalid IPv4 IHL" => INVALID_IPV4_IHL,
            "invalid IPv4 total length" => INVALID_IPV4_TOTAL_LENGTH,
            "IPv4 payload is not UDP" => PAYLOAD_IS_NOT_UDP,
            "IPv6 payload is not UDP" => PAYLOAD_IS_NOT_UDP,
            "invalid IPv4 header checksum" => INVALID_IPV4_HEADER_CHECKSUM,
            "invalid IPv6 payload length" => INVALID_IPV6_PAYLOAD_LENGTH,
            "invalid UDP length" => INVALID_UDP_LENGTH,
            "IPv6 UDP checksum is zero" => IPV6_UDP_CHECKSUM_IS_ZERO,
            "invalid IPv4 UDP checksum" => INVALID_UDP_CHECKSUM,
            "invalid IPv6 UDP checksum" => INVALID_UDP_CHECKSUM,
            "measurement magic mismatch" => MEASUREMENT_MAGIC_MISMATCH,
            "target rate must be non-zero" => TARGET_RATE_IS_ZERO,
            "target rate exceeds nanosecond timestamp resolution" => TARGET_RATE_EXCEEDS_RESOLUTION,
            "received sequence was not sent" => SEQUENCE_WAS_NOT_SENT,
            "GTP-U Peer Address IE length must be IPv4 or IPv6" => INVALID_PEER_ADDRESS_LENGTH,
            "unsupported fixed-length GTP-U IE" => UNSUPPORTED_FIXED_LENGTH_ELEMENT,
            "Error Indication missing TEID Data I IE" => MISSING_TEID_DATA_I,
            "Error Indication missing GTP-U Peer Address IE" => MISSING_PEER_ADDRESS,
            "Echo Request TEID must be zero" => ECHO_REQUEST_TEID_NOT_ZERO,
            "Echo Request missing sequence number" => ECHO_REQUEST_MISSING_SEQUENCE,
            "unsupported GTP-U message type" => UNSUPPORTED_MESSAGE_TYPE,
            "unsupported GTP-U return message type" => UNSUPPORTED_MESSAGE_TYPE,
            _ => unexpected(error),
        },
        Error::Overflow { field } => match *field {
            "sequence" => SEQUENCE_OVERFLOW,
            "send_timestamp_ns" => SEND_TIMESTAMP_OVERFLOW,
            _ => unexpected(error),
        },
        Error::TimestampReversed => TIMESTAMP_REVERSED,
        Error::InvalidReflectorCapacity => INVALID_REFLECTOR_CAPACITY,
        Error::InvalidReflectorSession => INVALID_REFLECTOR_SESSION,
        Error::ReflectorSessionConflict => REFLECTOR_SESSION_CONFLICT,
        Error::ReflectorSessionCapacityExceeded => REFLECTOR_SESSION_CAPACITY_EXCEEDED,
        Error::GtpuDecode(_)
        | Error::GtpuEncode(_)
        | Error::UnknownTeid
        | Error::RedactionViolation(_) => unexpected(error),
    }
}

fn unexpected(error: &Error) -> ! {
    panic!("the Rust refuses, and document 01 has no number for it: {error}")
}
