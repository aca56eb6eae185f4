//! What the reflector is given, drawn at random: every field over its whole range, its ends often;
//! and near copies, which differ from a session, an address or a TEID in one place alone.

use testkit_open::reflector::{OpenReflector, ReflectorStats};

use crate::ours_reflector::{
    Address, Config, Message as Header, Session, ADDRESS_AT, SESSION_BYTES, VERSION_AT,
};
use crate::random::Random;
use crate::rust_side::gtpu::Message;
use crate::rust_side::measurement::build;
use crate::wild::{any_packet, any_probe, padded_packet};

pub const G_PDU: u8 = 255;
pub const ECHO_REQUEST: u8 = 1;

/// The longest payload.
const MOST_PAYLOAD: usize = 65_535;

/// The place of a near copy that differs in bytes which do not count: those past an IPv4 address, and
/// the number of the version, where it is IPv6.
pub const UNCOUNTED: usize = SESSION_BYTES;

/// The places in which a near copy may differ: a byte of the session, or `UNCOUNTED`.
pub const PLACES: usize = SESSION_BYTES + 1;

/// The policy under which a G-PDU is read.
pub const ECHO: u8 = 0;

/// Echo twice as often as the others; any number but 0 and 1 is a route.
pub fn any_policy(random: &mut Random) -> u8 {
    [0, 0, 1, 2, random.any_u8()][random.below(5)]
}

pub fn any_config(random: &mut Random, max_sessions: usize, policy: u8) -> Config {
    Config {
        max_sessions,
        recovery_counter: random.any_u8(),
        policy,
        target: any_address(random),
        target_teid: random.any_u32(),
    }
}

/// A number that stands for IPv6: any but 4.
fn any_ipv6(random: &mut Random) -> u8 {
    match random.any_u8() {
        4 => 6,
        version => version,
    }
}

/// Any address: IPv4, with any bytes where they do not count; IPv6; or of another version, which is
/// IPv6 too.
pub fn any_address(random: &mut Random) -> Address {
    let version = match random.below(8) {
        0..4 => 4,
        4..7 => 6,
        _ => any_ipv6(random),
    };
    let address = match random.below(8) {
        0 => random.bytes(16).try_into().expect("16 bytes"),
        _ => std::array::from_fn(|_| random.number() as u8),
    };
    Address {
        version,
        address,
        port: random.any_u16(),
    }
}

pub fn any_session(random: &mut Random) -> Session {
    Session {
        local_teid: random.any_u32(),
        peer_teid: random.any_u32(),
        peer_addr: any_address(random),
    }
}

/// A copy that differs from the session in the byte at this place and in no other; where the place
/// is the version's, in the IP version as a rule. At `UNCOUNTED` it is the same record.
pub fn near_copy(random: &mut Random, session: Session, place: usize) -> Session {
    let mut bytes = session.to_bytes();
    let is_ipv4 = session.peer_addr.version == 4;
    match place {
        UNCOUNTED if is_ipv4 => {
            let past = ADDRESS_AT + 4 + random.below(12);
            for byte in &mut bytes[past..ADDRESS_AT + 16] {
                *byte = random.number() as u8;
            }
        }
        UNCOUNTED => bytes[VERSION_AT] = any_ipv6(random),
        VERSION_AT if is_ipv4 => bytes[place] = [6, any_ipv6(random)][random.below(2)],
        VERSION_AT if random.below(4) > 0 => bytes[place] = 4,
        _ => bytes[place] = random.other_byte(bytes[place]),
    }
    Session::from_bytes(bytes)
}

/// One of these sessions, if there are any: every second time the last, which was registered last.
fn one_of(random: &mut Random, used: &[Session]) -> Option<Session> {
    match random.below(2) {
        0 => used.last().copied(),
        _ if used.is_empty() => None,
        _ => Some(used[random.below(used.len())]),
    }
}

/// A session to register and the place in which it is near to a used one; or any, and no place.
pub fn any_registered(random: &mut Random, used: &[Session]) -> (Session, Option<usize>) {
    match one_of(random, used) {
        Some(known) if random.below(2) == 0 => {
            let place = random.below(PLACES);
            (near_copy(random, known, place), Some(place))
        }
        _ => (any_session(random), None),
    }
}

/// An address that a message comes from: any, or one that is a peer's or near to it.
pub fn any_source(random: &mut Random, used: &[Session]) -> Address {
    match one_of(random, used) {
        Some(known) if random.below(2) == 0 => {
            let place = VERSION_AT + random.below(PLACES - VERSION_AT);
            near_copy(random, known, place).peer_addr
        }
        _ => any_address(random),
    }
}

/// The TEID of a used row; one that differs from it in one byte, which is the second answer; or any.
pub fn any_teid(random: &mut Random, used: &[Session]) -> (u32, Option<usize>) {
    match (one_of(random, used), random.below(4)) {
        (Some(known), 0 | 1) => (known.local_teid, None),
        (Some(known), 2) => {
            let byte = random.below(4);
            (near_copy(random, known, byte).local_teid, Some(byte))
        }
        _ => (random.any_u32(), None),
    }
}

/// A message of a type that is answered or of any, its payload a packet, a padded or damaged one, or
/// none. An Echo Request has TEID 0 every second time.
pub fn any_message(random: &mut Random, used: &[Session]) -> Message {
    let message_type = match random.below(8) {
        0..5 => G_PDU,
        5 | 6 => ECHO_REQUEST,
        _ => [2, 26, 31, 254, random.any_u8()][random.below(5)],
    };
    let probe = any_probe(random);
    let mut payload = match random.below(8) {
        0 => Vec::new(),
        1 | 2 => any_packet(random),
        3 => padded_packet(random, probe),
        _ => build(probe),
    };
    payload.truncate(MOST_PAYLOAD);
    if random.below(4) == 0 && !payload.is_empty() {
        let place = random.below(payload.len());
        payload[place] = random.other_byte(payload[place]);
    }
    let teid = match message_type {
        ECHO_REQUEST if random.below(2) == 0 => 0,
        _ => any_teid(random, used).0,
    };
    Message {
        message_type,
        teid,
        sequence: [None, Some(random.any_u16())][random.below(2)],
        payload,
    }
}

/// A message as ours has it. Any number but 0 says that there is a sequence, and where there is none
/// its field may hold any.
pub fn any_header(random: &mut Random, message: &Message) -> Header {
    Header {
        message_type: message.message_type,
        teid: message.teid,
        has_sequence: match message.sequence {
            None => 0,
            Some(_) => random.any_u8().max(1),
        },
        sequence: message.sequence.unwrap_or(random.any_u16()),
    }
}

/// No sessions, any counts and any error sequence; every second one is near its top.
pub fn any_state(random: &mut Random) -> OpenReflector {
    let mut count = || match random.below(2) {
        0 => random.any_u64(),
        _ => u64::MAX - random.below(3) as u64,
    };
    OpenReflector {
        sessions: Vec::new(),
        stats: ReflectorStats {
            gpdu_received: count(),
            gpdu_forwarded: count(),
            gpdu_sunk: count(),
            echo_requests_answered: count(),
            error_indications_sent: count(),
            malformed_rejected: count(),
        },
        next_error_sequence: match random.below(2) {
            0 => random.any_u16(),
            _ => u16::MAX - random.below(3) as u16,
        },
    }
}
