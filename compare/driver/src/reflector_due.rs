//! What our reflector has to answer where the Rust's answers this, in the numbers that are compared
//! (compared.rs); and our values in the Rust's types.

use std::net::{IpAddr, SocketAddr};

use testkit_open::reflector::{
    OpenReflector, ReflectorPolicy, ReflectorSendReason, ReflectorSession, RouteTarget,
};

use crate::ours_reflector::{Address, Config, Handled, Message as Header, Session, State, Stats};
use crate::ours_traffic::{Elements, Tunnel};
use crate::rust_side::gtpu::Message;
use crate::rust_side::reflector::{Action, Reflector};
use crate::rust_side::Outcome;

/// Our number for a message that is sent as an Error Indication.
pub const ERROR_INDICATION_SENT: u8 = 4;

/// The Rust's reflector with this configuration, fresh.
pub fn rust_reflector(config: &Config) -> Outcome<Reflector> {
    let policy = match config.policy {
        0 => ReflectorPolicy::Echo,
        1 => ReflectorPolicy::SinkAndCount,
        _ => ReflectorPolicy::Route(RouteTarget {
            destination: socket_addr(config.target),
            teid: config.target_teid,
        }),
    };
    Reflector::new_multi(config.max_sessions, config.recovery_counter, policy)
}

pub fn rust_session(session: Session) -> ReflectorSession {
    ReflectorSession {
        local_teid: session.local_teid,
        peer_teid: session.peer_teid,
        peer_addr: socket_addr(session.peer_addr),
    }
}

pub fn socket_addr(address: Address) -> SocketAddr {
    let bytes = address.address;
    match address.version {
        4 => SocketAddr::from(([bytes[0], bytes[1], bytes[2], bytes[3]], address.port)),
        _ => SocketAddr::from((bytes, address.port)),
    }
}

fn our_address(address: SocketAddr) -> Address {
    let mut bytes = [0; 16];
    let version = match address.ip() {
        IpAddr::V4(ip) => {
            bytes[..4].copy_from_slice(&ip.octets());
            4
        }
        IpAddr::V6(ip) => {
            bytes = ip.octets();
            6
        }
    };
    Address {
        version,
        address: bytes,
        port: address.port(),
    }
}

/// The address without the bytes that do not count.
pub fn plain(mut address: Address) -> Address {
    if address.version == 4 {
        address.address[4..].fill(0);
    }
    address
}

pub fn our_state(state: &OpenReflector) -> State {
    State {
        stats: Stats {
            gpdu_received: state.stats.gpdu_received,
            gpdu_forwarded: state.stats.gpdu_forwarded,
            gpdu_sunk: state.stats.gpdu_sunk,
            echo_requests_answered: state.stats.echo_requests_answered,
            error_indications_sent: state.stats.error_indications_sent,
            malformed_rejected: state.stats.malformed_rejected,
        },
        next_error_sequence: state.next_error_sequence,
    }
}

/// What is due where the Rust answers this, and the output that it leaves.
pub fn handled(
    answer: &Outcome<Action>,
    received: &Message,
    state: State,
    expected: &mut [u8],
) -> Handled {
    let (destination, message, reason) = match answer {
        Err(number) => return not_sent(*number, 0, 0, state),
        Ok(Action::Noop { reason }) => return not_sent(0, 1, noop_number(reason), state),
        Ok(Action::Send {
            destination,
            message,
            reason,
        }) => (destination, message, reason),
    };
    let (reason, bytes) = match reason {
        ReflectorSendReason::ReflectedGpdu => (1, message.payload.len()),
        ReflectorSendReason::RoutedGpdu => {
            assert_eq!(message.payload, received.payload, "a route changes nothing");
            (2, 0)
        }
        ReflectorSendReason::EchoResponse => (3, message.payload.len()),
        ReflectorSendReason::ErrorIndication => (ERROR_INDICATION_SENT, message.payload.len()),
    };
    expected[..bytes].copy_from_slice(&message.payload[..bytes]);
    Handled {
        number: 0,
        action: 2,
        noop_reason: 0,
        send_reason: reason,
        bytes,
        destination: our_address(*destination),
        message: Header {
            message_type: message.message_type,
            teid: message.teid,
            has_sequence: u8::from(message.sequence.is_some()),
            sequence: message.sequence.unwrap_or(0),
        },
        state,
    }
}

/// What our element walk has to read from what ours writes where the Rust answers this: if it is an Error
/// Indication, it is accepted, and names the TEID that the message had and the address that it came from.
pub fn read_back(answer: &Outcome<Action>, source: Address, teid: u32) -> Option<Elements> {
    let Ok(Action::Send {
        reason: ReflectorSendReason::ErrorIndication,
        ..
    }) = answer
    else {
        return None;
    };
    let tunnel = Tunnel {
        teid,
        version: match source.version {
            4 => 4,
            _ => 6,
        },
        peer_address: plain(source).address,
    };
    Some(Elements::new(0, tunnel))
}

/// An answer with nothing to send: version 4 and zeros for the message.
pub fn not_sent(number: u8, action: u8, noop_reason: u8, state: State) -> Handled {
    Handled {
        number,
        action,
        noop_reason,
        destination: Address {
            version: 4,
            ..Address::default()
        },
        state,
        ..Handled::default()
    }
}

fn noop_number(reason: &str) -> u8 {
    match reason {
        "G-PDU sunk" => 1,
        "echo response observed" => 2,
        "error indication observed" => 3,
        "end marker ignored" => 4,
        "supported extension headers notification ignored" => 5,
        _ => panic!("the Rust has another reason: {reason}"),
    }
}
