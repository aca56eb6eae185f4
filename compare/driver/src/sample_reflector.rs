//! The reflector's part of the sample (`sample.rs`): its three calls on tables of `ROWS` rows, of
//! which some are used, and the refusal of a maximum, which the Rust gives when a reflector is made.

use testkit_open::reflector::OpenReflector;

use crate::compared::{compared, told_apart};
use crate::numbers::ECHO_REQUEST_TEID_NOT_ZERO;
use crate::ours_reflector::{Address, Config, Handled, Message as Header, Session, State};
use crate::random::Random;
use crate::records::{word, Drawn, DIRT, MOST_BYTES, ROWS};
use crate::reflector::{LEAST_OUTPUT, MOST_SESSIONS};
use crate::reflector_due::{handled, our_state, rust_reflector, rust_session, socket_addr};
use crate::reflector_inputs::{
    any_config, any_header, any_message, any_policy, any_registered, any_session, any_source,
    any_state, any_teid, ECHO, G_PDU,
};
use crate::rust_side::reflector::Reflector;
use crate::rust_side::Outcome;

/// A table, and the Rust's reflector whose sessions are its used rows.
struct Table {
    sessions: Vec<Session>,
    used: usize,
    config: Config,
    state: State,
    rust: Outcome<Reflector>,
}

impl Table {
    /// Any state, and any rows past the used ones. Where the Rust refuses the maximum none is used.
    fn any(random: &mut Random) -> Self {
        let max_sessions = match random.below(16) {
            0 => [0, MOST_SESSIONS + 1, usize::from(u16::MAX)][random.below(3)],
            _ => 1 + random.below(ROWS),
        };
        let policy = any_policy(random);
        let config = any_config(random, max_sessions, policy);
        let mut rust = rust_reflector(&config);
        let mut sessions: Vec<Session> = (0..ROWS).map(|_| any_session(random)).collect();
        let mut used = 0;
        let mut state = any_state(random);
        if let Ok(rust) = &mut rust {
            let asked = random.below(max_sessions + 1);
            while used < asked {
                let session = any_session(random);
                if rust.register_session(rust_session(session)) == Ok(true) {
                    sessions[used] = session;
                    used += 1;
                }
            }
            state.sessions = rust.state().sessions;
            rust.set_state(state.clone());
        }
        let state = our_state(&state);
        Self {
            sessions,
            used,
            config,
            state,
            rust,
        }
    }

    fn used(&self) -> &[Session] {
        &self.sessions[..self.used]
    }

    /// Used count, maximum and rows: 165 bytes.
    fn bytes(&self) -> Vec<u8> {
        let mut bytes = vec![self.used as u8];
        bytes.extend(word(self.config.max_sessions));
        bytes.extend(rows_bytes(&self.sessions));
        bytes
    }

    /// The used rows must be the Rust's sessions, in their order.
    fn check(&self) {
        if let Ok(rust) = &self.rust {
            let rows = self.used().iter();
            let OpenReflector { sessions, .. } = rust.state();
            assert!(
                rows.copied().map(rust_session).eq(sessions),
                "the used rows"
            );
        }
    }
}

/// Version, address and port: 19 bytes.
fn address_bytes(address: &Address) -> Vec<u8> {
    let mut bytes = vec![address.version];
    bytes.extend(address.address);
    bytes.extend(address.port.to_be_bytes());
    bytes
}

fn rows_bytes(sessions: &[Session]) -> Vec<u8> {
    sessions.iter().flat_map(|row| row.to_bytes()).collect()
}

/// The varieties are the place in which the session is near to a used one, or none, and its version.
pub fn draw_register(random: &mut Random) -> Option<Drawn> {
    let mut table = Table::any(random);
    let (session, place) = any_registered(random, table.used());
    let mut rest = table.bytes();
    rest.extend(session.to_bytes());
    let answer = match &mut table.rust {
        Ok(rust) => rust.register_session(rust_session(session)),
        Err(number) => Err(*number),
    };
    let added = answer == Ok(true);
    if added {
        table.sessions[table.used] = session;
        table.used += 1;
    }
    table.check();
    rest.extend([u8::from(added), table.used as u8]);
    rest.extend(rows_bytes(&table.sessions));
    let near = place.map_or(0, |place| 1 + place as u8);
    let variety = near * 2 + u8::from(session.peer_addr.version == 4);
    Some((answer.err().unwrap_or(0), variety, rest))
}

/// The varieties are whether a row is removed, whether another is moved into its place, and the byte
/// in which the TEID is near to that of a used row, or none.
pub fn draw_remove(random: &mut Random) -> Option<Drawn> {
    let mut table = Table::any(random);
    let (local_teid, near) = any_teid(random, table.used());
    let mut rest = table.bytes();
    rest.extend(local_teid.to_be_bytes());
    let mut used = table.used().iter();
    let place = used.position(|session| session.local_teid == local_teid);
    let removed = place.map(|place| table.sessions[place]);
    let number = match &mut table.rust {
        Ok(rust) => {
            let answer = rust.remove_session(local_teid);
            assert_eq!(answer, removed.map(rust_session), "the row removed");
            0
        }
        Err(number) => *number,
    };
    if let Some(place) = place {
        table.used -= 1;
        table.sessions[place] = table.sessions[table.used];
    }
    table.check();
    rest.extend([u8::from(removed.is_some()), table.used as u8]);
    rest.extend(removed.unwrap_or_default().to_bytes());
    rest.extend(rows_bytes(&table.sessions));
    let moved = place.is_some_and(|place| place < table.used);
    let near = near.map_or(0, |byte| 1 + byte as u8);
    let variety = near * 4 + u8::from(removed.is_some()) * 2 + u8::from(moved);
    Some((number, variety, rest))
}

/// What the reflector is set up with, but for its maximum: 25 bytes.
fn config_bytes(config: &Config) -> Vec<u8> {
    let mut bytes = vec![config.recovery_counter, config.policy];
    bytes.extend(address_bytes(&config.target));
    bytes.extend(config.target_teid.to_be_bytes());
    bytes
}

/// The counts and the error sequence: 50 bytes.
fn state_bytes(state: &State) -> Vec<u8> {
    let stats = &state.stats;
    let counts = [
        stats.gpdu_received,
        stats.gpdu_forwarded,
        stats.gpdu_sunk,
        stats.echo_requests_answered,
        stats.error_indications_sent,
        stats.malformed_rejected,
    ];
    let mut bytes: Vec<u8> = counts.into_iter().flat_map(u64::to_be_bytes).collect();
    bytes.extend(state.next_error_sequence.to_be_bytes());
    bytes
}

/// Type, TEID, whether there is a sequence, and the sequence: 8 bytes.
fn message_bytes(message: &Header) -> Vec<u8> {
    let mut bytes = vec![message.message_type];
    bytes.extend(message.teid.to_be_bytes());
    bytes.push(message.has_sequence);
    bytes.extend(message.sequence.to_be_bytes());
    bytes
}

/// The reason of what is done: the other one is 0.
fn reason(handled: &Handled) -> u8 {
    handled.noop_reason.max(handled.send_reason)
}

/// What is answered (31 bytes), and the state afterwards (50).
fn handled_bytes(handled: &Handled) -> Vec<u8> {
    let mut bytes = vec![handled.action, reason(handled)];
    bytes.extend(word(handled.bytes));
    bytes.extend(address_bytes(&handled.destination));
    bytes.extend(message_bytes(&handled.message));
    bytes.extend(state_bytes(&handled.state));
    bytes
}

/// The varieties are what is done, under which policy, and to which version's address; of Echo
/// Requests with a TEID, which of its bytes alone is not 0, if one is.
pub fn draw_handle(random: &mut Random) -> Option<Drawn> {
    let mut table = Table::any(random);
    let message = any_message(random, table.used());
    let is_echoed = message.message_type == G_PDU && table.config.policy == ECHO;
    if message.payload.len() > MOST_BYTES || is_echoed && !compared(&message.payload) {
        return None;
    }
    let source = any_source(random, table.used());
    let header = any_header(random, &message);
    let mut out = vec![DIRT; LEAST_OUTPUT + random.below(9)];
    let (answer, state) = match &mut table.rust {
        Ok(rust) => {
            let answer = rust.handle_datagram(socket_addr(source), &message);
            (answer, our_state(&rust.state()))
        }
        Err(number) => (Err(*number), table.state),
    };
    let due = handled(&answer, &message, state, &mut out);
    let mut rest = table.bytes();
    rest.extend(config_bytes(&table.config));
    rest.extend(state_bytes(&table.state));
    rest.extend(address_bytes(&source));
    rest.extend(message_bytes(&header));
    rest.extend(handled_bytes(&due));
    rest.extend(word(out.len()));
    rest.extend(out);
    rest.extend(&message.payload);
    let done = due.action * 8 + reason(&due);
    let variety = match due.number {
        ECHO_REQUEST_TEID_NOT_ZERO => lone_byte(message.teid),
        _ => done * 6 + table.config.policy.min(2) * 2 + u8::from(due.destination.version == 4),
    };
    Some((told_apart(&message.payload, due.number), variety, rest))
}

/// The byte of a TEID that alone is not 0, counted from 1; or 0.
fn lone_byte(teid: u32) -> u8 {
    let bytes = teid.to_be_bytes();
    let mut places = (1..).zip(bytes).filter(|&(_, byte)| byte != 0);
    match (places.next(), places.next()) {
        (Some((place, _)), None) => place,
        _ => 0,
    }
}
