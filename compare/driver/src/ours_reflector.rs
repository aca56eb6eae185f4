//! Our reflector, as C declares it, and a safe function for each of its calls.

use crate::ours::lent;

unsafe extern "C" {
    fn testkit_register_session(
        sessions: *mut Session,
        sessions_length: usize,
        used: usize,
        max_sessions: usize,
        session: Session,
    ) -> Registered;
    fn testkit_remove_session(
        sessions: *mut Session,
        sessions_length: usize,
        used: usize,
        max_sessions: usize,
        local_teid: u32,
    ) -> Removed;
    fn testkit_handle_datagram(
        sessions: *const Session,
        sessions_length: usize,
        used: usize,
        config: Config,
        state: State,
        source: Address,
        message: Message,
        payload: *const u8,
        length: usize,
        out: *mut u8,
        out_length: usize,
    ) -> Handled;
}

/// C's `struct testkit_socket_addr`: version 4 is IPv4 and any other IPv6; of an IPv4 address the
/// first 4 bytes count.
#[repr(C)]
#[derive(Debug, Clone, Copy, Default, PartialEq, Eq)]
pub struct Address {
    pub version: u8,
    pub address: [u8; 16],
    pub port: u16,
}

/// C's `struct testkit_reflector_session`.
#[repr(C)]
#[derive(Debug, Clone, Copy, Default, PartialEq, Eq)]
pub struct Session {
    pub local_teid: u32,
    pub peer_teid: u32,
    pub peer_addr: Address,
}

/// A session in bytes, the numbers big-endian: the local TEID, the peer's, and the peer's version,
/// address and port. (C lays it out with gaps.)
pub const SESSION_BYTES: usize = 27;
pub const LOCAL_TEID_AT: usize = 0;
pub const PEER_TEID_AT: usize = 4;
pub const VERSION_AT: usize = 8;
pub const ADDRESS_AT: usize = 9;
pub const PORT_AT: usize = 25;

impl Session {
    pub fn to_bytes(self) -> [u8; SESSION_BYTES] {
        let mut bytes = [0; SESSION_BYTES];
        bytes[..PEER_TEID_AT].copy_from_slice(&self.local_teid.to_be_bytes());
        bytes[PEER_TEID_AT..VERSION_AT].copy_from_slice(&self.peer_teid.to_be_bytes());
        bytes[VERSION_AT] = self.peer_addr.version;
        bytes[ADDRESS_AT..PORT_AT].copy_from_slice(&self.peer_addr.address);
        bytes[PORT_AT..].copy_from_slice(&self.peer_addr.port.to_be_bytes());
        bytes
    }

    pub fn from_bytes(bytes: [u8; SESSION_BYTES]) -> Self {
        let teid = |at: usize| u32::from_be_bytes(std::array::from_fn(|k| bytes[at + k]));
        Self {
            local_teid: teid(LOCAL_TEID_AT),
            peer_teid: teid(PEER_TEID_AT),
            peer_addr: Address {
                version: bytes[VERSION_AT],
                address: std::array::from_fn(|k| bytes[ADDRESS_AT + k]),
                port: u16::from_be_bytes([bytes[PORT_AT], bytes[PORT_AT + 1]]),
            },
        }
    }
}

/// C's `struct testkit_registered`.
#[repr(C)]
#[derive(Debug, Clone, Copy, Default, PartialEq, Eq)]
pub struct Registered {
    pub number: u8,
    pub added: bool,
    pub used: usize,
}

/// C's `struct testkit_removed`.
#[repr(C)]
#[derive(Debug, Clone, Copy, Default, PartialEq, Eq)]
pub struct Removed {
    pub number: u8,
    pub removed: bool,
    pub used: usize,
    pub session: Session,
}

/// C's `struct testkit_reflector_config`: policy 0 echoes, 1 sinks and counts, any other routes.
#[repr(C)]
#[derive(Debug, Clone, Copy, Default, PartialEq, Eq)]
pub struct Config {
    pub max_sessions: usize,
    pub recovery_counter: u8,
    pub policy: u8,
    pub target: Address,
    pub target_teid: u32,
}

/// C's `struct testkit_reflector_stats`.
#[repr(C)]
#[derive(Debug, Clone, Copy, Default, PartialEq, Eq)]
pub struct Stats {
    pub gpdu_received: u64,
    pub gpdu_forwarded: u64,
    pub gpdu_sunk: u64,
    pub echo_requests_answered: u64,
    pub error_indications_sent: u64,
    pub malformed_rejected: u64,
}

/// C's `struct testkit_reflector_state`.
#[repr(C)]
#[derive(Debug, Clone, Copy, Default, PartialEq, Eq)]
pub struct State {
    pub stats: Stats,
    pub next_error_sequence: u16,
}

/// C's `struct testkit_gtpu_message`: a message without its payload, as it came or as it is to be
/// sent.
#[repr(C)]
#[derive(Debug, Clone, Copy, Default, PartialEq, Eq)]
pub struct Message {
    pub message_type: u8,
    pub teid: u32,
    pub has_sequence: u8,
    pub sequence: u16,
}

/// C's `struct testkit_handled`.
#[repr(C)]
#[derive(Debug, Clone, Copy, Default, PartialEq, Eq)]
pub struct Handled {
    pub number: u8,
    pub action: u8,
    pub noop_reason: u8,
    pub send_reason: u8,
    pub bytes: usize,
    pub destination: Address,
    pub message: Message,
    pub state: State,
}

/// A reflector: the table with its used count, what it is set up with, and its state.
#[derive(Debug, Clone, PartialEq, Eq)]
pub struct Reflector {
    pub sessions: Vec<Session>,
    pub used: usize,
    pub config: Config,
    pub state: State,
}

impl Reflector {
    pub fn register_session(&mut self, session: Session) -> Registered {
        // SAFETY: the table is lent with its length for as long as the call runs, and to it alone.
        let registered = unsafe {
            testkit_register_session(
                self.sessions.as_mut_ptr(),
                self.sessions.len(),
                self.used,
                self.config.max_sessions,
                session,
            )
        };
        self.used = registered.used;
        registered
    }

    pub fn remove_session(&mut self, local_teid: u32) -> Removed {
        // SAFETY: as in `register_session`.
        let removed = unsafe {
            testkit_remove_session(
                self.sessions.as_mut_ptr(),
                self.sessions.len(),
                self.used,
                self.config.max_sessions,
                local_teid,
            )
        };
        self.used = removed.used;
        removed
    }

    pub fn handle_datagram(
        &mut self,
        source: Address,
        message: Message,
        payload: &[u8],
        out: &mut [u8],
    ) -> Handled {
        let payload = lent(payload);
        // SAFETY: the call reads the table and `length` bytes from `payload` and writes at most
        // `out_length` bytes to `out`; all are lent for as long as it runs, and `out` to it alone.
        let handled = unsafe {
            testkit_handle_datagram(
                self.sessions.as_ptr(),
                self.sessions.len(),
                self.used,
                self.config,
                self.state,
                source,
                message,
                payload.as_ptr(),
                payload.len(),
                out.as_mut_ptr(),
                out.len(),
            )
        };
        self.state = handled.state;
        handled
    }
}
