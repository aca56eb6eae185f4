//! reflector.rs: the session table and the answer to a message. Always of many sessions: the
//! Rust's reflector of one fixed session judges neither the session nor a maximum.

use std::net::SocketAddr;

use testkit_open::reflector::{
    GtpuReflector, MultiSessionReflectorConfig, OpenReflector, ReflectorAction, ReflectorPolicy,
    ReflectorSendReason, ReflectorSession,
};

use super::gtpu::Message;
use super::{outcome, Outcome};

/// What a message leads to: the Rust's `ReflectorAction`, its datagram read back to a message.
#[derive(Debug, Clone, PartialEq, Eq)]
pub enum Action {
    Noop {
        reason: &'static str,
    },
    Send {
        destination: SocketAddr,
        message: Message,
        reason: ReflectorSendReason,
    },
}

#[derive(Debug)]
pub struct Reflector(GtpuReflector);

impl Reflector {
    pub fn new_multi(
        max_sessions: usize,
        recovery_counter: u8,
        policy: ReflectorPolicy,
    ) -> Outcome<Self> {
        let config = MultiSessionReflectorConfig {
            max_sessions,
            recovery_counter,
            policy,
        };
        outcome(GtpuReflector::new_multi(config)).map(Self)
    }

    pub fn state(&self) -> OpenReflector {
        self.0.open_state()
    }

    pub fn set_state(&mut self, state: OpenReflector) {
        self.0.open_set_state(state);
    }

    /// Whether a row was added; if not, the same record was there.
    pub fn register_session(&mut self, session: ReflectorSession) -> Outcome<bool> {
        outcome(self.0.register_session(session))
    }

    pub fn remove_session(&mut self, local_teid: u32) -> Option<ReflectorSession> {
        self.0.remove_session(local_teid)
    }

    pub fn handle_datagram(&mut self, source: SocketAddr, message: &Message) -> Outcome<Action> {
        let action = outcome(self.0.handle_datagram(source, &message.to_datagram()))?;
        Ok(match action {
            ReflectorAction::Noop { reason } => Action::Noop { reason },
            ReflectorAction::Send {
                destination,
                packet,
                reason,
            } => Action::Send {
                destination,
                message: Message::from_datagram(&packet),
                reason,
            },
        })
    }
}
