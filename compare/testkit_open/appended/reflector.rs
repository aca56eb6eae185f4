// Appended by testkit_open to a copy of reflector.rs: the original ends above this line.

/// All that a multi-session `GtpuReflector` holds and its calls change.
#[derive(Debug, Clone, PartialEq, Eq)]
pub struct OpenReflector {
    /// The session table, in its order.
    pub sessions: Vec<ReflectorSession>,
    pub stats: ReflectorStats,
    pub next_error_sequence: u16,
}

impl GtpuReflector {
    pub fn open_state(&self) -> OpenReflector {
        let ReflectorSessions::Multiple(sessions) = &self.sessions else {
            panic!("a reflector of one fixed session is not compared");
        };
        OpenReflector {
            sessions: sessions.clone(),
            stats: self.stats,
            next_error_sequence: self.next_error_sequence,
        }
    }

    pub fn open_set_state(&mut self, state: OpenReflector) {
        self.sessions = ReflectorSessions::Multiple(state.sessions);
        self.stats = state.stats;
        self.next_error_sequence = state.next_error_sequence;
    }
}
