//! Our reflector against the Rust's: whole runs of registering, removal and messages on both
//! sides, the table and the state compared after each call; and the refusals that the Rust does not
//! have. The Error Indications that ours writes are read back by our element walk.

use std::collections::BTreeMap;

use testkit_open::reflector::{OpenReflector, ReflectorPolicy};

use crate::compared::{require_unfilled, stand_in, Answer};
use crate::numbers::*;
use crate::ours_reflector::{
    Address, Reflector, Registered, Removed, Session, State, LOCAL_TEID_AT, PEER_TEID_AT, PORT_AT,
    SESSION_BYTES, VERSION_AT,
};
use crate::ours_traffic::validate_elements;
use crate::packet::{part_at, set_word, sum_again, Covered};
use crate::part::{grouped, Part};
use crate::random::Random;
use crate::reflector_due::{
    handled, not_sent, our_state, plain, read_back, rust_reflector, rust_session, socket_addr,
    ERROR_INDICATION_SENT,
};
use crate::reflector_inputs::{
    any_address, any_config, any_header, any_message, any_policy, any_registered, any_session,
    any_source, any_state, any_teid, near_copy, ECHO, ECHO_REQUEST, G_PDU, PLACES,
};
use crate::rust_side::gtpu::Message;
use crate::rust_side::measurement::build;
use crate::rust_side::reflector::{Action, Reflector as Rust};
use crate::rust_side::Outcome;
use crate::seen::Seen;
use crate::wild::{any_probe, any_probe_of, padded_packet};

/// The least output.
pub const LEAST_OUTPUT: usize = 72;

/// The most sessions of a table.
pub const MOST_SESSIONS: usize = 4_096;

/// What an output has in it before a call.
const DIRT: u8 = 0xa5;

/// The policies: echo, sink and count, route.
const POLICIES: [u8; 3] = [ECHO, 1, 2];

/// A part under way, the numbers that were due in it, and how many Error Indications to addresses of each
/// IP version.
struct Comparison {
    part: Part,
    seen: Seen,
    indications: BTreeMap<u8, u64>,
    random: Random,
}

impl Comparison {
    fn new(unit: &'static str, seed: u64) -> Self {
        Self {
            part: Part::new(unit),
            seen: Seen::default(),
            indications: BTreeMap::new(),
            random: Random::new(seed),
        }
    }

    /// Each of these numbers must have been due, and no other.
    fn done(mut self, numbers: impl IntoIterator<Item = u8>) -> Part {
        self.seen.require(&mut self.part, numbers);
        self.part
    }

    /// Error Indications must have been read back, of both versions.
    fn require_indications(&mut self) {
        let versions: Vec<u8> = self.indications.keys().copied().collect();
        self.part.case(&[], versions, vec![4, 6]);
        let counts = self.indications.iter();
        let counts = counts.map(|(version, &count)| format!("IPv{version}: {}", grouped(count)));
        let counts = counts.collect::<Vec<_>>().join(", ");
        self.part
            .note(format!("Error Indications read back: {counts}"));
    }
}

/// Both sides of a run.
struct Pair {
    ours: Reflector,
    rust: Rust,
}

/// Runs from fresh tables and from any state, under each policy. Each number of a run must have
/// been due.
pub fn runs(seed: u64, rounds: u64) -> Part {
    let mut run = Comparison::new("calls", seed);
    each_damage(&mut run);
    for round in 0..rounds / 8 {
        let most = match round % 256 {
            0 => MOST_SESSIONS,
            1..16 => 1 + run.random.below(64),
            _ => 1 + run.random.below(6),
        };
        let policy = any_policy(&mut run.random);
        let mut pair = Pair::new(&mut run.random, most, policy);
        if round % 2 == 1 {
            pair.set_state(any_state(&mut run.random));
        }
        for _ in 0..48 {
            pair.any_call(&mut run);
        }
        if round % 128 < 3 {
            each_type(&mut run, &mut pair);
        }
    }
    require_unfilled(&mut run.part);
    run.require_indications();
    run.done(answers(&[READING, REGISTERING, HANDLING]))
}

/// Sessions, addresses and TEIDs that differ from a registered one in one place, each place in turn:
/// registered, removed, and as what a message has and comes from.
pub fn near_copies(seed: u64, rounds: u64) -> Part {
    let mut run = Comparison::new("calls", seed);
    for round in 0..3.max(rounds / 64) {
        for version in [4, 6] {
            let mut pair = Pair::new(&mut run.random, 2, POLICIES[round as usize % 3]);
            let known = pair.registers_one(&mut run, version);
            each_place(&mut run, &mut pair, known);
            each_zero(&mut run, &mut pair, known);
        }
    }
    run.require_indications();
    run.done([
        0,
        INVALID_REFLECTOR_SESSION,
        REFLECTOR_SESSION_CONFLICT,
        ECHO_REQUEST_TEID_NOT_ZERO,
        ECHO_REQUEST_MISSING_SEQUENCE,
    ])
}

/// A near copy in each place, before it is registered, beside the session, and in its stead.
fn each_place(run: &mut Comparison, pair: &mut Pair, known: Session) {
    for place in 0..PLACES {
        let near = near_copy(&mut run.random, known, place);
        let source = near.peer_addr;
        pair.handles_gpdu(run, source, near.local_teid);
        if near.local_teid != known.local_teid {
            pair.removes(run, near.local_teid);
        }
        pair.registers(run, near);
        pair.handles_gpdu(run, source, near.local_teid);
        pair.handles_gpdu(run, source, known.local_teid);

        pair.removes(run, near.local_teid);
        pair.registers(run, near);
        pair.handles_gpdu(run, known.peer_addr, near.local_teid);

        pair.removes(run, near.local_teid);
        pair.removes(run, known.local_teid);
        pair.registers(run, known);
    }
}

/// Where 0 is judged, 0 and each number of which one byte alone is not 0: TEIDs and the port of a
/// session, and the TEID of an Echo Request, with and without a sequence.
fn each_zero(run: &mut Comparison, pair: &mut Pair, known: Session) {
    let fields = [
        LOCAL_TEID_AT..PEER_TEID_AT,
        PEER_TEID_AT..VERSION_AT,
        PORT_AT..SESSION_BYTES,
    ];
    for field in fields {
        let mut zero = known.to_bytes();
        zero[field.clone()].fill(0);
        pair.registers(run, Session::from_bytes(zero));
        for place in field {
            let near = near_copy(&mut run.random, Session::from_bytes(zero), place);
            pair.registers(run, near);
            if near.local_teid != known.local_teid {
                pair.removes(run, near.local_teid);
            }
        }
    }
    let zero = Session::default();
    let mut teids = vec![0];
    teids.extend((0..4).map(|byte| near_copy(&mut run.random, zero, byte).local_teid));
    for teid in teids {
        for sequence in [None, Some(run.random.any_u16())] {
            let message = Message {
                message_type: ECHO_REQUEST,
                teid,
                sequence,
                payload: Vec::new(),
            };
            pair.handles(run, known.peer_addr, &message);
        }
    }
}

/// Tables of 4,096 sessions, under each policy: filled, asked for when they are full, a row removed
/// and registered again at the first, a middle and the last place.
pub fn full_tables(seed: u64) -> Part {
    let mut run = Comparison::new("calls", seed);
    for policy in POLICIES {
        let mut pair = Pair::new(&mut run.random, MOST_SESSIONS, policy);
        while pair.ours.used < MOST_SESSIONS {
            let session = pair.new_session(&mut run);
            pair.registers(&mut run, session);
        }
        let middle = 1 + run.random.below(MOST_SESSIONS - 2);
        for row in [0, middle, MOST_SESSIONS - 1] {
            pair.is_full(&mut run, row);
            pair.loses(&mut run, row);
        }
    }
    run.require_indications();
    run.done([
        0,
        INVALID_REFLECTOR_SESSION,
        REFLECTOR_SESSION_CONFLICT,
        REFLECTOR_SESSION_CAPACITY_EXCEEDED,
    ])
}

/// Every error sequence from fresh, by messages of an unknown TEID, until after 65,535 comes 1.
pub fn error_sequences(seed: u64) -> Part {
    let mut run = Comparison::new("messages", seed);
    let policy = any_policy(&mut run.random);
    let mut pair = Pair::new(&mut run.random, 1, policy);
    for _ in 0..=u16::MAX {
        let message = Message {
            message_type: G_PDU,
            teid: run.random.any_u32(),
            sequence: None,
            payload: Vec::new(),
        };
        let source = any_address(&mut run.random);
        pair.handles(&mut run, source, &message);
    }
    run.require_indications();
    let mut part = run.part;
    part.case(&[], pair.ours.state.next_error_sequence, 2);
    part
}

/// The refusals by 30, 31 and 15, which change nothing. The Rust refuses by 30 too, when a
/// reflector is made.
pub fn refused(seed: u64, rounds: u64) -> Part {
    let mut run = Comparison::new("calls", seed);
    for round in 0..rounds / 16 {
        let (mut ours, number) = any_refused(&mut run.random, round);
        let random = &mut run.random;
        if number == INVALID_REFLECTOR_CAPACITY {
            let due = Rust::new_multi(ours.config.max_sessions, 0, ReflectorPolicy::Echo);
            run.part
                .case(&[], due.err(), Some(INVALID_REFLECTOR_CAPACITY));
        }
        run.seen.add(number);
        let before = ours.clone();
        if number != OUTPUT_TOO_SHORT {
            let used = before.used;
            let due = Registered {
                number,
                used,
                ..Registered::default()
            };
            let session = any_session(random);
            let answer = (ours.register_session(session), &ours);
            run.part.case(&[], answer, (due, &before));
            let due = Removed {
                number,
                used,
                ..Removed::default()
            };
            let answer = (ours.remove_session(session.local_teid), &ours);
            run.part.case(&[], answer, (due, &before));
        }
        let room = match number {
            OUTPUT_TOO_SHORT => LEAST_OUTPUT - 1 - random.length(LEAST_OUTPUT - 1),
            _ => random.below(LEAST_OUTPUT + 9),
        };
        let message = any_message(random, &[]);
        let header = any_header(random, &message);
        let mut out = vec![DIRT; room];
        let answer = ours.handle_datagram(any_address(random), header, &message.payload, &mut out);
        let due = not_sent(number, 0, 0, before.state);
        let answer = (answer, &ours, out);
        run.part
            .case(&message.payload, answer, (due, &before, vec![DIRT; room]));
    }
    run.done([
        OUTPUT_TOO_SHORT,
        INVALID_REFLECTOR_CAPACITY,
        MALFORMED_REFLECTOR_TABLE,
    ])
}

/// A reflector that is refused, or refuses by its output, and the number.
fn any_refused(random: &mut Random, round: u64) -> (Reflector, u8) {
    let rows = 1 + random.length(40);
    let most = 1 + random.below(rows);
    let policy = any_policy(random);
    let mut ours = Pair::new(random, most, policy).ours;
    ours.sessions = (0..rows).map(|_| any_session(random)).collect();
    ours.used = random.below(most + 1);
    ours.state = our_state(&any_state(random));
    let number = match round % 5 {
        0 => {
            let too_high = random.above(MOST_SESSIONS);
            ours.config.max_sessions = [0, too_high][random.below(2)];
            ours.used = random.any_u64() as usize;
            INVALID_REFLECTOR_CAPACITY
        }
        1 => {
            ours.used = random.above(most);
            MALFORMED_REFLECTOR_TABLE
        }
        2 => {
            ours.config.max_sessions = rows + 1 + random.below(MOST_SESSIONS - rows);
            MALFORMED_REFLECTOR_TABLE
        }
        _ => OUTPUT_TOO_SHORT,
    };
    (ours, number)
}

impl Pair {
    /// Both sides, fresh, with room for `max_sessions`. Our table has up to two rows more, and anything
    /// in all of them.
    fn new(random: &mut Random, max_sessions: usize, policy: u8) -> Self {
        let config = any_config(random, max_sessions, policy);
        let rust = rust_reflector(&config).expect("a maximum of 1 to 4,096");
        let rows = max_sessions + random.below(3);
        let ours = Reflector {
            sessions: (0..rows).map(|_| any_session(random)).collect(),
            used: 0,
            config,
            state: State {
                next_error_sequence: 1,
                ..State::default()
            },
        };
        Self { ours, rust }
    }

    fn set_state(&mut self, state: OpenReflector) {
        self.ours.state = our_state(&state);
        self.rust.set_state(state);
    }

    fn used(&self) -> &[Session] {
        &self.ours.sessions[..self.ours.used]
    }

    /// Where our state or our used rows are not the Rust's, or some row, used or not, is not that of
    /// `rows`.
    fn difference(&self, rows: &[Session]) -> Option<String> {
        let due = self.rust.state();
        let (ours, state) = (&self.ours, our_state(&due));
        if ours.state != state {
            return Some(format!("{:?} instead of {state:?}", ours.state));
        }
        if ours.used != due.sessions.len() {
            let used = due.sessions.len();
            return Some(format!("{} used instead of {used}", ours.used));
        }
        let both = self.used().iter().zip(&due.sessions);
        for (at, (ours, due)) in both.enumerate() {
            if rust_session(*ours) != *due {
                return Some(format!("row {at}: {ours:?} instead of {due:?}"));
            }
        }
        let at = (0..rows.len()).find(|&at| ours.sessions[at] != rows[at])?;
        let (ours, due) = (ours.sessions[at], rows[at]);
        Some(format!("row {at}: {ours:?} instead of {due:?}"))
    }

    /// Ours goes on from what was due, so that both sides stay together after a difference.
    fn go_on(&mut self, rows: Vec<Session>, used: usize) {
        self.ours.sessions = rows;
        self.ours.used = used;
        self.ours.state = our_state(&self.rust.state());
    }

    /// Registering, removal or a message, with any session, TEID and source.
    fn any_call(&mut self, run: &mut Comparison) {
        let random = &mut run.random;
        match random.below(8) {
            0..3 => {
                let (session, _) = any_registered(random, self.used());
                self.registers(run, session);
            }
            3 => {
                let (local_teid, _) = any_teid(random, self.used());
                self.removes(run, local_teid);
            }
            _ => {
                let source = any_source(random, self.used());
                let message = any_message(random, self.used());
                self.handles(run, source, &message);
            }
        }
    }

    fn registers(&mut self, run: &mut Comparison, session: Session) {
        let mut rows = self.ours.sessions.clone();
        let used = self.ours.used;
        let due = match self.rust.register_session(rust_session(session)) {
            Ok(added) => Registered {
                number: 0,
                added,
                used: used + usize::from(added),
            },
            Err(number) => Registered {
                number,
                added: false,
                used,
            },
        };
        if due.added {
            rows[used] = session;
        }
        let answer = self.ours.register_session(session);
        run.seen.add(answer.number);
        let answer = (answer.told(), self.difference(&rows));
        run.part
            .case(&session.to_bytes(), answer, (due.due(&[]), None));
        self.go_on(rows, due.used);
    }

    /// Registers a session of this version that is in order, in an empty table.
    fn registers_one(&mut self, run: &mut Comparison, version: u8) -> Session {
        while self.ours.used == 0 {
            let mut session = any_session(&mut run.random);
            session.peer_addr.version = version;
            self.registers(run, session);
        }
        self.ours.sessions[0]
    }

    fn removes(&mut self, run: &mut Comparison, local_teid: u32) {
        let mut rows = self.ours.sessions.clone();
        let used = self.ours.used;
        let place = self.place_of(local_teid);
        let removed = self.rust.remove_session(local_teid);
        let session = place.map(|place| rows[place]);
        let due = Removed {
            number: 0,
            removed: removed.is_some(),
            used: used - usize::from(removed.is_some()),
            session: session.unwrap_or_default(),
        };
        if let Some(place) = place {
            rows[place] = rows[used - 1];
        }
        let answer = self.ours.remove_session(local_teid);
        run.seen.add(answer.number);
        let answer = (answer, session.map(rust_session), self.difference(&rows));
        let input = local_teid.to_be_bytes();
        run.part.case(&input, answer, (due, removed, None));
        self.go_on(rows, due.used);
    }

    fn place_of(&self, local_teid: u32) -> Option<usize> {
        let mut used = self.used().iter();
        used.position(|session| session.local_teid == local_teid)
    }

    /// Whether this message's payload is read: a G-PDU that is echoed.
    fn reads(&self, message: &Message) -> bool {
        let is_echo = self.ours.config.policy == ECHO;
        is_echo && message.message_type == G_PDU && self.place_of(message.teid).is_some()
    }

    /// What is due where the Rust answers a message. Where ours has to refuse a T-PDU without it, the
    /// Rust is given no bytes, which it refuses, so that its state is that after a refusal.
    fn due_answer(
        &mut self,
        part: &mut Part,
        source: Address,
        message: &Message,
    ) -> Outcome<Action> {
        let source = socket_addr(source);
        if !self.reads(message) {
            return self.rust.handle_datagram(source, message);
        }
        let stand_in = stand_in(part, &message.payload);
        let payload = stand_in.as_deref().unwrap_or_default().to_vec();
        let given = Message {
            payload,
            ..*message
        };
        let answer = self.rust.handle_datagram(source, &given);
        stand_in.and(answer)
    }

    fn handles(&mut self, run: &mut Comparison, source: Address, message: &Message) {
        let rows = self.ours.sessions.clone();
        let answer = self.due_answer(&mut run.part, source, message);
        let state = our_state(&self.rust.state());
        let room = LEAST_OUTPUT + run.random.below(9);
        let mut expected = vec![DIRT; room];
        let due = handled(&answer, message, state, &mut expected);
        let due_elements = read_back(&answer, source, message.teid);
        if let Some(elements) = due_elements {
            *run.indications.entry(elements.version).or_insert(0) += 1;
        }

        let mut out = vec![DIRT; room];
        let header = any_header(&mut run.random, message);
        let ours = &mut self.ours;
        let mut answer = ours.handle_datagram(source, header, &message.payload, &mut out);
        run.seen.add(answer.number);
        answer.destination = plain(answer.destination);
        let elements = match answer.send_reason {
            ERROR_INDICATION_SENT => out.get(..answer.bytes).map(validate_elements),
            _ => None,
        };
        let answer = (answer.told(), out, elements, self.difference(&rows));
        let due = (due.due(&message.payload), expected, due_elements, None);
        run.part.case(&message.payload, answer, due);
        self.go_on(rows, self.ours.used);
    }

    /// A G-PDU with a built packet.
    fn handles_gpdu(&mut self, run: &mut Comparison, source: Address, teid: u32) {
        let message = Message {
            message_type: G_PDU,
            teid,
            sequence: None,
            payload: build(any_probe(&mut run.random)),
        };
        self.handles(run, source, &message);
    }

    /// Any session, or one whose local TEID differs in one byte from that of the last one.
    fn new_session(&self, run: &mut Comparison) -> Session {
        let mut session = any_session(&mut run.random);
        if let (0, Some(&last)) = (run.random.below(4), self.used().last()) {
            let place = LOCAL_TEID_AT + run.random.below(4);
            session.local_teid = near_copy(&mut run.random, last, place).local_teid;
        }
        session
    }

    /// Registers near copies of this row of a full table, and new sessions, which find no room; and
    /// sends a message to it, to the TEIDs near to it and to any other.
    fn is_full(&mut self, run: &mut Comparison, row: usize) {
        let known = self.ours.sessions[row];
        for place in 0..PLACES {
            let near = near_copy(&mut run.random, known, place);
            self.registers(run, near);
            let session = self.new_session(run);
            self.registers(run, session);
            self.handles_gpdu(run, near.peer_addr, near.local_teid);
        }
        let unknown = run.random.any_u32();
        let source = any_address(&mut run.random);
        self.handles_gpdu(run, source, unknown);
        self.removes(run, unknown);
    }

    /// Removes this row, sends messages to it and to the one that was moved into its place, and
    /// registers sessions until the table is full again, the removed one first.
    fn loses(&mut self, run: &mut Comparison, row: usize) {
        let (lost, moved) = (self.ours.sessions[row], *self.used().last().expect("a row"));
        self.removes(run, lost.local_teid);
        self.removes(run, lost.local_teid);
        let source = any_source(&mut run.random, self.used());
        for session in [lost, moved] {
            self.handles_gpdu(run, source, session.local_teid);
        }
        self.registers(run, lost);
        while self.ours.used < MOST_SESSIONS {
            let session = self.new_session(run);
            self.registers(run, session);
        }
        for session in [lost, moved] {
            self.handles_gpdu(run, source, session.local_teid);
        }
    }
}

/// Messages of every type, with TEID 0, that of a used row, one near to it and any other, each with
/// and without a sequence.
fn each_type(run: &mut Comparison, pair: &mut Pair) {
    let known = pair.used().last().copied().unwrap_or_default();
    for message_type in 0..=255 {
        let byte = run.random.below(4);
        let near = near_copy(&mut run.random, known, byte);
        for teid in [0, known.local_teid, near.local_teid, run.random.any_u32()] {
            for sequence in [None, Some(run.random.any_u16())] {
                let message = Message {
                    message_type,
                    teid,
                    sequence,
                    payload: build(any_probe(&mut run.random)),
                };
                let source = any_source(&mut run.random, pair.used());
                pair.handles(run, source, &message);
            }
        }
    }
}

/// Packets for the one session of an echo, of both versions: cut at every length, with every bit
/// turned, the checksums made right and not, with a short UDP length and a UDP checksum of 0, and
/// padded.
fn each_damage(run: &mut Comparison) {
    let mut pair = Pair::new(&mut run.random, 1, ECHO);
    let known = pair.registers_one(run, 4);
    for version in [4, 6] {
        let probe = any_probe_of(&mut run.random, version);
        let packet = build(probe);
        let mut payloads: Vec<Vec<u8>> = (0..=packet.len()).map(|n| packet[..n].to_vec()).collect();
        for bit in 0..8 * packet.len() {
            let mut damaged = packet.clone();
            damaged[bit / 8] ^= 1 << (bit % 8);
            payloads.push(damaged.clone());
            sum_again(&mut damaged, Covered::Segment);
            payloads.push(damaged);
        }
        for (at, value) in [(4, 31), (6, 0)] {
            let mut damaged = packet.clone();
            set_word(&mut damaged, part_at(&packet) + at, value);
            sum_again(&mut damaged, Covered::Segment);
            payloads.push(damaged);
        }
        payloads.extend((0..128).map(|_| padded_packet(&mut run.random, probe)));
        for payload in payloads {
            let message = Message {
                message_type: G_PDU,
                teid: known.local_teid,
                sequence: None,
                payload,
            };
            let source = any_source(&mut run.random, pair.used());
            pair.handles(run, source, &message);
        }
    }
}
