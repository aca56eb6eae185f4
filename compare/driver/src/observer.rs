//! Our run sheet against the Rust's observer: whole runs, and sheets set to any state. The tunnel that is
//! handed on and the column of arrival times are held to models (`indication.rs`, `arrivals.rs`).

use std::collections::{BTreeMap, BTreeSet};

use testkit_open::evidence::PacketContinuityBudget;
use testkit_open::traffic::GtpuReturnDatagramOutcome;

use crate::arrivals::{sound_situations, ArrivalCounts, Arrivals};
use crate::compared::{require_unfilled, stand_in, Answer};
use crate::gtpu::any_elements;
use crate::indication::due_tunnel;
use crate::indication_inputs::{any_indication, each_indication, sound_list, Tried};
use crate::numbers::*;
use crate::ours_traffic::{Noted, Report, RunSheet, Tunnel};
use crate::packet::{part_at, protocol_at, set_lengths, set_word, sum_again, UDP_HEADER};
use crate::part::Part;
use crate::random::Random;
use crate::rust_side::gtpu::{validate_error_indication_ies, Message};
use crate::rust_side::measurement::{build, decode, echo, Probe};
use crate::rust_side::traffic::{Observer, Row, Sheet};
use crate::rust_side::Outcome;
use crate::seen::{Met, Seen};
use crate::sheets::{capacity, difference, fresh, holding, questions, Question, MOST_ROWS};
use crate::wild::{any_covered, any_probe, padded_packet, set_any_flags, set_any_ihl, PROBE};

pub(crate) const ERROR_INDICATION: u8 = 26;
pub(crate) const G_PDU: u8 = 255;

/// The longest payload of a message.
const MOST_PAYLOAD: usize = 65_535;

/// One call on a run sheet.
#[derive(Clone)]
pub(crate) enum Call {
    Sent {
        sequence: u64,
        send_timestamp_ns: u64,
    },
    Tpdu {
        time: u64,
        tpdu: Vec<u8>,
    },
    Message {
        time: u64,
        message_type: u8,
        payload: Vec<u8>,
    },
}

/// What the calls of a part had in them.
#[derive(Default)]
pub(crate) struct Given {
    /// The numbers that ours answered.
    seen: Seen,
    /// The elements of Error Indications.
    tried: Tried,
    /// The other types that came with elements which an Error Indication may have.
    other_types: BTreeSet<u8>,
    /// What the rules on arrival times are about.
    arrivals: ArrivalCounts,
}

impl Given {
    pub(crate) fn add(&mut self, call: &Call, number: u8) {
        self.seen.add(number);
        match call {
            Call::Message {
                message_type: ERROR_INDICATION,
                payload,
                ..
            } => self.tried.add(payload),
            Call::Message {
                message_type,
                payload,
                ..
            } if validate_error_indication_ies(payload).is_ok() => {
                self.other_types.insert(*message_type);
            }
            _ => (),
        }
    }

    /// Each of these numbers must have been answered, and no other; the elements must have had everything
    /// that the rule on the tunnel is about; and all 255 other types must have come with such elements.
    pub(crate) fn require(&self, part: &mut Part, numbers: impl IntoIterator<Item = u8>) {
        self.seen.require(part, numbers);
        self.tried.require(part);
        let types = self.other_types.len();
        part.case(&[], types, 255);
        part.note(format!(
            "other types with elements that are accepted: {types}"
        ));
    }
}

/// Runs on fresh sheets, of few rows and of 2,048. Each number of a run must have been due.
pub fn runs(seed: u64, rounds: u64) -> Part {
    let mut part = Part::new("calls and reports");
    let mut given = Given::default();
    let mut random = Random::new(seed);
    for round in 0..rounds / 8 {
        let rows = any_rows(&mut random, round);
        let mut pair = Pair::fresh(&mut random, rows);
        run(&mut part, &mut given, &mut random, &mut pair, 4 * rows + 20);
        fill(&mut part, &mut given, &mut random, &mut pair);
        if round % 256 == 1 {
            each_type(&mut part, &mut given, &mut random, &mut pair);
            each_tunnel(&mut part, &mut given, &mut random, &mut pair);
        }
    }
    given.require(&mut part, every_number());
    given.arrivals.require(&mut part);
    require_unfilled(&mut part);
    part
}

/// Runs from any state: counters at or near their top, latencies and arrival times of any size, and on
/// rows that have not returned a latency that nobody may look at.
pub fn states(seed: u64, rounds: u64) -> Part {
    let mut part = Part::new("calls and reports");
    let (mut given, mut sheets) = (Given::default(), Met::default());
    let mut random = Random::new(seed);
    for round in 0..rounds / 10 {
        let rows = any_rows(&mut random, round);
        let contents = any_contents(&mut random, rows);
        let room = (rows + random.below(4)).min(MOST_ROWS);
        let mut pair = Pair::any(&mut random, room, contents);
        pair.spoil_unmarked(&mut random);
        sheets.add(&sound_situations(&pair.ours));
        pair.reports(&mut part, &mut random);
        run(&mut part, &mut given, &mut random, &mut pair, 20);
        if round % 256 == 1 {
            each_type(&mut part, &mut given, &mut random, &mut pair);
            each_tunnel(&mut part, &mut given, &mut random, &mut pair);
        }
    }
    given.require(&mut part, every_number());
    given.arrivals.require(&mut part);
    sheets.require(&mut part, "sheets in order");
    require_unfilled(&mut part);
    part
}

/// A sheet of few rows; every 512th has 2,048.
pub(crate) fn any_rows(random: &mut Random, round: u64) -> usize {
    match round % 512 {
        0 => MOST_ROWS,
        _ => random.length(48),
    }
}

/// What the calls of runs on well-formed sheets answer.
fn every_number() -> Vec<u8> {
    answers(&[READING, OBSERVING, WALKING, &[UNSUPPORTED_MESSAGE_TYPE]])
}

impl Call {
    /// What is printed of it where the two sides differ.
    pub(crate) fn input(&self) -> &[u8] {
        match self {
            Call::Sent { .. } => &[],
            Call::Tpdu { tpdu, .. } => tpdu,
            Call::Message { payload, .. } => payload,
        }
    }

    /// The T-PDU that it has to read, if it has one.
    pub(crate) fn tpdu(&self) -> Option<&[u8]> {
        match self {
            Call::Tpdu { tpdu, .. } => Some(tpdu),
            Call::Message {
                message_type: G_PDU,
                payload,
                ..
            } => Some(payload),
            _ => None,
        }
    }

    /// Its time, if it is a return.
    pub(crate) fn time(&self) -> Option<u64> {
        match self {
            Call::Sent { .. } => None,
            Call::Tpdu { time, .. } | Call::Message { time, .. } => Some(*time),
        }
    }

    /// The sequence that is sent, or that comes back in a T-PDU that can be read.
    pub(crate) fn sequence(&self) -> Option<u64> {
        match self {
            Call::Sent { sequence, .. } => Some(*sequence),
            _ => decode(self.tpdu()?).ok().map(|probe| probe.sequence),
        }
    }

    /// The call that the Rust is given in its place, or the number by which ours has to refuse it.
    fn stand_in(&self, part: &mut Part) -> Outcome<Call> {
        let mut call = self.clone();
        if let Call::Tpdu { tpdu, .. }
        | Call::Message {
            message_type: G_PDU,
            payload: tpdu,
            ..
        } = &mut call
        {
            *tpdu = stand_in(part, tpdu)?.into_owned();
        }
        Ok(call)
    }

    pub(crate) fn on_ours(&self, sheet: &mut RunSheet) -> Noted {
        match self {
            Call::Sent {
                sequence,
                send_timestamp_ns,
            } => sheet.record_sent(*sequence, *send_timestamp_ns),
            Call::Tpdu { time, tpdu } => sheet.record_received_tpdu(*time, tpdu),
            Call::Message {
                time,
                message_type,
                payload,
            } => sheet.record_return_gtpu_datagram(*time, *message_type, payload),
        }
    }

    /// What is due where the Rust answers this: the tunnel is the model's, of an Error Indication that the
    /// Rust accepts.
    pub(crate) fn on_rust(&self, observer: &mut Observer) -> Noted {
        use GtpuReturnDatagramOutcome as Outcome;
        let outcome = match self {
            Call::Sent {
                sequence,
                send_timestamp_ns,
            } => {
                observer.record_sent(*sequence, *send_timestamp_ns);
                return Noted::default();
            }
            Call::Tpdu { time, tpdu } => {
                let number = observer.record_received_tpdu(*time, tpdu).err();
                return Noted {
                    number: number.unwrap_or(0),
                    ..Noted::default()
                };
            }
            Call::Message {
                time,
                message_type,
                payload,
            } => {
                let message = Message {
                    message_type: *message_type,
                    teid: *time as u32, // neither this
                    sequence: None,     // nor this is looked at
                    payload: payload.clone(),
                };
                observer.record_return_gtpu_datagram(*time, &message)
            }
        };
        let tunnel = match outcome {
            Ok(Outcome::ErrorIndication) => due_tunnel(self.input(), 0),
            _ => Tunnel::default(),
        };
        let (number, outcome, message_type) = match outcome {
            Err(number) => (number, 0, 0),
            Ok(Outcome::MeasurementTpdu) => (0, 1, 0),
            Ok(Outcome::ErrorIndication) => (0, 2, 0),
            Ok(Outcome::EchoResponse) => (0, 3, 0),
            Ok(Outcome::Ignored { message_type }) => (0, 4, message_type),
        };
        Noted {
            number,
            outcome,
            message_type,
            tunnel,
        }
    }
}

/// A sheet of ours beside an observer of the Rust's.
pub(crate) struct Pair {
    pub(crate) ours: RunSheet,
    rust: Observer,
    /// What the observer holds.
    pub(crate) contents: Sheet,
    /// The arrival times beside it, which the observer does not have.
    arrivals: Arrivals,
    /// What stands as latency on rows of ours that have not returned, if it is not 0.
    unmarked_latencies: BTreeMap<u64, u64>,
}

impl Pair {
    pub(crate) fn new(sheet: &RunSheet, contents: Sheet, arrivals: Arrivals) -> Self {
        Self {
            ours: holding(sheet, &contents, &arrivals.column(&contents)),
            rust: Observer::from_sheet(&contents),
            contents,
            arrivals,
            unmarked_latencies: BTreeMap::new(),
        }
    }

    /// Both fresh, ours of this capacity.
    pub(crate) fn fresh(random: &mut Random, capacity: usize) -> Self {
        let sheet = fresh(random, capacity);
        Self::new(&sheet, Sheet::default(), Arrivals::default())
    }

    /// Both with these contents, ours of this capacity and with any arrival times.
    pub(crate) fn any(random: &mut Random, capacity: usize, contents: Sheet) -> Self {
        let sheet = fresh(random, capacity);
        let arrivals = Arrivals::any(random, &contents);
        Self::new(&sheet, contents, arrivals)
    }

    /// Writes any latency on our rows that have not returned.
    pub(crate) fn spoil_unmarked(&mut self, random: &mut Random) {
        for row in self.contents.rows.iter().filter(|row| !row.returned) {
            let latency = random.number();
            self.unmarked_latencies.insert(row.sequence, latency);
        }
        self.ours = self.due();
    }

    /// The arrival times that are due on the used rows.
    pub(crate) fn arrival_column(&self) -> Vec<u64> {
        self.arrivals.column(&self.contents)
    }

    /// Our sheet as it has to be for what the observer holds: every cell past the used rows kept.
    pub(crate) fn due(&self) -> RunSheet {
        let mut due = holding(&self.ours, &self.contents, &self.arrival_column());
        if !self.unmarked_latencies.is_empty() {
            for (at, row) in self.contents.rows.iter().enumerate() {
                if let (false, Some(&latency)) =
                    (row.returned, self.unmarked_latencies.get(&row.sequence))
                {
                    due.latencies[at] = latency;
                }
            }
        }
        due
    }

    /// Whether this is a new sequence on a full sheet.
    fn full_for(&self, call: &Call) -> bool {
        let Call::Sent { sequence, .. } = call else {
            return false;
        };
        let used = self.contents.rows.len();
        used == capacity(&self.ours) && self.contents.row(*sequence).is_none()
    }

    /// Makes a call on the Rust's observer: what ours has to answer. The arrival times follow what the Rust
    /// answers.
    pub(crate) fn due_answer(&mut self, counts: &mut ArrivalCounts, call: &Call) -> Noted {
        let due_answer = if self.full_for(call) {
            Noted {
                number: OBSERVER_FULL,
                ..Noted::default()
            }
        } else {
            call.on_rust(&mut self.rust)
        };
        counts.add_call(&self.contents, &self.arrivals, call, due_answer.number);
        self.arrivals.follow(call, due_answer.number);
        self.contents = self.rust.sheet();
        due_answer
    }

    /// Makes a call on both: the answers, the counts and every cell must be equal afterwards. The Rust
    /// is not given a T-PDU that ours has to refuse without it.
    pub(crate) fn call(&mut self, part: &mut Part, given: &mut Given, call: &Call) {
        let mut ours = self.ours.clone();
        let answer = call.on_ours(&mut ours);
        given.add(call, answer.number);
        given.arrivals.add_answer(&self.ours, answer.number);
        let due_answer = match call.stand_in(part) {
            Ok(call) => self.due_answer(&mut given.arrivals, &call),
            Err(number) => Noted {
                number,
                ..Noted::default()
            },
        };
        let due = self.due();
        let answer = (answer.told(), difference(&ours, &due));
        let due_answer = due_answer.due(call.tpdu().unwrap_or(&[]));
        part.case(call.input(), answer, (due_answer, None));
        self.ours = due;
    }

    fn due_report(&self, (start, end, budget): Question) -> Report {
        self.rust.report(start, end, budget).into()
    }

    /// Reports, and the verdict on each.
    pub(crate) fn reports(&self, part: &mut Part, random: &mut Random) {
        let due_report = |question| self.due_report(question);
        for question in questions(random, &self.contents, due_report) {
            self.report(part, question);
        }
    }

    /// A report, and the verdict on it: judged by the figures of a report that was made for another
    /// budget, a run passes where the Rust's report says both that it forwards and that it keeps to
    /// this one.
    pub(crate) fn report(&self, part: &mut Part, question: Question) {
        let (start, end, budget) = question;
        let due = self.due_report(question);
        part.case(&[], self.ours.report(start, end, budget), due);
        let other = self
            .ours
            .report(start, end, PacketContinuityBudget::zero_loss());
        let passes = other.judge(budget.into()).reason == 0;
        let due = due.forwarding_proven && due.packet_continuity_proven;
        part.case(&[], passes, due);
    }
}

/// This many random calls, with reports now and then.
fn run(part: &mut Part, given: &mut Given, random: &mut Random, pair: &mut Pair, calls: usize) {
    let rows = capacity(&pair.ours);
    let base = match random.below(4) {
        0 => 0,
        1 => u64::MAX - rows as u64,
        _ => random.number(),
    };
    for step in 0..calls {
        let call = match random.below(8) {
            0 => any_indication_call(random),
            _ => any_call(random, &pair.contents.rows, base, rows),
        };
        pair.call(part, given, &call);
        if step % 16 == 15 && (rows < MOST_ROWS || step % 256 == 15) {
            pair.reports(part, random);
        }
    }
    pair.reports(part, random);
}

/// Sends new sequences until the sheet is full, one more, and a row that is there.
fn fill(part: &mut Part, given: &mut Given, random: &mut Random, pair: &mut Pair) {
    let mut sequences: Vec<u64> = (pair.contents.rows.len()..=capacity(&pair.ours))
        .map(|_| random.number())
        .collect();
    sequences.extend(pair.contents.rows.last().map(|row| row.sequence));
    for sequence in sequences {
        let send_timestamp_ns = random.number();
        let call = Call::Sent {
            sequence,
            send_timestamp_ns,
        };
        pair.call(part, given, &call);
    }
    pair.reports(part, random);
}

/// Every message type, with a T-PDU of a row, with elements and with nothing.
fn each_type(part: &mut Part, given: &mut Given, random: &mut Random, pair: &mut Pair) {
    let sequence = pair.contents.rows.first().map_or(0, |row| row.sequence);
    for call in type_calls(random, sequence) {
        pair.call(part, given, &call);
    }
}

/// Error Indications with all that the rule on the tunnel is about.
fn each_tunnel(part: &mut Part, given: &mut Given, random: &mut Random, pair: &mut Pair) {
    for call in tunnel_calls(random) {
        pair.call(part, given, &call);
    }
}

/// Messages of every type: with a T-PDU of this sequence, with few and many elements that an Error
/// Indication may have, and with nothing.
pub(crate) fn type_calls(random: &mut Random, sequence: u64) -> Vec<Call> {
    let probe = Probe {
        sequence,
        ..any_probe(random)
    };
    let mut payloads = vec![build(probe), vec![]];
    payloads.extend([2, 2, 5, 17, 40].map(|count| sound_list(random, count)));
    let calls = payloads.into_iter().flat_map(|payload| {
        (0..=255).map(move |message_type| Call::Message {
            time: u64::MAX,
            message_type,
            payload: payload.clone(),
        })
    });
    calls.collect()
}

pub(crate) fn tunnel_calls(random: &mut Random) -> Vec<Call> {
    let mut payloads = Vec::new();
    each_indication(random, 4, |payload| payloads.push(payload.to_vec()));
    let calls = payloads.into_iter().map(|payload| Call::Message {
        time: random.any_u64(),
        message_type: ERROR_INDICATION,
        payload,
    });
    calls.collect()
}

/// Elements, accepted or not, in a message of any type: every second one is an Error Indication.
pub(crate) fn any_indication_call(random: &mut Random) -> Call {
    let other_types = [2, 31, 254, G_PDU, 1, random.any_u8()];
    let message_type = match random.below(2) {
        0 => ERROR_INDICATION,
        _ => other_types[random.below(other_types.len())],
    };
    let mut payload = any_indication(random);
    payload.truncate(MOST_PAYLOAD);
    Call::Message {
        time: random.any_u64(),
        message_type,
        payload,
    }
}

/// A call on a sheet with these rows, on sequences from `base` on. The kept sample is drawn with it, too.
pub(crate) fn any_call(random: &mut Random, rows: &[Row], base: u64, capacity: usize) -> Call {
    let any_sequence = base.wrapping_add(random.below(2 * capacity + 2) as u64);
    let row = match rows.len() {
        0 => None,
        length => Some(rows[random.below(length)]),
    };
    match random.below(16) {
        0..6 => {
            let last = rows.last();
            let next = last.map_or(base, |row| {
                row.sequence.wrapping_add(1 + random.length(2) as u64)
            });
            Call::Sent {
                sequence: match random.below(16) {
                    0 => near_sequence(random, next),
                    1..4 => any_sequence,
                    _ => next,
                },
                send_timestamp_ns: time_near(random, last.map_or(0, |row| row.send_timestamp_ns)),
            }
        }
        6 => Call::Sent {
            sequence: row.map_or(any_sequence, |row| row.sequence),
            send_timestamp_ns: time_near(random, row.map_or(0, |row| row.send_timestamp_ns)),
        },
        7..13 => {
            let mut probe = any_probe(random);
            let known = row.map_or(any_sequence, |row| row.sequence);
            match random.below(16) {
                0 => (),
                1 => probe.sequence = near_sequence(random, known),
                _ => probe.sequence = known,
            }
            let mut tpdu = match random.below(8) {
                0 | 1 => echo(&build(probe)).expect("a built T-PDU is echoed"),
                2 | 3 => padded_packet(random, probe),
                _ => build(probe),
            };
            if random.below(3) == 0 {
                spoil_tpdu(random, &mut tpdu);
            }
            let time = time_near(random, row.map_or(0, |row| row.send_timestamp_ns));
            if random.below(2) == 0 {
                Call::Tpdu { time, tpdu }
            } else {
                Call::Message {
                    time,
                    message_type: G_PDU,
                    payload: tpdu,
                }
            }
        }
        _ => {
            let message_types = [26, 26, 26, 2, 31, 254, 1, random.number() as u8];
            let length = random.length(60);
            Call::Message {
                time: random.number(),
                message_type: message_types[random.below(message_types.len())],
                payload: any_elements(random, length),
            }
        }
    }
}

/// A sequence that differs from another in one byte.
fn near_sequence(random: &mut Random, sequence: u64) -> u64 {
    let mut bytes = sequence.to_be_bytes();
    let at = random.below(8);
    bytes[at] = random.other_byte(bytes[at]);
    u64::from_be_bytes(bytes)
}

/// A time soon after another, as a rule; or just before it, the same, or any.
pub(crate) fn time_near(random: &mut Random, time: u64) -> u64 {
    match random.below(16) {
        0 => [0, u64::MAX, random.number()][random.below(3)],
        1 => time.saturating_sub(1),
        2 => time,
        3 => time.saturating_sub(random.length(1 << 20) as u64),
        _ => time.saturating_add(random.length(1 << 20) as u64),
    }
}

/// Cuts a T-PDU or changes a byte or a field; then may make the checksums right.
fn spoil_tpdu(random: &mut Random, tpdu: &mut Vec<u8>) {
    let at = part_at(tpdu);
    let near = tpdu.len().min(at + UDP_HEADER + PROBE);
    match random.below(9) {
        0 => tpdu.truncate(random.below(near)),
        1 => tpdu[random.below(near)] = random.number() as u8,
        2 => {
            let lengths = [0, 7, 8, 31, 32, 33, 0xffff];
            set_word(tpdu, at + 4, lengths[random.below(lengths.len())]);
        }
        3 => set_any_ihl(random, tpdu),
        4 => set_any_flags(random, tpdu),
        5 => set_word(tpdu, at + 6, 0),
        6 => set_lengths(tpdu, random.below(PROBE), 0),
        7 => {
            let place = protocol_at(tpdu);
            tpdu[place] = random.any_u8();
        }
        _ => set_word(tpdu, 2 * random.below(at / 2 + 8), 0),
    }
    if random.below(2) == 0 {
        let covered = any_covered(random);
        sum_again(tpdu, covered);
    }
}

/// What a sheet may hold: rows with sequences near each other or far apart, any times and
/// latencies, any counters.
pub(crate) fn any_contents(random: &mut Random, rows: usize) -> Sheet {
    let gap = [1, 3, u64::MAX / (rows as u64 + 1)][random.below(3)];
    let most = u64::MAX - gap * (rows as u64).saturating_sub(1);
    let mut sequence = [0, most, random.number() % most.max(1)][random.below(3)];
    let number = |random: &mut Random| match random.below(4) {
        0 => [0, 1, u64::MAX - 1, u64::MAX][random.below(4)],
        1 => random.length(1 << 20) as u64,
        _ => random.number(),
    };
    let returning = random.below(5);
    let contents = (0..rows).map(|index| {
        if index > 0 {
            sequence += gap;
        }
        let returned = random.below(4) < returning;
        Row {
            sequence,
            send_timestamp_ns: number(random),
            latency: if returned { number(random) } else { 0 },
            returned,
        }
    });
    Sheet {
        rows: contents.collect(),
        duplicates: number(random),
        out_of_order: number(random),
        error_indications: number(random) * random.below(2) as u64,
    }
}
