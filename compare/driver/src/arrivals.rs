//! Arrival times, a column of the run sheet that the Rust does not have: the model that says what is due in
//! it, written from document 02, job 8; how often the rules on it were tried; and a part that tries them
//! row by row.

use std::collections::BTreeMap;

use testkit_open::evidence::PacketContinuityBudget;

use crate::batch::refuse_batches;
use crate::cases::ipv4_probe;
use crate::indication_inputs::sound_list;
use crate::malformed::{any_time, has_one_cause, refuse};
use crate::numbers::{OBSERVER_FULL, TIMESTAMP_REVERSED};
use crate::observer::{any_contents, Call, Given, Pair, ERROR_INDICATION, G_PDU};
use crate::ours_traffic::RunSheet;
use crate::part::Part;
use crate::random::Random;
use crate::rust_side::measurement::{build, Probe};
use crate::rust_side::traffic::{Row, Sheet};
use crate::seen::{Met, Situation};
use crate::sheets::{capacity, capacity_without_arrivals, fresh, holding, MOST_ROWS};

/// "The return time of the first accepted return", of each sequence that has one; for any other 0 is due.
#[derive(Clone, Default)]
pub(crate) struct Arrivals(BTreeMap<u64, u64>);

impl Arrivals {
    /// What may stand on the marked rows of a sheet: 0 on all, on all what send time and latency make, or
    /// anything.
    pub(crate) fn any(random: &mut Random, contents: &Sheet) -> Self {
        let way = random.below(4);
        let mut time = |row: &Row| match way {
            0 => 0,
            1 => row.send_timestamp_ns.wrapping_add(row.latency),
            _ => random.any_u64(),
        };
        let marked = contents.rows.iter().filter(|row| row.returned);
        Self(marked.map(|row| (row.sequence, time(row))).collect())
    }

    /// Follows a call that the Rust answers by this number. The first accepted return of a sequence gives
    /// its time. All else leaves what is there: sending, a duplicate, a refusal, any other message.
    pub(crate) fn follow(&mut self, call: &Call, number: u8) {
        if let (0, Some(sequence), Some(time)) = (number, call.sequence(), call.time()) {
            self.0.entry(sequence).or_insert(time);
        }
    }

    /// What is due on the row of this sequence.
    fn on(&self, sequence: u64) -> u64 {
        self.0.get(&sequence).copied().unwrap_or(0)
    }

    /// The column beside the rows that the Rust has.
    ///
    /// # Panics
    ///
    /// If the Rust has marked other rows than those with an accepted return.
    pub(crate) fn column(&self, contents: &Sheet) -> Vec<u64> {
        let marked = contents.rows.iter().filter(|row| row.returned);
        assert!(
            self.0.keys().eq(marked.map(|row| &row.sequence)),
            "a row is marked by its first accepted return"
        );
        let rows = contents.rows.iter();
        rows.map(|row| self.on(row.sequence)).collect()
    }
}

/// How often the calls of a part had what the rules on arrival times are about.
#[derive(Default)]
pub(crate) struct ArrivalCounts {
    calls: Met,
    full: Met,
}

impl ArrivalCounts {
    /// Counts a call that the Rust answers by this number, with these contents and times before it.
    pub(crate) fn add_call(
        &mut self,
        contents: &Sheet,
        arrivals: &Arrivals,
        call: &Call,
        number: u8,
    ) {
        let rows = &contents.rows;
        let row = call.sequence().and_then(|sequence| contents.row(sequence));
        let is_marked = row.is_some_and(|row| row.returned);
        let is_early = number == TIMESTAMP_REVERSED;
        let taken_at = call.time().filter(|_| number == 0 && row.is_some());
        let first = taken_at.filter(|_| !is_marked);
        let duplicate = taken_at.filter(|_| is_marked);
        let has_time = |row: &Row| arrivals.on(row.sequence) != 0;
        let (sent_again, moves) = match (call, row) {
            (Call::Sent { .. }, Some(row)) => (has_time(&row), false),
            (Call::Sent { sequence, .. }, None) => {
                let mut later = rows.iter().rev().take_while(|row| row.sequence > *sequence);
                (false, number == 0 && later.any(has_time))
            }
            _ => (false, false),
        };
        let other = |time| row.is_some_and(|row| arrivals.on(row.sequence) != time);
        self.calls.add(&[
            (
                "first return after time 0",
                first.is_some_and(|time| time > 0),
            ),
            ("first return at time 0", first == Some(0)),
            ("duplicate at another time", duplicate.is_some_and(other)),
            ("too early, not marked", is_early && !is_marked),
            ("too early, marked", is_early && is_marked),
            ("row with a time sent again", sent_again),
            ("new row before one with a time", moves),
        ]);
    }

    /// Counts our answer to a call on this sheet.
    pub(crate) fn add_answer(&mut self, sheet: &RunSheet, number: u8) {
        let is_alone = capacity(sheet) < capacity_without_arrivals(sheet);
        let is_met = number == OBSERVER_FULL && is_alone;
        self.full.add(&[("full by this column alone", is_met)]);
    }

    /// Prints the counts below the part, which fails if one of them is 0.
    pub(crate) fn require(&self, part: &mut Part) {
        self.calls.require(part, "arrival times");
        self.full.require(part, "22");
    }
}

/// What a sheet may have in this column, and beside it, without being refused for it.
pub(crate) fn sound_situations(sheet: &RunSheet) -> Vec<Situation> {
    let used = sheet.counts.used;
    let some = |is: &dyn Fn(usize) -> bool| (0..used).any(is);
    let is_marked = |at: usize| sheet.marks[at] == 1;
    let time = |at: usize| sheet.arrival_timestamps[at];
    let is_sum = |at: usize| {
        let sent_at = sheet.send_timestamps[at];
        sent_at.checked_add(sheet.latencies[at]) == Some(time(at))
    };
    let past = used < capacity(sheet) && sheet.marks[used] == 0 && time(used) != 0;
    vec![
        (
            "mark 1 and time 0",
            some(&|at| is_marked(at) && time(at) == 0),
        ),
        (
            "another time than send time and latency make",
            some(&|at| is_marked(at) && time(at) != 0 && !is_sum(at)),
        ),
        (
            "a latency without a mark",
            some(&|at| !is_marked(at) && sheet.latencies[at] != 0),
        ),
        ("a time without a mark right behind the used rows", past),
    ]
}

/// The calls of the part, and what they had in them.
struct Trial {
    part: Part,
    given: Given,
    sheets: Met,
    random: Random,
}

/// Calls and the columns that were found for them by hand, so that the model has a judge as well. Then each
/// used row in turn, on sheets of up to 40 rows and at some rows of 2,048: beside rows that are all marked,
/// all unmarked, or either.
pub fn each_row(seed: u64) -> Part {
    let mut trial = Trial {
        part: Part::new("calls and reports"),
        given: Given::default(),
        sheets: Met::default(),
        random: Random::new(seed),
    };
    trial.examples();
    let few = (1..=40).flat_map(|rows| (0..rows).map(move |at| (rows, at)));
    let most = [0, 1, 7, 8, 1_023, 1_024, 2_040, 2_046, 2_047].map(|at| (MOST_ROWS, at));
    for (rows, at) in few.chain(most) {
        for marked in [Some(true), Some(false), None] {
            let mut contents = any_contents(&mut trial.random, rows);
            for row in &mut contents.rows {
                set_mark(row, marked.unwrap_or(row.returned));
            }
            set_mark(&mut contents.rows[at], false);
            trial.row(contents, at);
        }
    }
    trial.sheets.require(&mut trial.part, "sheets in order");
    trial.part
}

/// Marks a row or not. Without a mark the Rust has no latency.
fn set_mark(row: &mut Row, returned: bool) {
    row.returned = returned;
    if !returned {
        row.latency = 0;
    }
}

impl Trial {
    fn examples(&mut self) {
        let sent = |sequence, send_timestamp_ns| Call::Sent {
            sequence,
            send_timestamp_ns,
        };
        let steps: [(Call, &[u64]); 17] = [
            (sent(5, 10), &[0]),
            (returned(5, 17), &[17]),
            (sent(3, 20), &[0, 17]),
            (returned(5, 18), &[0, 17]), // a duplicate
            (returned(3, 19), &[0, 17]), // too early
            (sent(5, 100), &[0, 17]),    // sent again
            (returned(5, 99), &[0, 17]), // now too early
            (returned(5, 100), &[0, 17]),
            (indication(&mut self.random), &[0, 17]),
            (sent(4, 30), &[0, 0, 17]),
            (returned(4, 30), &[0, 30, 17]),
            (sent(0, 0), &[0, 0, 30, 17]),
            (returned(0, 0), &[0, 0, 30, 17]), // the first, at time 0
            (returned(0, 9), &[0, 0, 30, 17]), // a duplicate
            (returned(7, 200), &[0, 0, 30, 17]), // not sent
            (sent(8, 60), &[0, 0, 30, 17]),    // full
            (returned(3, u64::MAX), &[0, u64::MAX, 30, 17]),
        ];
        let mut pair = Pair::fresh(&mut self.random, 4);
        for (call, due) in steps {
            pair.call(&mut self.part, &mut self.given, &call);
            let column = pair.arrival_column();
            self.part.case(call.input(), &column[..], due);
        }
    }

    /// Row `at`, which is not marked in these contents: with a time every call refuses the sheet; without
    /// one, or with a mark, none does.
    fn row(&mut self, mut contents: Sheet, at: usize) {
        let random = &mut self.random;
        let sequence = contents.rows[at].sequence;
        let room = (contents.rows.len() + random.below(3)).min(MOST_ROWS);
        let sheet = fresh(random, room);
        let mut arrivals = Arrivals::any(random, &contents);
        let (calls, time) = (row_calls(random, sequence), any_time(random));

        let mut spoiled = holding(&sheet, &contents, &arrivals.column(&contents));
        spoiled.arrival_timestamps[at] = time;
        has_one_cause(&mut self.part, &spoiled);
        refuse(&mut self.part, &mut self.given, &spoiled, &calls);
        refuse_batches(&mut self.part, random, &contents, &spoiled);

        let pair = Pair::new(&sheet, contents.clone(), arrivals.clone());
        self.accept(pair, &calls);
        contents.rows[at].returned = true;
        arrivals.0.insert(sequence, time);
        self.accept(Pair::new(&sheet, contents, arrivals), &calls);
    }

    /// A sheet that is in order, whatever the latencies of unmarked rows.
    fn accept(&mut self, mut pair: Pair, calls: &[Call]) {
        pair.spoil_unmarked(&mut self.random);
        self.sheets.add(&sound_situations(&pair.ours));
        for call in calls {
            pair.call(&mut self.part, &mut self.given, call);
        }
        let window_end = self.random.any_u64();
        let budget = PacketContinuityBudget::zero_loss();
        pair.report(&mut self.part, (0, window_end, budget));
    }
}

/// Calls on a row: an Error Indication, the row sent again, two returns of it, by the two calls in either
/// order, and the next sequence sent, which may be new.
fn row_calls(random: &mut Random, sequence: u64) -> [Call; 5] {
    let send_timestamp_ns = random.length(1 << 20) as u64;
    let time = send_timestamp_ns + random.length(1 << 20) as u64;
    let later = time + 1 + random.length(1 << 20) as u64;
    let [first, second] = match random.below(2) {
        0 => [returned(sequence, time), returned_in(sequence, later)],
        _ => [returned_in(sequence, time), returned(sequence, later)],
    };
    [
        indication(random),
        Call::Sent {
            sequence,
            send_timestamp_ns,
        },
        first,
        second,
        Call::Sent {
            sequence: sequence.wrapping_add(1),
            send_timestamp_ns: random.any_u64(),
        },
    ]
}

/// The packet of a sequence.
fn packet(sequence: u64) -> Vec<u8> {
    build(Probe {
        sequence,
        ..ipv4_probe(0)
    })
}

/// It returns as a T-PDU.
fn returned(sequence: u64, time: u64) -> Call {
    let tpdu = packet(sequence);
    Call::Tpdu { time, tpdu }
}

/// It returns in a message.
fn returned_in(sequence: u64, time: u64) -> Call {
    Call::Message {
        time,
        message_type: G_PDU,
        payload: packet(sequence),
    }
}

/// An Error Indication that is accepted.
fn indication(random: &mut Random) -> Call {
    Call::Message {
        time: random.any_u64(),
        message_type: ERROR_INDICATION,
        payload: sound_list(random, 2),
    }
}
