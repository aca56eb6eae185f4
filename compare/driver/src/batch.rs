//! Our batch calls against single calls in a loop, the Rust's and ours: the packets of a plan, all or
//! none, and lists of returns. The Rust has no batch calls.

use crate::arrivals::ArrivalCounts;
use crate::compared::{as_the_rust_tells, require_unfilled, stand_in, told_apart, Answer};
use crate::malformed::{malformed_sheet, Causes};
use crate::numbers::*;
use crate::observer::{any_call, any_contents, any_rows, time_near, Call, Pair};
use crate::ours_traffic::RunSheet;
use crate::part::Part;
use crate::random::Random;
use crate::rust_side::measurement::{build, decode, Probe};
use crate::rust_side::traffic::{Engine, Sheet};
use crate::seen::Seen;
use crate::sheets::{difference, MOST_ROWS};
use crate::traffic::{due_packets, MOST_PACKETS};
use crate::wild::any_probe;

/// A plan: what its first packet says, how many packets, and its rate.
type Plan = (Probe, u64, u64);

/// What the calls of a part had in them.
#[derive(Default)]
struct Given {
    /// The numbers that ours answered.
    seen: Seen,
    /// What the rules on arrival times are about.
    arrivals: ArrivalCounts,
}

/// Plans entered and lists of returns taken, on sheets in any state.
pub fn batches(seed: u64, rounds: u64) -> Part {
    let mut part = Part::new("batch calls and reports");
    let mut given = Given::default();
    let mut random = Random::new(seed);
    for rows in [2, 48, MOST_ROWS] {
        fit(&mut part, &mut given, &mut random, rows);
    }
    for round in 0..rounds / 10 {
        let rows = any_rows(&mut random, round);
        let used = rows - random.length(rows).min(rows);
        let contents = any_contents(&mut random, used);
        let mut pair = Pair::any(&mut random, rows, contents);
        for _ in 0..3 {
            let plan = any_plan(&mut random, &pair.contents, rows);
            enter(&mut part, &mut given, &mut pair, plan);
            let returns = any_returns(&mut random, &pair.contents, rows);
            take(&mut part, &mut given, &mut random, &mut pair, &returns);
        }
        pair.reports(&mut part, &mut random);
    }
    let numbers = answers(&[READING, PLANNING, OBSERVING]);
    given.seen.require(&mut part, numbers);
    given.arrivals.require(&mut part);
    require_unfilled(&mut part);
    part
}

/// Malformed sheets: every plan, also one of no packets or one that the generator refuses, and every
/// list of returns, an empty one too, is refused by 21. The sheet is left, and so are the two columns
/// that are lent for the list.
pub fn malformed_batches(seed: u64, rounds: u64) -> Part {
    let mut part = Part::new("batch calls");
    let mut causes = Causes::default();
    let mut random = Random::new(seed);
    for round in 0..rounds / 10 {
        let (contents, sheet) = malformed_sheet(&mut random, round);
        causes.add(&mut part, &sheet);
        refuse_batches(&mut part, &mut random, &contents, &sheet);
    }
    causes.require(&mut part);
    part
}

/// A plan and two lists of returns on a malformed sheet, which held these contents.
pub(crate) fn refuse_batches(
    part: &mut Part,
    random: &mut Random,
    contents: &Sheet,
    sheet: &RunSheet,
) {
    let rows = contents.rows.len();
    let plan = any_plan(random, contents, rows);
    let mut ours = sheet.clone();
    let answer = send(&mut ours, plan);
    let answer = (answer, difference(&ours, sheet));
    part.case(&[], answer, (MALFORMED_OBSERVER, None));

    for returns in [vec![], any_returns(random, contents, rows)] {
        let due = Due::left(random, returns.len());
        due.compare(part, sheet.clone(), sheet, &returns);
    }
}

fn send(sheet: &mut RunSheet, (first, count, rate): Plan) -> u8 {
    sheet.record_sent_plan(count, rate, first.send_timestamp_ns, first.sequence)
}

/// A plan near the rows of a sheet, near the tops, or anywhere; now and then with a count or a rate
/// that no plan may have, the count also so high that the call must not look at each packet.
fn any_plan(random: &mut Random, contents: &Sheet, rows: usize) -> Plan {
    let count = match random.below(16) {
        0 => MOST_PACKETS + 1,
        1 => u64::MAX,
        _ => random.length(rows + 4) as u64,
    };
    let rate = match random.below(16) {
        0 => 0,
        1 => 1_000_000_001,
        2 => 1_000_000_000,
        _ => 1 + random.length(1_000_000_000 - 1) as u64,
    };
    let near_top = |random: &mut Random, step: u64| {
        u64::MAX.wrapping_sub(step.wrapping_mul(random.length(rows + 4) as u64))
    };
    let mut first = any_probe(random);
    first.sequence = match random.below(8) {
        0 => near_top(random, 1),
        1 => random.number(),
        _ if contents.rows.is_empty() => random.length(4) as u64,
        _ => {
            let row = &contents.rows[random.below(contents.rows.len())];
            let before = random.length(rows + 4) as u64;
            let after = random.below(3) as u64;
            row.sequence.saturating_sub(before).saturating_add(after)
        }
    };
    first.send_timestamp_ns = match random.below(8) {
        0 => near_top(random, 1_000_000_000 / rate.max(1)),
        1 => random.number(),
        _ => random.length(1 << 20) as u64,
    };
    (first, count, rate)
}

/// Enters a plan on both sides: its packets as the Rust generates them are sent to the Rust, one after
/// the other, and to a copy of our sheet. Where the copy refuses one, all of the plan is refused.
fn enter(part: &mut Part, given: &mut Given, pair: &mut Pair, plan: Plan) -> u8 {
    let (first, count, rate) = plan;
    let mut singly = pair.ours.clone();
    let mut engine = Engine::with_first_sequence(first.sequence);
    let due = due_packets(&mut engine, first, count, rate).and_then(|packets| {
        for packet in &packets {
            match singly.record_sent(packet.sequence, packet.send_timestamp_ns) {
                answer if answer.number == 0 => {}
                answer => return Err(answer.number),
            }
        }
        Ok(packets)
    });
    let number = match due {
        Err(number) => {
            singly = pair.ours.clone();
            number
        }
        Ok(packets) => {
            for packet in packets {
                let call = Call::Sent {
                    sequence: packet.sequence,
                    send_timestamp_ns: packet.send_timestamp_ns,
                };
                pair.due_answer(&mut given.arrivals, &call);
            }
            0
        }
    };
    let mut ours = pair.ours.clone();
    let answer = send(&mut ours, plan);
    given.seen.add(answer);
    given.arrivals.add_answer(&pair.ours, answer);
    let due = pair.due();
    let differences = (difference(&ours, &due), difference(&ours, &singly));
    part.case(
        &[],
        (answer.told(), differences),
        (number.due(&[]), (None, None)),
    );
    pair.ours = due;
    answer
}

/// Plans that just fit and that do not, on a fresh sheet of `rows` rows: one for half of them, in the middle;
/// one for all, from time 0, of which the others are entered before and behind it; one that goes a sequence
/// further, for which no row is free; the second again, which needs no row; and counts that no plan may have.
/// After each that is entered all rows return, when they were sent.
fn fit(part: &mut Part, given: &mut Given, random: &mut Random, rows: usize) {
    let mut pair = Pair::fresh(random, rows);
    let all = rows as u64;
    let start = 1 + random.length(1 << 20) as u64;
    let plans = [
        (5 + all / 4, all / 2, start, 0),
        (5, all, 0, 0),
        (6, all, start, OBSERVER_FULL),
        (5, all, start, 0),
        (5, MOST_PACKETS + 1, start, TOO_MANY_PACKETS),
        (6, u64::MAX, start, TOO_MANY_PACKETS),
    ];
    for (sequence, count, start, number) in plans {
        let mut first = any_probe(random);
        first.sequence = sequence;
        first.send_timestamp_ns = start;
        let answer = enter(part, given, &mut pair, (first, count, 1_000));
        part.case(&[], answer, number);
        if number == 0 {
            let returns = all_returns(random, &pair.contents);
            take(part, given, random, &mut pair, &returns);
        }
    }
}

/// T-PDUs that came back, and their times.
type Returns = Vec<(u64, Vec<u8>)>;

/// Returns of rows of a sheet, most of them whole.
fn any_returns(random: &mut Random, contents: &Sheet, rows: usize) -> Returns {
    let mut returns = Vec::new();
    for _ in 0..random.length(rows + 8) {
        match any_call(random, &contents.rows, 0, rows) {
            Call::Tpdu { time, tpdu } => returns.push((time, tpdu)),
            Call::Message { time, payload, .. } => returns.push((time, payload)),
            Call::Sent {
                send_timestamp_ns, ..
            } => returns.push((time_near(random, send_timestamp_ns), vec![])),
        }
    }
    returns
}

/// Each row of a sheet, when it was sent.
fn all_returns(random: &mut Random, contents: &Sheet) -> Returns {
    let rows = contents.rows.iter();
    rows.map(|row| {
        let mut probe = any_probe(random);
        probe.sequence = row.sequence;
        (row.send_timestamp_ns, build(probe))
    })
    .collect()
}

/// What a list of returns has to leave in its two columns, which are longer or shorter than it.
struct Due {
    returned: Vec<u64>,
    numbers: Vec<u8>,
    /// What stood in them before.
    before: (Vec<u64>, Vec<u8>),
    returns: usize,
    /// The number of a refusal of the whole list.
    number: u8,
}

impl Due {
    /// A malformed sheet: 21, and both columns are left.
    fn left(random: &mut Random, returns: usize) -> Self {
        let most = returns + random.length(4);
        let mut length = || most - random.length(2).min(most);
        let (returned_length, numbers_length) = (length(), length());
        let before: (Vec<u64>, Vec<u8>) = (
            (0..returned_length).map(|_| random.number()).collect(),
            (0..numbers_length).map(|_| random.number() as u8).collect(),
        );
        let (returned, numbers) = before.clone();
        Self {
            returned,
            numbers,
            before,
            returns: 0,
            number: MALFORMED_OBSERVER,
        }
    }

    /// Each return is taken or refused by its own number, and has a sequence, or 0, if it is not read.
    fn of(
        random: &mut Random,
        returns: &Returns,
        mut take: impl FnMut(u64, &[u8]) -> (u8, u64),
    ) -> Self {
        let mut due = Self::left(random, returns.len());
        let columns = due.returned.len().min(due.numbers.len());
        due.returns = returns.len().min(columns);
        due.number = 0;
        for (k, (time, tpdu)) in returns.iter().take(due.returns).enumerate() {
            (due.numbers[k], due.returned[k]) = take(*time, tpdu);
        }
        due
    }

    /// Takes the list on our sheet and compares every column. The numbers that ours wrote.
    fn compare(
        &self,
        part: &mut Part,
        mut ours: RunSheet,
        due: &RunSheet,
        returns: &Returns,
    ) -> Vec<u8> {
        let times: Vec<u64> = returns.iter().map(|(time, _)| *time).collect();
        let lengths: Vec<usize> = returns.iter().map(|(_, tpdu)| tpdu.len()).collect();
        let tpdus: Vec<u8> = returns.iter().flat_map(|(_, tpdu)| tpdu.clone()).collect();
        let (mut returned, mut numbers) = self.before.clone();
        let answer =
            ours.record_received_tpdus(&times, &lengths, &tpdus, &mut returned, &mut numbers);
        let written = numbers[..self.returns].to_vec();
        for number in &mut numbers[..self.returns] {
            *number = as_the_rust_tells(*number);
        }
        let read = returns.iter().zip(&self.numbers).take(self.returns);
        let own = read.map(|((_, tpdu), &number)| told_apart(tpdu, number));
        let numbers = (written.clone(), numbers);
        let answer = (answer, returned, numbers, difference(&ours, due));
        let due = (
            (self.returns, self.number),
            self.returned.clone(),
            (own.collect(), self.numbers.clone()),
            None,
        );
        part.case(&tpdus, answer, due);
        written
    }
}

/// Takes a list of returns on both sides. The Rust is not given those that ours has to refuse without
/// it: the sheet goes on as it was.
fn take(
    part: &mut Part,
    given: &mut Given,
    random: &mut Random,
    pair: &mut Pair,
    returns: &Returns,
) {
    let due = Due::of(random, returns, |time, tpdu| match stand_in(part, tpdu) {
        Err(number) => (number, 0),
        Ok(tpdu) => {
            let sequence = decode(&tpdu).map_or(0, |probe| probe.sequence);
            let tpdu = tpdu.into_owned();
            let taken = pair.due_answer(&mut given.arrivals, &Call::Tpdu { time, tpdu });
            (taken.number, sequence)
        }
    });
    let sheet = pair.due();
    for number in due.compare(part, pair.ours.clone(), &sheet, returns) {
        given.seen.add(number);
    }
    pair.ours = sheet;
}
