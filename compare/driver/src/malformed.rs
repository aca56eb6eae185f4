//! Malformed run sheets, which the Rust cannot have: 21 is due of every call, before it looks at anything
//! else, and the sheet is left.

use testkit_open::evidence::PacketContinuityBudget;

use crate::gtpu::any_elements;
use crate::numbers::MALFORMED_OBSERVER;
use crate::observer::{
    any_call, any_contents, any_indication_call, tunnel_calls, type_calls, Call, Given, Pair, G_PDU,
};
use crate::ours_traffic::{Noted, Report, RunSheet};
use crate::part::Part;
use crate::random::Random;
use crate::rust_side::traffic::Sheet;
use crate::seen::{Met, Situation};
use crate::sheets::{capacity, capacity_without_arrivals, difference, MOST_ROWS};

/// In how many ways a sheet is spoiled.
const WAYS: u64 = 6;

/// Malformed sheets: every call refuses by 21, leaves all and hands on no tunnel.
pub fn malformed(seed: u64, rounds: u64) -> Part {
    let mut part = Part::new("calls and reports");
    let (mut given, mut causes) = (Given::default(), Causes::default());
    let mut random = Random::new(seed);
    for round in 0..rounds / 10 {
        let (contents, sheet) = malformed_sheet(&mut random, round);
        causes.add(&mut part, &sheet);
        let mut calls = any_calls(&mut random, &contents);
        if round / WAYS % 64 == 1 {
            calls.extend(type_calls(&mut random, 0));
            calls.extend(tunnel_calls(&mut random));
        }
        refuse(&mut part, &mut given, &sheet, &calls);
    }
    given.require(&mut part, [MALFORMED_OBSERVER]);
    causes.require(&mut part);
    part
}

/// A sheet that was spoiled in one of the ways, and what it held before; every 32nd time of each way it has
/// 2,048 rows.
pub(crate) fn malformed_sheet(random: &mut Random, round: u64) -> (Sheet, RunSheet) {
    let rows = match round / WAYS % 32 {
        0 => MOST_ROWS,
        _ => 2 + random.length(30),
    };
    let contents = any_contents(random, rows);
    let Pair {
        mut ours, contents, ..
    } = Pair::any(random, rows, contents);
    spoil(random, &mut ours, round);
    (contents, ours)
}

/// Makes a full sheet of at least two rows malformed, each round in the next way, by one cause alone.
fn spoil(random: &mut Random, sheet: &mut RunSheet, round: u64) {
    let used = sheet.counts.used;
    let at = random.below(used - 1);
    match round % WAYS {
        0 if used == MOST_ROWS => {
            // A row more than there may be, all in order.
            sheet.sequences = (0..=used as u64).collect();
            sheet.send_timestamps.resize(used + 1, 0);
            sheet.latencies.resize(used + 1, 0);
            sheet.marks = vec![0; used + 1];
            sheet.arrival_timestamps = vec![0; used + 1];
            sheet.counts.used = used + 1;
        }
        0 => sheet.counts.used = random.above(used),
        1 => {
            let length = [0, used - 1, random.below(used)][random.below(3)];
            shorten(sheet, round / WAYS % RunSheet::COLUMNS as u64, length);
        }
        2 => sheet.sequences[at + 1] = sheet.sequences[at],
        3 => sheet.sequences.swap(at, at + 1),
        4 => sheet.marks[at + random.below(2)] = 2 + random.below(254) as u8,
        _ => {
            let at = random.below(used);
            sheet.marks[at] = 0;
            sheet.arrival_timestamps[at] = any_time(random);
        }
    }
}

/// Any time but 0.
pub(crate) fn any_time(random: &mut Random) -> u64 {
    random.any_u64().max(1)
}

/// Gives one of the columns this length.
fn shorten(sheet: &mut RunSheet, column: u64, length: usize) {
    match column {
        0 => sheet.sequences.truncate(length),
        1 => sheet.send_timestamps.truncate(length),
        2 => sheet.latencies.truncate(length),
        3 => sheet.marks.truncate(length),
        _ => sheet.arrival_timestamps.truncate(length),
    }
}

/// Any calls, and messages of some types with elements.
fn any_calls(random: &mut Random, contents: &Sheet) -> Vec<Call> {
    let rows = contents.rows.len();
    let mut calls: Vec<Call> = (0..8)
        .map(|_| any_call(random, &contents.rows, 0, rows))
        .collect();
    calls.extend(
        [0, 1, 2, 26, 31, 254, G_PDU].map(|message_type| Call::Message {
            time: random.number(),
            message_type,
            payload: any_elements(random, 12),
        }),
    );
    calls.push(any_indication_call(random));
    calls
}

/// Makes these calls and a report, each on the sheet as it is: all have to be refused by 21, and to leave it.
pub(crate) fn refuse(part: &mut Part, given: &mut Given, sheet: &RunSheet, calls: &[Call]) {
    let due = Noted {
        number: MALFORMED_OBSERVER,
        ..Noted::default()
    };
    for call in calls {
        let mut ours = sheet.clone();
        let answer = call.on_ours(&mut ours);
        given.add(call, answer.number);
        let answer = (answer, difference(&ours, sheet));
        part.case(call.input(), answer, (due, None));
    }
    let due = Report {
        number: MALFORMED_OBSERVER,
        ..Report::default()
    };
    let window_end = calls.iter().find_map(Call::time).unwrap_or(0);
    let budget = PacketContinuityBudget::zero_loss();
    let report = sheet.clone().report(0, window_end, budget);
    part.case(&[], report, due);
}

/// How often each cause of 21 was there, and where the column of arrival times was it.
#[derive(Default)]
pub(crate) struct Causes {
    all: Met,
    arrivals: Met,
}

impl Causes {
    /// Counts a sheet.
    pub(crate) fn add(&mut self, part: &mut Part, sheet: &RunSheet) {
        has_one_cause(part, sheet);
        self.all.add(&causes(sheet));
        self.arrivals.add(&arrival_causes(sheet));
    }

    pub(crate) fn require(&self, part: &mut Part) {
        self.all.require(part, "causes");
        self.arrivals.require(part, "causes in arrival times");
    }
}

/// A malformed sheet must have one cause alone: none then hides another.
pub(crate) fn has_one_cause(part: &mut Part, sheet: &RunSheet) {
    let causes = causes(sheet);
    let count = causes.iter().filter(|(_, is_met)| *is_met).count();
    part.case(&[], count, 1);
}

/// Documents 01 and 02 on 21: "used count above capacity, used rows not rising, a used row's mark not 0 or
/// 1", "a nonzero return time on an unmarked used row".
fn causes(sheet: &RunSheet) -> Vec<Situation> {
    let rows = sheet.counts.used.min(capacity(sheet));
    let neighbours = || sheet.sequences[..rows].windows(2);
    vec![
        ("used count above capacity", sheet.counts.used > rows),
        (
            "a sequence again",
            neighbours().any(|pair| pair[0] == pair[1]),
        ),
        (
            "a sequence that falls",
            neighbours().any(|pair| pair[0] > pair[1]),
        ),
        (
            "a mark above 1",
            sheet.marks[..rows].iter().any(|&mark| mark > 1),
        ),
        ("a time without a mark", !unmarked_times(sheet).is_empty()),
    ]
}

/// The used rows that have a time and no mark.
fn unmarked_times(sheet: &RunSheet) -> Vec<usize> {
    let rows = sheet.counts.used.min(capacity(sheet));
    (0..rows)
        .filter(|&at| sheet.marks[at] == 0 && sheet.arrival_timestamps[at] != 0)
        .collect()
}

fn arrival_causes(sheet: &RunSheet) -> Vec<Situation> {
    let used = sheet.counts.used;
    let rows = used.min(capacity(sheet));
    let unmarked = unmarked_times(sheet);
    let has_time = !unmarked.is_empty();
    let marked = sheet.marks[..rows].iter().filter(|&&mark| mark == 1);
    let marked = marked.count();
    vec![
        (
            "this column alone too short",
            used > rows && used <= capacity_without_arrivals(sheet),
        ),
        ("a time in the first row", unmarked.contains(&0)),
        (
            "in the last row",
            rows > 0 && unmarked.contains(&(rows - 1)),
        ),
        ("all other rows marked", has_time && marked + 1 == rows),
        ("no row marked", has_time && marked == 0),
        ("2,048 rows", has_time && rows == MOST_ROWS),
    ]
}
