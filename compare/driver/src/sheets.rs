//! Run sheets of ours for a comparison: fresh ones with dirty columns, what is due in them, and
//! where they differ from it.

use std::fmt::Debug;

use testkit_open::evidence::{PacketContinuityBudget, PacketContinuityReport};

use crate::ours_traffic::{Counts, Report, RunSheet};
use crate::random::Random;
use crate::rust_side::traffic::Sheet;

/// The most rows of a run sheet.
pub const MOST_ROWS: usize = 2_048;

/// A fresh sheet of this capacity. Its columns hold anything, and most are longer than need be. Every second
/// time one column alone sets the capacity.
pub fn fresh(random: &mut Random, capacity: usize) -> RunSheet {
    let least = capacity + random.below(2);
    let mut lengths = [0; RunSheet::COLUMNS].map(|_| least + random.length(8));
    if capacity < MOST_ROWS {
        lengths[random.below(RunSheet::COLUMNS)] = capacity;
    }
    dirty(random, lengths)
}

/// A fresh sheet with columns of these lengths that hold anything. Every second mark is 0, whatever the
/// arrival time beside it.
pub fn dirty(random: &mut Random, lengths: [usize; RunSheet::COLUMNS]) -> RunSheet {
    let mut sheet = RunSheet::fresh(lengths, || random.number());
    for mark in &mut sheet.marks {
        if random.below(2) == 0 {
            *mark = 0;
        }
    }
    sheet
}

/// The lengths of a sheet's columns.
fn lengths(sheet: &RunSheet) -> [usize; RunSheet::COLUMNS] {
    [
        sheet.sequences.len(),
        sheet.send_timestamps.len(),
        sheet.latencies.len(),
        sheet.marks.len(),
        sheet.arrival_timestamps.len(),
    ]
}

/// The capacity of a sheet: its shortest column, at most 2,048.
pub fn capacity(sheet: &RunSheet) -> usize {
    lengths(sheet).into_iter().fold(MOST_ROWS, usize::min)
}

/// What the capacity would be without the column of arrival times: if it is more, that column alone sets it.
pub fn capacity_without_arrivals(sheet: &RunSheet) -> usize {
    let [others @ .., _] = lengths(sheet);
    others.into_iter().fold(MOST_ROWS, usize::min)
}

/// The sheet with these rows, their arrival times and these counters in it, all other cells kept.
pub fn holding(sheet: &RunSheet, contents: &Sheet, arrivals: &[u64]) -> RunSheet {
    let mut due = sheet.clone();
    for (at, row) in contents.rows.iter().enumerate() {
        due.sequences[at] = row.sequence;
        due.send_timestamps[at] = row.send_timestamp_ns;
        due.latencies[at] = row.latency;
        due.marks[at] = u8::from(row.returned);
        due.arrival_timestamps[at] = arrivals[at];
    }
    due.counts = Counts {
        used: contents.rows.len(),
        duplicate_packets: contents.duplicates,
        out_of_order_packets: contents.out_of_order,
        gtpu_error_indications: contents.error_indications,
    };
    due
}

/// The first place in which the sheets differ, counts before columns.
pub fn difference(sheet: &RunSheet, due: &RunSheet) -> Option<String> {
    fn column<T: PartialEq + Debug>(name: &str, sheet: &[T], due: &[T]) -> Option<String> {
        let at = sheet.iter().zip(due).position(|(cell, due)| cell != due)?;
        Some(format!(
            "{name} of row {at}: {:?} instead of {:?}",
            sheet[at], due[at]
        ))
    }
    if sheet.counts != due.counts {
        return Some(format!("{:?} instead of {:?}", sheet.counts, due.counts));
    }
    column("sequence", &sheet.sequences, &due.sequences)
        .or_else(|| column("send time", &sheet.send_timestamps, &due.send_timestamps))
        .or_else(|| column("latency", &sheet.latencies, &due.latencies))
        .or_else(|| column("mark", &sheet.marks, &due.marks))
        .or_else(|| {
            let due = &due.arrival_timestamps;
            column("arrival time", &sheet.arrival_timestamps, due)
        })
}

/// What is asked of a report: a window's start and end, and a budget.
pub type Question = (u64, u64, PacketContinuityBudget);

/// Questions about a sheet whose report for a window's end is known: for some ends, budgets that
/// are just kept, just broken in each way, and any.
pub fn questions(
    random: &mut Random,
    contents: &Sheet,
    report: impl Fn(Question) -> Report,
) -> Vec<Question> {
    let mut ends = vec![0, u64::MAX, random.number()];
    if let Some(row) = contents.rows.last() {
        let time = row.send_timestamp_ns;
        ends.extend([time.wrapping_sub(1), time, time.saturating_add(1_000)]);
    }
    let start = random.number();
    let zero = PacketContinuityBudget::zero_loss();
    let mut questions = Vec::new();
    for end in ends {
        let report = report((start, end, zero));
        let kept = PacketContinuityBudget {
            max_lost_packets: report.lost_packets,
            max_consecutive_lost_packets: report.max_consecutive_lost_packets,
            outage_budget_ns: report.max_gap_duration_ns,
        };
        let (mut lost, mut run, mut outage) = (kept, kept, kept);
        lost.max_lost_packets = lost.max_lost_packets.saturating_sub(1);
        run.max_consecutive_lost_packets = run.max_consecutive_lost_packets.saturating_sub(1);
        outage.outage_budget_ns = outage.outage_budget_ns.saturating_sub(1);
        let any = PacketContinuityBudget {
            max_lost_packets: random.number(),
            max_consecutive_lost_packets: match random.below(2) {
                0 => random.any_u64(),
                _ => random.length(MOST_ROWS) as u64,
            },
            outage_budget_ns: random.number(),
        };
        questions.extend([zero, kept, lost, run, outage, any].map(|budget| (start, end, budget)));
    }
    questions
}

impl From<PacketContinuityReport> for Report {
    fn from(report: PacketContinuityReport) -> Self {
        let latency = report.latency;
        Self {
            number: 0,
            window_start_ns: report.window_start_ns,
            window_end_ns: report.window_end_ns,
            sent_packets: report.sent_packets,
            received_packets: report.received_packets,
            lost_packets: report.lost_packets,
            duplicate_packets: report.duplicate_packets,
            out_of_order_packets: report.out_of_order_packets,
            gtpu_error_indications: report.gtpu_error_indications,
            max_consecutive_lost_packets: report.max_consecutive_lost_packets,
            max_gap_duration_ns: report.max_gap_duration_ns,
            has_latency: latency.is_some(),
            min_ns: latency.map_or(0, |latency| latency.min_ns),
            max_ns: latency.map_or(0, |latency| latency.max_ns),
            avg_ns: latency.map_or(0, |latency| latency.avg_ns),
            budget: report.budget.into(),
            forwarding_proven: report.forwarding_proven,
            packet_continuity_proven: report.packet_continuity_proven,
        }
    }
}
