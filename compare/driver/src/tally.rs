//! Document 01's tally, written from its text, against our run sheet: whole lists of returns.
//!
//! The tally takes a return's row from its packet, not from the bytes that arrived. So that it
//! agrees with the sheet says that no damage within 16 neighbouring bits on each leg, however
//! often a packet was echoed, makes a loss look like an arrival or one packet like another.

use testkit_open::evidence::PacketContinuityBudget;

use crate::compared::due;
use crate::damage::{excluded, turn, window_starts};
use crate::numbers::TIMESTAMP_REVERSED;
use crate::ours::{self, Values};
use crate::ours_traffic::{self, Noted, Report, RunSheet, Tunnel};
use crate::packet::{part_at, word};
use crate::part::{grouped, Part};
use crate::random::Random;
use crate::rust_side::measurement::decode;
use crate::rust_side::traffic::{Row, Sheet};
use crate::sheets::{difference, fresh, holding, questions, Question, MOST_ROWS};
use crate::traffic::any_plan;

const G_PDU: u8 = 255;

/// The tally: in plan order, a row for each packet, and the sheet's counters.
struct Tally {
    sheet: Sheet,
    /// Beside each row its arrival time: 0, then the time of the return that marks it (document 02, job 8).
    arrivals: Vec<u64>,
}

impl Tally {
    /// Takes the packets, each with its sequence and send time.
    fn new(packets: impl Iterator<Item = (u64, u64)>) -> Self {
        let row = |(sequence, send_timestamp_ns)| Row {
            sequence,
            send_timestamp_ns,
            latency: 0,
            returned: false,
        };
        let rows: Vec<Row> = packets.map(row).collect();
        Self {
            arrivals: vec![0; rows.len()],
            sheet: Sheet {
                rows,
                ..Sheet::default()
            },
        }
    }

    /// A sheet of ours as it has to be, every cell past the used rows kept.
    fn on(&self, sheet: &RunSheet) -> RunSheet {
        holding(sheet, &self.sheet, &self.arrivals)
    }

    /// The arrival time of a packet, if its row is marked.
    fn marked_at(&self, packet: usize) -> Option<u64> {
        let is_marked = self.sheet.rows[packet].returned;
        is_marked.then(|| self.arrivals[packet])
    }

    /// Takes a return: its packet, by place in the plan, its time, and whether a reader refuses the
    /// bytes that arrived.
    fn take(&mut self, packet: usize, time: u64, is_refused: bool) {
        let sheet = &mut self.sheet;
        let row = sheet.rows[packet];
        if is_refused || time < row.send_timestamp_ns {
            return;
        }
        if row.returned {
            sheet.duplicates = sheet.duplicates.saturating_add(1);
            return;
        }
        let is_higher = |other: &Row| other.returned && other.sequence > row.sequence;
        if sheet.rows.iter().any(is_higher) {
            sheet.out_of_order = sheet.out_of_order.saturating_add(1);
        }
        sheet.rows[packet].returned = true;
        sheet.rows[packet].latency = time - row.send_timestamp_ns;
        self.arrivals[packet] = time;
    }

    /// Leaf 7 on the tally.
    fn report(&self, (window_start, window_end, budget): Question) -> Report {
        let Sheet {
            rows,
            duplicates,
            out_of_order,
            error_indications,
        } = &self.sheet;
        let latencies: Vec<u64> = rows
            .iter()
            .filter(|row| row.returned)
            .map(|row| row.latency)
            .collect();
        let sum: u128 = latencies.iter().copied().map(u128::from).sum();
        let mean = sum.checked_div(latencies.len() as u128).unwrap_or(0);
        let sent = rows.len() as u64;
        let received = latencies.len() as u64;
        let lost = sent - received;
        let (longest_run, longest_outage) = longest(rows, window_end);
        let PacketContinuityBudget {
            max_lost_packets,
            max_consecutive_lost_packets,
            outage_budget_ns,
        } = budget;
        Report {
            number: 0,
            window_start_ns: window_start,
            window_end_ns: window_end,
            sent_packets: sent,
            received_packets: received,
            lost_packets: lost,
            duplicate_packets: *duplicates,
            out_of_order_packets: *out_of_order,
            gtpu_error_indications: *error_indications,
            max_consecutive_lost_packets: longest_run,
            max_gap_duration_ns: longest_outage,
            has_latency: received > 0,
            min_ns: latencies.iter().min().copied().unwrap_or(0),
            max_ns: latencies.iter().max().copied().unwrap_or(0),
            avg_ns: mean as u64,
            budget: budget.into(),
            forwarding_proven: received > 0,
            packet_continuity_proven: lost <= max_lost_packets
                && longest_run <= max_consecutive_lost_packets
                && longest_outage <= outage_budget_ns
                && *error_indications == 0,
        }
    }
}

/// The longest run of unmarked rows and the longest time that such a run lasts, which may be of
/// different runs.
fn longest(rows: &[Row], window_end: u64) -> (u64, u64) {
    let (mut count, mut duration) = (0, 0);
    for first in 0..rows.len() {
        let starts = !rows[first].returned && (first == 0 || rows[first - 1].returned);
        if !starts {
            continue;
        }
        let run = rows[first..].iter().take_while(|row| !row.returned).count();
        let end = rows
            .get(first + run)
            .map_or(window_end, |row| row.send_timestamp_ns);
        count = count.max(run as u64);
        duration = duration.max(end.saturating_sub(rows[first].send_timestamp_ns));
    }
    (count, duration)
}

/// A return: its packet, by place in the plan, a time, what arrived, and by which call.
#[derive(Clone)]
struct Return {
    packet: usize,
    time: u64,
    arrived: Vec<u8>,
    /// The packet echoed as often, no bit turned.
    whole: Vec<u8>,
    /// Whether a bit was turned on some leg.
    damaged: bool,
    as_message: bool,
}

impl Return {
    fn on(&self, sheet: &mut RunSheet) -> Noted {
        if self.as_message {
            sheet.record_return_gtpu_datagram(self.time, G_PDU, &self.arrived)
        } else {
            sheet.record_received_tpdu(self.time, &self.arrived)
        }
    }

    /// The same return, no bit turned.
    fn mended(&self) -> Self {
        Self {
            arrived: self.whole.clone(),
            ..self.clone()
        }
    }
}

/// What a list of returns had in it.
#[derive(Default)]
struct Met {
    lists: u64,
    returns: u64,
    echo_refused: u64,
    damaged_refused: u64,
    damaged_taken: u64,
    too_early: u64,
    duplicates: u64,
    out_of_order: u64,
    first_above_0: u64,
    first_at_0: u64,
    duplicates_at_another_time: u64,
}

impl Met {
    /// Counts a return that ours answered by this number; its row was marked at this time, if it was.
    fn add(&mut self, each: &Return, number: u8, marked_at: Option<u64>) {
        let is_taken = number == 0;
        let is_first = is_taken && marked_at.is_none();
        let is_another = marked_at.is_some_and(|time| time != each.time);
        self.returns += 1;
        self.too_early += u64::from(number == TIMESTAMP_REVERSED);
        self.damaged_refused += u64::from(each.damaged && !is_taken);
        self.damaged_taken += u64::from(each.damaged && is_taken);
        self.first_above_0 += u64::from(is_first && each.time > 0);
        self.first_at_0 += u64::from(is_first && each.time == 0);
        self.duplicates_at_another_time += u64::from(is_taken && is_another);
    }
}

/// Lists of returns on random accepted plans: after each return our sheet must be the tally's, and
/// in the end the reports, and a second sheet, from which damage is kept away.
pub fn tallies(seed: u64, rounds: u64) -> Part {
    let mut part = Part::new("returns, sheets and reports");
    let mut random = Random::new(seed);
    let mut met = Met::default();
    for round in 0..rounds {
        let most = match round % 1_024 {
            0 => MOST_ROWS,
            _ => 40,
        };
        if let Some(packets) = any_packets(&mut random, most) {
            list(&mut part, &mut random, &mut met, &packets);
        }
    }
    let counts = [
        ("lists", met.lists),
        ("returns", met.returns),
        ("never came, an echo refused", met.echo_refused),
        ("damaged and refused", met.damaged_refused),
        ("damaged and taken", met.damaged_taken),
        ("too early", met.too_early),
        ("duplicates", met.duplicates),
        ("out of order", met.out_of_order),
        ("first above time 0", met.first_above_0),
        ("first at time 0", met.first_at_0),
        ("duplicates at another time", met.duplicates_at_another_time),
    ];
    let missing: Vec<&str> = counts
        .iter()
        .filter(|(_, count)| *count == 0)
        .map(|(name, _)| *name)
        .collect();
    part.case(&[], missing, vec![]);
    let counts = counts.map(|(name, count)| format!("{name}: {}", grouped(count)));
    part.note(counts.join(", "));
    part
}

/// The sequence, send time and bytes of each packet of a random plan, by our generator; none if it
/// refuses.
fn any_packets(random: &mut Random, most: usize) -> Option<Vec<(u64, u64, Vec<u8>)>> {
    let (first, count, rate) = any_plan(random);
    let count = if most == MOST_ROWS {
        MOST_ROWS as u64
    } else {
        count % (most as u64 + 1)
    };
    let mut out = vec![0; 72 * MOST_ROWS];
    let mut engine = ours_traffic::Engine::with_first_sequence(first.sequence);
    let written = engine.generate(&Values::from(first), count, rate, &mut out);
    let size = written.bytes / count.max(1) as usize;
    (written.number == 0).then(|| {
        let interval = 1_000_000_000 / rate;
        (0..count)
            .map(|index| {
                let at = index as usize * size;
                let tpdu = out[at..at + size].to_vec();
                let send_timestamp_ns = first.send_timestamp_ns + index * interval;
                (first.sequence + index, send_timestamp_ns, tpdu)
            })
            .collect()
    })
}

/// One list of returns of these packets.
fn list(part: &mut Part, random: &mut Random, met: &mut Met, packets: &[(u64, u64, Vec<u8>)]) {
    let mut tally = Tally::new(packets.iter().map(|packet| (packet.0, packet.1)));
    let mut sheet = entered(part, random, packets);
    let mut second = entered(part, random, packets);
    let returns: Vec<Return> = match packets.len() {
        0 => vec![],
        length => (0..random.below(2 * length + 4))
            .filter_map(|step| any_return(random, met, packets, step))
            .collect(),
    };
    for each in &returns {
        let before = sheet.clone();
        let marked_at = tally.marked_at(each.packet);
        let Noted { number, tunnel, .. } = each.on(&mut sheet);
        tally.take(each.packet, each.time, is_refused(part, &each.arrived));
        let answer = (tunnel, difference(&sheet, &tally.on(&before)));
        part.case(&each.arrived, answer, (Tunnel::default(), None));
        met.add(each, number, marked_at);
        if number == 0 || !each.damaged {
            let noted = each.mended().on(&mut second);
            part.case(&each.whole, noted.tunnel, Tunnel::default());
        }
    }
    met.lists += 1;
    met.duplicates += tally.sheet.duplicates;
    met.out_of_order += tally.sheet.out_of_order;

    part.case(&[], difference(&second, &tally.on(&second)), None);
    for question in questions(random, &tally.sheet, |question| tally.report(question)) {
        let (start, end, budget) = question;
        let due = tally.report(question);
        part.case(&[], sheet.report(start, end, budget), due);
        part.case(&[], second.report(start, end, budget), due);
    }
}

/// Whether the reader has to refuse these bytes, whether they are compared or not.
fn is_refused(part: &mut Part, arrived: &[u8]) -> bool {
    due(part, arrived, decode).is_err()
}

/// A fresh sheet of ours with all packets entered as sent, none refused.
fn entered(part: &mut Part, random: &mut Random, packets: &[(u64, u64, Vec<u8>)]) -> RunSheet {
    let room = (packets.len() + random.length(8)).min(MOST_ROWS);
    let mut sheet = fresh(random, room);
    for (sequence, send_timestamp_ns, tpdu) in packets {
        let noted = sheet.record_sent(*sequence, *send_timestamp_ns);
        part.case(tpdu, noted.number, 0);
    }
    sheet
}

/// A packet, echoed up to 3 times, each leg damaged or not; none if an echo refused.
fn any_return(
    random: &mut Random,
    met: &mut Met,
    packets: &[(u64, u64, Vec<u8>)],
    step: usize,
) -> Option<Return> {
    let packet = match random.below(4) {
        0 => random.below(packets.len()),
        _ => step % packets.len(),
    };
    let (_, send_timestamp_ns, tpdu) = &packets[packet];
    let (mut arrived, mut whole) = (tpdu.clone(), tpdu.clone());
    let mut damaged = false;
    for leg in 0..=random.below(4) {
        if leg > 0 {
            whole = echoed(&whole).expect("an undamaged T-PDU is echoed");
            let Some(answer) = echoed(&arrived) else {
                met.echo_refused += 1;
                return None;
            };
            arrived = answer;
        }
        if random.below(4) == 0 {
            damaged |= damage(random, &mut arrived);
        }
    }
    let time = match random.below(8) {
        0 => random.number(),
        1 => send_timestamp_ns.saturating_sub(1),
        2 => [0, u64::MAX][random.below(2)],
        _ => send_timestamp_ns.saturating_add(random.length(1 << 20) as u64),
    };
    Some(Return {
        packet,
        time,
        arrived,
        whole,
        damaged,
        as_message: random.below(2) == 0,
    })
}

/// Our echo of a T-PDU, unless it refuses.
fn echoed(tpdu: &[u8]) -> Option<Vec<u8>> {
    let mut out = vec![0; 72];
    let written = ours::echo(tpdu, &mut out);
    out.truncate(written.bytes);
    (written.number == 0).then_some(out)
}

/// Turns some of 16 neighbouring bits: any, or those that make the UDP checksum 0, which in IPv4
/// is then not verified. None if it were 16 equal bits, all turned.
fn damage(random: &mut Random, tpdu: &mut [u8]) -> bool {
    let (start, mask) = match random.below(4) {
        0 => {
            let at = part_at(tpdu) + 6;
            (8 * at, word(tpdu, at))
        }
        _ => {
            let starts = window_starts(0, tpdu.len());
            let mask = 1 + random.below(0xffff) as u16;
            (random.below(starts.end() + 1), mask)
        }
    };
    let turned = mask != 0 && !excluded(tpdu, start, mask);
    if turned {
        turn(tpdu, start, mask);
    }
    turned
}
