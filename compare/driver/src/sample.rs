//! A sample of the Rust's answers, as the records that `crates/replay` reads: its README says what
//! is in them. A refusal is told by the number that is due of ours (`told_apart`), and the arrival times of
//! a run sheet, which the Rust does not have, are the model's (`arrivals.rs`). Nothing here, or in
//! `sample_reflector.rs`, calls our library.

use std::collections::{BTreeMap, BTreeSet};

use testkit_open::traffic::TrafficPlan;

use crate::arrivals::Arrivals;
use crate::compared::{compared, told_apart, NEVER_COMPARED};
use crate::gtpu::any_elements;
use crate::numbers::in_the_rust;
use crate::observer::{any_call, any_contents, Call};
use crate::ours::{Values, DIRTY_ADDRESS};
use crate::ours_traffic::{Counts, Noted, Report, RunSheet};
use crate::random::Random;
use crate::records::{word, Drawn, DIRT, MOST_BYTES, ROWS};
use crate::rust_side::gtpu::validate_error_indication_ies;
use crate::rust_side::measurement::{build, checksum, decode, echo, Probe};
use crate::rust_side::traffic::{generate, Observer, Sheet};
use crate::sample_reflector::{draw_handle, draw_register, draw_remove};
use crate::sheets::{capacity, dirty, holding, questions};
use crate::wild::{any_packet, any_probe};

/// The kinds of records.
const CHECKSUM: u8 = 0;
const BUILD: u8 = 1;
const DECODE: u8 = 2;
const ECHO: u8 = 3;
const GENERATE: u8 = 4;
const ELEMENTS: u8 = 5;
const RECORD_SENT: u8 = 6;
const RECORD_RECEIVED_TPDU: u8 = 7;
const RECORD_RETURN_GTPU_DATAGRAM: u8 = 8;
const REPORT: u8 = 9;
const REGISTER_SESSION: u8 = 10;
const REMOVE_SESSION: u8 = 11;
const HANDLE_DATAGRAM: u8 = 12;

/// How many inputs are drawn, at most, to find what a kind of record is to have.
const DRAWS: usize = 100_000;

/// The records so far, and how many there are of each kind and outcome.
#[derive(Default)]
pub struct Sample {
    seed: u64,
    /// The first kind that is drawn.
    first: u8,
    pub bytes: Vec<u8>,
    seen: BTreeMap<(u8, u8, u8), usize>,
}

/// The sample from this kind of record on; from 0 on, all of it. It is the same for the same seed.
///
/// # Panics
///
/// If a number for a cause at which the Rust refuses is not among the answers of all of it, but for those
/// that no compared T-PDU has.
pub fn sample(seed: u64, first: u8) -> Sample {
    let mut sample = Sample {
        seed,
        first,
        ..Sample::default()
    };
    sample.draw(CHECKSUM, 0, 100, draw_checksum);
    sample.draw(BUILD, 0, 100, draw_build);
    sample.draw(DECODE, 20, 100, draw_decode);
    sample.draw(ECHO, 10, 60, draw_echo);
    sample.draw(GENERATE, 15, 60, draw_generate);
    sample.draw(ELEMENTS, 40, 60, draw_elements);
    sample.draw(RECORD_SENT, 0, 120, |random| draw_call(random, RECORD_SENT));
    sample.draw(RECORD_RECEIVED_TPDU, 8, 90, |random| {
        draw_call(random, RECORD_RECEIVED_TPDU)
    });
    sample.draw(RECORD_RETURN_GTPU_DATAGRAM, 6, 30, |random| {
        draw_call(random, RECORD_RETURN_GTPU_DATAGRAM)
    });
    sample.draw(REPORT, 0, 50, draw_report);
    sample.draw(REGISTER_SESSION, 3, 3, draw_register);
    sample.draw(REMOVE_SESSION, 10, 10, draw_remove);
    sample.draw(HANDLE_DATAGRAM, 4, 6, draw_handle);
    if first == 0 {
        let mut due = in_the_rust();
        due.retain(|number| !NEVER_COMPARED.contains(number));
        due.insert(0);
        let numbers: BTreeSet<u8> = sample.seen.keys().map(|&(_, number, _)| number).collect();
        assert_eq!(numbers, due, "the numbers of the sample");
    }
    sample
}

impl Sample {
    /// Draws inputs, and keeps as many of each refusal and of each other outcome as are asked for.
    /// Each kind is drawn from a seed of its own, so that none depends on how another is drawn.
    fn draw(
        &mut self,
        kind: u8,
        refusals: usize,
        others: usize,
        mut draw: impl FnMut(&mut Random) -> Option<Drawn>,
    ) {
        if kind < self.first {
            return;
        }
        let random = &mut Random::new(self.seed.wrapping_add(u64::from(kind)));
        for (number, variety, rest) in (0..DRAWS).filter_map(|_| draw(random)) {
            let asked = if number == 0 { others } else { refusals };
            let seen = self.seen.entry((kind, number, variety)).or_insert(0);
            if *seen == asked {
                continue;
            }
            *seen += 1;
            let length = u16::try_from(rest.len()).expect("a record's length has two bytes");
            self.bytes.push(kind);
            self.bytes.extend(length.to_be_bytes());
            self.bytes.push(number);
            self.bytes.extend(rest);
        }
    }

    /// How many records there are.
    pub fn records(&self) -> usize {
        self.seen.values().sum()
    }
}

/// Version, addresses and ports: 37 bytes.
fn flow_bytes(values: &Values) -> Vec<u8> {
    let mut bytes = vec![values.version];
    bytes.extend(values.src);
    bytes.extend(values.dst);
    bytes.extend(values.src_port.to_be_bytes());
    bytes.extend(values.dst_port.to_be_bytes());
    bytes
}

/// A flow, a sequence and a time: 53 bytes.
fn probe_bytes(values: &Values) -> Vec<u8> {
    let mut bytes = flow_bytes(values);
    bytes.extend(values.sequence.to_be_bytes());
    bytes.extend(values.send_timestamp_ns.to_be_bytes());
    bytes
}

/// The output after a call that writes these bytes: what lies past them is as it was.
fn output(random: &mut Random, written: &[u8]) -> Vec<u8> {
    let mut out = written.to_vec();
    out.resize(written.len() + random.length(8), DIRT);
    out
}

fn draw_checksum(random: &mut Random) -> Option<Drawn> {
    let length = random.length(40);
    let bytes = random.bytes(length);
    let mut rest = checksum(&[&bytes]).to_be_bytes().to_vec();
    rest.extend(bytes);
    Some((0, 0, rest))
}

/// The probe with bytes that do not count in its IPv4 addresses.
fn spoiled(random: &mut Random, probe: Probe) -> Values {
    let mut values = Values::from(probe);
    if values.version == 4 {
        values.src[4..].copy_from_slice(&random.bytes(12));
        values.dst[4..].copy_from_slice(&random.bytes(12));
    }
    values
}

fn draw_build(random: &mut Random) -> Option<Drawn> {
    let probe = any_probe(random);
    let values = spoiled(random, probe);
    let tpdu = build(probe);
    let mut rest = probe_bytes(&values);
    rest.extend(word(tpdu.len()));
    rest.extend(output(random, &tpdu));
    Some((0, values.version, rest))
}

/// A short packet that is compared, often cut.
fn short_packet(random: &mut Random) -> Option<Vec<u8>> {
    let mut packet = any_packet(random);
    if random.below(4) == 0 {
        packet.truncate(random.below(packet.len() + 1));
    }
    (packet.len() <= MOST_BYTES && compared(&packet)).then_some(packet)
}

fn draw_decode(random: &mut Random) -> Option<Drawn> {
    let packet = short_packet(random)?;
    let (number, values) = match decode(&packet) {
        Ok(probe) => (0, Values::from(probe)),
        Err(number) => (told_apart(&packet, number), no_values()),
    };
    let mut rest = probe_bytes(&values);
    rest.extend(packet);
    Some((number, values.version, rest))
}

/// What stands beside a refusal: version 4, the addresses as they were lent, and zeros.
fn no_values() -> Values {
    Values {
        version: 4,
        src: DIRTY_ADDRESS,
        dst: DIRTY_ADDRESS,
        src_port: 0,
        dst_port: 0,
        sequence: 0,
        send_timestamp_ns: 0,
    }
}

fn draw_echo(random: &mut Random) -> Option<Drawn> {
    let packet = short_packet(random)?;
    let (number, written) = match echo(&packet) {
        Ok(written) => (0, written),
        Err(number) => (told_apart(&packet, number), vec![]),
    };
    let out = output(random, &written);
    let mut rest = word(written.len()).to_vec();
    rest.extend(word(out.len()));
    rest.extend(out);
    rest.extend(packet);
    Some((number, written.len() as u8, rest))
}

fn draw_generate(random: &mut Random) -> Option<Drawn> {
    let mut probe = any_probe(random);
    let rates = [0, 1, 3, 1_000_000_000, 1_000_000_001, u64::MAX];
    let plan = TrafficPlan {
        packet_count: random.below(7) as u64,
        target_rate_pps: match random.below(3) {
            0 => rates[random.below(rates.len())],
            _ => 1 + random.length(999_999_999) as u64,
        },
        first_send_timestamp_ns: match random.below(3) {
            0 => u64::MAX - random.length(1 << 32) as u64,
            _ => probe.send_timestamp_ns,
        },
    };
    if random.below(3) == 0 {
        probe.sequence = u64::MAX - random.below(7) as u64;
    }
    let (packets, next_sequence) = generate(probe.flow, plan, probe.sequence);
    let (number, written) = match packets {
        Ok(packets) => (0, packets.into_iter().flat_map(|p| p.tpdu).collect()),
        Err(number) => (number, vec![]),
    };
    let mut rest = flow_bytes(&spoiled(random, probe));
    rest.extend(plan.packet_count.to_be_bytes());
    rest.extend(plan.target_rate_pps.to_be_bytes());
    rest.extend(plan.first_send_timestamp_ns.to_be_bytes());
    rest.extend(probe.sequence.to_be_bytes());
    rest.extend(next_sequence.to_be_bytes());
    rest.extend(word(written.len()));
    rest.extend(output(random, &written));
    Some((number, 0, rest))
}

fn draw_elements(random: &mut Random) -> Option<Drawn> {
    let length = random.length(60);
    let list = any_elements(random, length);
    let number = validate_error_indication_ies(&list).err().unwrap_or(0);
    (list.len() <= MOST_BYTES).then_some((number, 0, list))
}

/// A sheet that holds these contents and times in columns of `ROWS` cells, and how much of each is lent.
fn any_sheet(
    random: &mut Random,
    contents: &Sheet,
    arrivals: &Arrivals,
) -> (RunSheet, [u8; RunSheet::COLUMNS]) {
    let dirty = dirty(random, [ROWS; RunSheet::COLUMNS]);
    let used = contents.rows.len();
    let lent = [0; RunSheet::COLUMNS].map(|_| (used + random.below(ROWS - used + 1)) as u8);
    (holding(&dirty, contents, &arrivals.column(contents)), lent)
}

fn counts_bytes(counts: &Counts) -> Vec<u8> {
    let mut bytes = vec![counts.used as u8];
    bytes.extend(counts.duplicate_packets.to_be_bytes());
    bytes.extend(counts.out_of_order_packets.to_be_bytes());
    bytes.extend(counts.gtpu_error_indications.to_be_bytes());
    bytes
}

/// Counts and columns: 223 bytes.
fn sheet_bytes(sheet: &RunSheet) -> Vec<u8> {
    fn numbers(column: &[u64]) -> impl Iterator<Item = u8> + '_ {
        column.iter().flat_map(|cell| cell.to_be_bytes())
    }
    let mut bytes = counts_bytes(&sheet.counts);
    bytes.extend(numbers(&sheet.sequences));
    bytes.extend(numbers(&sheet.send_timestamps));
    bytes.extend(numbers(&sheet.latencies));
    bytes.extend(&sheet.marks);
    bytes.extend(numbers(&sheet.arrival_timestamps));
    bytes
}

/// The kind of a call's record, its two numbers and its payload.
fn call_parts(call: &Call) -> (u8, [u64; 2], &[u8]) {
    match call {
        Call::Sent {
            sequence,
            send_timestamp_ns,
        } => (RECORD_SENT, [*sequence, *send_timestamp_ns], &[]),
        Call::Tpdu { time, tpdu } => (RECORD_RECEIVED_TPDU, [*time, 0], tpdu),
        Call::Message {
            time,
            message_type,
            payload,
        } => {
            let message_type = u64::from(*message_type) << 56;
            (RECORD_RETURN_GTPU_DATAGRAM, [*time, message_type], payload)
        }
    }
}

/// A call of this kind on a sheet in any state; none where the sheet would be full.
fn draw_call(random: &mut Random, kind: u8) -> Option<Drawn> {
    let used = random.below(ROWS + 1);
    let contents = any_contents(random, used);
    let mut arrivals = Arrivals::any(random, &contents);
    let (sheet, lent) = any_sheet(random, &contents, &arrivals);
    let base = contents.rows.first().map_or(0, |row| row.sequence);
    let call = any_call(random, &contents.rows, base, ROWS);
    let (call_kind, numbers, payload) = call_parts(&call);
    let is_compared = call.tpdu().is_none_or(compared);
    if call_kind != kind || payload.len() > MOST_BYTES || !is_compared {
        return None;
    }
    let room = lent.map(usize::from).into_iter().min()?;
    let mut observer = Observer::from_sheet(&contents);
    let Noted {
        number,
        outcome,
        message_type,
        ..
    } = call.on_rust(&mut observer);
    arrivals.follow(&call, number);
    let contents = observer.sheet();
    if contents.rows.len() > room.min(capacity(&sheet)) {
        return None;
    }
    let due = holding(&sheet, &contents, &arrivals.column(&contents));
    let mut rest = lent.to_vec();
    rest.extend(sheet_bytes(&sheet));
    rest.extend(sheet_bytes(&due));
    rest.extend([outcome, message_type]);
    rest.extend(numbers.into_iter().flat_map(u64::to_be_bytes));
    rest.extend(payload);
    let number = told_apart(call.tpdu().unwrap_or(&[]), number);
    Some((number, outcome, rest))
}

fn report_bytes(report: &Report) -> Vec<u8> {
    let numbers = [
        report.sent_packets,
        report.received_packets,
        report.lost_packets,
        report.duplicate_packets,
        report.out_of_order_packets,
        report.gtpu_error_indications,
        report.max_consecutive_lost_packets,
        report.max_gap_duration_ns,
        report.min_ns,
        report.max_ns,
        report.avg_ns,
    ];
    let flags = [
        report.has_latency,
        report.forwarding_proven,
        report.packet_continuity_proven,
    ];
    let mut bytes: Vec<u8> = numbers.into_iter().flat_map(u64::to_be_bytes).collect();
    bytes.extend(flags.map(u8::from));
    bytes
}

/// A question about a sheet in any state. The varieties are the verdicts.
fn draw_report(random: &mut Random) -> Option<Drawn> {
    let used = random.below(ROWS + 1);
    let contents = any_contents(random, used);
    let arrivals = Arrivals::any(random, &contents);
    let (sheet, lent) = any_sheet(random, &contents, &arrivals);
    let observer = Observer::from_sheet(&contents);
    let report = |(start, end, budget)| Report::from(observer.report(start, end, budget));
    let mut asked = questions(random, &contents, report);
    let question = asked.swap_remove(random.below(asked.len()));
    let (start, end, budget) = question;
    let report = report(question);
    let mut rest = lent.to_vec();
    rest.extend(sheet_bytes(&sheet));
    for number in [
        start,
        end,
        budget.max_lost_packets,
        budget.max_consecutive_lost_packets,
        budget.outage_budget_ns,
    ] {
        rest.extend(number.to_be_bytes());
    }
    rest.extend(report_bytes(&report));
    let verdicts =
        u8::from(report.forwarding_proven) * 2 + u8::from(report.packet_continuity_proven);
    Some((0, verdicts, rest))
}
