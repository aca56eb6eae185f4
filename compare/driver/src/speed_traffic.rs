//! How long the generator, the forecast, the run sheet, the report and the element walk take, ours and
//! the unchanged Rust's, for the table of `speed`.
//!
//! Both sides do the same work in the same process and take turns, each round in the other order.
//! A time is the median of the rounds. The Rust allocates what it makes, and that is timed; ours
//! writes into columns and a buffer that are made beforehand.

use std::hint::black_box;
use std::time::Instant;

use opc_dataplane_testkit::evidence::{PacketContinuityBudget, PacketContinuityReport};
use opc_dataplane_testkit::gtpu::validate_error_indication_ies;
use opc_dataplane_testkit::measurement::InnerIpFlow;
use opc_dataplane_testkit::traffic::{
    ContinuityObserver, GeneratedPacket, TrafficEngine, TrafficPlan,
};
use opc_proto_gtpu::to_datagram;

use crate::cases::ipv4_probe;
use crate::ours::Values;
use crate::ours_traffic::{validate_elements_into, Counts, Engine, RunSheet};
use crate::part::grouped;
use crate::sheets::MOST_ROWS;

pub const ROUNDS: usize = 201;

/// How often a call is made in a round that is too short to be timed alone.
const REPEATS: usize = 4_096;

/// What is timed, and the nanoseconds that ours and the Rust's take for it.
pub type Timing = (String, f64, f64);

/// The rows of the sheets that are timed.
const ROWS: [usize; 3] = [16, 256, MOST_ROWS];

pub fn speed() -> Vec<Timing> {
    let mut timings: Vec<Timing> = ROWS.map(pairs).into();
    timings.extend(ROWS.map(whole_run));
    timings.extend(ROWS.map(report));
    timings.extend([walk(), indication(), duplicate(), generator(), forecast()]);
    timings
}

/// How often what goes over so many rows is done in a round: as many rows in all as 2,048 done once.
fn repeats(rows: usize) -> usize {
    MOST_ROWS / rows
}

/// A fresh sheet takes `rows` pairs of a sending and its return: the time of a pair.
fn pairs(rows: usize) -> Timing {
    let packets = packets(rows);
    let mut sheet = sheet(rows);
    let (ours, rust) = take_turns(
        || {
            sheet.counts = Counts::default();
            for packet in &packets {
                let sent_at = packet.send_timestamp_ns;
                black_box(sheet.record_sent(packet.sequence, sent_at));
                black_box(sheet.record_received_tpdu(sent_at + 7, &packet.tpdu));
            }
        },
        || {
            let mut observer = ContinuityObserver::default();
            for packet in &packets {
                observer.record_sent(packet);
                let returned_at = packet.send_timestamp_ns + 7;
                black_box(observer.record_received_tpdu(returned_at, &packet.tpdu)).unwrap();
            }
            observer
        },
    );
    let name = format!("sending and its return, in a run of {rows}");
    (name, ours / rows as f64, rust / rows as f64)
}

/// A whole run of `rows` packets: all are entered, all return, and the report is made. Ours enters the plan
/// in one call and takes the list of returns in another.
fn whole_run(rows: usize) -> Timing {
    let packets = packets(rows);
    let mut sheet = sheet(rows);
    let times: Vec<u64> = packets.iter().map(returned_at).collect();
    let lengths: Vec<usize> = packets.iter().map(|packet| packet.tpdu.len()).collect();
    let tpdus: Vec<&[u8]> = packets.iter().map(|packet| &packet.tpdu[..]).collect();
    let tpdus = tpdus.concat();
    let (mut returned, mut numbers) = (vec![0; rows], vec![0; rows]);
    let rate = 1_000_000_000 / packets[1].send_timestamp_ns;
    let budget = testkit_open::evidence::PacketContinuityBudget::zero_loss();
    let (ours, rust) = take_turns_repeatedly(
        repeats(rows),
        || {
            sheet.counts = Counts::default();
            let entered = sheet.record_sent_plan(rows as u64, rate, 0, 1);
            let taken =
                sheet.record_received_tpdus(&times, &lengths, &tpdus, &mut returned, &mut numbers);
            let report = sheet.report(0, black_box(9_000), budget);
            assert!(report.received_packets == rows as u64 && report.lost_packets == 0);
            (entered, taken, report)
        },
        || whole_run_on_the_rust(&packets),
    );
    let count = grouped(rows as u64);
    let name = format!("a whole run of {count}: enter, return all, report");
    (name, ours, rust)
}

fn returned_at(packet: &GeneratedPacket) -> u64 {
    packet.send_timestamp_ns + 7
}

fn whole_run_on_the_rust(
    packets: &[GeneratedPacket],
) -> (ContinuityObserver, PacketContinuityReport) {
    let mut observer = ContinuityObserver::default();
    for packet in packets {
        observer.record_sent(packet);
    }
    for packet in packets {
        let taken = observer.record_received_tpdu(returned_at(packet), &packet.tpdu);
        black_box(taken).expect("a packet that was sent returns");
    }
    let budget = PacketContinuityBudget::zero_loss();
    let report = observer.report("", 0, black_box(9_000), budget);
    (observer, report)
}

/// The report of `rows` rows, every third of them lost.
fn report(rows: usize) -> Timing {
    let mut sheet = sheet(rows);
    let mut observer = ContinuityObserver::default();
    for (index, packet) in packets(rows).iter().enumerate() {
        let sent_at = packet.send_timestamp_ns;
        sheet.record_sent(packet.sequence, sent_at);
        observer.record_sent(packet);
        if index % 3 > 0 {
            sheet.record_received_tpdu(sent_at + 7, &packet.tpdu);
            observer
                .record_received_tpdu(sent_at + 7, &packet.tpdu)
                .expect("a packet that was sent returns");
        }
    }
    let budget = PacketContinuityBudget::zero_loss();
    let our_budget = testkit_open::evidence::PacketContinuityBudget::zero_loss();
    let (ours, rust) = take_turns_repeatedly(
        repeats(rows),
        || sheet.report(0, black_box(9_000), our_budget),
        || observer.report("", 0, black_box(9_000), budget),
    );
    let name = format!("report of {} rows", grouped(rows as u64));
    (name, ours, rust)
}

/// The 12 bytes of an Error Indication.
const ELEMENTS: [u8; 12] = [16, 0, 0, 0, 9, 133, 0, 4, 10, 0, 0, 9];

/// The walk over these. Ours gives the tunnel, too, the address in an array that is made beforehand.
fn walk() -> Timing {
    let mut address = [0; 16];
    let (ours, rust) = take_turns(
        || {
            for _ in 0..REPEATS {
                let address = black_box(&mut address);
                black_box(validate_elements_into(black_box(&ELEMENTS), address));
            }
        },
        || {
            for _ in 0..REPEATS {
                black_box(validate_error_indication_ies(black_box(&ELEMENTS))).unwrap();
            }
        },
    );
    let repeats = REPEATS as f64;
    let name = "element walk of 12 bytes".to_string();
    (name, ours / repeats, rust / repeats)
}

/// Messages of type 26 with these elements, on a sheet of 16 rows.
fn indication() -> Timing {
    let (sheet, report, times) = messages(26, &ELEMENTS);
    let taken = (ROUNDS * REPEATS) as u64;
    assert_eq!(sheet.counts.gtpu_error_indications, taken, "all of ours");
    assert_eq!(report.gtpu_error_indications, taken, "all of the Rust's");
    (
        "message of type 26, on a sheet of 16 rows".to_string(),
        times.0,
        times.1,
    )
}

/// Messages of type 255 with the packet of a row, on a sheet of 16 rows: all but the first of them are
/// duplicates, so that neither side needs a new sheet for each.
fn duplicate() -> Timing {
    let (sheet, report, times) = messages(255, &packets(MESSAGE_ROWS)[MESSAGE_ROWS / 2].tpdu);
    let taken = (ROUNDS * REPEATS) as u64 - 1;
    assert_eq!(sheet.counts.duplicate_packets, taken, "all of ours");
    assert_eq!(report.duplicate_packets, taken, "all of the Rust's");
    (
        "message of type 255, a duplicate, on a sheet of 16 rows".to_string(),
        times.0,
        times.1,
    )
}

/// The rows of the sheet that takes messages.
const MESSAGE_ROWS: usize = 16;

/// The time of a message on a sheet whose rows were sent, and what both sides hold afterwards. Our answer
/// stays where the call writes it; the Rust's time has the stand-in codec's reading of the message in it.
fn messages(message_type: u8, payload: &[u8]) -> (RunSheet, PacketContinuityReport, (f64, f64)) {
    let mut sheet = sheet(MESSAGE_ROWS);
    let mut observer = ContinuityObserver::default();
    let packets = packets(MESSAGE_ROWS);
    for packet in &packets {
        sheet.record_sent(packet.sequence, packet.send_timestamp_ns);
        observer.record_sent(packet);
    }
    let time = packets.last().map_or(0, |packet| packet.send_timestamp_ns) + 7;
    let datagram = to_datagram(message_type, 0, None, payload).expect("a short payload");
    let (ours, rust) = take_turns(
        || {
            for _ in 0..REPEATS {
                let answer = sheet.record_return_gtpu_datagram_as_c(time, message_type, payload);
                black_box(&answer);
            }
        },
        || {
            for _ in 0..REPEATS {
                let datagram = black_box(&datagram);
                black_box(observer.record_return_gtpu_datagram(time, datagram)).unwrap();
            }
        },
    );
    let budget = PacketContinuityBudget::zero_loss();
    let report = observer.report("", 0, time, budget);
    let repeats = REPEATS as f64;
    (sheet, report, (ours / repeats, rust / repeats))
}

/// A plan of 2,048 IPv4 packets.
fn generator() -> Timing {
    let first = Values::from(ipv4_probe(0));
    let mut out = vec![0; 52 * MOST_ROWS];
    let (ours, rust) = take_turns(
        || {
            let mut engine = Engine::with_first_sequence(1);
            engine.generate(black_box(&first), MOST_ROWS as u64, 1_000, &mut out)
        },
        || packets(black_box(MOST_ROWS)),
    );
    ("generate, 2,048 IPv4 packets".to_string(), ours, rust)
}

/// How big a plan of 2,048 IPv4 packets will be. The Rust can tell only by generating it.
fn forecast() -> Timing {
    let first = Values::from(ipv4_probe(0));
    let engine = Engine::with_first_sequence(1);
    let (ours, rust) = take_turns(
        || {
            for _ in 0..REPEATS {
                black_box(engine.forecast(black_box(&first), MOST_ROWS as u64, 1_000));
            }
        },
        || {
            let packets = packets(black_box(MOST_ROWS));
            let bytes: usize = packets.iter().map(|packet| packet.tpdu.len()).sum();
            let last = packets
                .last()
                .map(|packet| (packet.sequence, packet.send_timestamp_ns));
            (bytes, last)
        },
    );
    let name = "forecast, 2,048 IPv4 packets".to_string();
    (name, ours / REPEATS as f64, rust)
}

/// IPv4 packets, one each millisecond.
fn packets(count: usize) -> Vec<GeneratedPacket> {
    let flow = InnerIpFlow::Ipv4 {
        src: [10, 0, 0, 1].into(),
        dst: [10, 0, 0, 2].into(),
        src_port: 1000,
        dst_port: 2000,
    };
    let plan = TrafficPlan {
        packet_count: count as u64,
        target_rate_pps: 1_000,
        first_send_timestamp_ns: 0,
    };
    TrafficEngine::with_first_sequence(1)
        .generate(flow, plan)
        .expect("a plan that is in order")
}

fn sheet(rows: usize) -> RunSheet {
    RunSheet::fresh([rows; RunSheet::COLUMNS], || 0)
}

/// The medians of both, in nanoseconds, each done so often in a round: what is done once is too short to be
/// timed alone.
fn take_turns_repeatedly<A, B>(
    repeats: usize,
    mut ours: impl FnMut() -> A,
    mut rust: impl FnMut() -> B,
) -> (f64, f64) {
    let (ours, rust) = take_turns(
        || {
            for _ in 0..repeats {
                black_box(ours());
            }
        },
        || {
            for _ in 0..repeats {
                black_box(rust());
            }
        },
    );
    (ours / repeats as f64, rust / repeats as f64)
}

/// The medians of both, in nanoseconds.
pub(crate) fn take_turns<A, B>(
    mut ours: impl FnMut() -> A,
    mut rust: impl FnMut() -> B,
) -> (f64, f64) {
    let (mut our_times, mut rust_times) = (Vec::new(), Vec::new());
    for round in 0..ROUNDS {
        if round % 2 == 0 {
            our_times.push(nanoseconds(&mut ours));
            rust_times.push(nanoseconds(&mut rust));
        } else {
            rust_times.push(nanoseconds(&mut rust));
            our_times.push(nanoseconds(&mut ours));
        }
    }
    (median(our_times), median(rust_times))
}

fn nanoseconds<T>(call: &mut impl FnMut() -> T) -> f64 {
    let start = Instant::now();
    black_box(call());
    start.elapsed().as_nanos() as f64
}

fn median(mut times: Vec<f64>) -> f64 {
    times.sort_by(f64::total_cmp);
    times[times.len() / 2]
}
