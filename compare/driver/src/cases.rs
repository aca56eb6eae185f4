//! The eight worked cases of document 01 ("Proved cases"), held against the Rust. Our side of
//! them is a theorem, not a run.

use std::net::{Ipv4Addr, Ipv6Addr};

use testkit_open::evidence::PacketContinuityBudget;
use testkit_open::traffic::TrafficPlan;

use crate::numbers::{MISSING_TEID_DATA_I, TARGET_RATE_EXCEEDS_RESOLUTION};
use crate::packet::{self, IPV4_HEADER_CHECKSUM_AT, IPV4_UDP_CHECKSUM_AT, IPV6_UDP_CHECKSUM_AT};
use crate::part::{Part, Word};
use crate::rust_side::gtpu::validate_error_indication_ies;
use crate::rust_side::measurement::{build, decode, echo, Flow, Probe};
use crate::rust_side::traffic::{generate, interval, Observer};

/// Window ends for the cases that hold at every one.
const WINDOW_ENDS: [u64; 7] = [0, 10, 15, 40, 41, 100, u64::MAX];

pub fn worked_cases() -> Part {
    let mut part = Part::new("cases");

    // 1. Header and UDP checksum.
    let tpdu = build(ipv4_probe(0));
    let checksums = [IPV4_HEADER_CHECKSUM_AT, IPV4_UDP_CHECKSUM_AT].map(|at| word(&tpdu, at));
    part.case(&tpdu, checksums, [Word(0x66b7), Word(0xb1d8)]);

    // 2. A UDP checksum of 0 is written 0xffff.
    let tpdu = build(ipv4_probe(45_528));
    part.case(&tpdu, word(&tpdu, IPV4_UDP_CHECKSUM_AT), Word(0xffff));

    // 3. IPv6; the echo goes back with the same checksum, sequence and time.
    let probe = ipv6_probe();
    let echoed_probe = Probe {
        flow: probe.flow.reversed(),
        ..probe
    };
    let tpdu = build(probe);
    let echoed = echo(&tpdu).expect("a built T-PDU is echoed");
    let checksums = [&tpdu, &echoed].map(|tpdu| word(tpdu, IPV6_UDP_CHECKSUM_AT));
    let expected = ([Word(0xc5d8), Word(0xc5d8)], Ok(echoed_probe));
    part.case(&tpdu, (checksums, decode(&echoed)), expected);

    // 4. Intervals, one of them refused.
    let intervals = [1_000_000_000, 1_000_000_001, 3].map(interval);
    part.case(
        &[],
        intervals,
        [Ok(1), Err(TARGET_RATE_EXCEEDS_RESOLUTION), Ok(333_333_333)],
    );

    // 5. The last packet has returned, so the window's end does not count.
    let observer = five_sent(&[2, 5]);
    let longest = WINDOW_ENDS.map(|end| longest_run(&observer, end));
    part.case(&[], longest, [(2, 20); WINDOW_ENDS.len()]);

    // 6. The longest count and the longest duration may be of different runs.
    let observer = five_sent(&[2]);
    let longest = [100, 15].map(|end| longest_run(&observer, end));
    part.case(&[], longest, [(3, 80), (3, 10)]);

    // 7. Continuity, forwarding and latency of a fresh sheet.
    let verdicts = WINDOW_ENDS.map(|end| {
        let report = Observer::default().report(0, end, PacketContinuityBudget::zero_loss());
        let continuity = report.packet_continuity_proven;
        (continuity, report.forwarding_proven, report.latency)
    });
    part.case(&[], verdicts, [(true, false, None); WINDOW_ENDS.len()]);

    // 8. No element at all.
    let empty = validate_error_indication_ies(&[]);
    part.case(&[], empty, Err(MISSING_TEID_DATA_I));

    part
}

/// 10.0.0.1:1000 to 10.0.0.2:2000, sequence 1.
pub fn ipv4_probe(send_timestamp_ns: u64) -> Probe {
    let source = (Ipv4Addr::new(10, 0, 0, 1), 1000);
    let destination = (Ipv4Addr::new(10, 0, 0, 2), 2000);
    Probe {
        flow: Flow::new(source, destination),
        sequence: 1,
        send_timestamp_ns,
    }
}

/// ::1 port 1000 to ::2 port 2000, sequence 1, time 0.
pub fn ipv6_probe() -> Probe {
    let source = (Ipv6Addr::from_bits(1), 1000);
    let destination = (Ipv6Addr::from_bits(2), 2000);
    Probe {
        flow: Flow::new(source, destination),
        sequence: 1,
        send_timestamp_ns: 0,
    }
}

/// Sequences 1 to 5 sent at 0, 10, 20, 30 and 40; the echoes of those named come back.
fn five_sent(returned: &[u64]) -> Observer {
    let plan = TrafficPlan {
        packet_count: 5,
        target_rate_pps: 100_000_000,
        first_send_timestamp_ns: 0,
    };
    let (packets, _) = generate(ipv4_probe(0).flow, plan, 1);
    let packets = packets.expect("a plan that is in order");
    let mut observer = Observer::default();
    for packet in &packets {
        observer.record_sent(packet.sequence, packet.send_timestamp_ns);
    }
    for packet in packets
        .iter()
        .filter(|packet| returned.contains(&packet.sequence))
    {
        let echoed = echo(&packet.tpdu).expect("a built T-PDU is echoed");
        observer
            .record_received_tpdu(packet.send_timestamp_ns + 7, &echoed)
            .expect("it was sent, and before it returned");
    }
    observer
}

/// The longest run of lost packets, and the longest duration of one.
fn longest_run(observer: &Observer, window_end: u64) -> (u64, u64) {
    let report = observer.report(0, window_end, PacketContinuityBudget::zero_loss());
    (
        report.max_consecutive_lost_packets,
        report.max_gap_duration_ns,
    )
}

fn word(tpdu: &[u8], at: usize) -> Word {
    Word(packet::word(tpdu, at))
}
