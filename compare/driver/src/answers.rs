//! Every answer that the Rust has, made to occur once: so that no number and no action can go
//! missing between it and the plain values of `rust_side`, before anything is compared with them.

use std::collections::BTreeSet;
use std::net::SocketAddr;

use testkit_open::reflector::{
    OpenReflector, ReflectorPolicy, ReflectorSendReason, ReflectorSession, RouteTarget,
};
use testkit_open::traffic::{GeneratedPacket, GtpuReturnDatagramOutcome, TrafficPlan};

use crate::cases::{ipv4_probe, ipv6_probe};
use crate::numbers::*;
use crate::part::Part;
use crate::rust_side::gtpu::{validate_error_indication_ies, Message};
use crate::rust_side::measurement::{build, decode, echo, Probe};
use crate::rust_side::reflector::{Action, Reflector};
use crate::rust_side::traffic::{generate, interval, Observer};

const G_PDU: u8 = 255;

/// A number that the Rust gave, if it refused, and the number that is due.
type Refusal = (Option<u8>, u8);

/// Each number that the Rust has, at least once, and none of those that it does not have.
pub fn refusals() -> Part {
    let mut part = Part::new("refusals");
    let mut seen = BTreeSet::new();
    let rows = [
        reading_refuses(),
        traffic_refuses(),
        walk_refuses(),
        reflector_refuses(),
    ];
    for (answer, number) in rows.concat() {
        part.case(&[], answer, Some(number));
        seen.insert(number);
    }
    part.case(&[], seen, of_the_rust());
    part
}

fn reading_refuses() -> Vec<Refusal> {
    let ipv4 = build(ipv4_probe(0));
    let ipv6 = build(ipv6_probe());
    let with = |tpdu: &[u8], bytes: &[(usize, u8)]| {
        let mut changed = tpdu.to_vec();
        for &(at, byte) in bytes {
            changed[at] = byte;
        }
        changed
    };
    let unverified = with(&ipv4, &[(26, 0), (27, 0)]); // its UDP checksum is 0
    let refused = [
        (vec![], TRUNCATED_IP_HEADER),
        (vec![0x50], UNSUPPORTED_IP_VERSION),
        (ipv4[..19].to_vec(), TRUNCATED_IPV4_HEADER),
        (ipv4[..27].to_vec(), INVALID_IPV4_IHL),
        (with(&ipv4, &[(0, 0x44)]), INVALID_IPV4_IHL),
        (with(&ipv4, &[(3, 27)]), INVALID_IPV4_TOTAL_LENGTH),
        (with(&ipv4, &[(3, 53)]), INVALID_IPV4_TOTAL_LENGTH),
        (with(&ipv4, &[(9, 6)]), PAYLOAD_IS_NOT_UDP),
        (with(&ipv6, &[(6, 6)]), PAYLOAD_IS_NOT_UDP),
        (with(&ipv4, &[(8, 63)]), INVALID_IPV4_HEADER_CHECKSUM),
        (ipv6[..47].to_vec(), TRUNCATED_IPV6_UDP_PACKET),
        (with(&ipv6, &[(5, 7)]), INVALID_IPV6_PAYLOAD_LENGTH),
        (with(&ipv6, &[(5, 33)]), INVALID_IPV6_PAYLOAD_LENGTH),
        (with(&ipv4, &[(25, 7)]), INVALID_UDP_LENGTH),
        (with(&ipv4, &[(25, 33)]), INVALID_UDP_LENGTH),
        (with(&ipv6, &[(46, 0), (47, 0)]), IPV6_UDP_CHECKSUM_IS_ZERO),
        (with(&ipv4, &[(51, 1)]), INVALID_UDP_CHECKSUM),
        (with(&ipv6, &[(71, 1)]), INVALID_UDP_CHECKSUM),
        (with(&unverified, &[(25, 31)]), TRUNCATED_MEASUREMENT_HEADER),
        (with(&unverified, &[(28, 0)]), MEASUREMENT_MAGIC_MISMATCH),
    ];
    refused
        .iter()
        .flat_map(|(tpdu, number)| [decode(tpdu).err(), echo(tpdu).err()].map(|e| (e, *number)))
        .collect()
}

fn traffic_refuses() -> Vec<Refusal> {
    let flow = ipv4_probe(0).flow;
    let tpdu = build(ipv4_probe(0));
    let mut observer = Observer::default();
    observer.record_sent(2, 10);
    let not_sent = observer.record_received_tpdu(10, &tpdu);
    observer.record_sent(1, 10);
    let too_early = observer.record_received_tpdu(9, &tpdu);
    let other_type = observer.record_return_gtpu_datagram(0, &message(1, 0, Some(1), &[]));
    vec![
        (interval(0).err(), TARGET_RATE_IS_ZERO),
        (
            interval(1_000_000_001).err(),
            TARGET_RATE_EXCEEDS_RESOLUTION,
        ),
        (
            generate(flow, plan(1, 0), u64::MAX).0.err(),
            SEQUENCE_OVERFLOW,
        ),
        (
            generate(flow, plan(2, u64::MAX), 7).0.err(),
            SEND_TIMESTAMP_OVERFLOW,
        ),
        (not_sent.err(), SEQUENCE_WAS_NOT_SENT),
        (too_early.err(), TIMESTAMP_REVERSED),
        (other_type.err(), UNSUPPORTED_MESSAGE_TYPE),
    ]
}

fn walk_refuses() -> Vec<Refusal> {
    let refused = [
        (&[16, 0, 0, 0][..], TRUNCATED_ELEMENT),
        (&[133, 0], TRUNCATED_ELEMENT),
        (&[133, 0, 4, 0, 0, 0], TRUNCATED_ELEMENT),
        (&[128, 0], TRUNCATED_ELEMENT),
        (&[128, 0, 1], TRUNCATED_ELEMENT),
        (&[133, 0, 5], INVALID_PEER_ADDRESS_LENGTH),
        (&[127], UNSUPPORTED_FIXED_LENGTH_ELEMENT),
        (&[128, 0, 0], MISSING_TEID_DATA_I),
        (&[16, 0, 0, 0, 0], MISSING_PEER_ADDRESS),
    ];
    refused
        .iter()
        .map(|(elements, number)| (validate_error_indication_ies(elements).err(), *number))
        .collect()
}

fn reflector_refuses() -> Vec<Refusal> {
    let new = |maximum| Reflector::new_multi(maximum, 0, ReflectorPolicy::Echo);
    let mut reflector = reflector(ReflectorPolicy::Echo);
    let mut register = |local_teid, peer_teid, port| {
        let peer_addr = SocketAddr::from(([192, 0, 2, 1], port));
        reflector.register_session(ReflectorSession {
            local_teid,
            peer_teid,
            peer_addr,
        })
    };
    let mut rows = vec![
        (new(0).err(), INVALID_REFLECTOR_CAPACITY),
        (new(4097).err(), INVALID_REFLECTOR_CAPACITY),
        (register(0, 1, 1).err(), INVALID_REFLECTOR_SESSION),
        (register(1, 0, 1).err(), INVALID_REFLECTOR_SESSION),
        (register(1, 1, 0).err(), INVALID_REFLECTOR_SESSION),
        (register(100, 1, 1).err(), REFLECTOR_SESSION_CONFLICT),
        (register(1, 1, 1).err(), REFLECTOR_SESSION_CAPACITY_EXCEEDED),
    ];
    for (message, number) in [
        (message(1, 1, Some(1), &[]), ECHO_REQUEST_TEID_NOT_ZERO),
        (message(1, 0, None, &[]), ECHO_REQUEST_MISSING_SEQUENCE),
        (message(3, 0, None, &[]), UNSUPPORTED_MESSAGE_TYPE),
        (message(G_PDU, 100, None, &[]), TRUNCATED_IP_HEADER),
    ] {
        let answer = reflector.handle_datagram(sender(4), &message);
        rows.push((answer.err(), number));
    }
    rows
}

/// Each thing that the Rust does when it does not refuse, once, and the state that it leaves.
pub fn actions() -> Part {
    let mut part = Part::new("actions");
    generator_acts(&mut part);
    observer_acts(&mut part);
    table_changes(&mut part);
    reflector_acts(&mut part);
    part
}

fn generator_acts(part: &mut Part) {
    let probe = Probe {
        sequence: 8,
        ..ipv4_probe(1_000_000_005)
    };
    let (packets, next_sequence) = generate(probe.flow, plan(2, 5), 7);
    let packet = packets.expect("a plan that is in order").pop();
    let expected = GeneratedPacket {
        sequence: probe.sequence,
        send_timestamp_ns: probe.send_timestamp_ns,
        tpdu: build(probe),
    };
    part.case(&[], (packet, next_sequence), (Some(expected), 9));

    // A refusal moves the next sequence, too.
    let (_, next_sequence) = generate(probe.flow, plan(3, 0), u64::MAX - 2);
    part.case(&[], next_sequence, u64::MAX);
    let (_, next_sequence) = generate(probe.flow, plan(3, u64::MAX), 7);
    part.case(&[], next_sequence, 9);
}

fn observer_acts(part: &mut Part) {
    use GtpuReturnDatagramOutcome as Noted;
    let tpdu = build(ipv4_probe(0));
    let elements = [16, 0, 0, 0, 9, 133, 0, 4, 10, 0, 0, 9];
    let mut observer = Observer::default();
    observer.record_sent(1, 10);
    for (message, noted) in [
        (message(G_PDU, 9, None, &tpdu), Noted::MeasurementTpdu),
        (message(G_PDU, 9, Some(9), &tpdu), Noted::MeasurementTpdu), // a duplicate
        (message(26, 0, Some(1), &elements), Noted::ErrorIndication),
        (message(2, 0, Some(1), &[]), Noted::EchoResponse),
        (
            message(254, 9, None, &[]),
            Noted::Ignored { message_type: 254 },
        ),
        (
            message(31, 0, None, &[]),
            Noted::Ignored { message_type: 31 },
        ),
    ] {
        let answer = observer.record_return_gtpu_datagram(12, &message);
        part.case(&message.payload, answer, Ok(noted));
    }
    let sheet = observer.sheet();
    let row = sheet.rows[0];
    part.case(&[], (row.latency, row.returned), (2, true));
    part.case(&[], (sheet.duplicates, sheet.error_indications), (1, 1));
    part.case(&[], Observer::from_sheet(&sheet).sheet(), sheet);
}

fn table_changes(part: &mut Part) {
    let known = session();
    let mut reflector = reflector(ReflectorPolicy::Echo);
    part.case(&[], reflector.register_session(known), Ok(false));
    part.case(&[], reflector.remove_session(1), None);
    part.case(&[], reflector.remove_session(known.local_teid), Some(known));
    part.case(&[], reflector.register_session(known), Ok(true));
}

fn reflector_acts(part: &mut Part) {
    use ReflectorSendReason as Reason;
    let known = session();
    let tpdu = build(ipv4_probe(0));
    let gpdu = |teid| message(G_PDU, teid, None, &tpdu);
    let target = RouteTarget {
        destination: SocketAddr::from(([192, 0, 2, 3], 3)),
        teid: 3,
    };
    let send = |destination, message, reason| {
        Ok(Action::Send {
            destination,
            message,
            reason,
        })
    };
    let noop = |reason| Ok(Action::Noop { reason });

    let echoed = message(G_PDU, known.peer_teid, None, &echo(&tpdu).unwrap());
    let routed = message(G_PDU, target.teid, None, &tpdu);
    for (policy, action) in [
        (
            ReflectorPolicy::Echo,
            send(known.peer_addr, echoed, Reason::ReflectedGpdu),
        ),
        (
            ReflectorPolicy::Route(target),
            send(target.destination, routed, Reason::RoutedGpdu),
        ),
        (ReflectorPolicy::SinkAndCount, noop("G-PDU sunk")),
    ] {
        let answer = reflector(policy).handle_datagram(sender(4), &gpdu(known.local_teid));
        part.case(&tpdu, answer, action);
    }

    // The error sequence after 65,535 is 1.
    let mut reflector = reflector(ReflectorPolicy::Echo);
    reflector.set_state(OpenReflector {
        next_error_sequence: 65_535,
        ..reflector.state()
    });
    let indication4 = [16, 0, 0, 0, 9, 133, 0, 4, 192, 0, 2, 2];
    let indication6 = [
        16, 0, 0, 0, 9, 133, 0, 16, 0, 0, 0, 0, 0, 0, 0, 0, 0, 0, 0, 0, 0, 0, 0, 2,
    ];
    for (version, sequence, payload) in [(4, 65_535, &indication4[..]), (6, 1, &indication6)] {
        let indication = message(26, 0, Some(sequence), payload);
        let action = send(sender(version), indication, Reason::ErrorIndication);
        let answer = reflector.handle_datagram(sender(version), &gpdu(9));
        part.case(&tpdu, answer, action);
    }

    let response = message(2, 0, Some(77), &[14, 5]);
    for (message, action) in [
        (
            message(1, 0, Some(77), &[]),
            send(sender(4), response, Reason::EchoResponse),
        ),
        (message(2, 0, None, &[]), noop("echo response observed")),
        (message(26, 0, None, &[]), noop("error indication observed")),
        (message(254, 0, None, &[]), noop("end marker ignored")),
        (
            message(31, 0, None, &[]),
            noop("supported extension headers notification ignored"),
        ),
    ] {
        let answer = reflector.handle_datagram(sender(4), &message);
        part.case(&[], answer, action);
    }
}

/// A plan of one packet a second.
fn plan(packet_count: u64, first_send_timestamp_ns: u64) -> TrafficPlan {
    TrafficPlan {
        packet_count,
        target_rate_pps: 1,
        first_send_timestamp_ns,
    }
}

/// A reflector with room for one session, which is registered; its recovery counter is 5.
fn reflector(policy: ReflectorPolicy) -> Reflector {
    let mut reflector = Reflector::new_multi(1, 5, policy).expect("a maximum of 1");
    reflector
        .register_session(session())
        .expect("a session that is in order");
    reflector
}

fn session() -> ReflectorSession {
    ReflectorSession {
        local_teid: 100,
        peer_teid: 200,
        peer_addr: SocketAddr::from(([192, 0, 2, 1], 2152)),
    }
}

/// Who sends a message: 192.0.2.2 or ::2.
fn sender(version: u8) -> SocketAddr {
    match version {
        4 => SocketAddr::from(([192, 0, 2, 2], 2152)),
        _ => SocketAddr::from(([0, 0, 0, 0, 0, 0, 0, 2], 2152)),
    }
}

fn message(message_type: u8, teid: u32, sequence: Option<u16>, payload: &[u8]) -> Message {
    Message {
        message_type,
        teid,
        sequence,
        payload: payload.to_vec(),
    }
}
