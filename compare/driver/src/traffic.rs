//! Our generator and our forecast against the Rust's generator: plans at every boundary, random ones,
//! and runs of plans on one engine. The Rust has no forecast: what is due of ours is the refusal, or the
//! bytes and the last packet, of the plan that the Rust generates.

use testkit_open::traffic::{GeneratedPacket, TrafficPlan};

use crate::compared::Answer;
use crate::measurement::with_junk;
use crate::numbers::*;
use crate::ours::{Values, Written};
use crate::ours_traffic::{self, Forecast};
use crate::part::Part;
use crate::random::Random;
use crate::rust_side::measurement::{build, Probe};
use crate::rust_side::traffic::{interval, Engine};
use crate::rust_side::Outcome;
use crate::seen::Seen;
use crate::wild::{any_probe, any_probe_of};

/// The most packets of a plan.
pub const MOST_PACKETS: u64 = 2_048;

/// What an output has in it before a call, and how much of it lies past what is lent.
const DIRT: u8 = 0xa5;
const BEYOND: usize = 8;

/// How many plans follow each other on one engine.
const PLANS_OF_A_RUN: u64 = 12;

/// Plans at the boundaries of count, rate, sequence and time, and random plans. Every number of
/// the generator must have been due.
pub fn generating(seed: u64, rounds: u64) -> Part {
    let mut part = Part::new("calls");
    let mut seen = Seen::default();
    let mut random = Random::new(seed);
    for version in [4, 6] {
        for count in [0, 1, 2, 2_047, 2_048, 2_049, u64::MAX] {
            for rate in [0, 1, 3, 1_000_000_000, 1_000_000_001, u64::MAX] {
                let first = any_probe_of(&mut random, version);
                for sequence in near_top(&mut random, count, 1) {
                    for send_timestamp_ns in
                        near_top(&mut random, count, interval(rate).unwrap_or(1))
                    {
                        let first = Probe {
                            sequence,
                            send_timestamp_ns,
                            ..first
                        };
                        generates(&mut part, &mut seen, &mut random, first, count, rate);
                    }
                }
            }
        }
    }
    for _ in 0..rounds / 4 {
        let (first, mut count, mut rate) = any_plan(&mut random);
        match random.below(8) {
            0 => count = random.any_u64(),
            1 => rate = random.any_u64(),
            _ => (),
        }
        generates(&mut part, &mut seen, &mut random, first, count, rate);
    }
    seen.require(&mut part, every_number());
    part
}

/// Runs of plans, each run on one engine. Every number of the generator must have been due.
pub fn runs(seed: u64, rounds: u64) -> Part {
    let mut part = Part::new("calls");
    let mut seen = Seen::default();
    let mut random = Random::new(seed);
    for _ in 0..rounds / (4 * PLANS_OF_A_RUN) {
        run(&mut part, &mut seen, &mut random);
    }
    seen.require(&mut part, every_number());
    part
}

/// What the generator answers.
fn every_number() -> Vec<u8> {
    [&[0, OUTPUT_TOO_SHORT], PLANNING].concat()
}

/// What the first packet of a plan says, the plan's count and its rate. Often the sequence or the
/// time passes its top at some packet.
pub fn any_plan(random: &mut Random) -> (Probe, u64, u64) {
    let mut first = any_probe(random);
    let count = random.length(MOST_PACKETS as usize) as u64;
    let rate = 1 + random.length(1_000_000_000 - 1) as u64;
    let below_top = |random: &mut Random, step: u64| {
        let packets = random.below(count as usize + 2) as u64;
        (u64::MAX - packets * step).saturating_add(random.below(2) as u64)
    };
    if random.below(4) == 0 {
        first.sequence = below_top(random, 1);
    }
    if random.below(4) == 0 {
        first.send_timestamp_ns = below_top(random, 1_000_000_000 / rate);
    }
    (first, count, rate)
}

/// Starts from which packet 0, 1, the last or the one after it, `step` apart, has the top or just
/// passes it; and 0, and any.
fn near_top(random: &mut Random, count: u64, step: u64) -> Vec<u64> {
    let count = count.min(MOST_PACKETS);
    let mut starts = vec![0, random.number()];
    for packet in [0, 1, count.saturating_sub(1), count] {
        let top = u64::MAX - packet * step;
        starts.extend([top, top.wrapping_add(1)]);
    }
    starts.sort();
    starts.dedup();
    starts
}

/// Holds a plan against what is due, forecast and generated: in an output that is longer than the
/// forecast that is due (and that ours is held to), of just that length, one byte short and empty; where
/// a refusal is due, in a long and an empty one.
fn generates(
    part: &mut Part,
    seen: &mut Seen,
    random: &mut Random,
    first: Probe,
    count: u64,
    rate: u64,
) {
    let mut rust = Engine::with_first_sequence(first.sequence);
    let due = Due::of(due_packets(&mut rust, first, count, rate), &rust);
    let rooms = match (due.forecast.number, due.forecast.bytes) {
        (0, 0) => vec![80, 0],
        (0, bytes) => vec![bytes + 80, bytes, bytes - 1, 0],
        _ => vec![
            count.min(MOST_PACKETS) as usize * build(first).len() + 80,
            0,
        ],
    };
    for room in rooms {
        let mut ours = ours_traffic::Engine::with_first_sequence(first.sequence);
        let plan = (with_junk(random, first), count, rate);
        generates_on(part, seen, &mut ours, plan, &due, room);
    }
}

/// Plans one after the other on one engine, ours and the Rust's, refusals between them: each call
/// goes on from the next sequence that the last one left in place.
fn run(part: &mut Part, seen: &mut Seen, random: &mut Random) {
    let (start, ..) = any_plan(random);
    let mut ours = ours_traffic::Engine::with_first_sequence(start.sequence);
    let mut rust = Engine::with_first_sequence(start.sequence);
    for _ in 0..PLANS_OF_A_RUN {
        let (first, count, rate) = match (random.below(8), any_plan(random)) {
            (0, (first, count, _)) => (first, count, 0),
            (1, (first, count, _)) => (first, count, u64::MAX),
            (2, (first, _, rate)) => (first, MOST_PACKETS + 1, rate),
            (_, plan) => plan,
        };
        let before = rust.next_sequence();
        let packets = due_packets(&mut rust, first, count, rate);
        let forecast = due_forecast(&packets);
        let room = match forecast.number {
            0 => forecast.bytes.saturating_sub(random.below(4) / 3),
            _ => 80,
        };
        if room < forecast.bytes {
            rust = Engine::with_first_sequence(before); // the Rust has no 15
        }
        let due = Due::of(packets, &rust);
        let plan = (with_junk(random, first), count, rate);
        generates_on(part, seen, &mut ours, plan, &due, room);
    }
}

/// What is due of a plan: its forecast; its packets end to end or a number; and the next sequence
/// afterwards.
struct Due {
    forecast: Forecast,
    packets: Outcome<Vec<u8>>,
    next_sequence: u64,
}

impl Due {
    /// By the packets that the Rust's engine generated, and the next sequence that it has now.
    fn of(packets: Outcome<Vec<GeneratedPacket>>, rust: &Engine) -> Self {
        Self {
            forecast: due_forecast(&packets),
            packets: packets
                .map(|packets| packets.into_iter().flat_map(|packet| packet.tpdu).collect()),
            next_sequence: rust.next_sequence(),
        }
    }
}

/// The forecast that is due of a plan with these packets.
fn due_forecast(packets: &Outcome<Vec<GeneratedPacket>>) -> Forecast {
    let packets = match packets {
        Err(number) => {
            return Forecast {
                number: *number,
                ..Forecast::default()
            }
        }
        Ok(packets) => packets,
    };
    let bytes = packets.iter().map(|packet| packet.tpdu.len()).sum();
    match packets.last() {
        None => Forecast {
            bytes,
            ..Forecast::default()
        },
        Some(last) => Forecast {
            number: 0,
            has_last: true,
            bytes,
            last_sequence: last.sequence,
            last_send_timestamp_ns: last.send_timestamp_ns,
        },
    }
}

/// A plan as our engine is handed it: what its first packet says, its count and its rate.
type Plan = (Values, u64, u64);

/// Holds our engine, lent `room` bytes, against what is due: the forecast, the generator's answer, every
/// byte of the output and of what lies past it, and the next sequence in the engine, on refusals too.
fn generates_on(
    part: &mut Part,
    seen: &mut Seen,
    ours: &mut ours_traffic::Engine,
    (first, count, rate): Plan,
    due: &Due,
    room: usize,
) {
    let before = ours.next_sequence;
    let forecast = ours.forecast(&first, count, rate);
    let mut out = vec![DIRT; room + BEYOND];
    let written = ours.generate(&first, count, rate, &mut out[..room]);

    let mut expected = vec![DIRT; room + BEYOND];
    let (number, bytes, next_sequence) = match &due.packets {
        Err(number) => (*number, 0, due.next_sequence),
        Ok(bytes) if room < bytes.len() => (OUTPUT_TOO_SHORT, 0, before),
        Ok(bytes) => {
            expected[..bytes.len()].copy_from_slice(bytes);
            (0, bytes.len(), due.next_sequence)
        }
    };
    seen.add(written.number);
    let size = if first.version == 4 { 52 } else { 72 };
    let both = out.chunks(size).zip(expected.chunks(size));
    let wrong_packet = both.into_iter().position(|(ours, due)| ours != due);
    let plan = [before, count, rate, first.send_timestamp_ns].map(u64::to_be_bytes);
    part.case(
        plan.as_flattened(),
        (forecast, written.told(), ours.next_sequence, wrong_packet),
        (
            due.forecast,
            Written { number, bytes }.due(&[]),
            next_sequence,
            None,
        ),
    );
}

/// The packets of a plan by the Rust's engine, which moves on, or the number that is due. A count
/// above 2,048 (18, added) the engine does not see.
pub fn due_packets(
    engine: &mut Engine,
    first: Probe,
    count: u64,
    rate: u64,
) -> Outcome<Vec<GeneratedPacket>> {
    if interval(rate).is_ok() && count > MOST_PACKETS {
        return Err(TOO_MANY_PACKETS);
    }
    let plan = TrafficPlan {
        // A rate is judged before a count, which the Rust does not limit.
        packet_count: count.min(MOST_PACKETS),
        target_rate_pps: rate,
        first_send_timestamp_ns: first.send_timestamp_ns,
    };
    engine.generate(first.flow, plan)
}
