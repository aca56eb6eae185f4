//! `speed`: how long the calls take, ours and the Rust's, as a Markdown table.
//!
//! Both sides have the same inputs in the same process and take turns, each round in the other
//! order. A time is the median of many rounds, divided by the inputs of a round. The Rust is the
//! unchanged crate. It allocates each packet that it makes, and that is timed; ours writes into
//! one buffer, which is not cleared first, and the addresses that it reads into two arrays.

use std::hint::black_box;
use std::time::Instant;

use driver::ours::{self, Values};
use driver::random::Random;
use driver::rust_side::measurement::build;
use driver::speed_traffic::ROUNDS as FEWER_ROUNDS;
use driver::wild::any_probe_of;
use opc_dataplane_testkit::measurement::{
    build_measurement_tpdu, decode_measurement_tpdu, echo_tpdu, DecodedTpdu,
};

const INPUTS: usize = 256;
const ROUNDS: usize = 4_001;

/// A probe as each side has it, and its packet.
struct Input {
    values: Values,
    decoded: DecodedTpdu,
    tpdu: Vec<u8>,
}

fn main() {
    println!("| call | ours, ns | Rust, ns | ours / Rust |");
    println!("|---|---:|---:|---:|");
    for version in [4, 6] {
        let mut random = Random::new(768);
        let inputs: Vec<Input> = (0..INPUTS).map(|_| input(&mut random, version)).collect();
        let (mut out, mut src, mut dst) = ([0; 72], [0; 16], [0; 16]);
        row(
            &format!("build, IPv{version}"),
            &inputs,
            |input| ours::build(&input.values, black_box(&mut out)),
            |input| {
                let DecodedTpdu { flow, measurement } = input.decoded;
                build_measurement_tpdu(flow, measurement.sequence, measurement.send_timestamp_ns)
            },
        );
        row(
            &format!("decode, IPv{version}"),
            &inputs,
            |input| ours::decode_into(&input.tpdu, black_box(&mut src), black_box(&mut dst)),
            |input| decode_measurement_tpdu(&input.tpdu),
        );
        row(
            &format!("echo, IPv{version}"),
            &inputs,
            |input| ours::echo(&input.tpdu, black_box(&mut out)),
            |input| echo_tpdu(&input.tpdu),
        );
    }
    let traffic = driver::speed_traffic::speed();
    for (name, ours, rust) in traffic.into_iter().chain(driver::speed_reflector::speed()) {
        println!("| {name} | {ours:.1} | {rust:.1} | {:.2} |", ours / rust);
    }
    println!();
    println!("Medians: of {ROUNDS} rounds of {INPUTS} calls for build, decode and echo, of");
    println!("{FEWER_ROUNDS} rounds for the rest. Our output is not cleared first; the Rust");
    println!("allocates its own.");
}

fn input(random: &mut Random, version: u8) -> Input {
    let probe = any_probe_of(random, version);
    let tpdu = build(probe);
    Input {
        values: probe.into(),
        decoded: decode_measurement_tpdu(&tpdu).expect("a built T-PDU is read"),
        tpdu,
    }
}

/// Prints the row of one call.
fn row<A, B>(
    name: &str,
    inputs: &[Input],
    mut ours: impl FnMut(&Input) -> A,
    mut rust: impl FnMut(&Input) -> B,
) {
    let (mut our_times, mut rust_times) = (Vec::new(), Vec::new());
    for round in 0..ROUNDS {
        if round % 2 == 0 {
            our_times.push(nanoseconds(inputs, &mut ours));
            rust_times.push(nanoseconds(inputs, &mut rust));
        } else {
            rust_times.push(nanoseconds(inputs, &mut rust));
            our_times.push(nanoseconds(inputs, &mut ours));
        }
    }
    let [ours, rust] = [our_times, rust_times].map(median);
    println!("| {name} | {ours:.1} | {rust:.1} | {:.2} |", ours / rust);
}

/// The time of a call, over all inputs.
fn nanoseconds<T>(inputs: &[Input], call: &mut impl FnMut(&Input) -> T) -> f64 {
    let start = Instant::now();
    for input in inputs {
        black_box(call(black_box(input)));
    }
    start.elapsed().as_nanos() as f64 / inputs.len() as f64
}

fn median(mut times: Vec<f64>) -> f64 {
    times.sort_by(f64::total_cmp);
    times[times.len() / 2]
}
