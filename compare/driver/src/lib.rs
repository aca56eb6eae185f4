//! The comparison of our library with the original Rust, one idea to a module. The binary
//! `compare` (main.rs) runs its parts; `speed` (speed.rs) measures; `sample` (write_sample.rs)
//! writes the Rust's answers for `crates/replay`; `padded` (write_padded.rs) writes padded packets and
//! our answers for another judge.

#![deny(unsafe_code)]

pub mod answers;
pub mod arrivals;
pub mod batch;
pub mod cases;
pub mod checksum;
pub mod compared;
pub mod damage;
pub mod gtpu;
pub mod indication;
pub mod indication_inputs;
pub mod lists;
pub mod malformed;
pub mod measurement;
pub mod numbers;
pub mod observer;
#[allow(unsafe_code)]
pub mod ours;
#[allow(unsafe_code)]
pub mod ours_reflector;
#[allow(unsafe_code)]
pub mod ours_traffic;
pub mod packet;
pub mod part;
pub mod random;
pub mod records;
pub mod reflector;
pub mod reflector_due;
pub mod reflector_inputs;
pub mod rfc;
pub mod rust_side;
pub mod sample;
pub mod sample_reflector;
pub mod seen;
pub mod sheets;
pub mod speed_reflector;
pub mod speed_traffic;
pub mod tally;
pub mod traffic;
pub mod wild;
