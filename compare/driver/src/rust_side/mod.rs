//! The Rust's calls, with refusals as document 01's numbers and answers as plain values that can
//! be held against ours. The files have the names of the Rust's.

pub mod gtpu;
pub mod measurement;
pub mod reflector;
pub mod traffic;

use testkit_open::DataplaneTestkitError;

use crate::numbers;

/// What a call gives, or the number by which it refuses.
pub type Outcome<T> = Result<T, u8>;

fn outcome<T>(result: Result<T, DataplaneTestkitError>) -> Outcome<T> {
    result.map_err(|error| numbers::number(&error))
}
