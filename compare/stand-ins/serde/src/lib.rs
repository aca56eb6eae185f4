//! Stands in for the crate `serde`, so that the build fetches nothing.
//!
//! Serves evidence.rs, which names the two derives and no trait.

pub use serde_derive::{Deserialize, Serialize};
