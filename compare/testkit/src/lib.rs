//! The original `opc-dataplane-testkit`, as published but for this file.
//!
//! The published lib.rs is not in this repository, so this one is ours. It declares the six files
//! beside it, which are byte for byte the published ones (the digests stand in compare/README.md),
//! and exports the one name that they take from the crate's root.

pub mod error;
pub mod evidence;
pub mod gtpu;
pub mod measurement;
pub mod reflector;
pub mod traffic;

pub use error::DataplaneTestkitError;
