//! The original `opc-dataplane-testkit` with its private state opened, for the comparison alone.
//!
//! build.rs puts the six modules together: the original files, and after them the accessors of
//! `appended/`.

include!(concat!(env!("OUT_DIR"), "/modules.rs"));

pub use error::DataplaneTestkitError;
