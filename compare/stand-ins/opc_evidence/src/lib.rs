//! Stands in for the crate `opc_evidence`, whose source is not in this repository.
//!
//! Serves evidence.rs: `has_raw_sensitive_identifier`, called by `validate_redaction`, and the
//! struct that `to_dataplane_snapshot` fills in. Redaction and snapshots are no part of the
//! port, so the driver calls neither; the types of the fields are guesses that fit.

use std::collections::BTreeMap;

/// Why a label must not be shown; here, never.
pub fn has_raw_sensitive_identifier(_label: &str) -> Option<&'static str> {
    None
}

#[derive(Debug, Clone)]
pub struct DataplaneSnapshot {
    pub session_count: u64,
    pub bearer_count: u64,
    pub installed_object_count: u64,
    pub highest_fence: Option<u64>,
    pub highest_generation: Option<u64>,
    pub stale_mutation_counters: BTreeMap<String, u64>,
    pub sessions: Vec<String>,
    pub bearers: Vec<String>,
    pub forwarding_proven: Option<bool>,
    pub kernel_state_reconciled: Option<bool>,
    pub packet_continuity_proven: Option<bool>,
}
