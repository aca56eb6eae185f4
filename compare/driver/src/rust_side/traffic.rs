//! traffic.rs: the generator, and the observer as document 01's run sheet.

use testkit_open::evidence::{PacketContinuityBudget, PacketContinuityReport};
use testkit_open::traffic::{
    ContinuityObserver, GeneratedPacket, GtpuReturnDatagramOutcome, OpenObserver, TrafficEngine,
    TrafficPlan,
};

use super::gtpu::Message;
use super::measurement::Flow;
use super::{outcome, Outcome};

/// The time between two packets at this rate.
pub fn interval(target_rate_pps: u64) -> Outcome<u64> {
    let plan = TrafficPlan {
        packet_count: 0,
        target_rate_pps,
        first_send_timestamp_ns: 0,
    };
    outcome(plan.interval_ns())
}

/// The Rust's engine.
pub struct Engine(TrafficEngine);

impl Engine {
    pub fn with_first_sequence(first_sequence: u64) -> Self {
        Self(TrafficEngine::with_first_sequence(first_sequence))
    }

    pub fn next_sequence(&self) -> u64 {
        self.0.open_next_sequence()
    }

    /// The packets of a plan. The Rust sets room aside for all packets before it builds one: a
    /// count above 2,048, which we refuse, is not compared.
    pub fn generate(&mut self, flow: Flow, plan: TrafficPlan) -> Outcome<Vec<GeneratedPacket>> {
        outcome(self.0.generate(flow.into(), plan))
    }
}

/// The packets of a plan by an engine that starts at this sequence, and its next sequence
/// afterwards.
pub fn generate(
    flow: Flow,
    plan: TrafficPlan,
    first_sequence: u64,
) -> (Outcome<Vec<GeneratedPacket>>, u64) {
    let mut engine = Engine::with_first_sequence(first_sequence);
    let packets = engine.generate(flow, plan);
    (packets, engine.next_sequence())
}

/// A row of the run sheet, without the arrival time, which the Rust does not keep. Latency is 0 where
/// nothing has returned.
#[derive(Debug, Clone, Copy, PartialEq, Eq)]
pub struct Row {
    pub sequence: u64,
    pub send_timestamp_ns: u64,
    pub latency: u64,
    pub returned: bool,
}

/// What a run sheet holds: its used rows, rising by sequence, and its counters.
#[derive(Debug, Clone, Default, PartialEq, Eq)]
pub struct Sheet {
    pub rows: Vec<Row>,
    pub duplicates: u64,
    pub out_of_order: u64,
    pub error_indications: u64,
}

impl Sheet {
    /// The row of a sequence.
    pub fn row(&self, sequence: u64) -> Option<Row> {
        let rows = &self.rows;
        let found = rows.binary_search_by_key(&sequence, |row| row.sequence);
        found.ok().map(|at| rows[at])
    }
}

/// The Rust's observer. `Observer::default()` is a fresh one.
#[derive(Debug, Default)]
pub struct Observer(ContinuityObserver);

impl Observer {
    pub fn from_sheet(sheet: &Sheet) -> Self {
        let returned = || sheet.rows.iter().filter(|row| row.returned);
        Self(ContinuityObserver::open_from_state(OpenObserver {
            sent: sheet
                .rows
                .iter()
                .map(|row| (row.sequence, row.send_timestamp_ns))
                .collect(),
            received: returned().map(|row| (row.sequence, row.latency)).collect(),
            duplicate_packets: sheet.duplicates,
            out_of_order_packets: sheet.out_of_order,
            gtpu_error_indications: sheet.error_indications,
            highest_received_sequence: returned().map(|row| row.sequence).max(),
        }))
    }

    pub fn sheet(&self) -> Sheet {
        let state = self.0.open_state();
        assert_eq!(
            state.highest_received_sequence,
            state.received.keys().max().copied(),
            "the Rust keeps the highest returned sequence, which a sheet finds in its rows"
        );
        let row = |(&sequence, &send_timestamp_ns)| {
            let latency = state.received.get(&sequence).copied();
            Row {
                sequence,
                send_timestamp_ns,
                latency: latency.unwrap_or(0),
                returned: latency.is_some(),
            }
        };
        Sheet {
            rows: state.sent.iter().map(row).collect(),
            duplicates: state.duplicate_packets,
            out_of_order: state.out_of_order_packets,
            error_indications: state.gtpu_error_indications,
        }
    }

    pub fn record_sent(&mut self, sequence: u64, send_timestamp_ns: u64) {
        self.0.record_sent(&GeneratedPacket {
            sequence,
            send_timestamp_ns,
            tpdu: Vec::new(), // the observer does not look at it
        });
    }

    pub fn record_received_tpdu(&mut self, return_timestamp_ns: u64, tpdu: &[u8]) -> Outcome<()> {
        outcome(self.0.record_received_tpdu(return_timestamp_ns, tpdu))
    }

    pub fn record_return_gtpu_datagram(
        &mut self,
        return_timestamp_ns: u64,
        message: &Message,
    ) -> Outcome<GtpuReturnDatagramOutcome> {
        let datagram = message.to_datagram();
        outcome(
            self.0
                .record_return_gtpu_datagram(return_timestamp_ns, &datagram),
        )
    }

    pub fn report(
        &self,
        window_start: u64,
        window_end: u64,
        budget: PacketContinuityBudget,
    ) -> PacketContinuityReport {
        let flow_id = ""; // names are no part of the port
        self.0.report(flow_id, window_start, window_end, budget)
    }
}
