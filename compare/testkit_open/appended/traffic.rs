// Appended by testkit_open to a copy of traffic.rs: the original ends above this line.

impl TrafficEngine {
    /// The sequence of the next packet. (`with_first_sequence`, which is public, sets it.)
    pub fn open_next_sequence(&self) -> u64 {
        self.next_sequence
    }
}

/// All that a `ContinuityObserver` holds.
#[derive(Debug, Clone, Default, PartialEq, Eq)]
pub struct OpenObserver {
    /// The send time of each sequence that was sent.
    pub sent: BTreeMap<u64, u64>,
    /// The latency of each sequence that returned.
    pub received: BTreeMap<u64, u64>,
    pub duplicate_packets: u64,
    pub out_of_order_packets: u64,
    pub gtpu_error_indications: u64,
    pub highest_received_sequence: Option<u64>,
}

impl ContinuityObserver {
    pub fn open_state(&self) -> OpenObserver {
        OpenObserver {
            sent: self.sent.clone(),
            received: self
                .received
                .iter()
                .map(|(&sequence, packet)| (sequence, packet.latency_ns))
                .collect(),
            duplicate_packets: self.duplicate_packets,
            out_of_order_packets: self.out_of_order_packets,
            gtpu_error_indications: self.gtpu_error_indications,
            highest_received_sequence: self.highest_received_sequence,
        }
    }

    pub fn open_from_state(state: OpenObserver) -> Self {
        Self {
            sent: state.sent,
            received: state
                .received
                .into_iter()
                .map(|(sequence, latency_ns)| (sequence, ReceivedPacket { latency_ns }))
                .collect(),
            duplicate_packets: state.duplicate_packets,
            out_of_order_packets: state.out_of_order_packets,
            gtpu_error_indications: state.gtpu_error_indications,
            highest_received_sequence: state.highest_received_sequence,
        }
    }
}
