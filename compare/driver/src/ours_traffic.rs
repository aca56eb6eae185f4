//! Our generator, run sheet, report and element walk, as C declares them, and a safe function for
//! each of these calls.

use testkit_open::evidence::PacketContinuityBudget;

use crate::ours::{lent, Values, Written, DIRTY_ADDRESS};

unsafe extern "C" {
    fn testkit_generate(
        version: u8,
        src: *const [u8; 16],
        dst: *const [u8; 16],
        src_port: u16,
        dst_port: u16,
        plan: Plan,
        next_sequence: *mut u64,
        out: *mut u8,
        out_length: usize,
    ) -> Written;
    fn testkit_forecast(version: u8, plan: Plan, next_sequence: u64) -> Forecast;
    fn testkit_validate_elements(
        payload: *const u8,
        length: usize,
        peer_address: *mut [u8; 16],
    ) -> TestkitElements;
    fn testkit_record_sent(
        sequences: *mut u64,
        sequences_length: usize,
        send_timestamps: *mut u64,
        send_timestamps_length: usize,
        latencies: *mut u64,
        latencies_length: usize,
        marks: *mut u8,
        marks_length: usize,
        arrival_timestamps: *mut u64,
        arrival_timestamps_length: usize,
        counts: Counts,
        sequence: u64,
        send_timestamp_ns: u64,
    ) -> TestkitRecorded;
    fn testkit_record_received_tpdu(
        sequences: *const u64,
        sequences_length: usize,
        send_timestamps: *const u64,
        send_timestamps_length: usize,
        latencies: *mut u64,
        latencies_length: usize,
        marks: *mut u8,
        marks_length: usize,
        arrival_timestamps: *mut u64,
        arrival_timestamps_length: usize,
        counts: Counts,
        return_timestamp_ns: u64,
        tpdu: *const u8,
        length: usize,
    ) -> TestkitRecorded;
    fn testkit_record_sent_plan(
        sequences: *mut u64,
        sequences_length: usize,
        send_timestamps: *mut u64,
        send_timestamps_length: usize,
        latencies: *mut u64,
        latencies_length: usize,
        marks: *mut u8,
        marks_length: usize,
        arrival_timestamps: *mut u64,
        arrival_timestamps_length: usize,
        counts: Counts,
        plan: Plan,
        next_sequence: u64,
    ) -> TestkitRecorded;
    fn testkit_record_received_tpdus(
        sequences: *const u64,
        sequences_length: usize,
        send_timestamps: *const u64,
        send_timestamps_length: usize,
        latencies: *mut u64,
        latencies_length: usize,
        marks: *mut u8,
        marks_length: usize,
        arrival_timestamps: *mut u64,
        arrival_timestamps_length: usize,
        counts: Counts,
        return_timestamps: *const u64,
        return_timestamps_length: usize,
        lengths: *const usize,
        lengths_length: usize,
        tpdus: *const u8,
        tpdus_length: usize,
        returned: *mut u64,
        returned_length: usize,
        numbers: *mut u8,
        numbers_length: usize,
    ) -> TestkitReturnsRecorded;
    fn testkit_record_return_gtpu_datagram(
        sequences: *const u64,
        sequences_length: usize,
        send_timestamps: *const u64,
        send_timestamps_length: usize,
        latencies: *mut u64,
        latencies_length: usize,
        marks: *mut u8,
        marks_length: usize,
        arrival_timestamps: *mut u64,
        arrival_timestamps_length: usize,
        counts: Counts,
        return_timestamp_ns: u64,
        message_type: u8,
        payload: *const u8,
        length: usize,
    ) -> TestkitDatagramRecorded;
    fn testkit_report(
        sequences: *const u64,
        sequences_length: usize,
        send_timestamps: *const u64,
        send_timestamps_length: usize,
        latencies: *const u64,
        latencies_length: usize,
        marks: *const u8,
        marks_length: usize,
        arrival_timestamps: *const u64,
        arrival_timestamps_length: usize,
        counts: Counts,
        window_start_ns: u64,
        window_end_ns: u64,
        budget: Budget,
    ) -> Report;
    fn testkit_judge_report(report: Report, budget: Budget) -> Verdict;
}

/// A generator's own record, which a call changes in place.
#[derive(Debug, Clone, Copy, PartialEq, Eq)]
pub struct Engine {
    pub next_sequence: u64,
}

/// C's `struct testkit_plan`.
#[repr(C)]
#[derive(Debug, Clone, Copy)]
struct Plan {
    packet_count: u64,
    target_rate_pps: u64,
    first_send_timestamp_ns: u64,
}

/// C's `struct testkit_plan_forecast`: 0 and the bytes of a plan, with what its last packet says where
/// it has one; or the number of a refusal and zeros.
#[repr(C)]
#[derive(Debug, Clone, Copy, Default, PartialEq, Eq)]
pub struct Forecast {
    pub number: u8,
    pub has_last: bool,
    pub bytes: usize,
    pub last_sequence: u64,
    pub last_send_timestamp_ns: u64,
}

/// C's `struct testkit_counts`: what stands beside the columns of a run sheet.
#[repr(C)]
#[derive(Debug, Clone, Copy, Default, PartialEq, Eq)]
pub struct Counts {
    pub duplicate_packets: u64,
    pub out_of_order_packets: u64,
    pub gtpu_error_indications: u64,
    pub used: usize,
}

/// 0 or the number of a refusal, and the counts afterwards, on refusals too.
#[repr(C)]
struct TestkitRecorded {
    counts: Counts,
    number: u8,
}

/// How many returns a list had, and the number of a refusal of the whole list.
#[repr(C)]
struct TestkitReturnsRecorded {
    counts: Counts,
    number: u8,
    returns: usize,
}

/// As `TestkitRecorded`, with what the datagram was, and the tunnel that it names.
#[repr(C)]
pub struct TestkitDatagramRecorded {
    counts: Counts,
    number: u8,
    outcome: u8,
    message_type: u8,
    peer_version: u8,
    refused_teid: u32,
    peer_address: [u8; 16],
}

/// The tunnel that an Error Indication names, as our calls hand it on: the version is 4 or 6, and the
/// rest of an IPv4 address is 0.
#[derive(Debug, Clone, Copy, PartialEq, Eq)]
pub struct Tunnel {
    pub teid: u32,
    pub version: u8,
    pub peer_address: [u8; 16],
}

impl Default for Tunnel {
    /// No tunnel: version 4 and zeros.
    fn default() -> Self {
        Self {
            teid: 0,
            version: 4,
            peer_address: [0; 16],
        }
    }
}

/// C's `struct testkit_elements`: 0, the version of the peer's address and the TEID, or the number of a
/// refusal, version 4 and 0.
#[repr(C)]
pub struct TestkitElements {
    number: u8,
    version: u8,
    teid: u32,
}

/// What the walk over elements answers, and what is then in the address that was lent to it.
#[derive(Debug, Clone, Copy, PartialEq, Eq)]
pub struct Elements {
    pub number: u8,
    pub version: u8,
    pub teid: u32,
    pub peer_address: [u8; 16],
}

impl Elements {
    /// What is due beside this number: 0 and the tunnel; or a refusal and none, which leaves the address
    /// as it was lent.
    pub fn new(number: u8, tunnel: Tunnel) -> Self {
        Self {
            number,
            version: tunnel.version,
            teid: tunnel.teid,
            peer_address: match number {
                0 => tunnel.peer_address,
                _ => DIRTY_ADDRESS,
            },
        }
    }
}

/// C's `struct testkit_budget`.
#[repr(C)]
#[derive(Debug, Clone, Copy, Default, PartialEq, Eq)]
pub struct Budget {
    pub max_lost_packets: u64,
    pub max_consecutive_lost_packets: u64,
    pub outage_budget_ns: u64,
}

impl From<PacketContinuityBudget> for Budget {
    fn from(budget: PacketContinuityBudget) -> Self {
        Self {
            max_lost_packets: budget.max_lost_packets,
            max_consecutive_lost_packets: budget.max_consecutive_lost_packets,
            outage_budget_ns: budget.outage_budget_ns,
        }
    }
}

/// C's `struct testkit_verdict`: 0 or the reason, the report's number and the budget's.
#[repr(C)]
#[derive(Debug, Clone, Copy, Default, PartialEq, Eq)]
pub struct Verdict {
    pub reason: u8,
    pub measured: u64,
    pub allowed: u64,
}

/// C's `struct testkit_continuity_report`: 0 and the report, or the number of a refusal and nothing
/// but zeros.
#[repr(C)]
#[derive(Debug, Clone, Copy, Default, PartialEq, Eq)]
pub struct Report {
    pub number: u8,
    pub window_start_ns: u64,
    pub window_end_ns: u64,
    pub sent_packets: u64,
    pub received_packets: u64,
    pub lost_packets: u64,
    pub duplicate_packets: u64,
    pub out_of_order_packets: u64,
    pub gtpu_error_indications: u64,
    pub max_consecutive_lost_packets: u64,
    pub max_gap_duration_ns: u64,
    pub has_latency: bool,
    pub min_ns: u64,
    pub max_ns: u64,
    pub avg_ns: u64,
    pub budget: Budget,
    pub forwarding_proven: bool,
    pub packet_continuity_proven: bool,
}

/// What a call on a run sheet answers: 0 or the number of a refusal. A datagram that is not
/// refused was one of: 1 measurement, 2 error indication, 3 echo response, 4 ignored, and then
/// its message's type. The tunnel is the one that an error indication names, or none.
#[derive(Debug, Clone, Copy, Default, PartialEq, Eq)]
pub struct Noted {
    pub number: u8,
    pub outcome: u8,
    pub message_type: u8,
    pub tunnel: Tunnel,
}

/// A run sheet: the columns, which may differ in length, and the counts.
#[derive(Debug, Clone, PartialEq, Eq)]
pub struct RunSheet {
    pub sequences: Vec<u64>,
    pub send_timestamps: Vec<u64>,
    pub latencies: Vec<u64>,
    pub marks: Vec<u8>,
    pub arrival_timestamps: Vec<u64>,
    pub counts: Counts,
}

impl Engine {
    pub fn with_first_sequence(first_sequence: u64) -> Self {
        Self {
            next_sequence: first_sequence,
        }
    }

    /// How big a plan will be that starts at the engine's next sequence. Of `first` only the version and
    /// the send time count.
    pub fn forecast(&self, first: &Values, packet_count: u64, target_rate_pps: u64) -> Forecast {
        let plan = Plan {
            packet_count,
            target_rate_pps,
            first_send_timestamp_ns: first.send_timestamp_ns,
        };
        // SAFETY: the call is handed values, and lent nothing.
        unsafe { testkit_forecast(first.version, plan, self.next_sequence) }
    }

    /// Writes the packets of a plan, end to end, and moves the next sequence on. `first` is what
    /// the first of them says; its sequence is the engine's.
    pub fn generate(
        &mut self,
        first: &Values,
        packet_count: u64,
        target_rate_pps: u64,
        out: &mut [u8],
    ) -> Written {
        // SAFETY: the call reads two addresses, writes the next sequence and at most `out_length`
        // bytes to `out`; all are lent for as long as it runs, the last two to it alone.
        unsafe {
            testkit_generate(
                first.version,
                &first.src,
                &first.dst,
                first.src_port,
                first.dst_port,
                Plan {
                    packet_count,
                    target_rate_pps,
                    first_send_timestamp_ns: first.send_timestamp_ns,
                },
                &mut self.next_sequence,
                out.as_mut_ptr(),
                out.len(),
            )
        }
    }
}

/// The walk over the elements of an Error Indication as C does it: the peer's address goes into what is
/// lent for it.
pub fn validate_elements_into(payload: &[u8], peer_address: &mut [u8; 16]) -> TestkitElements {
    let payload = lent(payload);
    // SAFETY: the call reads `length` bytes from `payload` and writes an address; both are lent for as
    // long as it runs, and the address to it alone.
    unsafe { testkit_validate_elements(payload.as_ptr(), payload.len(), peer_address) }
}

/// The walk over the elements of an Error Indication: 0 and the tunnel that they name, or the number of
/// a refusal and none (version 4, TEID 0, the address as it was lent).
pub fn validate_elements(payload: &[u8]) -> Elements {
    let mut peer_address = DIRTY_ADDRESS;
    let answer = validate_elements_into(payload, &mut peer_address);
    Elements {
        number: answer.number,
        version: answer.version,
        teid: answer.teid,
        peer_address,
    }
}

/// A call that writes to a run sheet: the columns with their lengths and the counts, then the rest.
macro_rules! on_sheet {
    ($call:ident, $sheet:expr, $($rest:expr),+) => {
        $call(
            $sheet.sequences.as_mut_ptr(),
            $sheet.sequences.len(),
            $sheet.send_timestamps.as_mut_ptr(),
            $sheet.send_timestamps.len(),
            $sheet.latencies.as_mut_ptr(),
            $sheet.latencies.len(),
            $sheet.marks.as_mut_ptr(),
            $sheet.marks.len(),
            $sheet.arrival_timestamps.as_mut_ptr(),
            $sheet.arrival_timestamps.len(),
            $sheet.counts,
            $($rest),+
        )
    };
}

impl Report {
    /// The verdict on its figures against a budget, its own or another.
    pub fn judge(&self, budget: Budget) -> Verdict {
        // SAFETY: the call takes and answers by value.
        unsafe { testkit_judge_report(*self, budget) }
    }
}

impl RunSheet {
    /// How many columns a sheet has.
    pub const COLUMNS: usize = 5;

    /// A fresh sheet with columns of these lengths, whose cells hold these numbers, column by column.
    pub fn fresh(lengths: [usize; Self::COLUMNS], mut cell: impl FnMut() -> u64) -> Self {
        let mut column = |length| (0..length).map(|_| cell()).collect::<Vec<_>>();
        let [sequences, send_timestamps, latencies, marks, arrival_timestamps] = lengths;
        Self {
            sequences: column(sequences),
            send_timestamps: column(send_timestamps),
            latencies: column(latencies),
            marks: column(marks).into_iter().map(|cell| cell as u8).collect(),
            arrival_timestamps: column(arrival_timestamps),
            counts: Counts::default(),
        }
    }

    pub fn record_sent(&mut self, sequence: u64, send_timestamp_ns: u64) -> Noted {
        // SAFETY: each column is lent with its length for as long as the call runs, and to it
        // alone.
        let recorded = unsafe { on_sheet!(testkit_record_sent, self, sequence, send_timestamp_ns) };
        self.recorded(recorded)
    }

    pub fn record_received_tpdu(&mut self, return_timestamp_ns: u64, tpdu: &[u8]) -> Noted {
        let tpdu = lent(tpdu);
        // SAFETY: as in `record_sent`; the call reads `length` bytes from `tpdu`.
        let recorded = unsafe {
            on_sheet!(
                testkit_record_received_tpdu,
                self,
                return_timestamp_ns,
                tpdu.as_ptr(),
                tpdu.len()
            )
        };
        self.recorded(recorded)
    }

    /// Enters the packets of a plan, all or none: 0, or the number of a refusal.
    pub fn record_sent_plan(
        &mut self,
        packet_count: u64,
        target_rate_pps: u64,
        first_send_timestamp_ns: u64,
        next_sequence: u64,
    ) -> u8 {
        let plan = Plan {
            packet_count,
            target_rate_pps,
            first_send_timestamp_ns,
        };
        // SAFETY: as in `record_sent`.
        let recorded = unsafe { on_sheet!(testkit_record_sent_plan, self, plan, next_sequence) };
        self.recorded(recorded).number
    }

    /// Takes a list of T-PDUs that came back, end to end in `tpdus`: how many they were, and 0 or the
    /// number of a refusal of the whole list. The sequence that each has and its number are written
    /// to the last two columns.
    pub fn record_received_tpdus(
        &mut self,
        return_timestamps: &[u64],
        lengths: &[usize],
        tpdus: &[u8],
        returned: &mut [u64],
        numbers: &mut [u8],
    ) -> (usize, u8) {
        // SAFETY: as in `record_sent`; the call reads three more columns and writes two, each lent
        // with its length for as long as it runs.
        let recorded = unsafe {
            on_sheet!(
                testkit_record_received_tpdus,
                self,
                return_timestamps.as_ptr(),
                return_timestamps.len(),
                lengths.as_ptr(),
                lengths.len(),
                tpdus.as_ptr(),
                tpdus.len(),
                returned.as_mut_ptr(),
                returned.len(),
                numbers.as_mut_ptr(),
                numbers.len()
            )
        };
        self.counts = recorded.counts;
        (recorded.returns, recorded.number)
    }

    /// Takes a message as C does: the answer stays where the call writes it.
    pub fn record_return_gtpu_datagram_as_c(
        &mut self,
        return_timestamp_ns: u64,
        message_type: u8,
        payload: &[u8],
    ) -> TestkitDatagramRecorded {
        let payload = lent(payload);
        // SAFETY: as in `record_sent`; the call reads `length` bytes from `payload`.
        let message = unsafe {
            on_sheet!(
                testkit_record_return_gtpu_datagram,
                self,
                return_timestamp_ns,
                message_type,
                payload.as_ptr(),
                payload.len()
            )
        };
        self.counts = message.counts;
        message
    }

    pub fn record_return_gtpu_datagram(
        &mut self,
        return_timestamp_ns: u64,
        message_type: u8,
        payload: &[u8],
    ) -> Noted {
        let message =
            self.record_return_gtpu_datagram_as_c(return_timestamp_ns, message_type, payload);
        Noted {
            number: message.number,
            outcome: message.outcome,
            message_type: message.message_type,
            tunnel: Tunnel {
                teid: message.refused_teid,
                version: message.peer_version,
                peer_address: message.peer_address,
            },
        }
    }

    pub fn report(
        &self,
        window_start: u64,
        window_end: u64,
        budget: PacketContinuityBudget,
    ) -> Report {
        // SAFETY: each column is lent with its length for as long as the call runs, which reads.
        unsafe {
            testkit_report(
                self.sequences.as_ptr(),
                self.sequences.len(),
                self.send_timestamps.as_ptr(),
                self.send_timestamps.len(),
                self.latencies.as_ptr(),
                self.latencies.len(),
                self.marks.as_ptr(),
                self.marks.len(),
                self.arrival_timestamps.as_ptr(),
                self.arrival_timestamps.len(),
                self.counts,
                window_start,
                window_end,
                budget.into(),
            )
        }
    }

    fn recorded(&mut self, recorded: TestkitRecorded) -> Noted {
        self.counts = recorded.counts;
        Noted {
            number: recorded.number,
            ..Noted::default()
        }
    }
}
