//! gtpu.rs: messages, and the walk over the elements of an Error Indication.

use opc_proto_gtpu::{from_datagram, to_datagram};
use testkit_open::gtpu;

use super::{outcome, Outcome};

/// A parsed GTP-U message. The stand-in codec carries it into the Rust and out again.
#[derive(Debug, Clone, PartialEq, Eq)]
pub struct Message {
    pub message_type: u8,
    pub teid: u32,
    pub sequence: Option<u16>,
    /// At most 65,535 bytes.
    pub payload: Vec<u8>,
}

impl Message {
    pub(super) fn to_datagram(&self) -> Vec<u8> {
        to_datagram(self.message_type, self.teid, self.sequence, &self.payload)
            .expect("a payload is at most 65,535 bytes")
    }

    pub(super) fn from_datagram(datagram: &[u8]) -> Self {
        let (header, payload) = from_datagram(datagram).expect("the codec wrote it");
        Self {
            message_type: header.message_type,
            teid: header.teid,
            sequence: header.sequence_number,
            payload: payload.to_vec(),
        }
    }
}

pub fn validate_error_indication_ies(elements: &[u8]) -> Outcome<()> {
    outcome(gtpu::validate_error_indication_ies(elements))
}
