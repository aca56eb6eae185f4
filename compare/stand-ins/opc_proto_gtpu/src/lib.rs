//! Stands in for the crate `opc_proto_gtpu`, the GTP-U header codec, whose source is not in this
//! repository, and which is no part of the port.
//!
//! Serves gtpu.rs, which decodes datagrams with it and encodes answers, and the driver, which
//! hands the Rust a message that is already parsed. So a "datagram" here has a private form that
//! carries a message and nothing else; no byte of it is compared:
//!
//! | bytes  | what                                          |
//! |--------|-----------------------------------------------|
//! | 0      | message type                                  |
//! | 1 to 4 | TEID, big-endian                              |
//! | 5      | 1 if there is a sequence number, else 0       |
//! | 6, 7   | the sequence number, big-endian; 0 if none    |
//! | from 8 | payload, at most 65,535 bytes                 |

use bytes::{Bytes, BytesMut};
use opc_protocol::{BorrowDecode, DecodeContext, Encode, EncodeContext, OwnedDecode};

/// The longest payload of a message.
pub const MAX_PAYLOAD: usize = 65_535;

const PAYLOAD_AT: usize = 8;

/// The fields that gtpu.rs fills in. This form carries type, TEID and sequence number.
#[derive(Debug, Clone, Copy, Default)]
pub struct GtpuHeader {
    pub version: u8,
    pub protocol_type: bool,
    pub reserved: u8,
    pub ext_hdr_flag: bool,
    pub seq_num_flag: bool,
    pub npdu_num_flag: bool,
    pub message_type: u8,
    pub length: u16,
    pub teid: u32,
    pub sequence_number: Option<u16>,
    pub npdu_number: Option<u8>,
    pub next_ext_type: Option<u8>,
    pub raw_sequence_number: Option<u16>,
    pub raw_npdu_number: Option<u8>,
    pub raw_next_ext_type: Option<u8>,
}

/// A message that borrows its payload.
#[derive(Debug, Clone, Copy)]
pub struct GtpuMessage<'a> {
    pub header: GtpuHeader,
    pub raw_extension_headers: &'a [u8],
    pub payload: &'a [u8],
}

/// A message that owns its payload.
#[derive(Debug, Clone)]
pub struct OwnedGtpuMessage {
    pub header: GtpuHeader,
    pub payload: Bytes,
}

/// The private form of a message.
pub fn to_datagram(
    message_type: u8,
    teid: u32,
    sequence_number: Option<u16>,
    payload: &[u8],
) -> Result<Vec<u8>, &'static str> {
    if payload.len() > MAX_PAYLOAD {
        return Err("the payload is longer than 65,535 bytes");
    }
    let mut datagram = Vec::with_capacity(PAYLOAD_AT + payload.len());
    datagram.push(message_type);
    datagram.extend_from_slice(&teid.to_be_bytes());
    datagram.push(u8::from(sequence_number.is_some()));
    datagram.extend_from_slice(&sequence_number.unwrap_or(0).to_be_bytes());
    datagram.extend_from_slice(payload);
    Ok(datagram)
}

/// The message in a datagram of the private form.
pub fn from_datagram(datagram: &[u8]) -> Result<(GtpuHeader, &[u8]), &'static str> {
    let Some((&[message_type, t0, t1, t2, t3, numbered, s0, s1], payload)) =
        datagram.split_first_chunk::<PAYLOAD_AT>()
    else {
        return Err("shorter than the private form's 8 bytes");
    };
    if numbered > 1 || payload.len() > MAX_PAYLOAD {
        return Err("not of the private form");
    }
    let header = GtpuHeader {
        message_type,
        teid: u32::from_be_bytes([t0, t1, t2, t3]),
        sequence_number: (numbered == 1).then_some(u16::from_be_bytes([s0, s1])),
        ..GtpuHeader::default()
    };
    Ok((header, payload))
}

impl<'a> BorrowDecode<'a> for GtpuMessage<'a> {
    type Error = &'static str;

    fn decode(input: &'a [u8], _ctx: DecodeContext) -> Result<(&'a [u8], Self), Self::Error> {
        let (header, payload) = from_datagram(input)?;
        let message = GtpuMessage {
            header,
            raw_extension_headers: &[],
            payload,
        };
        Ok((&[], message))
    }
}

impl OwnedDecode for OwnedGtpuMessage {
    type Error = &'static str;

    fn decode_owned(input: Bytes, _ctx: DecodeContext) -> Result<Self, Self::Error> {
        let (header, payload) = from_datagram(input.as_ref())?;
        Ok(OwnedGtpuMessage {
            header,
            payload: Bytes::copy_from_slice(payload),
        })
    }
}

impl Encode for GtpuMessage<'_> {
    type Error = &'static str;

    fn encode(&self, out: &mut BytesMut, _ctx: EncodeContext) -> Result<(), Self::Error> {
        let GtpuHeader {
            message_type,
            teid,
            sequence_number,
            ..
        } = self.header;
        let datagram = to_datagram(message_type, teid, sequence_number, self.payload)?;
        out.extend_from_slice(&datagram);
        Ok(())
    }
}
