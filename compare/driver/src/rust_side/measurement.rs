//! measurement.rs: checksum, building, reading, echo.

use std::net::SocketAddr;

use testkit_open::measurement::{self, DecodedTpdu, InnerIpFlow};

use super::{outcome, Outcome};

/// Where a T-PDU comes from and where it goes to. (The Rust's own type hides its addresses when
/// it is printed.)
#[derive(Debug, Clone, Copy, PartialEq, Eq)]
pub struct Flow {
    pub source: SocketAddr,
    pub destination: SocketAddr,
}

impl Flow {
    pub fn new(source: impl Into<SocketAddr>, destination: impl Into<SocketAddr>) -> Self {
        Self {
            source: source.into(),
            destination: destination.into(),
        }
    }

    pub fn reversed(self) -> Self {
        Self::new(self.destination, self.source)
    }
}

impl From<Flow> for InnerIpFlow {
    fn from(flow: Flow) -> Self {
        match (flow.source, flow.destination) {
            (SocketAddr::V4(source), SocketAddr::V4(destination)) => InnerIpFlow::Ipv4 {
                src: *source.ip(),
                dst: *destination.ip(),
                src_port: source.port(),
                dst_port: destination.port(),
            },
            (SocketAddr::V6(source), SocketAddr::V6(destination)) => InnerIpFlow::Ipv6 {
                src: *source.ip(),
                dst: *destination.ip(),
                src_port: source.port(),
                dst_port: destination.port(),
            },
            _ => panic!("a flow has one IP version: {flow:?}"),
        }
    }
}

impl From<InnerIpFlow> for Flow {
    fn from(flow: InnerIpFlow) -> Self {
        match flow {
            InnerIpFlow::Ipv4 {
                src,
                dst,
                src_port,
                dst_port,
            } => Flow::new((src, src_port), (dst, dst_port)),
            InnerIpFlow::Ipv6 {
                src,
                dst,
                src_port,
                dst_port,
            } => Flow::new((src, src_port), (dst, dst_port)),
        }
    }
}

/// What is read from a T-PDU.
#[derive(Debug, Clone, Copy, PartialEq, Eq)]
pub struct Probe {
    pub flow: Flow,
    pub sequence: u64,
    pub send_timestamp_ns: u64,
}

/// The Rust pads each part with a zero byte if it is odd: the parts are one list cut in pieces
/// only where all but the last are even.
pub fn checksum(parts: &[&[u8]]) -> u16 {
    measurement::open_checksum(parts)
}

pub fn build(probe: Probe) -> Vec<u8> {
    measurement::build_measurement_tpdu(probe.flow.into(), probe.sequence, probe.send_timestamp_ns)
        .expect("a flow, a sequence and a time are always built")
}

pub fn decode(tpdu: &[u8]) -> Outcome<Probe> {
    let DecodedTpdu { flow, measurement } = outcome(measurement::decode_measurement_tpdu(tpdu))?;
    Ok(Probe {
        flow: flow.into(),
        sequence: measurement.sequence,
        send_timestamp_ns: measurement.send_timestamp_ns,
    })
}

pub fn echo(tpdu: &[u8]) -> Outcome<Vec<u8>> {
    outcome(measurement::echo_tpdu(tpdu))
}
