//! Stands in for the crate `opc_protocol`, whose source is not in this repository.
//!
//! Serves gtpu.rs: the three codec traits that it calls (`GtpuMessage::decode`,
//! `OwnedGtpuMessage::decode_owned`, `encode`) and the contexts that it hands to them. The
//! stand-in codec looks at no context.

use std::fmt::Display;

use bytes::{Bytes, BytesMut};

#[derive(Debug, Clone, Copy, Default)]
pub enum ValidationLevel {
    #[default]
    Structural,
}

#[derive(Debug, Clone, Copy, Default)]
pub enum UnknownIePolicy {
    #[default]
    Preserve,
}

#[derive(Debug, Clone, Copy, Default)]
pub struct DecodeContext {
    pub validation_level: ValidationLevel,
    pub unknown_ie_policy: UnknownIePolicy,
    /// In place of the fields that gtpu.rs leaves at their defaults.
    pub others: (),
}

#[derive(Debug, Clone, Copy, Default)]
pub struct EncodeContext {
    /// In place of its fields, none of which gtpu.rs names.
    pub others: (),
}

/// Reads a message that borrows from its input; gives what is left of the input, too.
pub trait BorrowDecode<'a>: Sized {
    type Error: Display;

    fn decode(input: &'a [u8], ctx: DecodeContext) -> Result<(&'a [u8], Self), Self::Error>;
}

/// Reads a message that owns its bytes.
pub trait OwnedDecode: Sized {
    type Error: Display;

    fn decode_owned(input: Bytes, ctx: DecodeContext) -> Result<Self, Self::Error>;
}

/// Writes a message at the end of `out`.
pub trait Encode {
    type Error: Display;

    fn encode(&self, out: &mut BytesMut, ctx: EncodeContext) -> Result<(), Self::Error>;
}
