//! Stands in for the crate `bytes`, so that the build fetches nothing.
//!
//! Serves gtpu.rs (`Bytes::copy_from_slice`, `BytesMut::new`, `to_vec`), traffic.rs and
//! reflector.rs (`as_ref`), and the stand-in codec (`extend_from_slice`). Nothing is shared
//! here: each value owns its bytes.

use std::ops::Deref;

/// Bytes that no longer change.
#[derive(Debug, Clone, PartialEq, Eq)]
pub struct Bytes(Vec<u8>);

impl Bytes {
    pub fn copy_from_slice(data: &[u8]) -> Self {
        Self(data.to_vec())
    }
}

impl AsRef<[u8]> for Bytes {
    fn as_ref(&self) -> &[u8] {
        &self.0
    }
}

/// Bytes that grow at their end.
#[derive(Debug, Default)]
pub struct BytesMut(Vec<u8>);

impl BytesMut {
    pub fn new() -> Self {
        Self::default()
    }

    pub fn extend_from_slice(&mut self, extend: &[u8]) {
        self.0.extend_from_slice(extend);
    }
}

impl Deref for BytesMut {
    type Target = [u8];

    fn deref(&self) -> &[u8] {
        &self.0
    }
}
