// Appended by testkit_open to a copy of measurement.rs: the original ends above this line.

/// `checksum`, which is private.
pub fn open_checksum(parts: &[&[u8]]) -> u16 {
    checksum(parts)
}
