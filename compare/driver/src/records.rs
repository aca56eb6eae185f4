//! What every record of the sample (`sample.rs`) is drawn and written with.

/// What an output has in it before a call.
pub const DIRT: u8 = 0xa5;

/// The rows of a run sheet, lent or not, and of a session table in the sample.
pub const ROWS: usize = 6;

/// The longest packet, payload and element list of the sample.
pub const MOST_BYTES: usize = 160;

/// What a drawn input gave: the number, or 0; which variety of that outcome; and the rest of the record.
pub type Drawn = (u8, u8, Vec<u8>);

/// A length in two bytes.
pub fn word(length: usize) -> [u8; 2] {
    u16::try_from(length).expect("two bytes").to_be_bytes()
}
