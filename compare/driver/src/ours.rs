//! Our library, as C declares it, and a safe function for each of its calls on checksums and packets.
//! The unsafe code of the comparison is here, in `ours_traffic.rs` and in `ours_reflector.rs`.

unsafe extern "C" {
    fn testkit_checksum(bytes: *const u8, length: usize) -> u16;
    fn testkit_sum(start: u16, bytes: *const u8, length: usize) -> u16;
    fn testkit_verify(bytes: *const u8, length: usize) -> bool;
    fn testkit_build(
        version: u8,
        src: *const [u8; 16],
        dst: *const [u8; 16],
        src_port: u16,
        dst_port: u16,
        sequence: u64,
        send_timestamp_ns: u64,
        out: *mut u8,
        out_length: usize,
    ) -> Written;
    fn testkit_decode(
        tpdu: *const u8,
        length: usize,
        src: *mut [u8; 16],
        dst: *mut [u8; 16],
    ) -> TestkitTpdu;
    fn testkit_echo(tpdu: *const u8, length: usize, out: *mut u8, out_length: usize) -> Written;
}

/// C's `struct testkit_written`: 0 and how many bytes were written, or the number of a refusal
/// and 0.
#[repr(C)]
#[derive(Debug, Clone, Copy, PartialEq, Eq)]
pub struct Written {
    pub number: u8,
    pub bytes: usize,
}

/// C's `struct testkit_tpdu`: 0 and the values, or the number of a refusal and zeros.
#[repr(C)]
pub struct TestkitTpdu {
    number: u8,
    version: u8,
    src_port: u16,
    dst_port: u16,
    sequence: u64,
    send_timestamp_ns: u64,
}

/// The values of a T-PDU. Version 4 is IPv4 and any other IPv6; of an IPv4 address the first 4
/// bytes count.
#[derive(Debug, Clone, Copy, PartialEq, Eq)]
pub struct Values {
    pub version: u8,
    pub src: [u8; 16],
    pub dst: [u8; 16],
    pub src_port: u16,
    pub dst_port: u16,
    pub sequence: u64,
    pub send_timestamp_ns: u64,
}

/// What a call is lent to read. With the feature `exact` it is a copy on the heap that ends where
/// the list ends, so that memcheck sees a call that reads past what it was lent.
#[cfg(not(feature = "exact"))]
pub(crate) fn lent(list: &[u8]) -> &[u8] {
    list
}

#[cfg(feature = "exact")]
pub(crate) fn lent(list: &[u8]) -> Vec<u8> {
    list.to_vec()
}

/// RFC 1071's checksum: the complement of the sum, an odd last byte being a high half.
pub fn checksum(bytes: &[u8]) -> u16 {
    let bytes = lent(bytes);
    // SAFETY: the call reads `length` bytes from `bytes`, which are lent for as long as it runs.
    unsafe { testkit_checksum(bytes.as_ptr(), bytes.len()) }
}

/// The ones' complement sum of `start` and the 16-bit words of the bytes: 0 only if all are 0.
pub fn sum(start: u16, bytes: &[u8]) -> u16 {
    let bytes = lent(bytes);
    // SAFETY: as in `checksum`.
    unsafe { testkit_sum(start, bytes.as_ptr(), bytes.len()) }
}

/// Whether the sum of the bytes, their checksum among them, is 0xffff.
pub fn verify(bytes: &[u8]) -> bool {
    let bytes = lent(bytes);
    // SAFETY: as in `checksum`.
    unsafe { testkit_verify(bytes.as_ptr(), bytes.len()) }
}

/// Writes the T-PDU with these values.
pub fn build(values: &Values, out: &mut [u8]) -> Written {
    // SAFETY: the call reads two addresses and writes at most `out_length` bytes to `out`; all
    // are lent for as long as it runs, and `out` to it alone.
    unsafe {
        testkit_build(
            values.version,
            &values.src,
            &values.dst,
            values.src_port,
            values.dst_port,
            values.sequence,
            values.send_timestamp_ns,
            out.as_mut_ptr(),
            out.len(),
        )
    }
}

/// What stands in an address that is lent to the reader or to the element walk, and stays there where it
/// refuses.
pub const DIRTY_ADDRESS: [u8; 16] = [0xa5; 16];

/// Reads a T-PDU as C does: the addresses go into what is lent for them.
pub fn decode_into(tpdu: &[u8], src: &mut [u8; 16], dst: &mut [u8; 16]) -> TestkitTpdu {
    let tpdu = lent(tpdu);
    // SAFETY: the call reads `length` bytes from `tpdu` and writes two addresses; all are lent
    // for as long as it runs, and the addresses to it alone.
    unsafe { testkit_decode(tpdu.as_ptr(), tpdu.len(), src, dst) }
}

/// What is read from a T-PDU: 0 and the values, or the number of a refusal and no values
/// (version 4, the addresses as they were lent, all else 0).
pub fn decode(tpdu: &[u8]) -> (u8, Values) {
    let [mut src, mut dst] = [DIRTY_ADDRESS; 2];
    let read = decode_into(tpdu, &mut src, &mut dst);
    let values = Values {
        version: read.version,
        src,
        dst,
        src_port: read.src_port,
        dst_port: read.dst_port,
        sequence: read.sequence,
        send_timestamp_ns: read.send_timestamp_ns,
    };
    (read.number, values)
}

/// Writes the echo of a T-PDU.
pub fn echo(tpdu: &[u8], out: &mut [u8]) -> Written {
    let tpdu = lent(tpdu);
    // SAFETY: the call reads `length` bytes from `tpdu` and writes at most `out_length` bytes to
    // `out`; both are lent for as long as it runs, and `out` to it alone.
    unsafe { testkit_echo(tpdu.as_ptr(), tpdu.len(), out.as_mut_ptr(), out.len()) }
}
