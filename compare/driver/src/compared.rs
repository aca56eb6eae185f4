//! Which T-PDUs are compared with the Rust, and as which number each of ours is compared: for the
//! driver what crates/rust_reference/specs/Compared.antt is for the claims. A change that makes the
//! readers differ is stated here and there, and nowhere else. Where the Rust has one error for two
//! numbers of ours, this file also says which of the two is due; and what is due of a T-PDU that is not
//! compared.

use std::borrow::Cow;

use crate::numbers::{
    INVALID_IPV4_HEADER_CHECKSUM, INVALID_IPV4_IHL, INVALID_IPV6_PAYLOAD_LENGTH,
    INVALID_UDP_LENGTH, IPV4_FRAGMENT, MEASUREMENT_MAGIC_MISMATCH, READING_IPV4, READING_IPV6,
    TRUNCATED_IPV4_UDP_PACKET, TRUNCATED_IP_HEADER,
};
use crate::ours::{Values, Written};
use crate::ours_reflector::{Handled, Registered};
use crate::ours_traffic::{Elements, Noted};
use crate::packet::{
    ipv4_ihl, is_ipv4_fragment, part_range, set_lengths, sum_header_again, udp_length, version,
    UDP_HEADER,
};
use crate::part::Part;
use crate::rfc;
use crate::rust_side::measurement::{build, decode};
use crate::rust_side::Outcome;

/// `asTheRustTells`: a number of ours, as the Rust tells refusals apart. 39 is compared as 4, since the
/// Rust has one text for both (document 02, job 3), and every other number as itself.
pub fn as_the_rust_tells(number: u8) -> u8 {
    match number {
        TRUNCATED_IPV4_UDP_PACKET => INVALID_IPV4_IHL,
        _ => number,
    }
}

/// The number by which ours has to refuse a T-PDU that the Rust's reader refuses by `rust`: document 02,
/// job 3, tells apart what the Rust does not. "Number 4 keeps the IHL below 5."
pub fn told_apart(tpdu: &[u8], rust: u8) -> u8 {
    match rust {
        INVALID_IPV4_IHL if ipv4_ihl(tpdu) >= 5 => TRUNCATED_IPV4_UDP_PACKET,
        _ => rust,
    }
}

/// Why a T-PDU is not compared.
#[derive(PartialEq, Eq)]
enum LeftOut {
    /// It is an IPv4 fragment (document 02, job 1).
    Fragment,
    /// No cause before 10 refuses it, and its UDP length is not the length of its part (job 6).
    Unfilled,
}

/// `Compared`: whether a T-PDU is compared. Every one is, whatever its bytes and its length, but for
/// these two. It is asked where a T-PDU is read: by the reader and the echo, in a return, and in a G-PDU
/// that is echoed.
pub fn compared(tpdu: &[u8]) -> bool {
    left_out(tpdu).is_none()
}

fn left_out(tpdu: &[u8]) -> Option<LeftOut> {
    if is_ipv4_fragment(tpdu) {
        Some(LeftOut::Fragment)
    } else if udp_length(tpdu) != part_range(tpdu).len() && !is_refused_before_udp(tpdu) {
        Some(LeftOut::Unfilled)
    } else {
        None
    }
}

/// Both sides judge 1 to 9 before all else, on the same bytes.
fn is_refused_before_udp(tpdu: &[u8]) -> bool {
    let judged_before = TRUNCATED_IP_HEADER..=INVALID_IPV6_PAYLOAD_LENGTH;
    decode(tpdu).is_err_and(|number| judged_before.contains(&number))
}

/// The number of a cause that the Rust does not judge and that the card does not mark as added: what
/// has it is not compared.
pub const NOT_COMPARED: &[u8] = &[IPV4_FRAGMENT];

/// The number of a cause that the Rust judges and that no compared T-PDU has: a UDP length that fills its
/// part is neither under 8 nor past the part.
pub const NEVER_COMPARED: &[u8] = &[INVALID_UDP_LENGTH];

/// `dueOfAFragment`: the number by which ours has to refuse a fragment, where the Rust's reader
/// answers `rust`, 0 if it reads it. 1 to 7 are judged before 38, and everything else after it.
fn due_of_a_fragment(rust: u8) -> u8 {
    match rust {
        TRUNCATED_IP_HEADER..=INVALID_IPV4_HEADER_CHECKSUM => rust,
        _ => IPV4_FRAGMENT,
    }
}

/// What the Rust is given in the place of a T-PDU: the T-PDU, if it is compared; and if it is not, but
/// ours has to read it, the built packet with the same probe. Otherwise the number by which ours has to
/// refuse it. Those that are not compared are counted.
pub fn stand_in<'a>(part: &mut Part, tpdu: &'a [u8]) -> Outcome<Cow<'a, [u8]>> {
    match left_out(tpdu) {
        None => Ok(Cow::Borrowed(tpdu)),
        Some(LeftOut::Fragment) => {
            part.leave_out_fragment();
            Err(due_of_a_fragment(decode(tpdu).err().unwrap_or(0)))
        }
        Some(LeftOut::Unfilled) => {
            let read = rfc::read(tpdu);
            part.leave_out_unfilled(version(tpdu), read.err().unwrap_or(0));
            read.map(|probe| Cow::Owned(build(probe)))
        }
    }
}

/// What is due of ours where the Rust answers a T-PDU by this call.
pub fn due<T>(part: &mut Part, tpdu: &[u8], rust: fn(&[u8]) -> Outcome<T>) -> Outcome<T> {
    rust(&stand_in(part, tpdu)?)
}

/// An unfilled T-PDU without the bytes of its part that lie behind the UDP length, the IP header made
/// right: it is compared, and ours has to answer the same to both. None if there are no such bytes.
pub fn without_padding(tpdu: &[u8]) -> Option<Vec<u8>> {
    let (part, udp_length) = (part_range(tpdu), udp_length(tpdu));
    let is_padded = (UDP_HEADER..part.len()).contains(&udp_length);
    if !is_padded || left_out(tpdu) != Some(LeftOut::Unfilled) {
        return None;
    }
    let mut bare = tpdu.to_vec();
    bare.drain(part.start + udp_length..part.end);
    set_lengths(&mut bare, udp_length - UDP_HEADER, 0);
    sum_header_again(&mut bare);
    Some(bare)
}

/// The part fails unless each outcome that an unfilled T-PDU can have was due in it, in both versions.
pub fn require_unfilled(part: &mut Part) {
    let judged_on_udp = INVALID_UDP_LENGTH..=MEASUREMENT_MAGIC_MISMATCH;
    let mut outcomes = Vec::new();
    for (version, numbers) in [(4, READING_IPV4), (6, READING_IPV6)] {
        outcomes.push((version, 0));
        let numbers = numbers
            .iter()
            .filter(|number| judged_on_udp.contains(number));
        outcomes.extend(numbers.map(|&number| (version, number)));
    }
    outcomes.sort();
    part.case(&[], part.unfilled_outcomes(), outcomes);
}

/// An answer, which has a number.
pub trait Answer: Sized {
    fn number(&mut self) -> &mut u8;

    /// `told`: the answer, in the numbers that are compared; and in front of it its own number.
    fn told(mut self) -> (u8, Self) {
        let number = self.number();
        let own = *number;
        *number = as_the_rust_tells(own);
        (own, self)
    }

    /// What `told` has to give where the Rust answers this to a call that reads a T-PDU, or none.
    fn due(mut self, tpdu: &[u8]) -> (u8, Self) {
        (told_apart(tpdu, *self.number()), self)
    }
}

impl Answer for u8 {
    fn number(&mut self) -> &mut u8 {
        self
    }
}

impl Answer for (u8, Values) {
    fn number(&mut self) -> &mut u8 {
        &mut self.0
    }
}

impl Answer for Written {
    fn number(&mut self) -> &mut u8 {
        &mut self.number
    }
}

impl Answer for Elements {
    fn number(&mut self) -> &mut u8 {
        &mut self.number
    }
}

impl Answer for Noted {
    fn number(&mut self) -> &mut u8 {
        &mut self.number
    }
}

impl Answer for Registered {
    fn number(&mut self) -> &mut u8 {
        &mut self.number
    }
}

impl Answer for Handled {
    fn number(&mut self) -> &mut u8 {
        &mut self.number
    }
}
