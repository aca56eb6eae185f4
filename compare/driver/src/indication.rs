//! Which tunnel an Error Indication names: a model, since the Rust does not say. It is written from the
//! layout of information elements in 3GPP TS 29.281 and from document 02, job 7. Whether a list is accepted,
//! and by which number it is not, the Rust says.

use crate::ours_traffic::Tunnel;
use crate::packet::word;

/// The types of the two elements that an Error Indication must have: Tunnel Endpoint Identifier Data I
/// and GTP-U Peer Address.
pub const TEID_DATA_I: u8 = 16;
pub const PEER_ADDRESS: u8 = 133;

/// The octets of a TEID, and of an IPv4 and an IPv6 address.
pub const TEID: usize = 4;
pub const IPV4: usize = 4;
pub const IPV6: usize = 16;

/// An information element: its type and its value.
pub type Element<'a> = (u8, &'a [u8]);

/// The tunnel that is due where the Rust answers a list by this number, 0 if it accepts it: "the first
/// element 16 and the first element 133 of an accepted list", and none beside a refusal.
pub fn due_tunnel(list: &[u8], number: u8) -> Tunnel {
    if number != 0 {
        return Tunnel::default();
    }
    let (elements, rest) = cut(list);
    assert!(rest.is_empty(), "an accepted list is cut to its end");
    let first = |wanted| {
        let mut elements = elements.iter();
        let (_, value) = elements.find(|(element_type, _)| *element_type == wanted)?;
        Some(*value)
    };
    let teid = first(TEID_DATA_I).expect("an accepted list has a 16");
    let address = first(PEER_ADDRESS).expect("an accepted list has a 133");
    let mut peer_address = [0; IPV6];
    peer_address[..address.len()].copy_from_slice(address);
    Tunnel {
        teid: u32::from_be_bytes(teid.try_into().expect("4 octets")),
        version: match address.len() {
            IPV4 => 4,
            _ => 6,
        },
        peer_address,
    }
}

/// Cuts a list into elements: those at its front that are whole, and what is left.
pub fn cut(list: &[u8]) -> (Vec<Element<'_>>, &[u8]) {
    let (mut elements, mut rest) = (Vec::new(), list);
    while let Some((element, behind)) = cut_first(rest) {
        elements.push(element);
        rest = behind;
    }
    (elements, rest)
}

/// The element at the front, and what lies behind it. An element whose type is below 128 has no length
/// field, and of these TEID Data I alone may occur; from 128 on the length of the value is in two octets.
/// An address of another length than these two is none.
fn cut_first(list: &[u8]) -> Option<(Element<'_>, &[u8])> {
    let (&element_type, behind) = list.split_first()?;
    let (length, behind) = match element_type {
        TEID_DATA_I => (TEID, behind),
        0..128 => return None,
        _ => {
            let (length, behind) = behind.split_at_checked(2)?;
            (usize::from(word(length, 0)), behind)
        }
    };
    if element_type == PEER_ADDRESS && length != IPV4 && length != IPV6 {
        return None;
    }
    let (value, behind) = behind.split_at_checked(length)?;
    Some(((element_type, value), behind))
}
