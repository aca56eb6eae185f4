//! What the tunnel of an Error Indication is tried on: lists of elements, accepted and refused, and how
//! often they had what the rule is about. Nothing here is drawn for the kept sample (`sample.rs`).

use std::collections::BTreeSet;
use std::ops::Range;

use crate::indication::{cut, IPV4, IPV6, PEER_ADDRESS, TEID, TEID_DATA_I};
use crate::lists::each_list;
use crate::numbers::{
    INVALID_PEER_ADDRESS_LENGTH, MISSING_PEER_ADDRESS, MISSING_TEID_DATA_I, TRUNCATED_ELEMENT,
    UNSUPPORTED_FIXED_LENGTH_ELEMENT,
};
use crate::part::Part;
use crate::random::Random;
use crate::rust_side::gtpu::validate_error_indication_ies;
use crate::seen::{Met, Situation};

/// Our walk calls itself for so many elements, and is then started again.
const STARTED_AGAIN: usize = 16;

/// From this length on a value is long: the first byte of its length is not 0.
const LONG: usize = 256;

/// What an element is.
#[derive(Clone, Copy)]
enum Kind {
    Teid,
    Ipv4,
    Ipv6,
    /// Of another type, without a value.
    Empty,
    /// Of another type, and its value looks like a 16 and a 133.
    Alike,
    /// Of another type, with any value.
    Other,
}

use Kind::{Alike, Empty, Ipv4, Ipv6, Other, Teid};

const KINDS: [Kind; 6] = [Teid, Ipv4, Ipv6, Empty, Alike, Other];
const ADDRESSES: [Kind; 2] = [Ipv4, Ipv6];
const OTHERS: [Kind; 3] = [Empty, Alike, Other];

/// How many elements the lists have in which each of the two that are needed has every place.
const COUNTS: [usize; 5] = [17, 18, 33, 34, 49];

/// What a list is refused by that ends so, whatever stands before it: an element that is cut, in its length
/// or in its value; an address of another length; a type that is not known.
const CAUSES: [&[u8]; 18] = [
    &[16],
    &[16, 1, 2, 3],
    &[133],
    &[133, 0],
    &[133, 0, 4, 1, 2, 3],
    &[133, 0, 16, 1, 2, 3, 4],
    &[128],
    &[255, 0],
    &[200, 0, 1],
    &[129, 255, 255, 16, 1, 2, 3, 4, 133, 0, 4, 1, 2, 3, 4],
    &[133, 0, 0],
    &[133, 0, 5, 1, 2, 3, 4, 5],
    &[133, 0, 15, 16, 1, 2, 3, 4],
    &[133, 4, 0, 16, 1, 2, 3, 4],
    &[0],
    &[15],
    &[17, 0, 0, 0, 9],
    &[127],
];

/// Calls `each` with every sequence of up to `most` kinds of elements; with lists of up to 49 elements in
/// which the first 16 and the first 133 have every place, and others of them stand behind; with the ends of
/// TEIDs and addresses; and with lists that are refused behind a 16 and a 133, or for want of one of them.
pub fn each_indication(random: &mut Random, most: u32, mut each: impl FnMut(&[u8])) {
    let kinds: Vec<u8> = (0..KINDS.len() as u8).collect();
    each_list(&kinds, 0..=most, |kinds| {
        each(&list_of(
            random,
            kinds.iter().map(|&kind| KINDS[usize::from(kind)]),
        ));
    });
    for count in COUNTS {
        for teid in 0..count {
            for address in (0..count).filter(|&address| address != teid) {
                each(&first_at(random, count, teid, address));
            }
        }
    }
    each_end(random, &mut each);
    for count in [2, 15, 16, 17, 33] {
        for cause in CAUSES {
            let mut list = sound_list(random, count);
            list.extend(cause);
            each(&list);
            list.extend(sound_list(random, 2));
            each(&list);
        }
        for wanted in [Teid, Ipv4, Ipv6] {
            let mut kinds = vec![wanted; 1 + random.below(count)];
            kinds.resize_with(count, || any_of(random, &OTHERS));
            each(&list_of(random, kinds));
        }
    }
}

/// Each end of a TEID with each of an address, in both orders, alone and with any others behind them.
fn each_end(random: &mut Random, mut each: impl FnMut(&[u8])) {
    let mut addresses = ends(IPV4);
    addresses.extend(ends(IPV6));
    for teid in ends(TEID) {
        for address in &addresses {
            let teid = [&[TEID_DATA_I], &teid[..]].concat();
            let address = [&[PEER_ADDRESS, 0, address.len() as u8], &address[..]].concat();
            for mut list in [[&teid[..], &address].concat(), [address, teid].concat()] {
                each(&list);
                list.extend(sound_list(random, 4));
                each(&list);
            }
        }
    }
}

/// Octets all 0, all 0xff, and each octet alone that is not 0.
fn ends(length: usize) -> Vec<Vec<u8>> {
    let mut all = vec![vec![0; length], vec![0xff; length]];
    all.extend((0..length).map(|place| {
        let mut octets = vec![0; length];
        octets[place] = 1 + place as u8;
        octets
    }));
    all
}

/// A list of any elements, accepted more often than not. In half of the lists the two that are needed are
/// there once as a rule, anywhere; in the others more often.
pub fn any_indication(random: &mut Random) -> Vec<u8> {
    let count = match random.below(8) {
        0 => random.length(300),
        1 | 2 => 12 + random.below(24),
        _ => random.length(8),
    };
    let kinds: &[Kind] = [&OTHERS[..], &KINDS][random.below(2)];
    let mut elements: Vec<Vec<u8>> = (0..count)
        .map(|_| {
            let kind = any_of(random, kinds);
            element(random, kind)
        })
        .collect();
    for needed in [&[Teid][..], &ADDRESSES] {
        if random.below(16) > 0 {
            let kind = any_of(random, needed);
            let place = random.below(elements.len() + 1);
            elements.insert(place, element(random, kind));
        }
    }
    match random.below(8) {
        0 => {
            let place = random.below(elements.len() + 1);
            elements.insert(place, CAUSES[random.below(CAUSES.len())].to_vec());
        }
        1 => {
            let mut list = elements.concat();
            list.truncate(random.length(list.len()));
            return list;
        }
        2 => {
            let mut list = elements.concat();
            if !list.is_empty() {
                let place = random.below(list.len());
                list[place] = random.other_byte(list[place]);
            }
            return list;
        }
        _ => (),
    }
    elements.concat()
}

/// A list of `count` elements with a 16 and a 133 at any places, which is accepted.
pub fn sound_list(random: &mut Random, count: usize) -> Vec<u8> {
    let teid = random.below(count);
    let address = (teid + 1 + random.below(count - 1)) % count;
    first_at(random, count, teid, address)
}

/// A list of `count` elements whose first 16 and first 133 have these places. Behind each of them any
/// others of its type may stand, and anywhere elements of other types.
fn first_at(random: &mut Random, count: usize, teid: usize, address: usize) -> Vec<u8> {
    let kinds: Vec<Kind> = (0..count)
        .map(|place| match random.below(4) {
            _ if place == teid => Teid,
            _ if place == address => any_of(random, &ADDRESSES),
            0 if place > teid => Teid,
            1 if place > address => any_of(random, &ADDRESSES),
            _ => any_of(random, &OTHERS),
        })
        .collect();
    list_of(random, kinds)
}

fn any_of(random: &mut Random, kinds: &[Kind]) -> Kind {
    kinds[random.below(kinds.len())]
}

fn list_of(random: &mut Random, kinds: impl IntoIterator<Item = Kind>) -> Vec<u8> {
    let elements = kinds.into_iter().map(|kind| element(random, kind));
    elements.collect::<Vec<_>>().concat()
}

fn element(random: &mut Random, kind: Kind) -> Vec<u8> {
    let (element_type, value) = match kind {
        Teid => {
            let teid = any_teid(random);
            return [&[TEID_DATA_I], &teid[..]].concat();
        }
        Ipv4 => (PEER_ADDRESS, any_octets(random, IPV4)),
        Ipv6 => (PEER_ADDRESS, any_octets(random, IPV6)),
        Empty => (other_type(random), vec![]),
        Alike => (other_type(random), alike(random)),
        Other => {
            let lengths = [1, 2, 3, 4, 5, 12, 16, 255, LONG, 257, random.length(2_000)];
            let length = match random.below(8) {
                0 => lengths[random.below(lengths.len())],
                _ => 1 + random.below(16),
            };
            (other_type(random), random.bytes(length))
        }
    };
    let [.., high, low] = value.len().to_be_bytes();
    [&[element_type, high, low], &value[..]].concat()
}

/// Any type from 128 on but 133.
fn other_type(random: &mut Random) -> u8 {
    let element_type = 128 + random.below(127) as u8;
    element_type + u8::from(element_type >= PEER_ADDRESS)
}

/// Any TEID, at times one that looks like the start of an element.
fn any_teid(random: &mut Random) -> [u8; TEID] {
    let mut teid = random.any_u32().to_be_bytes();
    match random.below(8) {
        0 => teid[0] = TEID_DATA_I,
        1 => teid[..3].copy_from_slice(&[PEER_ADDRESS, 0, [4, 16][random.below(2)]]),
        _ => (),
    }
    teid
}

/// Any octets of an address, at times such that look like elements, and such with one alone that is not 0.
fn any_octets(random: &mut Random, length: usize) -> Vec<u8> {
    match random.below(8) {
        0 => {
            let mut octets = alike(random);
            octets.resize(length, 0);
            octets
        }
        1 => {
            let mut octets = vec![0; length];
            octets[random.below(length)] = 1 + random.below(255) as u8;
            octets
        }
        2 => random.bytes(length),
        _ => (0..length).map(|_| random.number() as u8).collect(),
    }
}

/// A 16 and a 133, in one order or the other.
fn alike(random: &mut Random) -> Vec<u8> {
    let teid = [&[TEID_DATA_I], &random.any_u32().to_be_bytes()[..]].concat();
    let length = [IPV4, IPV6][random.below(2)];
    let octets = random.bytes(length);
    let address = [&[PEER_ADDRESS, 0, length as u8], &octets[..]].concat();
    match random.below(2) {
        0 => [teid, address].concat(),
        _ => [address, teid].concat(),
    }
}

/// What the lists of a part had in them that the rule is about.
#[derive(Default)]
pub struct Tried {
    orders: Met,
    others: Met,
    restarts: Met,
    values: Met,
    refusals: Met,
    /// Types that are neither 16 nor 133, in accepted lists.
    other_types: BTreeSet<u8>,
    /// Each octet that alone was not 0: of a TEID, an IPv4 and an IPv6 address that were due.
    lone_octets: BTreeSet<(&'static str, usize)>,
}

/// The elements at the front of a list that are whole: each with its place.
struct Whole<'a> {
    teids: Vec<(usize, &'a [u8])>,
    addresses: Vec<(usize, &'a [u8])>,
    /// With their types.
    others: Vec<(usize, u8, &'a [u8])>,
    count: usize,
}

impl<'a> Whole<'a> {
    fn of(list: &'a [u8]) -> Self {
        let (elements, _) = cut(list);
        let mut all = Self {
            teids: Vec::new(),
            addresses: Vec::new(),
            others: Vec::new(),
            count: elements.len(),
        };
        for (place, (element_type, value)) in elements.into_iter().enumerate() {
            match element_type {
                TEID_DATA_I => all.teids.push((place, value)),
                PEER_ADDRESS => all.addresses.push((place, value)),
                _ => all.others.push((place, element_type, value)),
            }
        }
        all
    }

    /// The first 16 and the first 133 of an accepted list.
    fn first(&self) -> [(usize, &'a [u8]); 2] {
        [self.teids[0], self.addresses[0]]
    }
}

impl Tried {
    pub fn add(&mut self, list: &[u8]) {
        let number = validate_error_indication_ies(list).err().unwrap_or(0);
        let elements = Whole::of(list);
        self.refusals.add(&refusals(&elements, number));
        if number != 0 {
            return;
        }
        self.orders.add(&orders(&elements));
        self.others.add(&others(&elements));
        self.restarts.add(&restarts(&elements));
        self.values.add(&values(&elements));
        let types = elements.others.iter();
        self.other_types
            .extend(types.map(|(_, element_type, _)| element_type));
        let [(_, teid), (_, address)] = elements.first();
        let version = match address.len() {
            IPV4 => "IPv4",
            _ => "IPv6",
        };
        for (what, octets) in [("TEID", teid), (version, address)] {
            self.lone_octets
                .extend(lone_octet(octets).map(|place| (what, place)));
        }
    }

    /// Prints the counts below the part, which fails if something was never met.
    pub fn require(&self, part: &mut Part) {
        self.orders.require(part, "accepted");
        self.others.require(part, "other elements");
        self.restarts.require(part, "walk started again");
        self.values.require(part, "values");
        self.refusals.require(part, "refused");
        let counts = (self.other_types.len(), self.lone_octets.len());
        part.case(&[], counts, (127, TEID + IPV4 + IPV6));
        part.note(format!(
            "other types: {}, octets alone not 0: {}",
            counts.0, counts.1
        ));
    }
}

/// The octet that alone is not 0.
fn lone_octet(octets: &[u8]) -> Option<usize> {
    let mut places = (0..octets.len()).filter(|&place| octets[place] != 0);
    match (places.next(), places.next()) {
        (place, None) => place,
        _ => None,
    }
}

/// Those of a type that come after the first and have another value.
fn later<'a>(elements: &'a [(usize, &'a [u8])]) -> impl Iterator<Item = (usize, &'a [u8])> {
    let first = elements[0].1;
    let elements = elements.iter().copied();
    elements.filter(move |(_, value)| *value != first)
}

/// Which of the two comes first, and what comes again with another value.
fn orders(elements: &Whole) -> Vec<Situation> {
    let [(teid, _), (address, octets)] = elements.first();
    let teid_again = later(&elements.teids).next();
    let address_again = later(&elements.addresses).next();
    let then = |first, second| {
        octets.len() == first && address_again.is_some_and(|(_, octets)| octets.len() == second)
    };
    let before = |again: Option<(usize, _)>, other| again.is_some_and(|(place, _)| place < other);
    vec![
        ("16 before 133", teid < address),
        ("133 before 16", address < teid),
        ("IPv4", octets.len() == IPV4),
        ("IPv6", octets.len() == IPV6),
        ("another TEID", teid_again.is_some()),
        ("two other TEIDs", later(&elements.teids).count() > 1),
        ("another TEID before the 133", before(teid_again, address)),
        ("IPv4 then another IPv4", then(IPV4, IPV4)),
        ("IPv4 then IPv6", then(IPV4, IPV6)),
        ("IPv6 then IPv4", then(IPV6, IPV4)),
        ("IPv6 then another IPv6", then(IPV6, IPV6)),
        (
            "two other addresses",
            later(&elements.addresses).count() > 1,
        ),
        ("another address before the 16", before(address_again, teid)),
    ]
}

/// Where elements of other types stand, and what they have in them; and values of the two types that look
/// like the first of the other type, and stand before it.
fn others(elements: &Whole) -> Vec<Situation> {
    let [(teid, _), (address, _)] = elements.first();
    let (front, back) = (teid.min(address), teid.max(address));
    let is_any = |_: &[u8]| true;
    let is_long = |value: &[u8]| value.len() >= LONG;
    let is_alike = |value: &[u8]| {
        let inner = Whole::of(value);
        !inner.teids.is_empty() && !inner.addresses.is_empty()
    };
    let some = |places: Range<usize>, is: &dyn Fn(&[u8]) -> bool| {
        let mut others = elements.others.iter();
        others.any(|&(place, _, value)| places.contains(&place) && is(value))
    };
    let (before, between, behind) = (0..front, front..back, back..elements.count);
    let mut teids = elements.teids.iter().filter(|(place, _)| *place < address);
    let mut addresses = elements.addresses.iter().filter(|(place, _)| *place < teid);
    vec![
        ("before both", some(before.clone(), &is_any)),
        ("between", some(between.clone(), &is_any)),
        ("behind both", some(behind.clone(), &is_any)),
        ("empty before both", some(before.clone(), &<[u8]>::is_empty)),
        ("empty between", some(between.clone(), &<[u8]>::is_empty)),
        ("empty behind both", some(behind.clone(), &<[u8]>::is_empty)),
        ("long before both", some(before.clone(), &is_long)),
        ("long between", some(between.clone(), &is_long)),
        ("long behind both", some(behind.clone(), &is_long)),
        ("like a 16 and a 133 before both", some(before, &is_alike)),
        ("like them between", some(between, &is_alike)),
        ("like them behind both", some(behind, &is_alike)),
        (
            "TEID like a 133, before it",
            teids.any(|(_, teid)| teid.starts_with(&[PEER_ADDRESS, 0])),
        ),
        (
            "address like a 16, before it",
            addresses.any(|(_, octets)| octets.starts_with(&[TEID_DATA_I])),
        ),
    ]
}

/// Where the two stand, and where another of each, with respect to the places at which our walk is started
/// again.
fn restarts(elements: &Whole) -> Vec<Situation> {
    let [(teid, _), (address, octets)] = elements.first();
    let walk = |place: usize| place / STARTED_AGAIN;
    let is_last = |place: usize| walk(place + 1) > walk(place) && place + 1 < elements.count;
    let is_first = |place: usize| place > 0 && walk(place) > walk(place - 1);
    let teid_again = later(&elements.teids).any(|(place, _)| walk(place) > walk(teid));
    let other_version = later(&elements.addresses)
        .any(|(place, again)| again.len() != octets.len() && walk(place) > walk(address));
    vec![
        (
            "behind both",
            walk(teid) == 0 && walk(address) == 0 && elements.count > STARTED_AGAIN,
        ),
        ("between 16 and 133", walk(teid) < walk(address)),
        ("between 133 and 16", walk(address) < walk(teid)),
        ("before both", walk(teid) > 0 && walk(address) == walk(teid)),
        (
            "before both and between them",
            walk(teid) > 0 && walk(address) > 0 && walk(teid) != walk(address),
        ),
        ("right behind the 16", is_last(teid)),
        ("right before the 16", is_first(teid)),
        ("right behind the 133", is_last(address)),
        ("right before the 133", is_first(address)),
        ("before another TEID", teid_again),
        (
            "between an IPv4 and an IPv6 address",
            other_version && octets.len() == IPV4,
        ),
        (
            "between an IPv6 and an IPv4 address",
            other_version && octets.len() == IPV6,
        ),
    ]
}

/// The ends of what is due, and 0 where something else stands behind it.
fn values(elements: &Whole) -> Vec<Situation> {
    let [(_, teid), (_, octets)] = elements.first();
    let is_all = |octets: &[u8], octet| octets.iter().all(|&other| other == octet);
    let teid_again = later(&elements.teids).next().is_some();
    let address_again = later(&elements.addresses).next().is_some();
    let is_ipv4 = octets.len() == IPV4;
    vec![
        ("TEID 0", is_all(teid, 0) && !teid_again),
        (
            "TEID 0 and another behind it",
            is_all(teid, 0) && teid_again,
        ),
        ("TEID of ones", is_all(teid, 0xff)),
        (
            "IPv4 of zeros",
            is_ipv4 && is_all(octets, 0) && !address_again,
        ),
        (
            "IPv4 of zeros and another behind it",
            is_ipv4 && is_all(octets, 0) && address_again,
        ),
        ("IPv4 of ones", is_ipv4 && is_all(octets, 0xff)),
        (
            "IPv6 of zeros",
            !is_ipv4 && is_all(octets, 0) && !address_again,
        ),
        (
            "IPv6 of zeros and another behind it",
            !is_ipv4 && is_all(octets, 0) && address_again,
        ),
        ("IPv6 of ones", !is_ipv4 && is_all(octets, 0xff)),
    ]
}

/// What stands before the cause of a refusal.
fn refusals(elements: &Whole, number: u8) -> Vec<Situation> {
    let has_teid = !elements.teids.is_empty();
    let has_address = !elements.addresses.is_empty();
    let has_both = has_teid && has_address;
    let is = |due, has| number == due && has;
    vec![
        ("25 behind both", is(TRUNCATED_ELEMENT, has_both)),
        ("26 behind both", is(INVALID_PEER_ADDRESS_LENGTH, has_both)),
        (
            "27 behind both",
            is(UNSUPPORTED_FIXED_LENGTH_ELEMENT, has_both),
        ),
        ("28 with a 133", is(MISSING_TEID_DATA_I, has_address)),
        ("29 with a 16", is(MISSING_PEER_ADDRESS, has_teid)),
        (
            "behind both, the walk started again",
            number != 0 && has_both && elements.count >= STARTED_AGAIN,
        ),
    ]
}
