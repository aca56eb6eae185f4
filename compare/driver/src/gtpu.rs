//! Our element walk against the Rust's, and the tunnel that it gives against the model's
//! (`indication.rs`): short lists, lists of elements, long lists.

use crate::compared::Answer;
use crate::indication::due_tunnel;
use crate::indication_inputs::{any_indication, each_indication, sound_list, Tried};
use crate::lists::each_list;
use crate::numbers::{answers, WALKING};
use crate::ours_traffic::{validate_elements, Elements, Tunnel};
use crate::part::Part;
use crate::random::Random;
use crate::rust_side::gtpu::validate_error_indication_ies;
use crate::seen::Seen;

/// Bytes that decide: types, and halves of lengths.
const DECIDING: [u8; 11] = [0, 1, 4, 5, 15, 16, 17, 127, 128, 133, 255];

/// The lists of a part, and what they had in them.
struct Walks {
    part: Part,
    seen: Seen,
    tried: Tried,
}

impl Walks {
    /// Walks a list on both sides. The number is the Rust's, and the tunnel the model's.
    fn walk(&mut self, list: &[u8]) {
        let number = validate_error_indication_ies(list).err().unwrap_or(0);
        let due = Elements::new(number, due_tunnel(list, number));
        let answer = validate_elements(list);
        self.seen.add(answer.number);
        self.part.case(list, answer.told(), due.due(&[]));
    }

    /// The same, and what the list has in it is counted.
    fn walk_counted(&mut self, list: &[u8]) {
        self.walk(list);
        self.tried.add(list);
    }
}

/// Every list of up to 3 bytes; every list of 4 to 6 bytes that decide; lists of elements, of which the
/// random ones are mostly short. Each number of the walk must have been due, and the lists must have had
/// everything that the rule on the tunnel is about.
pub fn elements(seed: u64, rounds: u64) -> Part {
    let mut walks = Walks {
        part: Part::new("lists"),
        seen: Seen::default(),
        tried: Tried::default(),
    };
    let all: Vec<u8> = (0..=0xff).collect();
    each_list(&all, 0..=3, |list| walks.walk(list));
    each_list(&DECIDING, 4..=6, |list| walks.walk(list));
    examples(&mut walks.part);
    let mut random = Random::new(seed);
    each_indication(&mut random, 6, |list| walks.walk_counted(list));
    for round in 0..rounds * 4 {
        let length = match round % 64 {
            0 => random.length(70_000),
            _ => random.length(200),
        };
        walks.walk_counted(&any_elements(&mut random, length));
        walks.walk_counted(&any_indication(&mut random));
    }
    // The most elements that a list of this length can have, and one long element, which looks like many:
    // before, behind and between what is needed.
    for length in [65_535, 65_536, 70_000] {
        let smallest: Vec<u8> = [128, 0, 0].into_iter().cycle().take(length).collect();
        walks.walk(&smallest);
        let whole = &smallest[..length / 3 * 3];
        let alike = sound_list(&mut random, 16).into_iter().cycle();
        let mut long = vec![200, 0xff, 0xff];
        long.extend(alike.take(65_535));
        for many in [whole, &long] {
            let [first, again] = [(); 2].map(|_| sound_list(&mut random, 2));
            let lists: [&[&[u8]]; 5] = [
                &[many, &first],
                &[many, &first, many, &again],
                &[&first, many],
                &[&first, many, &again],
                &[many, &first, many, &[127]],
            ];
            for list in lists {
                walks.walk_counted(&list.concat());
            }
        }
    }
    walks.seen.require(&mut walks.part, answers(&[WALKING]));
    walks.tried.require(&mut walks.part);
    walks.part
}

/// A version, an address and elements that name both.
type Example<'a> = (u8, [u8; 16], &'a [&'a [u8]]);

/// Lists whose tunnels were read by hand, so that the model has a judge as well.
fn examples(part: &mut Part) {
    let ipv4 = [192, 0, 2, 1, 0, 0, 0, 0, 0, 0, 0, 0, 0, 0, 0, 0];
    let ipv6 = [32, 1, 13, 184, 4, 5, 6, 7, 8, 9, 10, 11, 12, 13, 14, 15];
    let teid = [16, 0x12, 0x34, 0x56, 0x78];
    let other_teid = [16, 0xff, 0xff, 0xff, 0xff];
    let short = [133, 0, 4, 192, 0, 2, 1];
    let long = [&[133, 0, 16], &ipv6[..]].concat();
    let other = [200, 0, 5, 16, 9, 9, 9, 9];
    let lists: [Example; 8] = [
        (4, ipv4, &[&teid, &short]),
        (6, ipv6, &[&long, &teid]),
        (4, ipv4, &[&teid, &short, &other_teid, &long]),
        (6, ipv6, &[&long, &short, &teid, &other_teid]),
        (4, ipv4, &[&other, &teid, &other, &short, &other]),
        (4, ipv4, &[&short, &long, &long, &other, &teid]),
        (6, ipv6, &[&[128, 0, 0].repeat(16), &teid, &long, &short]),
        (4, ipv4, &[&teid, &[128, 0, 0].repeat(15), &short, &long]),
    ];
    for (version, peer_address, elements) in lists {
        let list = elements.concat();
        let tunnel = Tunnel {
            teid: 0x1234_5678,
            version,
            peer_address,
        };
        let answer = (validate_elements(&list), due_tunnel(&list, 0));
        part.case(&list, answer, (Elements::new(0, tunnel), tunnel));
    }
}

/// The stack that a walk is given: its use is bounded, whatever the list's length.
const STACK: usize = 256 << 10;

/// The most elements that 65,535 bytes and 64 MiB can hold, walked on a stack of 256 KiB: alone, which is
/// refused; and before, between and behind the two that are needed, each of which comes again.
pub fn deep_lists() -> Part {
    let mut part = Part::new("lists");
    let teid = [16, 0x12, 0x34, 0x56, 0x78];
    let address = [133, 0, 4, 192, 0, 2, 1];
    let again = [&[16, 9, 9, 9, 9, 133, 0, 16], &[9; 16][..]].concat();
    let mut tunnel = Tunnel {
        teid: 0x1234_5678,
        ..Tunnel::default()
    };
    tunnel.peer_address[..4].copy_from_slice(&address[3..]);
    for length in [65_535, 64 << 20] {
        let many: Vec<u8> = [128, 0, 0].into_iter().cycle().take(length).collect();
        let whole = &many[..length / 3 * 3];
        let lists: [(Tunnel, &[&[u8]]); 4] = [
            (Tunnel::default(), &[&many]),
            (tunnel, &[whole, &teid, &address, &again]),
            (tunnel, &[&teid, whole, &address, &again]),
            (tunnel, &[&address, &teid, whole, &again]),
        ];
        for (tunnel, list) in lists {
            let list = list.concat();
            let number = validate_error_indication_ies(&list).err().unwrap_or(0);
            let walk = move || (validate_elements(&list), list);
            let thread = std::thread::Builder::new().stack_size(STACK).spawn(walk);
            let (answer, list) = thread.expect("a thread").join().expect("an answer");
            let due = Elements::new(number, tunnel);
            part.case(&list[..3], answer.told(), due.due(&[]));
        }
    }
    part
}

/// The elements that are needed, more often than not, and others until the list has `length` bytes;
/// it may then be cut or damaged. The kept sample is drawn with it, too.
pub fn any_elements(random: &mut Random, length: usize) -> Vec<u8> {
    let mut list = Vec::new();
    for kind in [[0, 1], [1, 0]][random.below(2)] {
        if random.below(4) > 0 {
            push_element(random, &mut list, kind);
        }
    }
    while list.len() < length {
        let kind = random.below(40);
        push_element(random, &mut list, kind);
    }
    match random.below(8) {
        0 => list.truncate(random.length(list.len())),
        1 if !list.is_empty() => {
            let at = random.below(list.len());
            list[at] = DECIDING[random.below(DECIDING.len())];
        }
        _ => (),
    }
    list
}

/// An element: of kind 0 a TEID, 1 a peer address, 2 a peer address of any length, 3 of a type
/// that is unknown, and of any other kind one with a length.
fn push_element(random: &mut Random, list: &mut Vec<u8>, kind: usize) {
    let (element_type, length) = match kind {
        0 => {
            list.push(16);
            list.extend(random.bytes(4));
            return;
        }
        1 => (133, [4, 16][random.below(2)]),
        2 => {
            let lengths = [0, 3, 4, 5, 15, 16, 17, 0x104, 0x400, 0x1000];
            (133, lengths[random.below(lengths.len())])
        }
        3 if random.below(4) == 0 => return list.push(random.below(128) as u8),
        _ => {
            let lengths = [0, 1, 2, 4, 16, 255, 256, random.length(4_000)];
            let known = 128 + random.below(128) as u8;
            (known, lengths[random.below(lengths.len())])
        }
    };
    list.push(element_type);
    list.extend((length as u16).to_be_bytes());
    list.extend(random.bytes(length));
}
