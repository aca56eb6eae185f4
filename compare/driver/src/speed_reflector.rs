//! How long the reflector takes to find a session, ours and the unchanged Rust's, for the table of
//! `speed`: a G-PDU for the last session of the table, which is sunk and counted.

use std::hint::black_box;
use std::net::SocketAddr;

use opc_dataplane_testkit::reflector::{
    GtpuReflector, MultiSessionReflectorConfig, ReflectorPolicy, ReflectorSession,
};
use opc_proto_gtpu::to_datagram;

use crate::ours_reflector::{Address, Config, Message, Reflector, Session, State};
use crate::speed_traffic::{take_turns, Timing};

/// How often a call is made in a round: alone it is too short to be timed.
const REPEATS: usize = 256;

pub fn speed() -> Vec<Timing> {
    [1, 64, 4_096].map(find).into()
}

/// The Rust's time has the stand-in codec's reading of a message in it.
fn find(sessions: usize) -> Timing {
    let last = sessions as u32;
    let mut ours = Reflector {
        sessions: vec![Session::default(); sessions],
        used: 0,
        config: Config {
            max_sessions: sessions,
            policy: 1,
            ..Config::default()
        },
        state: State::default(),
    };
    let mut rust = GtpuReflector::new_multi(MultiSessionReflectorConfig {
        max_sessions: sessions,
        recovery_counter: 0,
        policy: ReflectorPolicy::SinkAndCount,
    })
    .expect("a maximum of 1 to 4,096");
    let address = [192, 0, 2, 1];
    let mut peer_addr = Address {
        version: 4,
        port: 2152,
        ..Address::default()
    };
    peer_addr.address[..4].copy_from_slice(&address);
    for local_teid in 1..=last {
        let peer_teid = local_teid;
        ours.register_session(Session {
            local_teid,
            peer_teid,
            peer_addr,
        });
        rust.register_session(ReflectorSession {
            local_teid,
            peer_teid,
            peer_addr: SocketAddr::from((address, 2152)),
        })
        .expect("a session that is in order");
    }
    assert_eq!(ours.used, sessions, "every session is registered");

    let payload = [0; 52];
    let message = Message {
        message_type: 255,
        teid: last,
        ..Message::default()
    };
    let datagram = to_datagram(255, last, None, &payload).expect("a short payload");
    let source = SocketAddr::from((address, 2152));
    let mut out = [0; 72];
    let (our_time, rust_time) = take_turns(
        || {
            for _ in 0..REPEATS {
                let message = black_box(message);
                black_box(ours.handle_datagram(peer_addr, message, &payload, &mut out));
            }
        },
        || {
            for _ in 0..REPEATS {
                black_box(rust.handle_datagram(source, black_box(&datagram))).unwrap();
            }
        },
    );
    assert_eq!(
        ours.state.stats.gpdu_sunk,
        rust.stats().gpdu_sunk,
        "all are sunk"
    );
    let repeats = REPEATS as f64;
    let name = format!("find in row {sessions}, G-PDU sunk");
    (name, our_time / repeats, rust_time / repeats)
}
