//! Times the calls of a client over UDP that has one channel, and prints what each takes: the least of many batches.
//!
//! The replies of the server are those of the tests of `turn_replay`, under the seed of zeros.

use std::net::SocketAddr;
use std::time::Duration;
use yarrowdoor::api::{Transmit, TurnConfig, TurnPollRet, TurnRecvRet};
use yarrowdoor::prelude::*;
use yarrowdoor::stun::Instant;
use yarrowdoor::types::{TransportType, TurnCredentials};
use yarrowdoor::udp::TurnClientUdp;

const UDP: TransportType = TransportType::Udp;

/// What peers send, and what is sent to them, in bytes.
const PAYLOAD: usize = 1200;

/// A challenge, and the successes of ALLOCATE and `CHANNEL_BIND`, each with the time at which it is received, in
/// milliseconds.
const REPLIES: [(u64, &str); 3] = [
    (0, "011300202112a44276b8e0ada0f13d90405d6ae50009000400000401001400057265616c6d000000001500056e6f6e6365000000"),
    (50, "0103002c2112a4425386bd28bdd219b8a08ded1a001600080001bd522b12a446000d0004000003e80008001473ab3a7f1f80782b83e3ea333b6d47e608f296b7"),
    (100, "010900182112a442a836efcc8b770dc7da41597c00080014dd9a056be4781bb64f769e71f37f90df2533e857"),
];

/// A DATA indication of 10.0.0.3:9000, up to its data (RFC 8656, section 11.6).
const INDICATION: &str = "001704c02112a442010101010101010101010101001200080001023a2b12a441001304b0";

fn hex(digits: &str) -> Vec<u8> {
    let pairs = (0..digits.len()).step_by(2);
    pairs
        .map(|at| u8::from_str_radix(&digits[at..at + 2], 16).expect("digits"))
        .collect()
}

fn at(millis: u64) -> Instant {
    Instant::ZERO + Duration::from_millis(millis)
}

/// A client with a channel to 10.0.0.3:9000, with the number 4000.
fn bound() -> TurnClientUdp {
    let (local, server) = (
        "192.168.0.1:1000".parse().unwrap(),
        "10.0.0.2:2000".parse().unwrap(),
    );
    let config = TurnConfig::new(TurnCredentials::new("user", "pass"));
    let mut client = TurnClientUdp::allocate_with_seed(local, server, config, [0; 32]);
    for (millis, reply) in REPLIES {
        if millis == 100 {
            let peer = "10.0.0.3:9000".parse().unwrap();
            client.bind_channel(UDP, peer, at(50)).expect("a channel");
        }
        client.poll_transmit(at(millis)).expect("a request");
        let received = client.recv(Transmit::new(hex(reply), UDP, server, local), at(millis));
        assert!(matches!(received, TurnRecvRet::Handled));
    }
    while client.poll_event().is_some() {}
    client
}

/// Prints the nanoseconds of a call: the least of many batches of a thousand.
fn time(name: &str, mut call: impl FnMut() -> bool) {
    let mut least = f64::INFINITY;
    for _ in 0..300 {
        let start = std::time::Instant::now();
        let all = (0..1000).fold(true, |all, _| call() && all);
        least = least.min(start.elapsed().as_secs_f64() * 1e6);
        assert!(all, "{name}: another answer");
    }
    println!("{name:52} {least:9.0}");
}

fn main() {
    let mut client = bound();
    let (local, server) = (client.local_addr(), client.remote_addr());
    let (peer, now) = (SocketAddr::from(([10, 0, 0, 3], 9000)), at(100));
    let other = SocketAddr::new(peer.ip(), 9001); // it has the permission of the peer, and no channel
    let data = [0x55; PAYLOAD];
    let mut frame = vec![0x40, 0x00, 0x04, 0xb0];
    frame.extend(data);
    let mut indication = hex(INDICATION);
    indication.extend(data);
    println!(
        "{:52} {:>9}",
        "package for Rust: nanoseconds, by number of channels", 1
    );
    time("channel frame of 1,200 bytes in", || {
        let packet = Transmit::new(frame.as_slice(), UDP, server, local);
        matches!(client.recv(packet, now), TurnRecvRet::PeerData(it) if it.data().len() == PAYLOAD)
    });
    time("DATA indication of 1,200 bytes in", || {
        let packet = Transmit::new(indication.as_slice(), UDP, server, local);
        matches!(client.recv(packet, now), TurnRecvRet::PeerData(it) if it.data().len() == PAYLOAD)
    });
    time("frame of 1,200 bytes out, built as a vector", || {
        let packet = client.send_to(UDP, peer, &data[..], now).unwrap().unwrap();
        packet.build().data.len() == 4 + PAYLOAD
    });
    time("Send indication of 1,200 bytes out, as a vector", || {
        let packet = client.send_to(UDP, other, &data[..], now).unwrap().unwrap();
        packet.build().data.len() == 20 + 12 + 4 + PAYLOAD
    });
    time("poll, nothing to be done", || {
        matches!(client.poll(now), TurnPollRet::WaitUntil(_))
    });
    time("poll_transmit, nothing to be sent", || {
        client.poll_transmit(now).is_none()
    });
    time("poll_event, no event", || client.poll_event().is_none());
    time("have_permission", || client.have_permission(UDP, peer.ip()));
}
