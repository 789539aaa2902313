//! Transaction IDs are drawn from the whole seed (RFC 8489, section 5: they have to be unpredictable).

mod server;

use std::collections::HashSet;
use yarrowdoor::api::TurnConfig;
use yarrowdoor::tcp::TurnClientTcp;
use yarrowdoor::types::TurnCredentials;
use yarrowdoor::udp::TurnClientUdp;

fn config() -> TurnConfig {
    TurnConfig::new(TurnCredentials::new("user", "pass"))
}

/// The ID of the first request under this seed, over UDP and over TCP.
fn first_ids(seed: [u8; 32]) -> [[u8; 12]; 2] {
    let (local, remote) = (
        "10.0.0.1:4000".parse().unwrap(),
        "10.0.0.2:3478".parse().unwrap(),
    );
    let mut udp = TurnClientUdp::allocate_with_seed(local, remote, config(), seed);
    let mut tcp = TurnClientTcp::allocate_with_seed(local, remote, config(), seed);
    [
        server::next(&mut udp, server::at(0)).unwrap().id,
        server::next(&mut tcp, server::at(0)).unwrap().id,
    ]
}

#[test]
fn each_byte_of_the_seed_counts() {
    let mut ids = HashSet::from([first_ids([0; 32])]);
    for place in 0..32 {
        let mut seed = [0; 32];
        seed[place] = 1;
        assert!(ids.insert(first_ids(seed)), "byte {place} does not count");
    }
}

#[test]
fn the_same_seed_gives_the_same_ids() {
    assert_eq!(first_ids([7; 32]), first_ids([7; 32]));
}

// A seed of one byte has 256 values, so that of 257 clients two would have the same one.
#[test]
fn clients_draw_more_than_a_byte_of_the_system() {
    let (local, remote) = (
        "10.0.0.1:4000".parse().unwrap(),
        "10.0.0.2:3478".parse().unwrap(),
    );
    let mut ids = HashSet::new();
    for _ in 0..257 {
        let mut client = TurnClientUdp::allocate(local, remote, config());
        assert!(ids.insert(server::next(&mut client, server::at(0)).unwrap().id));
    }
}
