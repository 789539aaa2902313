//! A client that is dropped gives its memory back.

#![cfg(target_os = "linux")]

use std::fs;
use yarrowdoor::api::TurnConfig;
use yarrowdoor::prelude::*;
use yarrowdoor::stun::Instant;
use yarrowdoor::types::TurnCredentials;
use yarrowdoor::udp::TurnClientUdp;

/// The memory that this process has for data, in bytes (proc(5), `VmData`).
fn memory() -> u64 {
    let status = fs::read_to_string("/proc/self/status").unwrap();
    let line = status
        .lines()
        .find(|line| line.starts_with("VmData:"))
        .unwrap();
    line.split_whitespace()
        .nth(1)
        .unwrap()
        .parse::<u64>()
        .unwrap()
        * 1024
}

fn make_and_drop(count: usize) {
    let (local, remote) = (
        "10.0.0.1:4000".parse().unwrap(),
        "10.0.0.2:3478".parse().unwrap(),
    );
    for _ in 0..count {
        let config = TurnConfig::new(TurnCredentials::new("user", "pass"));
        let mut client = TurnClientUdp::allocate_with_seed(local, remote, config, [0; 32]);
        assert!(client.poll_transmit(Instant::ZERO).is_some());
    }
}

// A client has some kilobytes of the library's memory. This test stands alone, since others would take memory beside it.
#[test]
fn clients_that_are_dropped_keep_no_memory() {
    make_and_drop(100);
    let before = memory();
    make_and_drop(20_000);
    let more = memory().saturating_sub(before);
    assert!(more < 2_000_000, "{more} bytes more after 20,000 clients");
}
