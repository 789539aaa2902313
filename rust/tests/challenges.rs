//! The limit of challenges in a row, over a server that challenges each request.

mod server;

use server::{answer, at, challenge, next};
use std::collections::HashSet;
use std::num::NonZeroU16;
use yarrowdoor::api::{TurnConfig, TurnEvent, TurnRecvRet};
use yarrowdoor::prelude::*;
use yarrowdoor::types::{AddressFamily, TurnCredentials};
use yarrowdoor::udp::TurnClientUdp;

/// How many challenges are answered by another request, up to the one that ends the client.
fn answered(config: TurnConfig) -> u64 {
    let (local, remote) = (
        "10.0.0.1:4000".parse().unwrap(),
        "10.0.0.2:3478".parse().unwrap(),
    );
    let mut client = TurnClientUdp::allocate_with_seed(local, remote, config, [0; 32]);
    let mut ids = HashSet::new();
    for challenges in 0..100 {
        let now = at(challenges);
        let request = next(&mut client, now).expect("an ALLOCATE");
        assert_eq!(request.kind, server::ALLOCATE);
        assert!(ids.insert(request.id), "the same request once more");
        let code = if challenges == 0 { 401 } else { 438 };
        let told = challenge(&request, code, &format!("nonce {challenges}"));
        let returned = answer(&mut client, &request, told, now);
        assert!(matches!(returned, TurnRecvRet::Handled));
        if let Some(event) = client.poll_event() {
            let failed = TurnEvent::AllocationCreateFailed(AddressFamily::IPV4);
            assert_eq!(event, failed);
            return challenges;
        }
    }
    panic!("a client without a limit")
}

fn config() -> TurnConfig {
    TurnConfig::new(TurnCredentials::new("user", "pass"))
}

#[test]
fn as_many_challenges_are_answered_as_was_set() {
    for limit in [1, 2, 9, 20] {
        let mut config = config();
        config.set_max_stale_nonces(NonZeroU16::new(limit).unwrap());
        assert_eq!(answered(config), u64::from(limit));
    }
}

#[test]
fn nine_challenges_are_answered_by_default() {
    assert_eq!(answered(config()), 9);
}
