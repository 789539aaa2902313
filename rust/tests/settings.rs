//! The times that a caller sets, and the grants that it lets go.

mod server;

use server::{addresses, allocate, at, config, grant, new_client, next};
use std::net::{IpAddr, SocketAddr};
use std::time::Duration;
use yarrowdoor::api::{KeepError, TurnConfig, TurnEvent, TurnPollRet};
use yarrowdoor::client::TurnClient;
use yarrowdoor::prelude::*;
use yarrowdoor::stun::Instant;
use yarrowdoor::tcp::TurnClientTcp;
use yarrowdoor::types::TransportType;
use yarrowdoor::udp::TurnClientUdp;

const UDP: TransportType = TransportType::Udp;

/// A client whose allocation was granted at 1 s, and expires at 601 s.
fn client(config: TurnConfig) -> TurnClientUdp {
    let mut client = new_client(config);
    allocate(&mut client);
    client
}

fn peer() -> SocketAddr {
    "10.0.0.7:9000".parse().unwrap()
}

/// When the client asks to be called again.
fn wake_up(client: &mut impl TurnClientApi, now: Instant) -> Instant {
    match client.poll(now) {
        TurnPollRet::WaitUntil(time) => time,
        other => panic!("{other:?}"),
    }
}

/// How long after the first of three requests, which are made at one time, each is sent.
fn waits(cadence: Option<Duration>) -> Vec<Duration> {
    let mut config = config();
    if let Some(cadence) = cadence {
        config.set_request_cadence(cadence);
        assert_eq!(config.request_cadence(), cadence);
    }
    let mut client = client(config);
    for ip in ["10.0.0.7", "10.0.0.8", "10.0.0.9"] {
        client
            .create_permission(UDP, ip.parse().unwrap(), at(2))
            .unwrap();
    }
    let (mut now, mut waits) = (at(2), Vec::new());
    while waits.len() < 3 {
        match next(&mut client, now) {
            Some(sent) if sent.kind == server::CREATE_PERMISSION => waits.push(now - at(2)),
            Some(other) => panic!("{other:?}"),
            None => now = wake_up(&mut client, now),
        }
    }
    waits
}

#[test]
fn requests_are_sent_by_their_cadence() {
    let times = |pause: u64| [0, 1, 2].map(|count| Duration::from_millis(count * pause));
    assert_eq!(waits(None), times(50));
    assert_eq!(waits(Some(Duration::from_millis(5))), times(5));
    assert_eq!(waits(Some(Duration::from_millis(100))), times(100));
    assert_eq!(waits(Some(Duration::ZERO)), times(0));
}

// 2^64 - 1 ns is the library's number for no pause: it is not what so long a pause is.
#[test]
fn a_long_cadence_is_not_none() {
    for cadence in [Duration::MAX, Duration::from_nanos(u64::MAX)] {
        let mut config = config();
        config.set_request_cadence(cadence);
        let mut client = new_client(config);
        let first = next(&mut client, at(0)).unwrap();
        let told = server::challenge(&first, 401, "nonce");
        let _ = server::answer(&mut client, &first, told, at(0));
        assert!(next(&mut client, at(0) + server::SIGNED).is_none());
    }
}

/// How long after the last packet of the handshake the first keepalive is sent, and how long after it the next one.
fn keepalives(wait: Duration) -> [Duration; 2] {
    let mut config = config();
    config.set_keepalive(Some(wait));
    let mut client = client(config);
    let (mut now, mut last) = (at(1), at(0) + server::SIGNED);
    [(); 2].map(|()| {
        assert!(next(&mut client, now).is_none());
        now = wake_up(&mut client, now);
        let sent = next(&mut client, now).unwrap();
        assert_eq!(sent.kind, server::BINDING_INDICATION);
        let waited = now - last;
        last = now;
        waited
    })
}

#[test]
fn a_path_is_kept_alive() {
    let (second, usual) = (Duration::from_secs(1), Duration::from_secs(15));
    assert_eq!(keepalives(usual), [usual; 2]);
    assert_eq!(keepalives(Duration::ZERO), [second; 2]);
}

#[test]
fn no_path_is_kept_alive_by_default() {
    assert_eq!(config().keepalive(), None);
    let mut client = client(config());
    assert_eq!(wake_up(&mut client, at(1)), at(541));
}

#[test]
fn a_grant_is_refreshed_ahead_of_its_expiry() {
    // the last two are half of the lifetime, and a second
    for (ahead, due) in [(60, 541), (120, 481), (299, 302), (100_000, 301), (0, 600)] {
        let mut config = config();
        config.set_refresh_ahead(Duration::from_secs(ahead));
        let mut client = client(config);
        assert_eq!(wake_up(&mut client, at(1)), at(due));
        assert!(next(&mut client, at(due - 1)).is_none());
        assert_eq!(next(&mut client, at(due)).unwrap().kind, server::REFRESH);
    }
}

/// How many packets a client returns in one instant, half a second after thirty requests were made, of which none is answered.
fn sent_at_once(timed_from_send: bool) -> usize {
    let mut config = config();
    config.set_requests_timed_from_send(timed_from_send);
    assert_eq!(config.requests_timed_from_send(), timed_from_send);
    let mut client = client(config);
    for last in 10..40 {
        client
            .create_permission(UDP, IpAddr::from([10, 0, 0, last]), at(2))
            .unwrap();
    }
    let mut now = at(2);
    while now < at(2) + Duration::from_millis(500) {
        while next(&mut client, now).is_some() {}
        now = wake_up(&mut client, now);
    }
    std::iter::from_fn(|| next(&mut client, now)).count()
}

#[test]
fn a_burst_leaves_in_its_turn_if_set_so() {
    assert!(!config().requests_timed_from_send());
    assert_eq!((sent_at_once(false), sent_at_once(true)), (30, 1));
}

#[test]
fn short_times_are_a_second() {
    let (mut config, second) = (config(), Duration::from_secs(1));
    config.set_keepalive(Some(Duration::from_millis(999)));
    config.set_refresh_ahead(Duration::from_millis(999));
    assert_eq!(
        (config.keepalive(), config.refresh_ahead()),
        (Some(second), second)
    );
}

/// What a client sends up to 700 s, to a server that grants each request, and its events.
fn run(client: &mut TurnClientUdp, from: Instant) -> (Vec<u16>, Vec<TurnEvent>) {
    let (mut now, mut kinds, mut events) = (from, Vec::new(), Vec::new());
    while now <= at(700) {
        while let Some(request) = next(client, now) {
            kinds.push(request.kind);
            let lifetime = server::allocation("10.0.0.2:50000", 600);
            let attributes = if request.kind == server::REFRESH {
                &lifetime[1..]
            } else {
                &[]
            };
            grant(client, &request, attributes, now);
        }
        events.extend(std::iter::from_fn(|| client.poll_event()));
        now = wake_up(client, now).max(now + Duration::from_millis(1));
    }
    (kinds, events)
}

fn count(kinds: &[u16], kind: u16) -> usize {
    kinds.iter().filter(|it| **it == kind).count()
}

// A permission lasts 300 s (RFC 8656, section 9), so it is refreshed at 242 s and at 482 s, a minute ahead.
#[test]
fn a_permission_that_is_let_go_is_not_refreshed() {
    let gone = TurnEvent::PermissionCreateFailed(UDP, peer().ip());
    for (calls, requests) in [(&[][..], 3), (&[false], 1), (&[false, true], 3)] {
        let mut client = client(config());
        client.create_permission(UDP, peer().ip(), at(2)).unwrap();
        for is_kept in calls {
            client
                .set_permission_kept(UDP, peer().ip(), *is_kept)
                .unwrap();
        }
        let (kinds, events) = run(&mut client, at(2));
        assert_eq!(count(&kinds, server::CREATE_PERMISSION), requests);
        assert_eq!(events.contains(&gone), requests == 1);
    }
}

// A channel lasts 600 s (RFC 8656, section 12), so it is refreshed at 542 s.
#[test]
fn a_channel_that_is_let_go_is_not_refreshed() {
    let gone = TurnEvent::ChannelCreateFailed(UDP, peer());
    for (calls, requests) in [(&[][..], 2), (&[false], 1), (&[false, true], 2)] {
        let mut client = client(config());
        client.bind_channel(UDP, peer(), at(2)).unwrap();
        for is_kept in calls {
            client.set_channel_kept(UDP, peer(), *is_kept).unwrap();
        }
        let (kinds, events) = run(&mut client, at(2));
        assert_eq!(count(&kinds, server::CHANNEL_BIND), requests);
        assert_eq!(events.contains(&gone), requests == 1);
        assert!(client.have_permission(UDP, peer().ip()));
    }
}

#[test]
fn what_is_not_granted_is_not_let_go() {
    let (local, remote) = addresses();
    let tcp = || TurnClientTcp::allocate_with_seed(local, remote, config(), [0; 32]);
    let refused = Err(KeepError::NotGranted);
    let mut udp = new_client(config());
    assert_eq!(udp.set_permission_kept(UDP, peer().ip(), false), refused);
    assert_eq!(udp.set_channel_kept(UDP, peer(), false), refused);
    assert_eq!(tcp().set_permission_kept(UDP, peer().ip(), false), refused);
    assert_eq!(tcp().set_channel_kept(UDP, peer(), false), refused);
    for mut client in [
        TurnClient::from(new_client(config())),
        TurnClient::from(tcp()),
    ] {
        assert_eq!(client.set_permission_kept(UDP, peer().ip(), true), refused);
        assert_eq!(client.set_channel_kept(UDP, peer(), true), refused);
    }
    assert_eq!(
        KeepError::NotGranted.to_string(),
        "There is no such permission or channel"
    );
}
