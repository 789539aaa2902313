//! What the traces do not show: types, texts, panics, and a client in another thread.

use std::thread;
use std::time::Duration;
use yarrowdoor::api::{
    BindChannelError, CreatePermissionError, DeleteError, SendError, TurnConfig, TurnEvent,
    TurnPollRet,
};
use yarrowdoor::client::TurnClient;
use yarrowdoor::prelude::*;
use yarrowdoor::stun::Instant;
use yarrowdoor::tcp::TurnClientTcp;
use yarrowdoor::types::{AddressFamily, TransportType, TurnCredentials};
use yarrowdoor::udp::TurnClientUdp;

const SEED: [u8; 32] = [0; 32];

fn config() -> TurnConfig {
    TurnConfig::new(TurnCredentials::new("user", "pass"))
}

fn client() -> TurnClientUdp {
    let (local, remote) = (
        "192.168.0.1:1000".parse().unwrap(),
        "10.0.0.2:2000".parse().unwrap(),
    );
    TurnClientUdp::allocate_with_seed(local, remote, config(), SEED)
}

// docs/rattle/LINES.md, An exchange: the first ALLOCATE of this client under the seed of zeros.
#[test]
fn a_client_moves_to_another_thread() {
    let mut client = client();
    let packet = thread::spawn(move || client.poll_transmit(Instant::ZERO))
        .join()
        .unwrap()
        .unwrap();
    assert_eq!(
        packet.data[..8],
        [0x00, 0x03, 0x00, 0x14, 0x21, 0x12, 0xa4, 0x42]
    );
    assert_eq!(packet.data[8..12], [0x76, 0xb8, 0xe0, 0xad]);
    assert_eq!(packet.data.len(), 40);
}

#[test]
fn two_clients_draw_their_own_seeds() {
    let (local, remote) = ("[::1]:1000".parse().unwrap(), "[::1]:3478".parse().unwrap());
    let first = || {
        let mut client = TurnClientUdp::allocate(local, remote, config());
        client
            .poll_transmit(Instant::ZERO)
            .unwrap()
            .into_owned()
            .data
    };
    assert_ne!(first(), first());
}

#[test]
fn a_new_client_refuses_by_name() {
    let mut client = TurnClient::from(client());
    let (peer, now) = ("10.0.0.3:9000".parse().unwrap(), Instant::ZERO);
    let udp = TransportType::Udp;
    assert_eq!(client.delete(now), Err(DeleteError::NoAllocation));
    assert_eq!(
        client.bind_channel(udp, peer, now),
        Err(BindChannelError::NoAllocation)
    );
    let permission = client.create_permission(udp, peer.ip(), now);
    assert_eq!(permission, Err(CreatePermissionError::NoAllocation));
    assert_eq!(
        client.send_to(udp, peer, b"hello", now).unwrap_err(),
        SendError::NoPermission
    );
    assert_eq!(
        client.send_to(udp, peer, vec![0; 65_505], now).unwrap_err(),
        SendError::PayloadTooLong
    );
    assert!(!client.have_permission(udp, peer.ip()));
    assert_eq!(client.relayed_addresses().count(), 0);
    assert_eq!(client.permissions(udp, peer).count(), 0);
}

// docs/rattle/MACHINE.md, Calls: each family that is still requested fails, and the client ends. It is closed once its events are polled.
#[test]
fn a_protocol_error_ends_the_client() {
    let (mut client, now) = (client(), Instant::ZERO);
    client.protocol_error();
    assert_eq!(client.poll(now), TurnPollRet::WaitUntil(now));
    assert_eq!(
        client.poll_event(),
        Some(TurnEvent::AllocationCreateFailed(AddressFamily::IPV4))
    );
    assert_eq!(client.poll_event(), None);
    assert_eq!(client.poll(now), TurnPollRet::Closed);
}

#[test]
fn errors_have_their_texts() {
    let until = Instant::from_nanos(900_000_000_000);
    let error = BindChannelError::ExpiredChannelExists(until);
    let text = "The channel for requested peer address has expired and cannot be recreated until 900.000000000s.";
    assert_eq!(error.to_string(), text);
    assert_eq!(
        DeleteError::NoAllocation.to_string(),
        "There is no connection to the TURN server"
    );
}

#[test]
fn no_password_is_printed() {
    let text = format!("{:?} {:?}", config(), client());
    assert!(text.contains("user") && !text.contains("pass\""), "{text}");
    assert!(!format!("{:?}", TurnCredentials::new("u", "secret")).contains("secret"));
}

#[test]
#[should_panic(expected = "Attempt made to create a UDP TURN client without a UDP allocation")]
fn a_client_over_udp_has_allocations_over_udp() {
    let mut config = config();
    config.set_allocation_transport(TransportType::Tcp);
    let at = "127.0.0.1:1".parse().unwrap();
    let _client = TurnClientUdp::allocate(at, at, config);
}

#[test]
#[should_panic(expected = "a time is from 0 to 2^62 nanoseconds")]
fn a_time_before_the_start_is_refused() {
    client().poll(Instant::ZERO - Duration::from_nanos(1));
}

#[test]
#[should_panic(expected = "a time is from 0 to 2^62 nanoseconds")]
fn a_late_time_is_refused() {
    client().poll(Instant::from_nanos((1 << 62) + 1));
}

#[test]
fn a_request_over_tcp_is_transmitted_once() {
    let (local, remote) = (
        "192.168.0.1:1000".parse().unwrap(),
        "10.0.0.2:2000".parse().unwrap(),
    );
    let mut config = config();
    let times = (
        Duration::from_secs(1),
        Duration::from_secs(2),
        3,
        Duration::MAX,
    );
    config.set_request_retransmits(times.0, times.1, times.2, times.3);
    let mut client = TurnClientTcp::allocate_with_seed(local, remote, config, SEED);
    assert!(client.poll_transmit(Instant::ZERO).is_some());
    assert!(client
        .poll_transmit(Instant::from_nanos(100_000_000_000))
        .is_none());
}

#[test]
fn an_answer_is_the_same_when_it_is_read_again() {
    let mut client = client();
    assert!(client.poll_transmit(Instant::ZERO).is_some());
    let wait = TurnPollRet::WaitUntil(Instant::from_nanos(500_000_000));
    assert_eq!(client.poll(Instant::ZERO), wait);
    assert_eq!(client.poll(Instant::ZERO), wait);
}
