//! A client that is given up at once.

mod server;

use server::{allocate, at, config, grant, new_client, next};
use std::net::SocketAddr;
use yarrowdoor::api::{CreatePermissionError, TurnPollRet};
use yarrowdoor::prelude::*;
use yarrowdoor::types::TransportType;
use yarrowdoor::udp::TurnClientUdp;

const UDP: TransportType = TransportType::Udp;

/// A REFRESH whose first attribute is a LIFETIME of 0 (RFC 8656, sections 7.2 and 18.2).
const LIFETIME_OF_0: [u8; 8] = [0, 13, 0, 4, 0, 0, 0, 0];

fn peer() -> SocketAddr {
    "10.0.0.7:9000".parse().unwrap()
}

#[test]
fn the_refresh_leaves_before_what_is_queued() {
    let mut client = new_client(config());
    allocate(&mut client);
    client.create_permission(UDP, peer().ip(), at(2)).unwrap();
    let request = next(&mut client, at(2)).unwrap();
    grant(&mut client, &request, &[], at(2));
    assert!(client.have_permission(UDP, peer().ip()));
    for last in 8..58 {
        let ip = [10, 0, 0, last].into();
        client.create_permission(UDP, ip, at(2)).unwrap();
    }
    // within the pause, and behind fifty requests
    assert!(next(&mut client, at(2)).is_none());
    let packet = client.abandon(at(2)).expect("a packet");
    assert_eq!(packet.data[..2], server::REFRESH.to_be_bytes());
    assert_eq!(packet.data[20..28], LIFETIME_OF_0);
    assert_eq!((packet.transport, packet.to), (UDP, client.remote_addr()));
    has_ended(&mut client);
}

#[test]
fn without_an_allocation_there_is_nothing_to_send() {
    let mut client = new_client(config());
    assert!(client.abandon(at(1)).is_none());
    has_ended(&mut client);
    let mut client = new_client(config());
    assert_eq!(next(&mut client, at(1)).unwrap().kind, server::ALLOCATE);
    assert!(client.abandon(at(1)).is_none());
    has_ended(&mut client);
}

/// A client that was given up holds nothing, and sends nothing more.
fn has_ended(client: &mut TurnClientUdp) {
    while client.poll_event().is_some() {}
    assert_eq!(client.poll(at(3)), TurnPollRet::Closed);
    assert!(client.poll_transmit(at(600)).is_none());
    assert!(client.relayed_addresses().next().is_none());
    assert!(!client.have_permission(UDP, peer().ip()));
    let refused = client.create_permission(UDP, peer().ip(), at(3));
    assert_eq!(refused, Err(CreatePermissionError::NoAllocation));
    assert!(client.abandon(at(3)).is_none());
}
