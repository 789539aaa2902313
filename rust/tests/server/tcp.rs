//! A client over TCP, with a data connection to a peer (RFC 6062).

use super::{at, grant, next, Sent};
use yarrowdoor::api::TurnPollRet;
use yarrowdoor::prelude::*;
use yarrowdoor::tcp::TurnClientTcp;
use yarrowdoor::types::TransportType;

pub const PEER: &str = "10.0.0.7:9000";

/// A client with a permission for the peer in an allocation over TCP.
pub fn client() -> TurnClientTcp {
    let ((local, remote), mut config) = (super::addresses(), super::config());
    config.set_allocation_transport(TransportType::Tcp);
    let mut client = TurnClientTcp::allocate_with_seed(local, remote, config, [0; 32]);
    super::allocate(&mut client);
    let peer: std::net::SocketAddr = PEER.parse().unwrap();
    client
        .create_permission(TransportType::Tcp, peer.ip(), at(2))
        .unwrap();
    let request = next(&mut client, at(2)).unwrap();
    assert_eq!(request.kind, super::CREATE_PERMISSION);
    grant(&mut client, &request, &[], at(2));
    client.poll_event().unwrap();
    client
}

/// The `CONNECTION_BIND` of a data connection that the server offers.
pub fn bind(client: &mut TurnClientTcp) -> Sent {
    client.tcp_connect(PEER.parse().unwrap(), at(3)).unwrap();
    let request = next(client, at(3)).unwrap();
    assert_eq!(request.kind, super::CONNECT);
    grant(client, &request, &[super::connection(77)], at(3));
    let TurnPollRet::AllocateTcpSocket {
        id,
        socket,
        peer_addr,
    } = client.poll(at(3))
    else {
        panic!("no connection is offered")
    };
    assert_eq!((id, peer_addr), (77, PEER.parse().unwrap()));
    let local = "10.0.0.1:4001".parse().unwrap();
    client
        .allocated_tcp_socket(id, socket, peer_addr, Some(local), at(3))
        .unwrap();
    let bind = next(client, at(4)).unwrap();
    assert_eq!((bind.kind, bind.from), (super::CONNECTION_BIND, local));
    bind
}
