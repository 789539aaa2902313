//! An IPv6 address keeps its flow information and its scope (RFC 3493, section 3.3) on the way to the library and back.

mod server;

use server::{answer, at, challenge, next, Sent};
use std::net::{Ipv6Addr, SocketAddr, SocketAddrV6};
use yarrowdoor::api::TurnRecvRet;
use yarrowdoor::prelude::*;
use yarrowdoor::tcp::TurnClientTcp;
use yarrowdoor::types::{AddressFamily, TransportType};
use yarrowdoor::udp::TurnClientUdp;

const LOCAL: Ipv6Addr = Ipv6Addr::new(0xfe80, 0, 0, 0, 0, 0, 0, 1);
const SERVER: Ipv6Addr = Ipv6Addr::new(0xfe80, 0, 0, 0, 0, 0, 0, 2);

/// A client whose own address and whose server's have these flows and scopes.
fn client(flows: (u32, u32), scopes: (u32, u32)) -> TurnClientUdp {
    let mut config = server::config();
    config.set_address_family(AddressFamily::IPV6);
    let local = SocketAddrV6::new(LOCAL, 4000, flows.0, scopes.0);
    let remote = SocketAddrV6::new(SERVER, 3478, flows.1, scopes.1);
    TurnClientUdp::allocate_with_seed(local.into(), remote.into(), config, [0; 32])
}

/// The flow and the scope of an IPv6 address.
fn flow_and_scope(address: SocketAddr) -> (u32, u32) {
    let SocketAddr::V6(address) = address else {
        panic!("an IPv6 address")
    };
    (address.flowinfo(), address.scope_id())
}

#[test]
fn a_packet_has_the_flows_of_its_ends() {
    let packet = next(&mut client((0x12345, 0x54321), (0, 0)), at(0)).unwrap();
    assert_eq!(flow_and_scope(packet.from), (0x12345, 0));
    assert_eq!(flow_and_scope(packet.to), (0x54321, 0));
}

#[test]
fn a_packet_has_the_scopes_of_its_ends() {
    let packet = next(&mut client((0, 0), (3, 4)), at(0)).unwrap();
    assert_eq!(flow_and_scope(packet.from), (0, 3));
    assert_eq!(flow_and_scope(packet.to), (0, 4));
}

/// Whether the client takes a challenge from a server with this flow and scope for its server's.
fn is_handled(flow: u32, scope: u32) -> bool {
    let mut client = client((0, 7), (3, 4));
    let request = next(&mut client, at(0)).unwrap();
    let told = challenge(&request, 401, "nonce");
    let to = SocketAddrV6::new(SERVER, 3478, flow, scope).into();
    let returned = answer(&mut client, &Sent { to, ..request }, told, at(0));
    matches!(returned, TurnRecvRet::Handled)
}

#[test]
fn a_packet_of_another_flow_or_scope_is_not_the_servers() {
    assert!(is_handled(7, 4));
    assert!(!is_handled(0, 4));
    assert!(!is_handled(7, 0));
}

#[test]
fn a_relayed_address_is_as_the_server_wrote_it() {
    let ((local, remote), config) = (server::addresses(), server::config());
    let mut client = TurnClientTcp::allocate_with_seed(local, remote, config, [0; 32]);
    server::allocate(&mut client);
    let relayed: Vec<_> = client.relayed_addresses().collect();
    assert_eq!(
        relayed,
        [(TransportType::Udp, "10.0.0.2:50000".parse().unwrap())]
    );
}
