//! The lists of a client: what each one holds, and that a long one takes no longer for each address than a short one.

mod server;

use server::{
    allocate, allocation, answer, at, challenge, config, grant, new_client, next, success, SIGNED,
};
use std::net::{IpAddr, Ipv4Addr, SocketAddr};
use std::time::{Duration, Instant};
use yarrowdoor::api::TurnRecvRet;
use yarrowdoor::prelude::*;
use yarrowdoor::types::{AddressFamily, TransportType};
use yarrowdoor::udp::TurnClientUdp;

const UDP: TransportType = TransportType::Udp;

/// How many permissions there are: each in turn looked up from the first one on is 8,000,000 steps.
const COUNT: u32 = 4_000;

/// The most that a list of so many takes. By the lookups it took 46 ms.
const MOST: Duration = Duration::from_millis(15);

fn peer(number: u32) -> IpAddr {
    Ipv4Addr::from(0x0a02_0000 + number).into()
}

/// A client that is permitted to send to so many peers.
fn permitted() -> TurnClientUdp {
    let mut config = config();
    config.set_request_cadence(Duration::ZERO);
    let mut client = new_client(config);
    allocate(&mut client);
    for number in 0..COUNT {
        client.create_permission(UDP, peer(number), at(2)).unwrap();
        let request = next(&mut client, at(2)).unwrap();
        grant(&mut client, &request, &[], at(2));
    }
    client
}

#[test]
fn many_permissions_are_listed_in_their_order() {
    let client = permitted();
    let relayed: SocketAddr = "10.0.0.2:50000".parse().unwrap();
    let mut least = Duration::MAX;
    for _ in 0..5 {
        let start = Instant::now();
        let listed: Vec<_> = client.permissions(UDP, relayed).collect();
        least = least.min(start.elapsed());
        assert!(listed.into_iter().eq((0..COUNT).map(peer)));
    }
    assert!(least < MOST, "{least:?} for {COUNT} permissions");
    let other = "10.0.0.2:50001".parse().unwrap();
    assert_eq!(client.permissions(UDP, other).next(), None);
    assert_eq!(client.permissions(TransportType::Tcp, relayed).next(), None);
}

/// An IPv6 address under the cookie and the transaction ID (RFC 8489, section 14.2).
fn xor_relayed(address: SocketAddr, id: &[u8; 12]) -> Vec<u8> {
    let SocketAddr::V6(address) = address else {
        panic!("an IPv6 address")
    };
    let mask = [&[0x21, 0x12, 0xa4, 0x42], id.as_slice()].concat();
    let [high, low] = address.port().to_be_bytes();
    let mut value = vec![0, 2, high ^ mask[0], low ^ mask[1]];
    let octets = address.ip().octets();
    value.extend(octets.iter().zip(mask).map(|(byte, mask)| byte ^ mask));
    server::attribute(0x016, &value)
}

#[test]
fn each_relayed_address_is_listed() {
    let relayed: [SocketAddr; 2] = [
        "10.0.0.2:50000".parse().unwrap(),
        "[fd00::2]:50001".parse().unwrap(),
    ];
    let mut config = config();
    config.add_address_family(AddressFamily::IPV6);
    let mut client = new_client(config);
    let first = next(&mut client, at(0)).unwrap();
    let returned = answer(&mut client, &first, challenge(&first, 401, "nonce"), at(0));
    assert!(matches!(returned, TurnRecvRet::Handled));
    let second = next(&mut client, at(0) + SIGNED).unwrap();
    let [v4, lifetime] = allocation("10.0.0.2:50000", 600);
    let granted = [v4, xor_relayed(relayed[1], &second.id), lifetime];
    let returned = answer(&mut client, &second, success(&second, &granted), at(1));
    assert!(matches!(returned, TurnRecvRet::Handled));
    let listed: Vec<_> = client.relayed_addresses().collect();
    assert_eq!(listed, relayed.map(|address| (UDP, address)));
}
