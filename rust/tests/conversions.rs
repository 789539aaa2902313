//! Values from and to those of std.

mod server;

use server::{addresses, allocated, at, grant, next};
use std::borrow::Cow;
use std::io;
use std::net::{IpAddr, SocketAddr};
use yarrowdoor::api::{Data, DeleteError, Transmit, TurnRecvRet};
use yarrowdoor::prelude::*;
use yarrowdoor::types::{AddressFamily, TransportType};

#[test]
fn an_address_has_its_family() {
    for (text, family) in [
        ("10.0.0.1:9", AddressFamily::IPV4),
        ("[::1]:9", AddressFamily::IPV6),
        // mapped, it is still written as IPv6
        ("[::ffff:10.0.0.1]:9", AddressFamily::IPV6),
    ] {
        let address: SocketAddr = text.parse().unwrap();
        assert_eq!(AddressFamily::from(address), family, "{text}");
        assert_eq!(AddressFamily::from(address.ip()), family, "{text}");
    }
}

#[test]
fn bytes_keep_their_owner() {
    let owned = Data::from(Cow::Owned(vec![1, 2]));
    assert!(matches!(&owned, Data::Owned(bytes) if **bytes == [1, 2]));
    assert_eq!(Vec::from(owned), [1, 2]);
    let borrowed = Data::from(Cow::Borrowed(&[3u8, 4][..]));
    assert!(matches!(borrowed, Data::Borrowed([3, 4])));
    assert_eq!(Vec::from(borrowed), [3, 4]);
}

#[test]
fn an_error_goes_into_one_of_io() {
    let error = io::Error::from(DeleteError::NoAllocation);
    assert_eq!(error.kind(), io::ErrorKind::Other);
    assert_eq!(error.to_string(), DeleteError::NoAllocation.to_string());
    let inner = error.into_inner().unwrap().downcast::<DeleteError>();
    assert_eq!(*inner.unwrap(), DeleteError::NoAllocation);
}

#[test]
fn data_of_a_peer_goes_into_a_vector() {
    let ((local, remote), mut client) = (addresses(), allocated());
    let peer = SocketAddr::new(IpAddr::from([10, 0, 0, 7]), 9000);
    client
        .bind_channel(TransportType::Udp, peer, at(2))
        .unwrap();
    let request = next(&mut client, at(2)).unwrap();
    grant(&mut client, &request, &[], at(2));
    let packet = b"\x40\x00\x00\x05hello";
    let received = Transmit::new(packet, TransportType::Udp, remote, local);
    let TurnRecvRet::PeerData(sent) = client.recv(received, at(3)) else {
        panic!("no data of the peer")
    };
    assert_eq!(Vec::from(sent), b"hello");
}
