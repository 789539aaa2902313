//! What a client makes of data for a peer: by the variants of the original crate.

mod server;

use server::{allocated, at, grant, next};
use std::net::SocketAddr;
use yarrowdoor::api::{DelayedMessageOrChannelSend, PacketHead, SendError, TransmitBuild};
use yarrowdoor::prelude::*;
use yarrowdoor::types::TransportType;
use yarrowdoor::udp::TurnClientUdp;

const DATA: &[u8] = b"hello";

fn peer() -> SocketAddr {
    "10.0.0.7:9000".parse().unwrap()
}

/// A client with a permission for the peer.
fn permitted() -> TurnClientUdp {
    let (mut client, ip) = (allocated(), peer().ip());
    client
        .create_permission(TransportType::Udp, ip, at(2))
        .unwrap();
    let request = next(&mut client, at(2)).unwrap();
    grant(&mut client, &request, &[], at(2));
    client
}

/// A client with a channel to the peer.
fn bound() -> TurnClientUdp {
    let mut client = allocated();
    client
        .bind_channel(TransportType::Udp, peer(), at(2))
        .unwrap();
    let request = next(&mut client, at(2)).unwrap();
    grant(&mut client, &request, &[], at(2));
    client
}

fn send(
    client: &mut impl TurnClientApi,
    transport: TransportType,
) -> TransmitBuild<DelayedMessageOrChannelSend<&'static [u8]>> {
    client
        .send_to(transport, peer(), DATA, at(9))
        .unwrap()
        .unwrap()
}

/// The packet, which is the same by each way to look at it.
fn bytes_of(packet: DelayedMessageOrChannelSend<&[u8]>) -> Vec<u8> {
    let (bytes, len) = (packet.as_ref().to_vec(), packet.len());
    let mut place = vec![0xee; len + 1];
    assert_eq!(packet.write_into(&mut place), len);
    assert_eq!(place.pop(), Some(0xee));
    assert_eq!(place, bytes);
    bytes
}

#[test]
fn a_peer_with_a_permission_gets_a_send_indication() {
    let mut client = permitted();
    let packet = send(&mut client, TransportType::Udp).data;
    assert!(matches!(packet, DelayedMessageOrChannelSend::Message(_)));
    let (bytes, built) = (
        bytes_of(packet),
        send(&mut client, TransportType::Udp).build().data,
    );
    // a Send indication of 24 bytes (RFC 8656, section 17); each has an ID of its own
    assert_eq!(bytes[..8], [0x00, 0x16, 0x00, 0x18, 0x21, 0x12, 0xa4, 0x42]);
    assert_ne!(bytes[8..20], built[8..20]);
    assert_eq!((&bytes[..8], &bytes[20..]), (&built[..8], &built[20..]));
}

#[test]
fn a_peer_with_a_channel_gets_channel_data() {
    let mut client = bound();
    let packet = send(&mut client, TransportType::Udp).data;
    assert!(matches!(packet, DelayedMessageOrChannelSend::Channel(_)));
    // padded to a multiple of four, which is allowed over UDP (RFC 8656, section 12.5)
    let wanted = b"\x40\x00\x00\x05hello\0\0\0";
    assert_eq!(bytes_of(packet), wanted);
    let built = send(&mut client, TransportType::Udp).build();
    assert_eq!(built.data, wanted);
}

#[test]
fn a_data_connection_gets_the_data() {
    let mut client = server::tcp::client();
    let bind = server::tcp::bind(&mut client);
    grant(&mut client, &bind, &[], at(4));
    let packet = send(&mut client, TransportType::Tcp).data;
    assert!(matches!(packet, DelayedMessageOrChannelSend::Data(data) if data == DATA));
    assert_eq!(bytes_of(packet), DATA);
    let built = send(&mut client, TransportType::Tcp).build();
    assert_eq!(built.data, DATA);
}

/// What is sent where the data stays where it lies.
fn in_parts(head: &PacketHead) -> Vec<u8> {
    [head.as_bytes(), DATA, head.padding()].concat()
}

#[test]
fn a_head_the_data_and_the_padding_are_the_packet() {
    let over = TransportType::Udp;
    let refused = allocated().send_head(over, peer(), DATA.len(), at(2));
    assert_eq!(refused.unwrap_err(), SendError::NoPermission);
    let mut client = permitted();

    let head = client.send_head(over, peer(), DATA.len(), at(9)).unwrap();
    let packet = send(&mut client, over).build();
    assert_eq!(
        (head.transport, head.from, head.to),
        (packet.transport, packet.from, packet.to)
    );
    assert_eq!(
        (head.data.as_bytes().len(), head.data.padding().len()),
        (36, 3)
    );
    // each has a transaction ID of its own
    let parts = in_parts(&head.data);
    assert_eq!(
        (&parts[..8], &parts[20..]),
        (&packet.data[..8], &packet.data[20..])
    );
    assert_ne!(parts[8..20], packet.data[8..20]);

    let long = client.send_head(over, peer(), 65_505, at(9));
    assert_eq!(long.unwrap_err(), SendError::PayloadTooLong);
}

#[test]
fn a_head_of_a_channel_has_four_bytes() {
    let mut client = bound();
    let head = |client: &mut TurnClientUdp, len| {
        let head = client.send_head(TransportType::Udp, peer(), len, at(9));
        head.unwrap().data
    };
    assert_eq!(
        in_parts(&head(&mut client, 5)),
        b"\x40\x00\x00\x05hello\0\0\0"
    );
    // whole words need no padding, and the length is that of the data alone
    for (len, padding) in [(0, 0), (1, 3), (2, 2), (3, 1), (4, 0), (65_504, 0)] {
        let head = head(&mut client, len);
        let [high, low] = u16::try_from(len).unwrap().to_be_bytes();
        assert_eq!(head.as_ref(), [0x40, 0, high, low]);
        assert_eq!(head.padding(), vec![0; padding]);
    }
}

#[test]
fn a_data_connection_has_no_head() {
    let mut client = server::tcp::client();
    let bind = server::tcp::bind(&mut client);
    grant(&mut client, &bind, &[], at(4));
    let head = client.send_head(TransportType::Tcp, peer(), 1 << 20, at(9));
    let (head, packet) = (head.unwrap(), send(&mut client, TransportType::Tcp));
    assert_eq!((head.from, head.to), (packet.from, packet.to));
    assert_eq!(in_parts(&head.data), DATA);
}
