//! The paths by which programs use turn-client-proto 0.7.3. Prints the length of the first packet.

use turn_client_proto::api::{
    DelayedMessageOrChannelSend, DelayedTransmit, Transmit, TransmitBuild, TurnConfig, TurnEvent,
    TurnPollRet, TurnRecvRet,
};
use turn_client_proto::client::TurnClient;
use turn_client_proto::prelude::*;
use turn_client_proto::stun::types::data::Data;
use turn_client_proto::stun::Instant;
use turn_client_proto::tcp::TurnClientTcp;
use turn_client_proto::types::{TransportType, TurnCredentials};
use turn_client_proto::udp::TurnClientUdp;

turn_client_proto::impl_client!(pub Own, (Udp, TurnClientUdp), (Tcp, TurnClientTcp));

/// What a caller matches on.
pub fn kind_of<T: AsRef<[u8]> + std::fmt::Debug>(
    packet: &TransmitBuild<DelayedMessageOrChannelSend<T>>,
) -> &'static str {
    match packet.data {
        DelayedMessageOrChannelSend::Channel(_) => "channel",
        DelayedMessageOrChannelSend::Message(_) => "message",
        DelayedMessageOrChannelSend::Data(_) | DelayedMessageOrChannelSend::OwnedData(_) => "data",
    }
}

/// What a caller may hold.
pub fn length_of(packet: &DelayedTransmit<Vec<u8>>) -> usize {
    packet.len()
}

fn drive(client: &mut impl TurnClientApi, now: Instant) -> Option<Transmit<Data<'static>>> {
    let packet = client.poll_transmit(now);
    if let TurnPollRet::WaitUntil(time) = client.poll(now) {
        assert!(time > now);
    }
    assert!(!matches!(
        client.poll_event(),
        Some(TurnEvent::TcpConnected(_))
    ));
    packet
}

fn main() {
    let (local, server) = (
        "127.0.0.1:1000".parse().unwrap(),
        "127.0.0.1:3478".parse().unwrap(),
    );
    let config = TurnConfig::new(TurnCredentials::new("username", "password"));
    let mut client = Own::from(TurnClientUdp::allocate(local, server, config.clone()));
    let packet = drive(&mut client, Instant::ZERO).expect("a request");
    let other = TurnClient::from(TurnClientTcp::allocate(local, server, config));
    assert_eq!(other.transport(), TransportType::Tcp);
    let back = Transmit::new(packet.data, TransportType::Udp, server, local);
    match client.recv(back, Instant::ZERO) {
        TurnRecvRet::Ignored(back) => println!("{}", back.data.len()),
        other => panic!("{other:?}"),
    }
}
