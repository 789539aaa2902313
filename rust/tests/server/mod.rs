//! The server's side of a test: it reads requests, and writes responses (RFC 8489, RFC 8656, RFC 6062).

#![allow(dead_code)] // each test uses a part of it

pub mod sign;
pub mod tcp;

use std::net::SocketAddr;
use std::time::Duration;
use yarrowdoor::api::{Transmit, TurnConfig, TurnRecvRet};
use yarrowdoor::prelude::*;
use yarrowdoor::stun::Instant;
use yarrowdoor::types::TurnCredentials;
use yarrowdoor::udp::TurnClientUdp;

pub const ALLOCATE: u16 = 0x003;
pub const REFRESH: u16 = 0x004;
pub const CREATE_PERMISSION: u16 = 0x008;
pub const CHANNEL_BIND: u16 = 0x009;
pub const CONNECT: u16 = 0x00a;
pub const CONNECTION_BIND: u16 = 0x00b;
/// The type of a Binding indication, which keeps a path alive.
pub const BINDING_INDICATION: u16 = 0x011;

/// The bits of a success and of an error response in the type of a message (RFC 8489, section 5).
const SUCCESS: u16 = 0x100;
const ERROR: u16 = 0x110;
const COOKIE: [u8; 4] = [0x21, 0x12, 0xa4, 0x42];

const CHANNEL_NUMBER: u16 = 0x00c;
const LIFETIME: u16 = 0x00d;
const PEER_ADDRESS: u16 = 0x012;
const RELAYED_ADDRESS: u16 = 0x016;
const CONNECTION_ID: u16 = 0x02a;

/// A message that the client sent.
#[derive(Debug)]
pub struct Sent {
    /// Its type: of a request that is its method.
    pub kind: u16,
    pub id: [u8; 12],
    pub from: SocketAddr,
    pub to: SocketAddr,
}

/// The next message that is due, or none.
pub fn next(client: &mut impl TurnClientApi, now: Instant) -> Option<Sent> {
    let packet = client.poll_transmit(now)?;
    assert_eq!(packet.data[4..8], COOKIE);
    Some(Sent {
        kind: u16::from_be_bytes([packet.data[0], packet.data[1]]),
        id: packet.data[8..20].try_into().unwrap(),
        from: packet.from,
        to: packet.to,
    })
}

/// An attribute, padded to four bytes.
pub fn attribute(kind: u16, value: &[u8]) -> Vec<u8> {
    let len = u16::try_from(value.len()).unwrap();
    let mut bytes = [kind.to_be_bytes(), len.to_be_bytes()].concat();
    bytes.extend_from_slice(value);
    bytes.resize(bytes.len().next_multiple_of(4), 0);
    bytes
}

fn message(kind: u16, id: &[u8; 12], attributes: &[u8]) -> Vec<u8> {
    let len = u16::try_from(attributes.len()).unwrap();
    let mut bytes = [kind.to_be_bytes(), len.to_be_bytes()].concat();
    bytes.extend_from_slice(&COOKIE);
    bytes.extend_from_slice(id);
    bytes.extend_from_slice(attributes);
    bytes
}

/// An IPv4 address under the cookie (RFC 8489, section 14.2).
pub fn xor_address(kind: u16, address: &str) -> Vec<u8> {
    let SocketAddr::V4(address) = address.parse().unwrap() else {
        panic!("an IPv4 address")
    };
    let port = address.port().to_be_bytes();
    let mut value = vec![0, 1, port[0] ^ COOKIE[0], port[1] ^ COOKIE[1]];
    let octets = address.ip().octets();
    value.extend(octets.iter().zip(COOKIE).map(|(byte, mask)| byte ^ mask));
    attribute(kind, &value)
}

/// An error response that is not signed, with a realm and this nonce: a challenge where the code is 401 or 438.
pub fn challenge(request: &Sent, code: u16, nonce: &str) -> Vec<u8> {
    let [class, number] = [code / 100, code % 100].map(|it| u8::try_from(it).unwrap());
    let attributes = [
        attribute(0x0009, &[0, 0, class, number]),
        attribute(0x0014, b"realm"),
        attribute(0x0015, nonce.as_bytes()),
    ];
    message(request.kind | ERROR, &request.id, &attributes.concat())
}

/// A success response with these attributes, signed by MESSAGE-INTEGRITY.
pub fn success(request: &Sent, attributes: &[Vec<u8>]) -> Vec<u8> {
    let unsigned = message(request.kind | SUCCESS, &request.id, &attributes.concat());
    sign::signed(unsigned)
}

/// What grants an ALLOCATE: a relayed address for this many seconds.
pub fn allocation(relayed: &str, seconds: u32) -> [Vec<u8>; 2] {
    [
        xor_address(RELAYED_ADDRESS, relayed),
        attribute(LIFETIME, &seconds.to_be_bytes()),
    ]
}

/// The number that the server gives a connection to a peer.
pub fn connection(id: u32) -> Vec<u8> {
    attribute(CONNECTION_ID, &id.to_be_bytes())
}

/// Passes in bytes of the server, as an answer to this message.
pub fn answer(
    client: &mut impl TurnClientApi,
    to: &Sent,
    bytes: Vec<u8>,
    now: Instant,
) -> TurnRecvRet<Vec<u8>> {
    let received = Transmit::new(bytes, client.transport(), to.to, to.from);
    client.recv(received, now)
}

/// The time so many seconds after the start.
pub fn at(seconds: u64) -> Instant {
    Instant::ZERO + Duration::from_secs(seconds)
}

/// When the handshake sends its signed request: after the pause of 50 ms, and before its retransmission is due.
pub const SIGNED: Duration = Duration::from_millis(400);

/// The addresses of a client and of its server.
pub fn addresses() -> (SocketAddr, SocketAddr) {
    let (local, remote) = ("10.0.0.1:4000", "10.0.0.9:3478");
    (local.parse().unwrap(), remote.parse().unwrap())
}

/// A configuration with the password of this server.
pub fn config() -> TurnConfig {
    TurnConfig::new(TurnCredentials::new("user", "pass"))
}

/// A client over UDP, which asks for an allocation.
pub fn new_client(config: TurnConfig) -> TurnClientUdp {
    let (local, remote) = addresses();
    TurnClientUdp::allocate_with_seed(local, remote, config, [0; 32])
}

/// A client over UDP that has an allocation.
pub fn allocated() -> TurnClientUdp {
    let mut client = new_client(config());
    allocate(&mut client);
    client
}

/// Passes through the handshake: a challenge at 0 s, and at 1 s an allocation for 600 s at 10.0.0.2:50000.
pub fn allocate(client: &mut impl TurnClientApi) {
    let first = next(client, at(0)).expect("an ALLOCATE");
    let told = challenge(&first, 401, "nonce");
    assert!(matches!(
        answer(client, &first, told, at(0)),
        TurnRecvRet::Handled
    ));
    let second = next(client, at(0) + SIGNED).expect("a signed ALLOCATE");
    assert_eq!((first.kind, second.kind), (ALLOCATE, ALLOCATE));
    grant(client, &second, &allocation("10.0.0.2:50000", 600), at(1));
    client.poll_event().expect("an allocation");
}

/// Answers a request by a signed success.
pub fn grant(
    client: &mut impl TurnClientApi,
    request: &Sent,
    attributes: &[Vec<u8>],
    now: Instant,
) {
    let told = success(request, attributes);
    assert!(matches!(
        answer(client, request, told, now),
        TurnRecvRet::Handled
    ));
}
