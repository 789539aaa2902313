//! What all clients have: the trait, the configuration, and what calls take and return.
//!
//! # Examples
//!
//! A caller sends what is due, waits for the server or for the wake-up time, and passes in what was received. Sockets and
//! clock are its own.
//!
//! ```
//! use yarrowdoor::prelude::*;
//! use yarrowdoor::api::{Transmit, TurnConfig, TurnPollRet, TurnRecvRet};
//! use yarrowdoor::stun::Instant;
//! use yarrowdoor::types::{TransportType, TurnCredentials};
//! use yarrowdoor::udp::TurnClientUdp;
//!
//! let (local, server) = ("192.168.0.1:4000".parse().unwrap(), "10.0.0.1:3478".parse().unwrap());
//! let config = TurnConfig::new(TurnCredentials::new("user", "pass"));
//! let mut client = TurnClientUdp::allocate(local, server, config);
//!
//! // The first request is due at once, and its retransmission after half a second.
//! let now = Instant::ZERO;
//! let packet = client.poll_transmit(now).unwrap();
//! assert_eq!((packet.transport, packet.from, packet.to), (TransportType::Udp, local, server));
//! assert!(client.poll_transmit(now).is_none());
//! assert_eq!(client.poll(now), TurnPollRet::WaitUntil(Instant::from_nanos(500_000_000)));
//!
//! // A packet that no server of this client sent is not for it.
//! let received = Transmit::new([0u8; 20], TransportType::Udp, server, local);
//! assert!(matches!(client.recv(received, now), TurnRecvRet::Ignored(_)));
//! assert!(client.poll_event().is_none());
//! ```

mod config;
mod error;
mod event;
mod head;
mod load;
mod receive;
mod send;

pub use crate::stun::agent::Transmit;
pub use crate::stun::types::data::Data;
pub use crate::types::transmit::TransmitBuild;
pub use config::TurnConfig;
pub use error::{
    BindChannelError, CreatePermissionError, DeleteError, KeepError, SendError, TcpAllocateError,
    TcpConnectError,
};
pub use event::{Socket5Tuple, TurnEvent, TurnPollRet};
pub use head::PacketHead;
pub use load::Load;
pub use receive::{DataRangeOrOwned, TurnPeerData, TurnRecvRet};
pub use send::{DelayedMessageOrChannelSend, DelayedTransmit};

use crate::stun::types::TransportType;
use crate::stun::Instant;
use std::fmt::Debug;
use std::net::{IpAddr, SocketAddr};

/// What every TURN client does, whatever carries its packets.
///
/// # Panics
///
/// Each call that takes a time panics if it is not from 0 to 2^62 ns.
pub trait TurnClientApi: Debug + Send {
    /// The transport between the client and the server.
    fn transport(&self) -> TransportType;

    /// The local address of the client.
    fn local_addr(&self) -> SocketAddr;

    /// The address of the server.
    fn remote_addr(&self) -> SocketAddr;

    /// The relayed addresses, each with the transport of its allocation.
    fn relayed_addresses(&self) -> impl Iterator<Item = (TransportType, SocketAddr)> + '_;

    /// The peers that have an active permission in the allocation with this relayed address.
    fn permissions(
        &self,
        transport: TransportType,
        relayed: SocketAddr,
    ) -> impl Iterator<Item = IpAddr> + '_;

    /// Requests that the server delete the allocations (RFC 8656, section 8).
    ///
    /// # Errors
    ///
    /// `NoAllocation`: the server has not granted an allocation yet, or the client has ended (not by the expiry of its
    /// allocations).
    fn delete(&mut self, now: Instant) -> Result<(), DeleteError>;

    /// Requests a permission for a peer, whatever its port (RFC 8656, section 9). An event reports the outcome.
    ///
    /// # Errors
    ///
    /// `NoAllocation`: there is none over this transport for the peer's IP version. `AlreadyExists`: the permission is
    /// active or pending.
    fn create_permission(
        &mut self,
        transport: TransportType,
        peer_addr: IpAddr,
        now: Instant,
    ) -> Result<(), CreatePermissionError>;

    /// Whether a peer has an active permission.
    fn have_permission(&self, transport: TransportType, to: IpAddr) -> bool;

    /// Requests a channel to a peer, and with it a permission (RFC 8656, section 12). An event reports the
    /// outcome.
    ///
    /// # Errors
    ///
    /// `NoAllocation`: there is none over this transport for the peer's IP version. `AlreadyExists`: the peer has an
    /// active or a pending channel, or all 4,096 numbers are taken. `ExpiredChannelExists`: the peer had a channel.
    fn bind_channel(
        &mut self,
        transport: TransportType,
        peer_addr: SocketAddr,
        now: Instant,
    ) -> Result<(), BindChannelError>;

    /// Requests that the server connect to a peer (RFC 6062, section 4.3). [`poll`](Self::poll) returns
    /// `AllocateTcpSocket` when it has, or an event reports that it has not.
    ///
    /// # Errors
    ///
    /// `NoAllocation`: there is none over TCP for the peer's IP version. `NoPermission`: the peer has none.
    /// `AlreadyExists`: a connection to the peer exists, is pending, or is offered.
    fn tcp_connect(&mut self, peer_addr: SocketAddr, now: Instant) -> Result<(), TcpConnectError>;

    /// Reports the data connection that [`TurnPollRet::AllocateTcpSocket`] asked for, with the values of that answer, and
    /// the address of the new socket, or `None` if no connection could be opened.
    ///
    /// # Errors
    ///
    /// `NoAllocation`: the client has no such offer. `AlreadyExists`: another connection has this local address.
    fn allocated_tcp_socket(
        &mut self,
        id: u32,
        five_tuple: Socket5Tuple,
        peer_addr: SocketAddr,
        local_addr: Option<SocketAddr>,
        now: Instant,
    ) -> Result<(), TcpAllocateError>;

    /// Reports that a data connection was closed, or broke: `poll` returns [`TurnPollRet::TcpClose`] for it then,
    /// unless the client has ended. The end of the control connection is a `recv` of no bytes, and a `protocol_error`.
    fn tcp_closed(&mut self, local_addr: SocketAddr, remote_addr: SocketAddr, now: Instant);

    /// Makes the packet that carries data to a peer, over the transport of the allocation. It is always `Some`.
    ///
    /// # Errors
    ///
    /// `NoPermission`: the peer has none. `NoTcpSocket`: no data connection to the peer is bound. `PayloadTooLong`: the
    /// data has over 65,504 bytes, and the allocation relays over UDP.
    fn send_to<T: AsRef<[u8]> + Debug>(
        &mut self,
        transport: TransportType,
        to: SocketAddr,
        data: T,
        now: Instant,
    ) -> Result<Option<TransmitBuild<DelayedMessageOrChannelSend<T>>>, SendError>;

    /// Passes in received bytes: a datagram, or what one read of a stream gave, or nothing if the stream has ended.
    ///
    /// Data of a peer that lies in these bytes is returned as a range of them, without a copy. Over TCP call
    /// [`poll_recv`](Self::poll_recv) afterwards.
    fn recv<T: AsRef<[u8]> + Debug>(
        &mut self,
        transmit: Transmit<T>,
        now: Instant,
    ) -> TurnRecvRet<T>;

    /// The next data of peers in the streams that were passed in. Call it until it returns `None`.
    #[must_use = "it may have data of a peer"]
    fn poll_recv(&mut self, now: Instant) -> Option<TurnPeerData<Vec<u8>>>;

    /// What is to be done next, and when to call again.
    fn poll(&mut self, now: Instant) -> TurnPollRet;

    /// The next packet that is due. Call it until it returns `None`.
    #[must_use = "the packet is to be sent"]
    fn poll_transmit(&mut self, now: Instant) -> Option<Transmit<Data<'static>>>;

    /// The next event. Call it until it returns `None`.
    fn poll_event(&mut self) -> Option<TurnEvent>;

    /// Reports an error of a layer between client and server, as TLS, after which nothing can be sent: the client ends.
    fn protocol_error(&mut self);
}
