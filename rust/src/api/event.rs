//! What a client reports.

use crate::stun::types::TransportType;
use crate::stun::Instant;
use crate::types::AddressFamily;
use std::net::{IpAddr, SocketAddr};

/// What [`poll`](crate::api::TurnClientApi::poll) returns.
#[derive(Clone, Debug, PartialEq, Eq)]
pub enum TurnPollRet {
    /// Nothing is due before this time: the wake-up time. Any other call may make it earlier, so poll after it.
    WaitUntil(Instant),
    /// Open a data connection to the server, and report it by
    /// [`allocated_tcp_socket`](crate::api::TurnClientApi::allocated_tcp_socket).
    AllocateTcpSocket {
        /// The number that the server gave the connection.
        id: u32,
        /// The control connection: the data connection goes to the same server.
        socket: Socket5Tuple,
        /// The peer.
        peer_addr: SocketAddr,
    },
    /// Close the connection with these ends.
    TcpClose {
        /// The local end.
        local_addr: SocketAddr,
        /// The end of the server.
        remote_addr: SocketAddr,
    },
    /// The client has ended. Events may be left: if nothing was answered (by default 39.5 s after the start) one for each
    /// family, and none if the password is wrong (39.5 s after the challenge).
    Closed,
}

/// A socket's transport and ends.
#[derive(Clone, Copy, Debug, PartialEq, Eq)]
pub struct Socket5Tuple {
    /// The transport.
    pub transport: TransportType,
    /// The local address.
    pub from: SocketAddr,
    /// The remote address.
    pub to: SocketAddr,
}

/// What has happened.
#[derive(Clone, Debug, PartialEq, Eq)]
pub enum TurnEvent {
    /// The server relays this address, over this transport.
    AllocationCreated(TransportType, SocketAddr),
    /// There is no relayed address of this family, for whatever reason.
    AllocationCreateFailed(AddressFamily),
    /// This peer has a permission.
    PermissionCreated(TransportType, IpAddr),
    /// This peer has no permission.
    PermissionCreateFailed(TransportType, IpAddr),
    /// This peer has a channel.
    ChannelCreated(TransportType, SocketAddr),
    /// This peer has no channel.
    ChannelCreateFailed(TransportType, SocketAddr),
    /// There is a data connection to this peer.
    TcpConnected(SocketAddr),
    /// There is no data connection to this peer.
    TcpConnectFailed(SocketAddr),
}
