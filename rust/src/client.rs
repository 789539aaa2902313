//! Either client as one type, and the macro for further such types.

pub use crate::api::{
    BindChannelError, CreatePermissionError, DeleteError, KeepError, SendError, TcpAllocateError,
    TurnEvent, TurnPollRet, TurnRecvRet,
};
use crate::tcp::TurnClientTcp;
use crate::udp::TurnClientUdp;

/// Gives a client the calls that the original has not: those that keep grants or let them go, the head of a packet, and the end
/// of a client at once. They
/// stand beside the trait, which is the original's, so that nothing that implements it breaks: `$call` is the macro that makes
/// them, and `$each` says of which value.
macro_rules! own_calls {
    ($name:ty, $self:ident, $call:ident => $each:tt) => {
        impl $name {
            /// Says whether the permission for this IP address is kept, as it is at first: refreshed until the allocation ends.
            /// One that is released is used until it expires, which the event `PermissionCreateFailed` reports, and it may be
            /// kept again until then. A later permission for the address is a new one, and kept. It sends nothing.
            ///
            /// A channel to a peer and the permission for it are two grants: release both, or only the channel if other
            /// ports use the permission.
            ///
            /// # Errors
            ///
            /// `NotGranted`: no permission for this address is pending or active, or the allocations do not relay over this
            /// transport. Nothing changes then.
            pub fn set_permission_kept(
                &mut $self,
                transport: $crate::types::TransportType,
                peer_addr: ::core::net::IpAddr,
                is_kept: bool,
            ) -> Result<(), $crate::api::KeepError> {
                $crate::$call!($each, $self, set_permission_kept(transport, peer_addr, is_kept))
            }

            /// Says whether the channel to this peer is kept, as `set_permission_kept` does of a permission. One that is released
            /// ends with the event `ChannelCreateFailed`, and its number and its peer are reserved for a while, as always (RFC
            /// 8656, section 12).
            ///
            /// # Errors
            ///
            /// `NotGranted`: no channel to this peer is pending or active, or the allocations do not relay over this transport.
            /// Nothing changes then.
            pub fn set_channel_kept(
                &mut $self,
                transport: $crate::types::TransportType,
                peer_addr: ::core::net::SocketAddr,
                is_kept: bool,
            ) -> Result<(), $crate::api::KeepError> {
                $crate::$call!($each, $self, set_channel_kept(transport, peer_addr, is_kept))
            }

            /// Sends data of `len` bytes to this peer, as `send_to` does, but makes only what stands around the data: what
            /// precedes it and what follows it. The data is sent between them from where it lies, and not copied. Each call is a
            /// send of its own, with a transaction ID of its own if the peer has no channel.
            ///
            /// # Errors
            ///
            /// As for `send_to`.
            ///
            /// # Panics
            ///
            /// The time is not from 0 to 2^62 ns.
            pub fn send_head(
                &mut $self,
                transport: $crate::types::TransportType,
                to: ::core::net::SocketAddr,
                len: usize,
                now: $crate::types::Instant,
            ) -> Result<$crate::api::Transmit<$crate::api::PacketHead>, $crate::api::SendError> {
                $crate::$call!($each, $self, send_head(transport, to, len, now))
            }

            /// Gives the client up, for a caller that closes its socket at once: returns the packet that deletes its allocations
            /// (a REFRESH with a lifetime of 0; RFC 8656, section 8.1), or `None` if the server has granted none, or the
            /// client has ended. Unlike that of `delete` it waits neither for the pause between requests nor for what is queued,
            /// and is sent once: if it is lost, or the server asks for another nonce, the relay ends by its lifetime.
            ///
            /// The client has ended then, and holds no grant. Events that were queued can still be polled.
            ///
            /// # Panics
            ///
            /// The time is not from 0 to 2^62 ns.
            #[must_use = "the packet is to be sent"]
            pub fn abandon(
                &mut $self,
                now: $crate::types::Instant,
            ) -> Option<$crate::api::Transmit<$crate::api::Data<'static>>> {
                $crate::$call!($each, $self, abandon(now))
            }
        }
    };
}

pub(crate) use own_calls;

/// Implements [`TurnClientApi`](crate::api::TurnClientApi) for a type, by the same calls of other values: `$call` is the
/// macro that makes them, and `$each` says of which.
#[doc(hidden)]
#[macro_export]
macro_rules! __delegate {
    ($name:ty, $self:ident, $call:ident => $each:tt) => {
        impl $crate::api::TurnClientApi for $name {
            fn transport(&$self) -> $crate::types::TransportType {
                $crate::$call!($each, $self, transport())
            }

            fn local_addr(&$self) -> ::core::net::SocketAddr {
                $crate::$call!($each, $self, local_addr())
            }

            fn remote_addr(&$self) -> ::core::net::SocketAddr {
                $crate::$call!($each, $self, remote_addr())
            }

            fn relayed_addresses(
                &$self,
            ) -> impl Iterator<Item = ($crate::types::TransportType, ::core::net::SocketAddr)> + '_ {
                $crate::$call!(@iterator $each, $self, relayed_addresses())
            }

            fn permissions(
                &$self,
                transport: $crate::types::TransportType,
                relayed: ::core::net::SocketAddr,
            ) -> impl Iterator<Item = ::core::net::IpAddr> + '_ {
                $crate::$call!(@iterator $each, $self, permissions(transport, relayed))
            }

            fn delete(&mut $self, now: $crate::types::Instant) -> Result<(), $crate::api::DeleteError> {
                $crate::$call!($each, $self, delete(now))
            }

            fn create_permission(
                &mut $self,
                transport: $crate::types::TransportType,
                peer_addr: ::core::net::IpAddr,
                now: $crate::types::Instant,
            ) -> Result<(), $crate::api::CreatePermissionError> {
                $crate::$call!($each, $self, create_permission(transport, peer_addr, now))
            }

            fn have_permission(
                &$self,
                transport: $crate::types::TransportType,
                to: ::core::net::IpAddr,
            ) -> bool {
                $crate::$call!($each, $self, have_permission(transport, to))
            }

            fn bind_channel(
                &mut $self,
                transport: $crate::types::TransportType,
                peer_addr: ::core::net::SocketAddr,
                now: $crate::types::Instant,
            ) -> Result<(), $crate::api::BindChannelError> {
                $crate::$call!($each, $self, bind_channel(transport, peer_addr, now))
            }

            fn tcp_connect(
                &mut $self,
                peer_addr: ::core::net::SocketAddr,
                now: $crate::types::Instant,
            ) -> Result<(), $crate::api::TcpConnectError> {
                $crate::$call!($each, $self, tcp_connect(peer_addr, now))
            }

            fn allocated_tcp_socket(
                &mut $self,
                id: u32,
                five_tuple: $crate::api::Socket5Tuple,
                peer_addr: ::core::net::SocketAddr,
                local_addr: Option<::core::net::SocketAddr>,
                now: $crate::types::Instant,
            ) -> Result<(), $crate::api::TcpAllocateError> {
                $crate::$call!(
                    $each, $self, allocated_tcp_socket(id, five_tuple, peer_addr, local_addr, now)
                )
            }

            fn tcp_closed(
                &mut $self,
                local_addr: ::core::net::SocketAddr,
                remote_addr: ::core::net::SocketAddr,
                now: $crate::types::Instant,
            ) {
                $crate::$call!($each, $self, tcp_closed(local_addr, remote_addr, now))
            }

            fn send_to<T: AsRef<[u8]> + ::core::fmt::Debug>(
                &mut $self,
                transport: $crate::types::TransportType,
                to: ::core::net::SocketAddr,
                data: T,
                now: $crate::types::Instant,
            ) -> Result<
                Option<$crate::api::TransmitBuild<$crate::api::DelayedMessageOrChannelSend<T>>>,
                $crate::api::SendError,
            > {
                $crate::$call!($each, $self, send_to(transport, to, data, now))
            }

            fn recv<T: AsRef<[u8]> + ::core::fmt::Debug>(
                &mut $self,
                transmit: $crate::api::Transmit<T>,
                now: $crate::types::Instant,
            ) -> $crate::api::TurnRecvRet<T> {
                $crate::$call!($each, $self, recv(transmit, now))
            }

            fn poll_recv(
                &mut $self,
                now: $crate::types::Instant,
            ) -> Option<$crate::api::TurnPeerData<Vec<u8>>> {
                $crate::$call!($each, $self, poll_recv(now))
            }

            fn poll(&mut $self, now: $crate::types::Instant) -> $crate::api::TurnPollRet {
                $crate::$call!($each, $self, poll(now))
            }

            fn poll_transmit(
                &mut $self,
                now: $crate::types::Instant,
            ) -> Option<$crate::api::Transmit<$crate::api::Data<'static>>> {
                $crate::$call!($each, $self, poll_transmit(now))
            }

            fn poll_event(&mut $self) -> Option<$crate::api::TurnEvent> {
                $crate::$call!($each, $self, poll_event())
            }

            fn protocol_error(&mut $self) {
                $crate::$call!($each, $self, protocol_error())
            }
        }
    };
}

/// A call of the field of a struct.
#[doc(hidden)]
#[macro_export]
macro_rules! __of_field {
    (@iterator $field:tt, $self:ident, $call:ident $arguments:tt) => {
        $crate::__of_field!($field, $self, $call $arguments)
    };
    (($field:ident), $self:ident, $call:ident $arguments:tt) => {
        $self.$field.$call $arguments
    };
}

/// A call of the value in a variant of an enum. At most one of the iterators is there.
#[doc(hidden)]
#[macro_export]
macro_rules! __of_variant {
    (@iterator ($($variant:ident),+), $self:ident, $call:ident $arguments:tt) => {
        ::core::iter::empty()$(.chain(
            if let Self::$variant(value) = $self { Some(value.$call $arguments) } else { None }
                .into_iter()
                .flatten(),
        ))+
    };
    (($($variant:ident),+), $self:ident, $call:ident $arguments:tt) => {
        match $self {
            $(Self::$variant(value) => value.$call $arguments,)+
        }
    };
}

/// Declares an enum of clients, which is a client itself.
///
/// # Examples
///
/// ```
/// use yarrowdoor::tcp::TurnClientTcp;
/// use yarrowdoor::udp::TurnClientUdp;
/// yarrowdoor::impl_client!(pub MyClient, (Udp, TurnClientUdp), (Tcp, TurnClientTcp));
/// ```
#[macro_export]
macro_rules! impl_client {
    ($vis:vis $name:ident, $(($variant:ident, $ty:ty)),+) => {
        /// A TURN client.
        #[derive(Debug)]
        $vis enum $name {
            $(
                #[doc = concat!("A `", stringify!($ty), "`.")]
                $variant($ty),
            )+
        }

        $crate::__delegate!($name, self, __of_variant => ($($variant),+));

        $(
            impl From<$ty> for $name {
                fn from(value: $ty) -> Self {
                    Self::$variant(value)
                }
            }
        )+
    };
}

impl_client!(pub TurnClient, (Udp, TurnClientUdp), (Tcp, TurnClientTcp));
own_calls!(TurnClient, self, __of_variant => (Udp, Tcp));
