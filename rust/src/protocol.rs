//! What the clients over UDP and over TCP share: the calls, over the library for C.

mod answers;
mod lists;

use crate::api::{
    BindChannelError, CreatePermissionError, Data, DataRangeOrOwned, DelayedMessageOrChannelSend,
    DeleteError, KeepError, PacketHead, SendError, Socket5Tuple, TcpAllocateError, TcpConnectError,
    Transmit, TransmitBuild, TurnConfig, TurnEvent, TurnPeerData, TurnPollRet, TurnRecvRet,
};
use crate::convert::{
    address, instant, ip_address, nanos, settings, socket, transport, transport_code,
};
use crate::handle::Handle;
use crate::stun::types::TransportType;
use crate::stun::Instant;
use crate::sys;
use std::fmt::Debug;
use std::net::{IpAddr, SocketAddr};

pub(crate) use lists::{Permissions, RelayedAddresses};

/// A client.
#[derive(Debug)]
pub(crate) struct Protocol {
    handle: Handle,
    transport: TransportType,
    local: SocketAddr,
    remote: SocketAddr,
    buffer: Buffer,
}

/// Where the library puts packets, and data of peers that was received in pieces.
struct Buffer(Box<[u8]>);

impl Debug for Buffer {
    fn fmt(&self, f: &mut std::fmt::Formatter<'_>) -> std::fmt::Result {
        f.write_str("Buffer")
    }
}

/// A request of this kind, at this time.
#[inline]
fn request(kind: u32, now: Instant) -> sys::Request {
    sys::Request {
        kind,
        time: nanos(now),
        ..sys::Request::default()
    }
}

/// A request of this kind, which has no time.
fn timeless(kind: u32) -> sys::Request {
    request(kind, Instant::ZERO)
}

/// An answer that no call of this kind has, by the contract of the library.
fn unexpected(answer: &sys::Answer) -> ! {
    unreachable!("the answer {} (error {})", answer.kind, answer.error)
}

impl Protocol {
    pub(crate) fn new(
        transport: TransportType,
        local: SocketAddr,
        remote: SocketAddr,
        config: &TurnConfig,
        seed: &[u8; 32],
    ) -> Protocol {
        let settings = settings(transport, local, remote, config);
        let credentials = config.credentials();
        match Handle::new(
            &settings,
            credentials.username(),
            credentials.password(),
            seed,
        ) {
            Ok(handle) => Protocol {
                handle,
                transport,
                local,
                remote,
                buffer: Buffer(vec![0; sys::MAX_PACKET].into()),
            },
            // a configuration has no bad number, and its credentials fit
            Err(error) => unreachable!("no client: error {error}"),
        }
    }

    pub(crate) fn transport(&self) -> TransportType {
        self.transport
    }

    pub(crate) fn local_addr(&self) -> SocketAddr {
        self.local
    }

    pub(crate) fn remote_addr(&self) -> SocketAddr {
        self.remote
    }

    /// Makes a call without bytes.
    fn call(&mut self, request: &sys::Request) -> sys::Answer {
        let mut answer = sys::Answer::default();
        self.handle.call(request, &[], &mut [], &mut answer);
        answer
    }

    /// The bytes of an answer: those in the buffer, and those that did not fit into it.
    fn bytes_of(&mut self, answer: &sys::Answer) -> Vec<u8> {
        let mut bytes = Vec::with_capacity(answer.len + answer.left);
        bytes.extend_from_slice(&self.buffer.0[..answer.len]);
        let mut left = answer.left;
        while left > 0 {
            let (request, mut more) = (timeless(sys::CALL_READ), sys::Answer::default());
            self.handle
                .call(&request, &[], &mut self.buffer.0, &mut more);
            if more.kind != sys::BYTES {
                unexpected(&more);
            }
            bytes.extend_from_slice(&self.buffer.0[..more.len]);
            left = more.left;
        }
        bytes
    }

    /// The data of a peer that was received in pieces.
    fn data_of<T: AsRef<[u8]> + Debug>(&mut self, answer: &sys::Answer) -> TurnPeerData<T> {
        TurnPeerData {
            data: DataRangeOrOwned::Owned(self.bytes_of(answer)),
            transport: transport(answer.transport),
            peer: socket(&answer.peer),
        }
    }

    pub(crate) fn recv<T: AsRef<[u8]> + Debug>(
        &mut self,
        transmit: Transmit<T>,
        now: Instant,
    ) -> TurnRecvRet<T> {
        let request = sys::Request {
            transport: transport_code(transmit.transport),
            from: address(transmit.from),
            to: address(transmit.to),
            ..request(sys::CALL_RECV, now)
        };
        let mut answer = sys::Answer::default();
        self.handle.call(
            &request,
            transmit.data.as_ref(),
            &mut self.buffer.0,
            &mut answer,
        );
        match answer.kind {
            sys::HANDLED => TurnRecvRet::Handled,
            sys::IGNORED => TurnRecvRet::Ignored(transmit),
            sys::PEER_DATA => TurnRecvRet::PeerData(self.data_of(&answer)),
            sys::PEER_DATA_RANGE => TurnRecvRet::PeerData(TurnPeerData {
                data: DataRangeOrOwned::Range {
                    data: transmit.data,
                    range: answer.start..answer.start + answer.len,
                },
                transport: transport(answer.transport),
                peer: socket(&answer.peer),
            }),
            sys::PEER_ICMP => TurnRecvRet::PeerIcmp {
                transport: transport(answer.transport),
                peer: socket(&answer.peer),
                icmp_type: answer.icmp_type,
                icmp_code: answer.icmp_code,
                icmp_data: answer.icmp_data,
            },
            _ => unexpected(&answer),
        }
    }

    pub(crate) fn poll_recv(&mut self, now: Instant) -> Option<TurnPeerData<Vec<u8>>> {
        let request = request(sys::CALL_POLL_RECV, now);
        let mut answer = sys::Answer::default();
        self.handle
            .call(&request, &[], &mut self.buffer.0, &mut answer);
        match answer.kind {
            sys::NOTHING => None,
            sys::PEER_DATA => Some(self.data_of(&answer)),
            _ => unexpected(&answer),
        }
    }

    pub(crate) fn poll_transmit(&mut self, now: Instant) -> Option<Transmit<Data<'static>>> {
        self.packet(&request(sys::CALL_POLL_TRANSMIT, now))
    }

    pub(crate) fn abandon(&mut self, now: Instant) -> Option<Transmit<Data<'static>>> {
        self.packet(&request(sys::CALL_ABANDON, now))
    }

    /// Makes a call that returns a packet, or none.
    fn packet(&mut self, request: &sys::Request) -> Option<Transmit<Data<'static>>> {
        let mut answer = sys::Answer::default();
        self.handle
            .call(request, &[], &mut self.buffer.0, &mut answer);
        match answer.kind {
            sys::NOTHING => None,
            sys::PACKET => Some(Transmit::new(
                Data::from(self.bytes_of(&answer)),
                transport(answer.transport),
                socket(&answer.from),
                socket(&answer.to),
            )),
            _ => unexpected(&answer),
        }
    }

    pub(crate) fn send_to<T: AsRef<[u8]> + Debug>(
        &mut self,
        relayed: TransportType,
        to: SocketAddr,
        data: T,
        now: Instant,
    ) -> Result<Option<TransmitBuild<DelayedMessageOrChannelSend<T>>>, SendError> {
        let bytes = data.as_ref();
        let head = self.send_head(relayed, to, bytes.len(), now)?;
        // no memory that is not initialised is passed in, and none is initialised only to be written over
        let (front, padding) = (head.data.as_bytes(), head.data.padding());
        let packet = [front, bytes, padding].concat();
        Ok(Some(TransmitBuild::new(
            answers::built(relayed, data, packet),
            head.transport,
            head.from,
            head.to,
        )))
    }

    pub(crate) fn send_head(
        &mut self,
        relayed: TransportType,
        to: SocketAddr,
        len: usize,
        now: Instant,
    ) -> Result<Transmit<PacketHead>, SendError> {
        let request = sys::Request {
            transport: transport_code(relayed),
            peer: address(to),
            ..request(sys::CALL_SEND_HEAD, now)
        };
        let mut head = [0; sys::MAX_OVERHEAD];
        let mut answer = sys::Answer::default();
        self.handle
            .call_counting(&request, len, &mut head, &mut answer);
        match answer.kind {
            sys::PACKET => Ok(Transmit::new(
                PacketHead::new(head, answer.len, answer.start),
                transport(answer.transport),
                socket(&answer.from),
                socket(&answer.to),
            )),
            sys::BAD_PAYLOAD => Err(SendError::PayloadTooLong),
            sys::REFUSED => Err(answers::send_error(&answer)),
            _ => unexpected(&answer),
        }
    }

    pub(crate) fn poll(&mut self, now: Instant) -> TurnPollRet {
        answers::polled(&self.call(&request(sys::CALL_POLL, now)))
    }

    pub(crate) fn poll_event(&mut self) -> Option<TurnEvent> {
        answers::event(&self.call(&timeless(sys::CALL_POLL_EVENT)))
    }

    pub(crate) fn delete(&mut self, now: Instant) -> Result<(), DeleteError> {
        let answer = self.call(&request(sys::CALL_DELETE, now));
        answers::done(&answer, |error| match error {
            sys::ERROR_NO_ALLOCATION => Some(DeleteError::NoAllocation),
            _ => None,
        })
    }

    pub(crate) fn create_permission(
        &mut self,
        relayed: TransportType,
        peer_addr: IpAddr,
        now: Instant,
    ) -> Result<(), CreatePermissionError> {
        let answer = self.call(&sys::Request {
            transport: transport_code(relayed),
            peer: ip_address(peer_addr),
            ..request(sys::CALL_CREATE_PERMISSION, now)
        });
        answers::done(&answer, |error| match error {
            sys::ERROR_ALREADY_EXISTS => Some(CreatePermissionError::AlreadyExists),
            sys::ERROR_NO_ALLOCATION => Some(CreatePermissionError::NoAllocation),
            _ => None,
        })
    }

    pub(crate) fn have_permission(&self, relayed: TransportType, to: IpAddr) -> bool {
        let answer = self.handle.look(&sys::Request {
            transport: transport_code(relayed),
            peer: ip_address(to),
            ..timeless(sys::CALL_HAVE_PERMISSION)
        });
        match answer.kind {
            sys::YES => true,
            sys::NO => false,
            _ => unexpected(&answer),
        }
    }

    pub(crate) fn bind_channel(
        &mut self,
        relayed: TransportType,
        peer_addr: SocketAddr,
        now: Instant,
    ) -> Result<(), BindChannelError> {
        let answer = self.call(&sys::Request {
            transport: transport_code(relayed),
            peer: address(peer_addr),
            ..request(sys::CALL_BIND_CHANNEL, now)
        });
        answers::done(&answer, |error| match error {
            sys::ERROR_ALREADY_EXISTS => Some(BindChannelError::AlreadyExists),
            sys::ERROR_NO_ALLOCATION => Some(BindChannelError::NoAllocation),
            sys::ERROR_EXPIRED => {
                Some(BindChannelError::ExpiredChannelExists(instant(answer.time)))
            }
            _ => None,
        })
    }

    /// Makes a call that keeps the grant of a peer, or lets it go.
    fn set_kept(
        &mut self,
        kind: u32,
        relayed: TransportType,
        peer: sys::Address,
        is_kept: bool,
    ) -> Result<(), KeepError> {
        let answer = self.call(&sys::Request {
            id: u32::from(is_kept),
            transport: transport_code(relayed),
            peer,
            ..timeless(kind)
        });
        answers::done(&answer, |error| match error {
            sys::ERROR_NOT_GRANTED => Some(KeepError::NotGranted),
            _ => None,
        })
    }

    pub(crate) fn set_permission_kept(
        &mut self,
        relayed: TransportType,
        peer_addr: IpAddr,
        is_kept: bool,
    ) -> Result<(), KeepError> {
        let kind = sys::CALL_SET_PERMISSION_KEPT;
        self.set_kept(kind, relayed, ip_address(peer_addr), is_kept)
    }

    pub(crate) fn set_channel_kept(
        &mut self,
        relayed: TransportType,
        peer_addr: SocketAddr,
        is_kept: bool,
    ) -> Result<(), KeepError> {
        let kind = sys::CALL_SET_CHANNEL_KEPT;
        self.set_kept(kind, relayed, address(peer_addr), is_kept)
    }

    pub(crate) fn tcp_connect(
        &mut self,
        peer_addr: SocketAddr,
        now: Instant,
    ) -> Result<(), TcpConnectError> {
        let answer = self.call(&sys::Request {
            peer: address(peer_addr),
            ..request(sys::CALL_TCP_CONNECT, now)
        });
        answers::done(&answer, |error| match error {
            sys::ERROR_ALREADY_EXISTS => Some(TcpConnectError::AlreadyExists),
            sys::ERROR_NO_ALLOCATION => Some(TcpConnectError::NoAllocation),
            sys::ERROR_NO_PERMISSION => Some(TcpConnectError::NoPermission),
            _ => None,
        })
    }

    pub(crate) fn allocated_tcp_socket(
        &mut self,
        id: u32,
        five_tuple: Socket5Tuple,
        peer_addr: SocketAddr,
        local_addr: Option<SocketAddr>,
        now: Instant,
    ) -> Result<(), TcpAllocateError> {
        let answer = self.call(&sys::Request {
            id,
            transport: transport_code(five_tuple.transport),
            from: address(five_tuple.from),
            to: address(five_tuple.to),
            peer: address(peer_addr),
            local: local_addr.map(address).unwrap_or_default(),
            ..request(sys::CALL_ALLOCATED_TCP_SOCKET, now)
        });
        answers::done(&answer, |error| match error {
            sys::ERROR_ALREADY_EXISTS => Some(TcpAllocateError::AlreadyExists),
            sys::ERROR_NO_ALLOCATION => Some(TcpAllocateError::NoAllocation),
            _ => None,
        })
    }

    pub(crate) fn tcp_closed(&mut self, local: SocketAddr, remote: SocketAddr, now: Instant) {
        let answer = self.call(&sys::Request {
            from: address(local),
            to: address(remote),
            ..request(sys::CALL_TCP_CLOSED, now)
        });
        answers::always_done(&answer);
    }

    pub(crate) fn protocol_error(&mut self) {
        answers::always_done(&self.call(&timeless(sys::CALL_PROTOCOL_ERROR)));
    }

    pub(crate) fn relayed_addresses(&self) -> RelayedAddresses<'_> {
        RelayedAddresses::new(&self.handle)
    }

    pub(crate) fn permissions(&self, relayed: TransportType, at: SocketAddr) -> Permissions<'_> {
        Permissions::new(&self.handle, relayed, at)
    }
}
