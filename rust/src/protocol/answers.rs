//! What answers of the library mean.

use super::unexpected;
use crate::api::{DelayedMessageOrChannelSend, SendError, Socket5Tuple, TurnEvent, TurnPollRet};
use crate::convert::{family, instant, socket, transport};
use crate::stun::types::TransportType;
use crate::sys;
use crate::types::transmit::{DelayedChannel, DelayedMessage};
use std::fmt::Debug;

/// The result of a call that is done or refused: `error_of` knows the errors of this call.
pub(super) fn done<E>(
    answer: &sys::Answer,
    error_of: impl FnOnce(u32) -> Option<E>,
) -> Result<(), E> {
    match answer.kind {
        sys::DONE => Ok(()),
        sys::REFUSED => Err(error_of(answer.error).unwrap_or_else(|| unexpected(answer))),
        _ => unexpected(answer),
    }
}

/// A call that is never refused.
pub(super) fn always_done(answer: &sys::Answer) {
    if answer.kind != sys::DONE {
        unexpected(answer);
    }
}

/// Why data is not sent.
pub(super) fn send_error(answer: &sys::Answer) -> SendError {
    match answer.error {
        sys::ERROR_NO_ALLOCATION => SendError::NoAllocation,
        sys::ERROR_NO_PERMISSION => SendError::NoPermission,
        sys::ERROR_NO_SOCKET => SendError::NoTcpSocket,
        _ => unexpected(answer),
    }
}

/// The packet that carries data to a peer, over an allocation of this transport. A `ChannelData` message begins with the bits 01, and
/// a Send indication with 00 (RFC 8656, section 12.4).
pub(super) fn built<T: AsRef<[u8]> + Debug>(
    relayed: TransportType,
    data: T,
    packet: Vec<u8>,
) -> DelayedMessageOrChannelSend<T> {
    match (relayed, packet.first()) {
        // nothing stands around the data of a data connection
        (TransportType::Tcp, _) => DelayedMessageOrChannelSend::Data(data),
        (_, Some(0x40..=0x7f)) => DelayedMessageOrChannelSend::Channel(DelayedChannel::of(packet)),
        _ => DelayedMessageOrChannelSend::Message(DelayedMessage::of(packet)),
    }
}

/// What `poll` returned.
pub(super) fn polled(answer: &sys::Answer) -> TurnPollRet {
    match answer.kind {
        sys::WAIT_UNTIL => TurnPollRet::WaitUntil(instant(answer.time)),
        sys::ALLOCATE_TCP_SOCKET => TurnPollRet::AllocateTcpSocket {
            id: answer.id,
            socket: Socket5Tuple {
                transport: transport(answer.transport),
                from: socket(&answer.from),
                to: socket(&answer.to),
            },
            peer_addr: socket(&answer.peer),
        },
        sys::TCP_CLOSE => TurnPollRet::TcpClose {
            local_addr: socket(&answer.from),
            remote_addr: socket(&answer.to),
        },
        sys::CLOSED => TurnPollRet::Closed,
        _ => unexpected(answer),
    }
}

/// The event, if there is one.
pub(super) fn event(answer: &sys::Answer) -> Option<TurnEvent> {
    if answer.kind == sys::NOTHING {
        return None;
    }
    if answer.kind == sys::ALLOCATION_CREATE_FAILED {
        return Some(TurnEvent::AllocationCreateFailed(family(answer.family)));
    }
    let (over, peer) = (transport(answer.transport), socket(&answer.peer));
    Some(match answer.kind {
        sys::ALLOCATION_CREATED => TurnEvent::AllocationCreated(over, peer),
        sys::PERMISSION_CREATED => TurnEvent::PermissionCreated(over, peer.ip()),
        sys::PERMISSION_CREATE_FAILED => TurnEvent::PermissionCreateFailed(over, peer.ip()),
        sys::CHANNEL_CREATED => TurnEvent::ChannelCreated(over, peer),
        sys::CHANNEL_CREATE_FAILED => TurnEvent::ChannelCreateFailed(over, peer),
        sys::TCP_CONNECTED => TurnEvent::TcpConnected(peer),
        sys::TCP_CONNECT_FAILED => TurnEvent::TcpConnectFailed(peer),
        _ => unexpected(answer),
    })
}
