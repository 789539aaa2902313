"""What the calls of `client.Client` answer, and the events that it reports, as types."""
from __future__ import annotations

from dataclasses import dataclass
from typing import Callable, Dict, Optional, Union

from . import layout as c
from .address import Address, SocketAddress, peer_of, socket_address

__all__ = [
    "AllocateTcpSocket", "AllocationCreated", "AllocationCreateFailed", "ChannelCreated", "ChannelCreateFailed", "Closed", "Event",
    "Handled", "Ignored", "Packet", "PeerData", "PeerIcmp", "PermissionCreated", "PermissionCreateFailed", "Poll", "Received",
    "TcpClose", "TcpConnected", "TcpConnectFailed", "TRANSPORT_NAMES", "WaitUntil", "event_of", "packet_of", "poll_of",
]

TRANSPORT_NAMES = ("udp", "tcp")

# What calls answer. No default values, so that they have slots in Python 3.9 too.


@dataclass
class WaitUntil:
    """Nothing is due before this time. Any other call may make it earlier."""

    __slots__ = ("time",)
    time: int


@dataclass
class AllocateTcpSocket:
    """Open a connection to `remote`, for data of `peer`, and pass it to `allocated_tcp_socket`."""

    __slots__ = ("id", "transport", "local", "remote", "peer")
    id: int
    transport: str
    local: SocketAddress
    remote: SocketAddress
    peer: Address


@dataclass
class TcpClose:
    """Close the connection from `local` to `remote`."""

    __slots__ = ("local", "remote")
    local: SocketAddress
    remote: SocketAddress


@dataclass
class Closed:
    """The client has ended. If the server never answered, an event may be left that says so."""

    __slots__ = ()


@dataclass
class Packet:
    """Send these bytes over `transport`, from the socket at `local` to `remote`."""

    __slots__ = ("data", "transport", "local", "remote")
    data: bytes
    transport: str
    local: SocketAddress
    remote: SocketAddress


@dataclass
class Handled:
    """The bytes were for the client itself: poll it."""

    __slots__ = ()


@dataclass
class Ignored:
    """The bytes were not for this client, or nothing shows that the server sent them."""

    __slots__ = ()


@dataclass
class PeerData:
    """`peer` sent this over `transport`: a slice from `start` on of what was passed in, or, with None, what came in pieces."""

    __slots__ = ("data", "peer", "transport", "start")
    data: bytes
    peer: Address
    transport: str
    start: Optional[int]


@dataclass
class PeerIcmp:
    """An ICMP packet came for data to `peer` (RFC 8656, section 18.13)."""

    __slots__ = ("peer", "transport", "type", "code", "data")
    peer: Address
    transport: str
    type: int
    code: int
    data: int


@dataclass
class AllocationCreated:
    """The server relays this address, over `transport`."""

    __slots__ = ("address", "transport")
    address: Address
    transport: str


@dataclass
class AllocationCreateFailed:
    """There is no relayed address of this family, 4 or 6, for whatever reason."""

    __slots__ = ("family",)
    family: int


@dataclass
class PermissionCreated:
    """This IP address has a permission."""

    __slots__ = ("ip", "transport")
    ip: str
    transport: str


@dataclass
class PermissionCreateFailed:
    """This IP address got no permission, or has it no longer."""

    __slots__ = ("ip", "transport")
    ip: str
    transport: str


@dataclass
class ChannelCreated:
    """This peer has a channel."""

    __slots__ = ("peer", "transport")
    peer: Address
    transport: str


@dataclass
class ChannelCreateFailed:
    """This peer got no channel, or has it no longer."""

    __slots__ = ("peer", "transport")
    peer: Address
    transport: str


@dataclass
class TcpConnected:
    """There is a data connection to this peer."""

    __slots__ = ("peer",)
    peer: Address


@dataclass
class TcpConnectFailed:
    """There is no data connection to this peer."""

    __slots__ = ("peer",)
    peer: Address


Poll = Union[WaitUntil, AllocateTcpSocket, TcpClose, Closed]
Received = Union[Handled, Ignored, PeerData, PeerIcmp]
Event = Union[AllocationCreated, AllocationCreateFailed, PermissionCreated, PermissionCreateFailed, ChannelCreated,
              ChannelCreateFailed, TcpConnected, TcpConnectFailed]

_EVENTS: Dict[int, Callable[[c.Answer], Event]] = {
    c.ALLOCATION_CREATED: lambda it: AllocationCreated(peer_of(it.peer), TRANSPORT_NAMES[it.transport]),
    c.ALLOCATION_CREATE_FAILED: lambda it: AllocationCreateFailed(it.family),
    c.PERMISSION_CREATED: lambda it: PermissionCreated(peer_of(it.peer).host, TRANSPORT_NAMES[it.transport]),
    c.PERMISSION_CREATE_FAILED: lambda it: PermissionCreateFailed(peer_of(it.peer).host, TRANSPORT_NAMES[it.transport]),
    c.CHANNEL_CREATED: lambda it: ChannelCreated(peer_of(it.peer), TRANSPORT_NAMES[it.transport]),
    c.CHANNEL_CREATE_FAILED: lambda it: ChannelCreateFailed(peer_of(it.peer), TRANSPORT_NAMES[it.transport]),
    c.TCP_CONNECTED: lambda it: TcpConnected(peer_of(it.peer)),
    c.TCP_CONNECT_FAILED: lambda it: TcpConnectFailed(peer_of(it.peer)),
}


def event_of(answer: c.Answer) -> Optional[Event]:
    """The event that an answer reports, or None."""
    make = _EVENTS.get(answer.kind)
    return make(answer) if make else None


def poll_of(answer: c.Answer) -> Poll:
    """What an answer to POLL says is to be done."""
    if answer.kind == c.WAIT_UNTIL:
        return WaitUntil(answer.time)
    if answer.kind == c.ALLOCATE_TCP_SOCKET:
        return AllocateTcpSocket(answer.id, TRANSPORT_NAMES[answer.transport], socket_address(answer.from_),
                                 socket_address(answer.to), peer_of(answer.peer))
    return TcpClose(socket_address(answer.from_), socket_address(answer.to)) if answer.kind == c.TCP_CLOSE else Closed()


def packet_of(answer: c.Answer, data: bytes) -> Packet:
    """The packet that an answer describes, with these bytes."""
    return Packet(data, TRANSPORT_NAMES[answer.transport], socket_address(answer.from_), socket_address(answer.to))
