"""A TURN client that does no I/O (RFC 8656, 6062 and 6156): the caller has the sockets and the clock.

The caller passes in bytes and times, and gets packets to send, data of peers, events, and the time at which to call again:

    while True:
        for packet in iter(lambda: client.poll_transmit(now()), None):
            sock.send(packet.data)
        for event in iter(client.poll_event, None):
            ...                                     # request permissions and channels, send data
        rest = client.poll(now())                   # WaitUntil: the wake-up time
        ...                                         # wait for a packet up to then
        answer = client.recv(sock.recv(65536), now())

With one socket, the one to the server, `data_to` and `data_from` take less time than `send_to` and `recv`; `head_to` leaves the
data where it lies, for `socket.sendmsg`.

Times are nanoseconds of a clock that never goes back, from 0 to 2^62. An address is what sockets have: `(IP, port)`, and for
IPv6 `(IP, port, flow, scope)` if one of the two is not 0. Transports are `"udp"` and `"tcp"`.

What an answer of the server means, and when, is specified by `docs/rattle/MACHINE.md` in the repository, and proved of the library.

Errors: `ValueError` if the arguments are no call; `Refused` if the client refuses one; `MemoryError` if a memory
allocation failed, after which the client is valid and may have ended: poll it; `Busy` for a second thread at the same time.
"""
from __future__ import annotations

import os
from typing import Any, Callable, List, Optional, Sequence, Tuple, TypeVar, Union

from . import layout as c
from .address import Address, AddressLike, ScopedAddress, SocketAddress, of_socket, packed, packed_ip, peer_of, socket_address
from .answers import (
    TRANSPORT_NAMES, AllocateTcpSocket, AllocationCreated, AllocationCreateFailed, ChannelCreated, ChannelCreateFailed, Closed,
    Event, Handled, Ignored, Packet, PeerData, PeerIcmp, PermissionCreated, PermissionCreateFailed, Poll, Received, TcpClose,
    TcpConnected, TcpConnectFailed, WaitUntil, event_of, packet_of, poll_of,
)
from .errors import LibraryError, Refused
from .handle import Buffer, Calls, Handle
from .library import load
from .settings import TRANSPORTS, Times, credential, number, packed_settings

__all__ = [
    "Address", "AddressLike", "AllocateTcpSocket", "AllocationCreated", "AllocationCreateFailed", "Buffer", "ChannelCreated",
    "ChannelCreateFailed", "Client", "Closed", "Event", "Handled", "Ignored", "Packet", "PeerData", "PeerIcmp", "PermissionCreated",
    "PermissionCreateFailed", "Poll", "Received", "ScopedAddress", "SocketAddress", "TcpClose", "TcpConnected", "TcpConnectFailed",
    "Times", "WaitUntil",
]

_Item = TypeVar("_Item")
# Data of a peer, the peer, and where in the datagram it began.
Piece = Tuple[bytes, Address, int]
_HANDLED, _IGNORED = Handled(), Ignored()
_RANGE = c.PEER_DATA_RANGE
_REASONS = {1: "already-exists", 2: "no-allocation", 3: "no-permission", 4: "no-socket", 5: "expired", 6: "not-granted"}


class Client:
    """A TURN client. It sends nothing until it is polled.

    A client that nothing refers to any more is freed. `TypeError` if user or password is neither text nor bytes, or `times` is not
    `Times`; `ValueError` for other values that are out of range.

    :param local: the address of the socket to the server.
    :param remote: the address of the server.
    :param user: the user name, 1 to 508 bytes, or text that is encoded as UTF-8 (typed text has to be prepared before; RFC 8489,
        section 14.3).
    :param password: the password, up to 65,535 bytes, or text that is encoded as UTF-8.
    :param transport: that to the server, `"udp"` or `"tcp"`.
    :param allocation: that between server and peers: `"tcp"` (RFC 6062) needs a `transport` of `"tcp"`.
    :param families: those of the relayed addresses: 4, 6 or both.
    :param algorithms: those that may sign requests (RFC 8489, sections 14.5 and 14.6): `"sha256"`, `"sha1"` or both. Of both,
        SHA-256 does if the server offers it.
    :param anonymous: whether the user name is hidden (section 14.4): `"auto"` (as the client sees the server offer it: never, so
        far), `"required"` (always) or `"disabled"` (never).
    :param times: how long a request waits for its response, by default 39.5 s in all.
    :param max_stale_nonces: how many challenges in a row are answered, 1 to 65,535; the next one ends the client
        (`docs/REAL-SERVERS.md` in the repository).
    :param pause: the least time between two requests, in nanoseconds. 0: none.
    :param keepalive: after this many nanoseconds without a packet one is sent. 0: never.
    :param refresh_ahead: how long before its expiry a permission or channel is refreshed, in nanoseconds, at least a second.
    :param timed_from_send: whether a request waits for its response from when its first packet is taken (RFC 8489, section 6.2.1).
        With False it does so from when it is made, also while it is queued.
    :param seed: the 32 bytes that transaction IDs are made from, which must be secret. None: the system's random numbers.
    :param library: the library to use, by default the one that all share.
    """

    def __init__(self, local: AddressLike, remote: AddressLike, user: Union[str, bytes], password: Union[str, bytes], *,
                 transport: str = "udp", allocation: str = "udp", families: Sequence[int] = (4,),
                 algorithms: Sequence[str] = ("sha256", "sha1"), anonymous: str = "auto", times: Optional[Times] = None,
                 max_stale_nonces: int = 9, pause: int = 50_000_000, keepalive: int = 0, refresh_ahead: int = 60_000_000_000,
                 timed_from_send: bool = True, seed: Optional[bytes] = None, library: Optional[Calls] = None) -> None:
        self._way, self._relay_way = number(TRANSPORTS, transport), number(TRANSPORTS, allocation)
        self._local, self._remote = packed(of_socket(local)), packed(of_socket(remote))
        settings = packed_settings(self._local, self._remote, self._way, self._relay_way, families, algorithms, anonymous, times,
                                   max_stale_nonces, pause, keepalive, refresh_ahead, timed_from_send)
        names = credential("user", user), credential("password", password)
        self._library = library or load()
        self._handle = Handle(self._library, settings, *names, os.urandom(32) if seed is None else seed)
        self._way_name, self._relay_name = transport, allocation
        self._local_name, self._remote_name = socket_address(self._local), socket_address(self._remote)
        self._receive = self._handle.receiving(self._way, self._remote, self._local)
        self._send = self._handle.sending(self._relay_way)
        self._head = self._handle.heading(self._relay_way)

    def close(self) -> None:
        """Frees the client. It sends nothing: `delete` gives the allocation back to the server before."""
        self._handle.free()

    # What is due

    def poll(self, now: int) -> Poll:
        """What is to be done next. While an event is to be polled, it is `WaitUntil(now)`."""
        return poll_of(self._handle.call(now, c.POLL)[0])

    def poll_transmit(self, now: int) -> Optional[Packet]:
        """The next packet that is due, or None."""
        answer, data = self._handle.call(now, c.POLL_TRANSMIT)
        return packet_of(answer, data) if answer.kind == c.PACKET else None

    def poll_event(self) -> Optional[Event]:
        """The next event, or None."""
        return event_of(self._handle.call(0, c.POLL_EVENT)[0])

    # Data

    def recv(self, data: Buffer, now: int, *, transport: Optional[str] = None, remote: Optional[AddressLike] = None,
             local: Optional[AddressLike] = None) -> Received:
        """Passes in one datagram, or what one read of a stream gave, or nothing where the stream has ended.

        `remote` and `local` are the addresses of the socket that had it, unless it is the one to the server. Over TCP call
        `poll_recv` afterwards, until it returns None.
        """
        receive = self._receive
        if transport is not None or remote is not None or local is not None:
            way = self._way if transport is None else number(TRANSPORTS, transport)
            receive = self._handle.receiving(way, self._remote if remote is None else packed(remote),
                                             self._local if local is None else packed(local))
        kind, size, start, peer = receive(now, data)
        if kind == _RANGE:
            piece = data[start:start + size]
            return PeerData(piece if type(piece) is bytes else bytes(piece), peer_of(peer), self._relay_name, start)
        return _received(self._handle, kind)

    def data_from(self, data: bytes, now: int) -> Union[Piece, Received]:
        """What `recv` answers, for a client with one socket, the one to the server. Data of a peer that is a slice of what was
        passed in is given as a tuple of the data, the peer, and the slice's start, which takes less time."""
        kind, size, start, peer = self._receive(now, data)
        if kind == _RANGE:
            return data[start:start + size], peer_of(peer), start
        return _received(self._handle, kind)

    def poll_recv(self, now: int) -> Optional[PeerData]:
        """The next data of peers in the streams that were passed in, or None. Over UDP it always is None."""
        answer, data = self._handle.call(now, c.POLL_RECV)
        if answer.kind != c.PEER_DATA:
            return None
        return PeerData(data, peer_of(answer.peer), TRANSPORT_NAMES[answer.transport], None)

    def send_to(self, peer: AddressLike, data: Buffer, now: int, *, transport: Optional[str] = None) -> Packet:
        """The packet that carries data to `peer`, which needs a permission, and over TCP a data connection too.

        `Refused` (`no-permission`, `no-socket`). `ValueError` for over 65,504 bytes where the allocation is over UDP.
        """
        send = self._send if transport is None else self._handle.sending(number(TRANSPORTS, transport))
        sent = send(now, packed(peer), data)
        if sent is None:
            raise _refusal(self._handle)
        if not self._relay_way:
            return Packet(sent, self._way_name, self._local_name, self._remote_name)
        return packet_of(self._handle.last()[0], sent)

    def data_to(self, peer: AddressLike, data: Buffer, now: int) -> bytes:
        """Only the bytes of `send_to`, for a client with one socket, the one to the server."""
        sent = self._send(now, packed(peer), data)
        if sent is None:
            raise _refusal(self._handle)
        return sent

    def shared(self) -> Callable[[AddressLike, Buffer, int], bytes]:
        """A function like `data_to` for any thread, also while another one uses this client, and for a handler of a signal. What it
        is made of is freed with the client and this function, and not by `close`. `ValueError` after `close`."""
        share = self._handle.sharing(self._relay_way)

        def data_to(peer: AddressLike, data: Buffer, now: int) -> bytes:
            sent = share(now, packed(peer), data)
            if isinstance(sent, int):
                raise Refused(_REASONS.get(sent, str(sent)))
            return sent

        return data_to

    def head_to(self, peer: AddressLike, size: int, now: int) -> Tuple[bytes, bytes]:
        """What stands before and behind `size` bytes of data in the bytes of `data_to`, so that the data is not copied:

            head, padding = client.head_to(peer, len(data), now)
            sock.sendmsg((head, data, padding))

        Each call is a send of its own. `Refused` and `ValueError` as for `send_to`.
        """
        made = self._head(now, packed(peer), size)
        if made is None:
            raise _refusal(self._handle)
        return made

    # Requests

    def create_permission(self, ip: str, now: int, *, transport: Optional[str] = None) -> None:
        """Requests a permission for an IP address (RFC 8656, section 9). An event reports the outcome.

        `Refused`: `no-allocation`, `already-exists`.
        """
        self._ask(now, c.CREATE_PERMISSION, transport=self._relay(transport), peer=packed_ip(ip))

    def bind_channel(self, peer: AddressLike, now: int, *, transport: Optional[str] = None) -> None:
        """Requests a channel, and with it a permission (RFC 8656, section 12). An event reports the outcome.

        `Refused`: `no-allocation`; `already-exists`, also if all 4,096 numbers are taken; `expired`, up to `until`.
        """
        self._ask(now, c.BIND_CHANNEL, transport=self._relay(transport), peer=packed(peer))

    def set_permission_kept(self, ip: str, is_kept: bool, *, transport: Optional[str] = None) -> None:
        """Says whether the permission of an IP address is refreshed, as each is at first. One that is not ends by itself, with its
        event. `Refused` (`not-granted`) if there is none."""
        self._ask(0, c.SET_PERMISSION_KEPT, id=int(is_kept), transport=self._relay(transport), peer=packed_ip(ip))

    def set_channel_kept(self, peer: AddressLike, is_kept: bool, *, transport: Optional[str] = None) -> None:
        """Says whether the channel of a peer is refreshed, as each is at first. One that is not ends by itself, with its event; its
        permission is another grant. `Refused` (`not-granted`) if there is none."""
        self._ask(0, c.SET_CHANNEL_KEPT, id=int(is_kept), transport=self._relay(transport), peer=packed(peer))

    def tcp_connect(self, peer: AddressLike, now: int) -> None:
        """Requests that the server connect to `peer`, which needs a permission (RFC 6062, section 4.3).

        `poll` asks for a data connection then, or an event says that it failed. `Refused`: `no-allocation`,
        `no-permission`, `already-exists`.
        """
        self._ask(now, c.TCP_CONNECT, peer=packed(peer))

    def allocated_tcp_socket(self, wanted: AllocateTcpSocket, local: Optional[AddressLike], now: int) -> None:
        """Passes in the connection that `poll` asked for, by its local address, or None if there is none.

        An event says that it is bound, or that it failed; there is none with None, nor if the connection ends before.

        `Refused`: `no-allocation` if no such connection is offered, `already-exists` if another has this address.
        """
        own = c.NO_ADDRESS if local is None else packed(local)
        self._ask(now, c.ALLOCATED_TCP_SOCKET, id=wanted.id, transport=number(TRANSPORTS, wanted.transport),
                  from_=packed(wanted.local), to=packed(wanted.remote), peer=packed(wanted.peer), local=own)

    def tcp_closed(self, local: AddressLike, remote: AddressLike, now: int) -> None:
        """Reports that the data connection from `local` to `remote` was closed, or broke. Unless the client has ended, `poll`
        answers `TcpClose` for it then."""
        self._ask(now, c.TCP_CLOSED, from_=packed(local), to=packed(remote))

    def delete(self, now: int) -> None:
        """Requests that the server delete the allocations (RFC 8656, section 8): poll and transmit until `Closed`, for as long as
        you care to wait: if the server answers with an error other than 437 it does not come.

        `Refused`: `no-allocation`.
        """
        self._ask(now, c.DELETE)

    def abandon(self, now: int) -> Optional[Packet]:
        """Gives up all allocations at once: the packet that deletes them at the server, past the pause and what is queued, or None
        if there is none. The client has ended then: `poll` answers `Closed`. For a caller that closes its socket right away.
        `LibraryError` if the library for C is older than this call."""
        if not getattr(self._library, "has_abandon", True):
            raise LibraryError("the library for C is older than this package: it has no call to abandon allocations")
        answer, data = self._handle.call(now, c.ABANDON)
        return packet_of(answer, data) if answer.kind == c.PACKET else None

    def protocol_error(self) -> None:
        """Reports an error of a layer between client and server, as TLS: each family that is still requested fails, and the client
        has ended."""
        self._ask(0, c.PROTOCOL_ERROR)

    # What there is

    def have_permission(self, ip: str, *, transport: Optional[str] = None) -> bool:
        """Whether an IP address has an active permission."""
        answer, _ = self._handle.call(0, c.HAVE_PERMISSION, 0, self._relay(transport), peer=packed_ip(ip))
        return answer.kind == c.YES

    def relayed_addresses(self) -> List[AllocationCreated]:
        """The relayed addresses, with their transports."""
        return self._list(lambda it: AllocationCreated(peer_of(it.peer), TRANSPORT_NAMES[it.transport]), c.RELAYED_ADDRESSES)

    def permissions(self, relayed: AddressLike, *, transport: Optional[str] = None) -> List[str]:
        """The IP addresses that have an active permission in the allocation of this relayed address."""
        return self._list(lambda it: peer_of(it.peer).host, c.PERMISSIONS, transport=self._relay(transport), from_=packed(relayed))

    def _list(self, make: Callable[[c.Answer], _Item], kind: int, transport: int = 0, from_: bytes = c.NO_ADDRESS) -> List[_Item]:
        found: List[_Item] = []
        while True:
            answer, _ = self._handle.call(0, kind, len(found), transport, from_)
            if answer.kind != c.ADDRESS_IS:
                return found
            found.append(make(answer))

    def _relay(self, transport: Optional[str]) -> int:
        return self._relay_way if transport is None else number(TRANSPORTS, transport)

    def _ask(self, now: int, kind: int, **fields: Any) -> None:
        answer, _ = self._handle.call(now, kind, **fields)
        _refuse(answer)


def _refuse(answer: c.Answer) -> None:
    """Raises `Refused` if the client refused the call."""
    if answer.kind == c.REFUSED:
        raise Refused(_REASONS.get(answer.error, str(answer.error)), answer.time)


def _received(handle: Handle, kind: int) -> Received:
    """What `recv` answers where the bytes have no data of a peer in one piece."""
    if kind == c.HANDLED:
        return _HANDLED
    if kind == c.IGNORED:
        return _IGNORED
    answer, pieces = handle.last()
    peer, transport = peer_of(answer.peer), TRANSPORT_NAMES[answer.transport]
    if kind == c.PEER_DATA:
        return PeerData(pieces, peer, transport, None)
    return PeerIcmp(peer, transport, answer.icmp_type, answer.icmp_code, answer.icmp_data)


def _refusal(handle: Handle) -> Refused:
    """Why the client has refused `send_to`. It has no time of its own."""
    answer, _ = handle.last()
    return Refused(_REASONS.get(answer.error, str(answer.error)))
