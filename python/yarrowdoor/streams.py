"""Streams to peers over TCP (RFC 6062): a data connection to the server for each, as a reader and a writer of asyncio."""
from __future__ import annotations

import asyncio
import collections
from typing import TYPE_CHECKING, Any, Counter, Dict, List, Optional, Set, Tuple

from . import reasons
from .address import Address, ScopedAddress, SocketAddress
from .answers import AllocateTcpSocket, Ignored, PeerData
from .asked import Key
from .errors import ConnectFailed, Ended, Refused, because
from .lingering import linger
from .link import Link, LinkUser, StreamLink
from .requests import Made

if TYPE_CHECKING:
    from .session import Session

__all__ = ["Pair", "PeerTransport", "Streams"]

Pair = Tuple[asyncio.StreamReader, asyncio.StreamWriter]

# So many connections of peers wait to be accepted. A further one is refused.
BACKLOG = 64
# The most data of one call, in bytes.
PIECE = 65536


class EndedUnbound(ConnectFailed):
    """The server closed a data connection before it was bound: its nonce may have been stale."""


class PeerTransport(asyncio.Transport):
    """The transport of a stream to a peer, over a data connection. `get_extra_info` knows `peername` and `sockname`."""

    def __init__(self, streams: Streams, link: StreamLink, peer: Address, is_own: bool) -> None:
        super().__init__({"peername": peer, "sockname": streams.address})
        self._streams, self.link, self.peer = streams, link, peer
        # Whether `connect` asked for it, whether the server has bound it, and whether `connect` has returned it.
        self.is_own, self.is_bound, self.is_taken = is_own, False, False
        self.lost: asyncio.Future[None] = streams.loop.create_future()
        """set when the data connection is gone"""
        self._has_written, self._lingering = False, None  # type: bool, Optional[asyncio.Future[None]]
        reader = asyncio.StreamReader(loop=streams.loop)
        self._protocol = asyncio.StreamReaderProtocol(reader, loop=streams.loop)
        self._protocol.connection_made(self)
        self.pair: Pair = reader, asyncio.StreamWriter(self, self._protocol, reader, streams.loop)

    def feed(self, data: bytes) -> None:
        """Takes data of the peer."""
        if not self.is_closing():
            self._protocol.data_received(data)

    def lose(self, error: Optional[Exception]) -> None:
        """The data connection is gone."""
        if not self.lost.done():
            self.lost.set_result(None)
            self._end_lingering()
            self._protocol.connection_lost(error)

    def write(self, data: Any) -> None:
        """Sends data to the peer, in pieces of 64 KiB. Once the stream is closing it is dropped."""
        view = memoryview(data).cast("B")
        if self.is_closing():
            return  # as asyncio's own transports do
        self._has_written = True
        for place in range(0, len(view), PIECE):
            self.link.send(self._streams.packet_to(self.peer, view[place:place + PIECE]))

    def can_write_eof(self) -> bool:
        """False: a server ends both directions at once."""
        return False

    def close(self) -> None:
        """Closes the data connection `lingering.LINGER` seconds after the last byte that was written has left."""
        if not self._has_written:
            self.link.close()
        elif not self.is_closing():
            self._lingering = asyncio.ensure_future(linger(self.link))
            self._lingering.add_done_callback(self._lingered)

    def _lingered(self, lingering: asyncio.Future[None]) -> None:
        if not lingering.cancelled():
            self.link.close()

    def abort(self) -> None:
        """Closes the data connection at once. What waits to leave is dropped."""
        self._end_lingering()
        self.link.abort()

    def _end_lingering(self) -> None:
        if self._lingering is not None:
            self._lingering.cancel()

    def is_closing(self) -> bool:
        """Whether the stream is closing or closed."""
        return self._lingering is not None or self.link.is_over

    def pause_reading(self) -> None:
        """Stops reading: the peer is slowed down when the buffers on the way are full."""
        self.link.transport.pause_reading()

    def resume_reading(self) -> None:
        """Reads again after `pause_reading`."""
        if not self.link.transport.is_closing():
            self.link.transport.resume_reading()

    def is_reading(self) -> bool:
        """Whether data of the peer is read."""
        return bool(self.link.transport.is_reading())

    def get_write_buffer_size(self) -> int:
        """How many bytes wait to leave this host."""
        return int(self.link.transport.get_write_buffer_size())

    def set_write_buffer_limits(self, high: Optional[int] = None, low: Optional[int] = None) -> None:
        """At how many bytes that wait `drain` waits (`high`), and goes on (`low`)."""
        self.link.transport.set_write_buffer_limits(high, low)

    def pause_writing(self) -> None:
        """The buffer of the data connection is full."""
        self._protocol.pause_writing()

    def resume_writing(self) -> None:
        """The buffer of the data connection has room again."""
        self._protocol.resume_writing()

    def set_protocol(self, protocol: asyncio.BaseProtocol) -> None:
        """Raises `NotImplementedError`: the stream keeps its protocol."""
        raise NotImplementedError("the stream keeps its protocol")

    def get_protocol(self) -> asyncio.BaseProtocol:
        """The protocol of the stream."""
        return self._protocol


class Streams(LinkUser):
    """All data connections of a relayed address."""

    def __init__(self, session: Session) -> None:
        self._session, self.loop = session, asyncio.get_running_loop()
        self._by_peer: Dict[Address, PeerTransport] = {}
        self._links: List[StreamLink] = []
        # The peers of the CONNECTs that were made and that the client has not asked to open yet, and how many callers of `connect`
        # wait for a peer.
        self._asked: Set[Address] = set()
        self._callers: Counter[Address] = collections.Counter()
        self._accepted: asyncio.Queue[Optional[PeerTransport]] = asyncio.Queue()
        # The peers whose connections are being opened, and are not in the queue yet.
        self._offered: Set[Address] = set()

    @property
    def address(self) -> Optional[Address]:
        """The relayed address."""
        return self._session.address

    def packet_to(self, peer: Address, data: memoryview) -> bytes:
        """What carries data to a peer. A data connection stays when the permission of its peer ends (RFC 6062, section 4.4), and
        data goes over it as it is (section 5)."""
        client = self._session.open_client()
        self._use(peer)
        try:
            return client.send_to(peer, data, self._session.clock.now()).data
        except Refused as refusal:
            if refusal.reason != "no-permission":
                raise
            return bytes(data)

    def _use(self, peer: Address) -> None:
        if self._session.idle is not None:
            self._session.idle.use(peer)

    async def connect(self, peer: Address) -> Pair:
        """Has the server connect to a peer. A connection that the server closed before it was bound is tried once more:
        its nonce may have been stale (docs/REAL-SERVERS.md in the repository)."""
        await self._session.grants.permit(peer.host)
        self._callers[peer] += 1
        try:
            try:
                await self._session.requests.ask(_connection(peer), lambda: self._ask(peer))
            except EndedUnbound:
                await self._session.requests.ask(_connection(peer), lambda: self._ask(peer))
            stream = self._by_peer.get(peer)
            if stream is None:
                raise ConnectFailed(f"the connection to {peer} has ended")
            stream.is_taken = True
            return stream.pair
        finally:
            self._callers[peer] -= 1
            self._callers += collections.Counter()  # drops those that are 0
            self._close_unwanted(peer)

    def _ask(self, peer: Address) -> Made:
        self._session.open_client().tcp_connect(peer, self._session.clock.now())
        self._asked.add(peer)
        self._session.drive()
        return Made.UNSENT

    def _close_unwanted(self, peer: Address) -> None:
        """Closes a bound stream if all who asked for it were cancelled. The server keeps one that is not bound for 30 s, and would
        refuse another CONNECT to this peer until then (RFC 6062, section 5.2), so each is bound first."""
        stream = self._by_peer.get(peer)
        if stream is not None and stream.is_own and stream.is_bound and not stream.is_taken and not self._callers[peer]:
            stream.close()

    async def accept(self) -> Pair:
        """The next connection of a peer."""
        found = await self._accepted.get()
        if found is None:
            self._accepted.put_nowait(None)
            raise self._session.ending()
        return found.pair

    async def open(self, wanted: AllocateTcpSocket) -> None:
        """Opens the data connection that the client wants: asked for by `connect`, or offered by a peer."""
        link = failure = None
        is_own = wanted.peer in self._asked
        self._asked.discard(wanted.peer)
        if is_own or len(self._offered) + self._accepted.qsize() < BACKLOG:
            if not is_own:
                self._offered.add(wanted.peer)
            try:
                link = await self._session.server.stream(_host(wanted.remote))
                self._add(link, wanted.peer, is_own)
            except OSError as error:
                self._offered.discard(wanted.peer)
                failure = because(ConnectFailed(f"no data connection to the server for {wanted.peer}: {error}"), error)
        try:
            self._session.open_client().allocated_tcp_socket(wanted, link.local if link else None, self._session.clock.now())
        except (Ended, Refused):
            self._forget(link)
        if failure is not None and is_own:
            # The client has no event for it.
            self._session.requests.settle(_connection(wanted.peer), failure)
        self._session.drive()

    def _add(self, link: StreamLink, peer: Address, is_own: bool) -> None:
        self._links.append(link)
        self._by_peer[peer] = PeerTransport(self, link, peer, is_own)
        link.user = self

    def connected(self, peer: Address) -> None:
        """The data connection to a peer is bound."""
        stream = self._by_peer.get(peer)
        if stream is not None:
            stream.is_bound = True
            if not stream.is_own:
                self._offered.discard(peer)
                self._accepted.put_nowait(stream)
            else:
                self._close_unwanted(peer)
        self._session.requests.settle(_connection(peer), None)

    def failed(self, peer: Address) -> None:
        """There is no data connection to a peer."""
        self._asked.discard(peer)
        requests, key = self._session.requests, _connection(peer)
        requests.settle(key, ConnectFailed(f"no connection to {peer}", requests.error_of(key)))

    def feed(self, data: bytes, peer: Address) -> None:
        """Takes data of a peer."""
        stream = self._by_peer.get(peer)
        if stream is not None:
            self._use(peer)
            stream.feed(data)

    def link_at(self, local: SocketAddress) -> Optional[StreamLink]:
        """The data connection with this local address."""
        return next((link for link in self._links if link.local == local), None)

    def drop(self, local: SocketAddress) -> None:
        """Closes a data connection that the client has no use for."""
        self._forget(self.link_at(local))

    def close(self) -> List[asyncio.Future[None]]:
        """Closes all streams, each some time after what was written has left it, and gives what is set when one is gone."""
        streams = [*self._by_peer.values()]
        for stream in streams:
            stream.close()
        return [it.lost for it in streams]

    def end(self) -> None:
        """Closes all streams at once, since the client has ended: the server no longer takes what waits in them."""
        for link in [*self._links]:
            self._forget(link)
            link.abort()
        self._accepted.put_nowait(None)

    # The links

    def received(self, data: bytes, link: Link) -> None:
        """What arrived on a data connection."""
        if self._session.over.done():
            return
        answer = self._session.client.recv(data, self._session.clock.now(), remote=link.remote, local=link.local)
        if isinstance(answer, PeerData):
            self.feed(answer.data, answer.peer)
        self._session.hear(data, link, isinstance(answer, Ignored))
        self._session.take_rest()
        self._session.drive()

    def paused(self, link: Link, is_full: bool) -> None:
        """A data connection is full, or no longer is."""
        for stream in self._by_peer.values():
            if stream.link is link:
                return stream.pause_writing() if is_full else stream.resume_writing()

    def ended(self, link: Link, error: Optional[Exception]) -> None:
        """A data connection is closed."""
        is_known = link in self._links
        self._forget(link, error)
        if is_known and not self._session.over.done():
            client, now = self._session.client, self._session.clock.now()
            client.recv(b"", now, remote=link.remote, local=link.local)
            self._session.take_rest()
            client.tcp_closed(link.local, link.remote, now)
            self._session.drive()

    def _forget(self, link: Optional[Link], error: Optional[Exception] = None) -> None:
        if link is None:
            return
        self._links = [it for it in self._links if it is not link]
        link.close()
        for peer, stream in [*self._by_peer.items()]:
            if stream.link is link:
                del self._by_peer[peer]
                self._offered.discard(peer)
                stream.lose(error)
                if stream.is_own and not stream.is_bound:
                    unbound = EndedUnbound(f"the server closed the connection for {peer}")
                    self._session.requests.settle(_connection(peer), unbound)


def _connection(peer: Address) -> Key:
    return Key(reasons.CONNECT, peer)


def _host(server: SocketAddress) -> str:
    """The server's address as a name for a new connection to it, with its scope, if it has one."""
    return f"{server.host}%{server.scope}" if isinstance(server, ScopedAddress) and server.scope else server.host
