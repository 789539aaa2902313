# mypy: enable-incomplete-feature=Unpack
"""A relayed address as a datagram endpoint of asyncio, for protocols that know nothing of TURN."""
from __future__ import annotations

import asyncio
import collections
import errno
from typing import TYPE_CHECKING, Any, Callable, Deque, Dict, Iterable, List, Optional, Set, Tuple, TypeVar, Union

from .address import Address, AddressLike, checked_peer
from .credentials import CredentialsLike
from .errors import Refused, YarrowdoorError
from .tasks import Tasks
from .turn import TurnClient
from .uri import TurnUri

if TYPE_CHECKING:
    from typing_extensions import Unpack

    from .keywords import EndpointKeywords

__all__ = ["RelayTransport", "create_datagram_endpoint", "endpoint_over"]

Protocol = TypeVar("Protocol", bound=asyncio.DatagramProtocol)

# This many packets to a peer wait for its channel, and this many bytes to all. A further one is dropped, as a network may drop it.
WAITING, MAX_BYTES = 64, 1 << 20
# From this many waiting bytes on the protocol is to pause, and from this few on to go on, as in asyncio.
HIGH, LOW = 64 * 1024, 16 * 1024
# So many packets of peers are kept that come before there is a protocol.
EARLY = 1_024
# So many peers are remembered: as many as a client has channels.
MAX_PEERS = 4_096
# How long no channel is requested for a peer after the server has refused its channel, in seconds.
REST = 5.0


async def create_datagram_endpoint(uri: Union[str, TurnUri], protocol_factory: Callable[[], Protocol], *,
                                   credentials: CredentialsLike, remote_addr: Optional[AddressLike] = None,
                                   local_addr: Optional[Tuple[str, int]] = None, family: int = 0,
                                   relay_family: Union[int, Tuple[int, int]] = 4, peers: Iterable[str] = (),
                                   **settings: Unpack[EndpointKeywords]) -> Tuple[RelayTransport, Protocol]:
    """A transport that sends from a relayed address, and its protocol: `loop.create_datagram_endpoint` over a TURN server.

    `credentials` is user and password, or an async function that returns them. `remote_addr` is the only peer, as for a connected
    socket; `local_addr` and `family` are those of the socket to the server, and `relay_family` is 4, 6 or (4, 6), which
    `TurnClient` calls `family`. `peers` are the IP addresses that may send first: who was sent something may answer anyway. The
    other arguments are those of `TurnClient`.

    `transport.get_extra_info` knows `sockname`, the relayed address; `peername`, that of `remote_addr`; `related_address`, that of
    the socket; and `relay`, the `TurnClient`. Raises what entering that raises, and `PermissionFailed`, `ChannelFailed` for `peers`
    and `remote_addr`.
    """
    if not isinstance(uri, (str, TurnUri)):
        raise TypeError(f"the URI of the server comes first, and protocol_factory after it, and not {uri!r}")

    def make(take: Callable[[bytes, Address], None]) -> TurnClient:
        return TurnClient(uri, credentials=credentials, local_addr=local_addr, socket_family=family, family=relay_family,
                          receiver=take, **settings)

    return await endpoint_over(protocol_factory, make, remote_addr, peers)


async def endpoint_over(factory: Callable[[], Protocol], make: Callable[[Callable[[bytes, Address], None]], TurnClient],
                        remote: Optional[AddressLike] = None, peers: Iterable[str] = ()) -> Tuple[RelayTransport, Protocol]:
    """The endpoint over the client that `make` makes with its receiver."""
    made: List[RelayTransport] = []
    early: Deque[Tuple[bytes, Address]] = collections.deque()
    peer = checked_peer(remote) if remote is not None else None

    def take(data: bytes, peer: Address) -> None:
        if made:
            made[0].take(data, peer)
        elif len(early) < EARLY:
            early.append((data, peer))
        else:
            relay._count_dropped()

    relay = make(take)
    await relay.open()
    try:
        if peer is not None:
            await relay.bind(peer)
        await asyncio.gather(*(relay.permit(it) for it in peers))
        protocol = factory()
        made.append(RelayTransport(protocol, relay, peer))
        for data in early:
            asyncio.get_running_loop().call_soon(made[0].take, *data)
    except BaseException:
        await relay.close()
        raise
    return made[0], protocol


class RelayTransport(asyncio.DatagramTransport):
    """Sends from a relayed address, and binds a channel to each peer first. A peer that can have none is sent longer packets.

    The protocol's `pause_writing` is called when more bytes wait for channels than `set_write_buffer_limits` says, or the socket is
    full.
    """

    def __init__(self, protocol: Any, relay: TurnClient, remote: Optional[Address] = None) -> None:
        super().__init__({"sockname": relay.address, "peername": remote, "related_address": relay.local_address, "relay": relay})
        self.protocol, self.relay, self._remote = protocol, relay, remote
        self._bound: Set[Address] = set()
        self._waiting: Dict[Address, List[bytes]] = {}
        self._bytes, self._high, self._low = 0, HIGH, LOW
        self._is_full = self._is_over_limit = self._is_paused = False
        self._refused: Dict[Address, float] = {}
        self._tasks = Tasks()
        self._is_closing = self._is_lost = False
        relay.on_pause, relay.on_error = self._pause, self._tell
        protocol.connection_made(self)
        self._tasks.spawn(self._watch())

    def take(self, data: bytes, peer: Address) -> None:
        """Takes data of a peer."""
        if not self._is_closing and (self._remote is None or peer == self._remote):
            self.protocol.datagram_received(data, peer)

    def _pause(self, is_full: bool) -> None:
        self._is_full = is_full
        self._tell_pause()

    def _tell_pause(self) -> None:
        """Has the protocol pause, or go on."""
        is_paused = self._is_full or self._is_over_limit
        if is_paused == self._is_paused:
            return
        self._is_paused = is_paused
        try:
            (self.protocol.pause_writing if is_paused else self.protocol.resume_writing)()
        except Exception as error:
            asyncio.get_running_loop().call_exception_handler({"message": "a protocol over a relay raised", "exception": error,
                                                               "transport": self, "protocol": self.protocol})

    def _tell(self, error: Exception) -> None:
        """Tells the protocol an error. What that raises goes to the event loop's handler."""
        if not self._is_closing:
            asyncio.get_running_loop().call_soon(self.protocol.error_received, error)

    def sendto(self, data: Any, addr: Optional[Any] = None) -> None:
        """Sends data to a peer, when it has a channel. If the server lets it have none, the data is dropped, and the protocol's
        `error_received` called, as for data that is too long. `ValueError` if there is no peer, one that is no IP address, or
        another one than `remote_addr`; `TypeError` if the data is not bytes."""
        if not isinstance(data, (bytes, bytearray, memoryview)):
            raise TypeError(f"data is bytes, a bytearray or a memoryview, and not {type(data).__name__}")
        peer = checked_peer(addr) if addr is not None else self._remote
        if peer is None:
            raise ValueError("a relayed address has no peer of its own")
        if self._remote is not None and peer != self._remote:
            raise ValueError(f"this endpoint has the one peer {self._remote}")
        if self._is_closing or self.relay.closed or not self._reaches(peer):
            return
        if peer in self._bound:
            self._send(bytes(data), peer)
        elif self._refused.get(peer, 0.0) <= asyncio.get_running_loop().time():
            self._keep(bytes(data), peer)

    def _keep(self, data: bytes, peer: Address) -> None:
        """Has data wait for the channel of a peer."""
        waiting = self._waiting.get(peer)
        is_too_much = self._bytes + len(data) > MAX_BYTES or len(self._waiting) >= MAX_PEERS and waiting is None
        if is_too_much or waiting is not None and len(waiting) >= WAITING:
            self.relay._count_unsent()
            return
        if waiting is None:
            waiting = self._waiting[peer] = []
            self._tasks.spawn(self._prepare(peer))
        waiting.append(data)
        self._count(len(data))

    def _count(self, change: int) -> None:
        self._bytes += change
        if self._bytes > self._high or self._bytes <= self._low:
            self._is_over_limit = self._bytes > self._high
            self._tell_pause()

    def _reaches(self, peer: Address) -> bool:
        return any((":" in peer[0]) == (":" in it[0]) for it in self.relay.addresses)

    def _send(self, data: bytes, peer: Address) -> None:
        try:
            self.relay.sendto(data, peer)
        except Refused:
            self._bound.discard(peer)  # Its permission is gone: it is asked for with the next packet.
        except YarrowdoorError:
            pass  # The client has just ended, which `connection_lost` reports.
        except ValueError as error:
            self._tell(OSError(errno.EMSGSIZE, str(error)))
        except MemoryError as error:
            self._tell(error)

    async def _prepare(self, peer: Address) -> None:
        """Gets a channel for a peer, and sends what has waited for it."""
        try:
            await self._bind(peer)
        except Exception as error:
            if len(self._refused) >= MAX_PEERS:
                self._refused.clear()
            self._refused[peer] = asyncio.get_running_loop().time() + REST
            if not self.relay.closed:
                self._tell(PermissionError(f"no data to {peer}: {error}"))
        finally:
            waiting = self._waiting.pop(peer)
            self._count(-sum(map(len, waiting)))
        for data in waiting:
            if peer in self._bound:
                self._send(data, peer)

    async def _bind(self, peer: Address) -> None:
        """Gets a channel, or else a permission: its earlier channel may still be reserved, or all numbers taken."""
        try:
            await self.relay.bind(peer)
        except Refused:
            await self.relay.permit(peer.host)
        if len(self._bound) >= MAX_PEERS:
            self._bound.clear()  # Each is asked for again, which takes no request where it is granted.
        self._bound.add(peer)
        self._refused.pop(peer, None)

    async def _watch(self) -> None:
        """Tells the protocol when the relayed address is gone."""
        error: Optional[Exception] = None
        try:
            await self.relay.wait_closed()
        except YarrowdoorError as ended:
            error = ended
        self._lose(error)

    def _lose(self, error: Optional[Exception]) -> None:
        """Calls `connection_lost`, once."""
        self._is_closing = True
        if not self._is_lost:
            self._is_lost = True
            asyncio.get_running_loop().call_soon(self.protocol.connection_lost, error)

    def close(self) -> None:
        """Deletes the relayed address. The protocol's `connection_lost` is called when that is done."""
        if not self._is_closing:
            self._is_closing = True
            self._tasks.spawn(self.relay.close())

    def abort(self) -> None:
        """The same, but that nothing is waited for (`TurnClient.abort`), and `connection_lost` is called soon."""
        self._is_closing = True
        self.relay.abort()
        self._lose(None)

    def is_closing(self) -> bool:
        """Whether the transport is closing or closed."""
        return self._is_closing

    def get_write_buffer_size(self) -> int:
        """How many bytes wait for channels of peers."""
        return self._bytes

    def get_write_buffer_limits(self) -> Tuple[int, int]:
        """The lower and the upper limit of `set_write_buffer_limits`."""
        return self._low, self._high

    def set_write_buffer_limits(self, high: Optional[int] = None, low: Optional[int] = None) -> None:
        """From how many bytes on that wait the protocol is to pause, and from how few on to go on, as in asyncio."""
        if high is None:
            high = HIGH if low is None else 4 * low
        low = high // 4 if low is None else low
        if not high >= low >= 0:
            raise ValueError(f"high ({high}) is at least low ({low}), which is at least 0")
        self._high, self._low = high, low
        self._count(0)

    def get_protocol(self) -> Any:
        """The protocol that gets what peers send."""
        return self.protocol

    def set_protocol(self, protocol: Any) -> None:
        """Gives what peers send to another protocol from now on."""
        self.protocol = protocol
