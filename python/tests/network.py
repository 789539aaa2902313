"""A server of the tests with a network around it: in the time of a test, or on a socket of this host.

A peer sends back what it gets. Packets are lost, late and doubled by the numbers of a seed.
"""
import asyncio
import contextlib
import functools
import heapq
import random
import socket
import struct
from typing import Any, Callable, List, Tuple, Type, TypeVar

from yarrowdoor import client as sans_io

from .server import Server, Where

CLIENT, SERVER = ("10.0.0.1", 5000), ("10.0.0.2", 3478)
SECOND = 1_000_000_000


_Event = TypeVar("_Event")


class Network:
    """A client and a server, in a time of their own: minutes pass at once, and each run is the same."""

    def __init__(self, server: Server, delay: float = 0.01, loss: float = 0.0, doubled: float = 0.0, jitter: float = 0.0,
                 seed: int = 1, **settings: Any) -> None:
        self.client = sans_io.Client(CLIENT, SERVER, "user", "pass", seed=bytes(31) + bytes([seed]), **settings)
        self.server, self.delay, self.loss, self.doubled, self.jitter = server, delay, loss, doubled, jitter
        self.draw = random.Random(seed)
        self.now = 0
        self.queue: List[Tuple[int, int, Callable[[], None]]] = []
        self.count = 0
        self.events: List[sans_io.Event] = []
        self.data: List[Tuple[bytes, Tuple[str, int]]] = []
        self.is_closed = False
        self.sent_packets = 0

    def at(self, when: int, work: Callable[[], None]) -> None:
        self.count += 1
        heapq.heappush(self.queue, (when, self.count, work))

    def carry(self, work: Callable[[], None]) -> None:
        """Takes a packet over the network."""
        if self.draw.random() < self.loss:
            return
        for _ in range(2 if self.draw.random() < self.doubled else 1):
            self.at(self.now + int((self.delay + self.draw.random() * self.jitter) * SECOND), work)

    def to_server(self, data: bytes) -> None:
        self.sent_packets += 1
        self.carry(lambda: self.serve(self.server.receive(data, CLIENT, self.now / SECOND)))

    def serve(self, packets: List[Tuple[bytes, Where]]) -> None:
        for data, where in packets:
            if where == CLIENT:
                self.carry(functools.partial(self.to_client, data))
            else:
                self.serve(self.server.from_peer(data, where, CLIENT, self.now / SECOND))

    def to_client(self, data: bytes) -> None:
        answer = self.client.recv(data, self.now)
        if isinstance(answer, sans_io.PeerData):
            self.data.append((bytes(answer.data), answer.peer))

    def send(self, data: bytes, peer: Tuple[str, int]) -> None:
        self.to_server(self.client.send_to(peer, data, self.now).data)

    def run(self, seconds: float) -> None:
        """Lets the time pass, up to this many seconds since the beginning, or to the end of the client."""
        until = int(seconds * SECOND)
        while not self.is_closed and self.now <= until:
            for packet in iter(lambda: self.client.poll_transmit(self.now), None):
                self.to_server(packet.data)
            self.events += iter(self.client.poll_event, None)
            rest = self.client.poll(self.now)
            if isinstance(rest, sans_io.Closed):
                self.events += iter(self.client.poll_event, None)
                self.is_closed = True
            elif isinstance(rest, sans_io.WaitUntil) and rest.time > self.now:
                self.now = min(rest.time, self.queue[0][0] if self.queue else rest.time, until + 1)
                while self.queue and self.queue[0][0] <= self.now:
                    heapq.heappop(self.queue)[2]()

    def of(self, kind: Type[_Event]) -> List[_Event]:
        return [it for it in self.events if isinstance(it, kind)]


class StreamEndpoint:
    """A server on a socket of this host, over TCP. It has one client at a time."""

    listener: asyncio.AbstractServer
    where: Tuple[str, int]
    writer: Any

    def __init__(self, server: Server) -> None:
        self.server = server
        self.uri = ""

    @classmethod
    async def start(cls, server: Server) -> "StreamEndpoint":
        endpoint = cls(server)
        endpoint.listener = listener = await asyncio.start_server(endpoint.serve, "127.0.0.1", 0)
        endpoint.where = listener.sockets[0].getsockname()
        endpoint.uri = "turn:%s:%d?transport=tcp" % endpoint.where
        return endpoint

    async def serve(self, reader: asyncio.StreamReader, writer: asyncio.StreamWriter) -> None:
        self.writer = writer
        source = writer.get_extra_info("peername")
        with contextlib.suppress(asyncio.IncompleteReadError, ConnectionError):
            while True:
                head = await reader.readexactly(4)
                size = int.from_bytes(head[2:4], "big")
                is_channel = head[0] >> 6 == 1
                rest = await reader.readexactly((size + 3) // 4 * 4 if is_channel else 16 + size)
                self.send(self.server.receive(head + rest, source, asyncio.get_running_loop().time()), source)

    def send(self, packets: List[Tuple[bytes, Where]], client: Where) -> None:
        now = asyncio.get_running_loop().time()
        for data, where in packets:
            if where == client:
                self.writer.write(data + bytes(-len(data) % 4))
            else:
                self.send(self.server.from_peer(data, where, client, now), client)

    def end(self, resets: bool) -> None:
        """Ends the connection of the client, by a reset or orderly."""
        if resets:
            self.writer.get_extra_info("socket").setsockopt(socket.SOL_SOCKET, socket.SO_LINGER, struct.pack("ii", 1, 0))
        self.writer.close()

    def close(self) -> None:
        self.listener.close()
        self.writer.close()


class Endpoint(asyncio.DatagramProtocol):
    """A server on a socket of this host."""

    def __init__(self, server: Server) -> None:
        self.server = server
        self.transport: Any = None
        self.uri = ""

    @classmethod
    async def start(cls, server: Server) -> "Endpoint":
        loop = asyncio.get_running_loop()
        transport, endpoint = await loop.create_datagram_endpoint(lambda: cls(server), local_addr=("127.0.0.1", 0))
        endpoint.transport = transport
        endpoint.uri = "turn:%s:%d" % transport.get_extra_info("sockname")
        return endpoint

    def datagram_received(self, data: bytes, source: Where) -> None:
        now = asyncio.get_running_loop().time()
        self.send(self.server.receive(data, source, now), source, now)

    def send(self, packets: List[Tuple[bytes, Where]], client: Where, now: float) -> None:
        for data, where in packets:
            if where == client:
                self.transport.sendto(data, where)
            else:
                self.send(self.server.from_peer(data, where, client, now), client, now)

    def close(self) -> None:
        self.transport.close()
