"""The server of the tests on a socket of this host, in a thread of its own, for programs that block: over UDP."""
import contextlib
import random
import socket
import threading
import time
from typing import Callable, Iterator, List, Optional, Tuple

from .server import Allocation, Message, Server, Where

# What is sent before the answer to a packet of a client: the packet, and what it is sent instead of nothing.
Forger = Callable[[bytes], List[bytes]]


class Ipv4Server(Server):
    """A server that relays at IPv4 addresses, and says so where it is asked for IPv6 (440; RFC 8656, section 7.2)."""

    def allocate(self, message: Message, source: Where, allocation: Optional[Allocation], now: float) -> bytes:
        if message.attributes.get(0x0017, b"\1")[0] == 2:
            return self.error(message, 440)
        return super().allocate(message, source, allocation, now)


class Threaded:
    """A server over UDP. Relayed addresses of one client are peers of the others. `loss` is of data alone, which is cut after
    `cut` bytes. An answer that is forged comes `delay` seconds before the server's own."""

    def __init__(self, server: Server, loss: float = 0.0, forger: Optional[Forger] = None, delay: float = 0.0,
                 cut: int = 65_536) -> None:
        self.server, self.loss, self.forger, self.delay, self.cut = server, loss, forger, delay, cut
        self.draw = random.Random(1)
        self.received: List[bytes] = []
        self._socket = socket.socket(type=socket.SOCK_DGRAM)
        self._socket.bind(("127.0.0.1", 0))
        self._socket.settimeout(0.05)
        self._has_ended = threading.Event()
        self._thread = threading.Thread(target=self._run)

    @property
    def uri(self) -> str:
        return "turn:127.0.0.1:%d" % self._socket.getsockname()[1]

    def _run(self) -> None:
        while not self._has_ended.is_set():
            try:
                data, source = self._socket.recvfrom(65536)
            except (socket.timeout, ConnectionError):
                continue
            self.received.append(data)
            forged = self.forger(data) if self.forger is not None else []
            for packet in forged:
                self._socket.sendto(packet, source)
            time.sleep(self.delay if forged else 0.0)
            self._send(self.server.receive(data, source, time.monotonic()), source)

    def _send(self, packets: List[Tuple[bytes, Where]], client: Where) -> None:
        now = time.monotonic()
        for data, where in packets:
            if where == client:
                self._socket.sendto(data, where)
                continue
            sender = self.server.allocation_of(client, now)
            for other, allocation in [*self.server.allocations.items()]:
                if sender is not None and allocation.relayed == where and self.draw.random() >= self.loss:
                    self._send(self.server.from_peer(data[:self.cut], sender.relayed, other, now), other)

    def __enter__(self) -> "Threaded":
        self._thread.start()
        return self

    def __exit__(self, *how: object) -> None:
        self._has_ended.set()
        self._thread.join()
        self._socket.close()


@contextlib.contextmanager
def closed_port() -> Iterator[int]:
    """A port at which nothing listens, and which nobody else gets meanwhile: it is bound over UDP elsewhere, and not over TCP."""
    with socket.socket() as held:
        held.bind(("127.0.0.1", 0))
        yield int(held.getsockname()[1])
