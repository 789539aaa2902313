"""A check of a server that is far away, by the packets: how many round trips it waits for, one after the other."""
import contextlib
import heapq
import io
import itertools
import select
import socket
import threading
import time
import unittest
from typing import Dict, Iterator, List, NamedTuple, Tuple

from yarrowdoor import reasons
from yarrowdoor.command.check import Plan, check
from yarrowdoor.command.credentials import Credentials
from yarrowdoor.command.output import JsonOutput
from yarrowdoor.command.steps import Outcome, Step
from yarrowdoor.uri import TurnUri
from yarrowdoor.wire import Tap, Where

from .threaded import Ipv4Server, Threaded

# In seconds, and long beside what a busy machine takes to run a thread again.
ROUND_TRIP = 0.6
# Two for the relayed addresses, one for the permissions, two for packets by messages, two for those by channels, and one to give
# all back. Neither that the server answers is waited for before, nor the channels behind the messages.
LEAST = 8
SEND, CHANNEL_DATA, USERNAME = 0x0016, (0x40, 0x4F), 0x0006


class Link:
    """A path to a server on this host: each datagram takes so many seconds there, and as many back."""

    def __init__(self, server: Tuple[str, int], delay: float) -> None:
        self._server, self._delay = server, delay
        self._front = socket.socket(type=socket.SOCK_DGRAM)
        self._front.bind(("127.0.0.1", 0))
        self.port = self._front.getsockname()[1]
        self._backs: Dict[Tuple[str, int], socket.socket] = {}
        self._waiting: List[Tuple[float, int, socket.socket, Tuple[str, int], bytes]] = []
        self._numbers, self._has_ended = itertools.count(), threading.Event()
        self._thread = threading.Thread(target=self._run)

    def __enter__(self) -> "Link":
        self._thread.start()
        return self

    def __exit__(self, *how: object) -> None:
        self._has_ended.set()
        self._thread.join()
        for it in (self._front, *self._backs.values()):
            it.close()

    def _run(self) -> None:
        while not self._has_ended.is_set():
            now = time.monotonic()
            while self._waiting and self._waiting[0][0] <= now:
                _, _, sock, where, data = heapq.heappop(self._waiting)
                with contextlib.suppress(OSError):
                    sock.sendto(data, where)
            left = min(0.05, self._waiting[0][0] - now) if self._waiting else 0.05
            for sock in select.select([self._front, *self._backs.values()], [], [], max(0.0, left))[0]:
                with contextlib.suppress(OSError):
                    self._take(sock, *sock.recvfrom(65_536))

    def _take(self, sock: socket.socket, data: bytes, source: Tuple[str, int]) -> None:
        if sock is self._front and source not in self._backs:
            self._backs[source] = socket.socket(type=socket.SOCK_DGRAM)
        out, where = (self._backs[source], self._server) if sock is self._front else \
            (self._front, next(it for it, back in self._backs.items() if back is sock))
        heapq.heappush(self._waiting, (time.monotonic() + self._delay, next(self._numbers), out, where, data))


class Packet(NamedTuple):
    """A datagram that has left, or come, and when."""

    at: float
    source: Where
    is_sent: bool
    data: bytes


class Recorded(Tap):
    """Keeps the datagrams."""

    def __init__(self, port: int) -> None:
        self._port, self.all = port, []  # type: int, List[Packet]

    def datagram(self, source: Where, destination: Where, data: bytes, now: float) -> None:
        self.all.append(Packet(now, source, destination[1] == self._port, data))

    def sent(self) -> Iterator[Packet]:
        return (it for it in self.all if it.is_sent)

    def requests(self, method: int) -> List[Packet]:
        """The requests of a method, in order."""
        found = ((it, reasons.read(it.data)) for it in self.sent())
        return [it for it, message in found if message is not None and message.is_request and message.method == method]


def is_message(packet: Packet) -> bool:
    return packet.data[:2] == SEND.to_bytes(2, "big")


def is_by_channel(packet: Packet) -> bool:
    return CHANNEL_DATA[0] <= packet.data[0] <= CHANNEL_DATA[1]


def is_unsigned(packet: Packet) -> bool:
    return reasons.attribute(packet.data, USERNAME) is None


def sending(packets: List[Packet]) -> float:
    """How long the first one of these takes to send its packets, in seconds: on a busy machine that is longer."""
    own = [it.at for it in packets if it.source == packets[0].source]
    return own[-1] - own[0]


class Far(unittest.TestCase):
    def checked(self, delay: float, seconds: float = 4.0) -> Tuple[Recorded, Dict[str, Step]]:
        """The datagrams of a check that waits so many seconds, and its steps by name."""
        with Threaded(Ipv4Server()) as server, Link(("127.0.0.1", int(server.uri.split(":")[2])), delay) as link:
            tap, uri = Recorded(link.port), TurnUri("127.0.0.1", link.port)
            out = JsonOutput(io.StringIO(), str(uri))
            check(Plan(uri, Credentials("user", "pass"), seconds=seconds), out, tap)
        return tap, {it.name: it for it in out.steps}

    def round_trips(self) -> float:
        """How many of them pass from the first packet to the last answer, without the time in which packets are sent."""
        tap, steps = self.checked(ROUND_TRIP / 2)
        self.assertEqual([steps[it].outcome for it in ("messages", "channel", "channels", "payload")], [Outcome.OK] * 4)
        sent = [*tap.sent()]
        spent = sum(sending([*filter(it, sent)]) for it in (is_message, is_by_channel))
        return (tap.all[-1].at - tap.all[0].at - spent) / ROUND_TRIP

    def test_round_trips(self) -> None:
        """The least of three tries: on a busy machine what has come is taken later."""
        tries: List[float] = []
        while len(tries) < 3 and min(tries, default=LEAST + 1) >= LEAST + 0.9:
            tries.append(self.round_trips())
        self.assertLess(min(tries), LEAST + 0.9, tries)
        self.assertGreater(min(tries), LEAST - 0.2, tries)

    def test_what_is_sent_ahead_comes_after_the_first_question(self) -> None:
        """A firewall that lets in a few new flows lets in the one that asks whether the server is there."""
        tap, _ = self.checked(ROUND_TRIP / 2)
        self.assertEqual(tap.all[0], tap.requests(reasons.BINDING)[0])
        asked = [it for it in tap.requests(reasons.ALLOCATE) if is_unsigned(it)]
        sources = [*dict.fromkeys(it.source for it in asked)]
        self.assertEqual((sources[0], len(sources)), (tap.all[0].source, 4))

    def test_a_server_that_is_too_slow_grants_nothing(self) -> None:
        tap, steps = self.checked(0.4, seconds=0.5)
        self.assertEqual([*steps], ["name", "udp", "tcp"])
        self.assertIn("the answer comes after", steps["udp"].said)
        self.assertEqual([it for it in tap.requests(reasons.ALLOCATE) if not is_unsigned(it)], [])


if __name__ == "__main__":
    unittest.main()
