"""Data of peers and to peers, of many lengths, and addresses that were packed before."""
import os
import socket
import struct
import unittest
from typing import Any, List

from yarrowdoor import Address, Refused, TurnClient, address, client as sans_io
from yarrowdoor.kept import MOST, Kept

from .case import Case
from .network import CLIENT, SECOND, Network, StreamEndpoint
from .server import Server


class Keeping(Network):
    """A network that keeps what comes to the client, too."""

    def __init__(self, came: List[bytes]) -> None:
        super().__init__(Server())
        self.came = came

    def to_client(self, data: bytes) -> None:
        self.came.append(data)
        super().to_client(data)


class Data(unittest.TestCase):
    def setUp(self) -> None:
        self.peer = ("10.1.0.1", 9)
        self.came: List[bytes] = []
        self.network = Keeping(self.came)
        self.network.run(1)
        self.network.client.create_permission(self.peer[0], self.network.now)
        self.network.run(2)
        self.came.clear()

    def test_what_is_sent(self) -> None:
        """A Send indication has 36 bytes more, and its data is filled up to a multiple of four (RFC 8656, section 11.1)."""
        client, now = self.network.client, self.network.now
        for size in (0, 1, 1200, 2047, 2048, 1200, 65_455, 65_456, 65_457, 65_504, 1200):
            data = os.urandom(size)
            for given in (data, bytearray(data)):
                for packet in (client.send_to(self.peer, given, now).data, client.data_to(self.peer, given, now)):
                    self.assertEqual((len(packet), packet[36:36 + size]), (36 + (size + 3) // 4 * 4, data))

    def test_data_makes_nothing_due_earlier(self) -> None:
        """Who sends data, or takes some, need not ask again what is due: no packet, no event, and no earlier time."""
        client = self.network.client
        for has_channel in (False, True):
            if has_channel:
                client.bind_channel(self.peer, self.network.now)
                self.network.run(4)
            now = self.network.now
            before = client.poll(now)
            client.data_to(self.peer, b"out", now)
            for data, _ in self.network.server.from_peer(b"in", self.peer, CLIENT, now / SECOND):
                found = client.data_from(data, now)
                self.assertEqual(found[0] if isinstance(found, tuple) else found, b"in")
            self.assertEqual((client.poll_transmit(now), client.poll_event()), (None, None))
            after = client.poll(now)
            assert isinstance(before, sans_io.WaitUntil) and isinstance(after, sans_io.WaitUntil)
            self.assertGreaterEqual(after.time, before.time)

    def test_what_stands_around_the_data(self) -> None:
        """The head, the data and the padding are what `data_to` makes, but for the transaction ID (RFC 8489, section 5)."""
        client, now = self.network.client, self.network.now
        for size in (0, 1, 2, 3, 4, 1200, 2047, 2048, 65_504):
            data = os.urandom(size)
            head, padding = client.head_to(self.peer, size, now)
            packet = client.data_to(self.peer, data, now)
            whole = head + data + padding
            self.assertEqual((len(head), whole[:8], whole[20:]), (36, packet[:8], packet[20:]))
            self.assertNotEqual(whole[8:20], packet[8:20])
        for size in (-1, 65_505, 1 << 63):
            with self.assertRaises(ValueError):
                client.head_to(self.peer, size, now)
        with self.assertRaises(ValueError):
            client.head_to(self.peer, 1, -1)
        with self.assertRaises(Refused) as caught:
            client.head_to(("10.1.0.2", 9), 1, now)
        self.assertEqual(caught.exception.reason, "no-permission")

    def test_a_head_of_a_channel(self) -> None:
        """ChannelData has four bytes of header (RFC 8656, section 12.4). The three parts leave a socket as one datagram."""
        client, now = self.network.client, self.network.now
        client.bind_channel(self.peer, now)
        self.network.run(3)
        now = self.network.now
        with socket.socket(socket.AF_INET, socket.SOCK_DGRAM) as out, socket.socket(socket.AF_INET, socket.SOCK_DGRAM) as into:
            into.bind(("127.0.0.1", 0))
            out.connect(into.getsockname())
            for data in (b"", b"hello", b"four", bytes(1201)):
                head, padding = client.head_to(self.peer, len(data), now)
                out.sendmsg((head, data, padding))
                came = into.recv(2000)
                self.assertEqual(came, client.data_to(self.peer, data, now))
                self.assertEqual(came[:4], struct.pack(">HH", 0x4000, len(data)))

    def test_what_comes(self) -> None:
        """`data_from` says what `recv` does, and gives data as a tuple."""
        client, now = self.network.client, self.network.now
        sent = [os.urandom(it) for it in (1, 1200, 2047, 2048, 1200, 60_000)]
        for data in sent:
            self.network.send(data, self.peer)
        self.network.run(3)
        self.assertEqual(len(self.came), len(sent))
        for packet, data in zip(self.came, sent):
            self.assertEqual(packet[36:36 + len(data)], data)
            self.assertEqual(client.data_from(packet, now), (data, self.peer, 36))
            self.assertEqual(client.recv(packet, now), sans_io.PeerData(data, Address(*self.peer), "udp", 36))
        for other in (b"", b"none of ours", bytes(2048)):
            self.assertEqual((client.data_from(other, now), client.recv(other, now)), (sans_io.Ignored(), sans_io.Ignored()))
        with self.assertRaises(ValueError):
            client.data_from(b"", -1)


class AfterTheEnd(Case):
    async def test_data_that_comes_late(self) -> None:
        """A stream may still bring some when its client has ended: it is dropped."""
        endpoint = await self.serve(kind=StreamEndpoint)
        taken: List[Any] = []
        relay = TurnClient(endpoint.uri, "user", "pass", receiver=lambda data, peer: taken.append(data))
        async with relay:
            await relay.bind(("10.1.0.1", 9))
            link = relay._session().link
            link.user.received(b"\x40\x00\x00\x04data", link)
            self.assertEqual(taken, [b"data"])
        getattr(link, "data_received")(b"\x40\x00\x00\x04late")
        self.assertEqual(taken, [b"data"])


class KeptResults(unittest.TestCase):
    def test_a_limit(self) -> None:
        """Each is made once, as long as few are asked for, and never more are kept than the limit."""
        made: List[int] = []

        def make(number: int) -> int:
            made.append(number)
            return -number

        kept = Kept(make)
        for _ in range(2):
            self.assertEqual([kept[it] for it in range(100)], [-it for it in range(100)])
        self.assertEqual(len(made), 100)
        for number in range(3 * MOST):
            self.assertEqual(kept[number], -number)
            self.assertLessEqual(len(kept), MOST)

    def test_what_is_no_address(self) -> None:
        for _ in range(2):
            with self.assertRaises(ValueError):
                address.packed(("10.0.0", 1))


if __name__ == "__main__":
    unittest.main()
