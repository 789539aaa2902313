"""A socket over UDP: how it is read and written, and what becomes of its errors."""
import asyncio
import errno
import socket
import unittest
import unittest.mock
from typing import Any, List, Tuple
from unittest import mock

from yarrowdoor.link import BATCH, MAX_LATE, SLICE, DatagramLink, Link, LinkUser, StreamLink


class User(LinkUser):
    """Notes what it is told, and in which round of the event loop data has come."""

    def __init__(self) -> None:
        self.came: List[bytes] = []
        self.rounds: List[int] = []
        self.round = 0
        self.told: List[Any] = []

    def received(self, data: bytes, link: Link) -> None:
        self.came.append(data)
        self.rounds.append(self.round)

    def refused(self, link: Link, error: Exception) -> None:
        self.told.append(error)

    def paused(self, link: Link, is_full: bool) -> None:
        self.told.append(is_full)


class Datagrams(unittest.IsolatedAsyncioTestCase):
    async def asyncSetUp(self) -> None:
        self.server, self.sock = (socket.socket(socket.AF_INET, socket.SOCK_DGRAM) for _ in range(2))
        self.addCleanup(self.server.close)
        self.server.bind(("127.0.0.1", 0))
        self.server.settimeout(10)
        self.sock.setblocking(False)
        self.sock.connect(self.server.getsockname())
        self.link, self.user = DatagramLink(self.sock), User()
        self.link.user = self.user
        self.addCleanup(self.link.close)

    async def wait_for(self, count: int) -> None:
        while len(self.user.came) < count:
            self.user.round += 1
            await asyncio.sleep(0)

    async def test_a_burst(self) -> None:
        """Some datagrams are read at a time, and not all: others have their turn."""
        sent = [b"%d" % number for number in range(6 * BATCH + 1)]
        for data in sent:
            self.server.sendto(data, self.sock.getsockname())
        await asyncio.wait_for(self.wait_for(len(sent)), 20)
        self.assertEqual(self.user.came, sent)
        counts = [self.user.rounds.count(it) for it in sorted(set(self.user.rounds))]
        self.assertEqual(max(counts), BATCH)

    async def test_one_that_comes_alone_is_read_alone(self) -> None:
        """That nothing else waits is seldom asked: it costs as much as to read a datagram."""
        reads: List[int] = []

        def recv(size: int) -> bytes:
            reads.append(size)
            return self.sock.recv(size)

        with unittest.mock.patch.object(self.link, "_recv", recv):
            for count in range(1, 33):
                self.server.sendto(b"x", self.sock.getsockname())
                await asyncio.wait_for(self.wait_for(count), 20)
        self.assertLess(len(reads), 40)

    async def test_nothing_comes_after_the_end(self) -> None:
        for _ in range(3):
            self.server.sendto(b"x", self.sock.getsockname())

        def end(data: bytes, link: Link) -> None:
            self.user.came.append(data)
            link.close()

        with unittest.mock.patch.object(self.user, "received", end):
            self.link.user = self.user
            await asyncio.wait_for(self.wait_for(1), 10)
            await asyncio.sleep(0.01)
        self.assertEqual((self.user.came, self.sock.fileno()), ([b"x"], -1))
        self.link.send(b"x")
        self.assertFalse(self.link.send_data(b"x"))
        self.link.close()
        self.link.abort()

    async def test_a_socket_that_is_full(self) -> None:
        """What it did not take is kept, data is refused meanwhile, and all goes on when it is no longer full."""
        full = unittest.mock.Mock(side_effect=BlockingIOError)
        with unittest.mock.patch.object(self.link, "_send", full), unittest.mock.patch.object(self.link._loop, "add_writer"):
            self.assertTrue(self.link.send_data(b"first"))
            self.assertFalse(self.link.send_data(b"refused"))
            for _ in range(2 * MAX_LATE):
                self.link.send(b"request")
            self.assertEqual((self.user.told, self.link.writable.is_set(), full.call_count), ([True], False, 1))
            self.link._send_late()
            self.assertEqual(self.user.told, [True])
        self.link._loop.add_writer(self.sock.fileno(), self.link._send_late)
        await asyncio.wait_for(self.link.writable.wait(), 10)
        self.assertEqual(self.user.told, [True, False])
        self.assertTrue(self.link.send_data(b"last"))
        came = [self.server.recv(99) for _ in range(MAX_LATE + 1)]
        self.assertEqual(came, [b"first"] + [b"request"] * (MAX_LATE - 1) + [b"last"])
        await asyncio.sleep(0.01)
        with self.assertRaises(BlockingIOError):
            self.server.setblocking(False)
            self.server.recv(99)

    async def test_what_waits_is_dropped_at_the_end(self) -> None:
        with unittest.mock.patch.object(self.link, "_send", unittest.mock.Mock(side_effect=BlockingIOError)):
            self.link.send(b"x")
            self.link.close()
        self.assertTrue(self.link.writable.is_set())  # who waits for it goes on
        self.link._send_late()
        self.assertEqual(self.user.told, [True])

    async def test_a_socket_that_another_has_closed(self) -> None:
        self.sock.close()
        self.assertFalse(self.link.send_data(b"x"))
        self.assertEqual([type(it) for it in self.user.told], [OSError])
        self.link._read()
        self.link.close()
        self.assertTrue(self.link.is_over)

    async def test_errors(self) -> None:
        """Each is told, and what is sent and comes later passes."""
        error = OSError(errno.ENETUNREACH, "Network is unreachable")
        with unittest.mock.patch.object(self.link, "_send", unittest.mock.Mock(side_effect=error)):
            self.assertFalse(self.link.send_data(b"lost"))
            self.link.send(b"lost")
        self.assertEqual(self.user.told, [error, error])
        self.assertTrue(self.link.send_data(b"sent"))
        self.assertEqual(self.server.recv(99), b"sent")
        where = self.server.getsockname()
        self.server.close()
        self.link.send(b"to a closed port")
        while len(self.user.told) < 3:
            await asyncio.sleep(0.001)
        self.assertIsInstance(self.user.told[2], ConnectionRefusedError)
        with socket.socket(type=socket.SOCK_DGRAM) as again:
            again.bind(where)
            for number in range(2):
                again.sendto(b"back", self.sock.getsockname())
                await asyncio.wait_for(self.wait_for(number + 1), 10)

    async def test_a_socket_is_registered_again_after_an_error(self) -> None:
        """As uvloop needs it, which tells of a socket that has had an error no more."""
        for error in (ConnectionRefusedError, BlockingIOError):
            with unittest.mock.patch.object(self.link, "_recv", unittest.mock.Mock(side_effect=error)):
                with unittest.mock.patch.object(self.link._loop, "add_reader") as add:
                    self.link._read()
            add.assert_called_once_with(self.sock.fileno(), self.link._read)


class Slices(unittest.IsolatedAsyncioTestCase):
    """Long pieces of the connection to the server."""

    def made(self) -> Tuple[StreamLink, mock.Mock, List[bytes]]:
        link, transport, came = StreamLink(), mock.Mock(), []  # type: StreamLink, mock.Mock, List[bytes]
        transport.is_closing.return_value = False
        transport.get_extra_info.return_value = None
        link.transport, link.has_slices = transport, True
        link._received = lambda data, _: came.append(data)
        return link, transport, came

    async def test_the_event_loop_goes_on_between_them(self) -> None:
        """Nothing is read meanwhile, and what an event loop gives all the same has its place behind them."""
        link, transport, came = self.made()
        with mock.patch("yarrowdoor.link.AT_ONCE", 0.0):
            link.data_received(b"a" * SLICE + b"b" * SLICE + b"c")
            self.assertEqual([it[:1] for it in came], [b"a"])
            link.data_received(b"d")
            for count in (2, 3, 4):
                self.assertFalse(transport.resume_reading.called)
                await asyncio.sleep(0)
                self.assertEqual(len(came), count)
        self.assertEqual(b"".join(came), b"a" * SLICE + b"b" * SLICE + b"cd")
        self.assertEqual((transport.pause_reading.call_count, transport.resume_reading.call_count), (1, 1))

    async def test_one_that_raises_keeps_no_other(self) -> None:
        link, transport, came = self.made()
        taker = mock.Mock(side_effect=[MemoryError, None])
        link._received = taker
        with self.assertRaises(MemoryError):
            link.data_received(b"a" * SLICE + b"b")
        await asyncio.sleep(0)
        self.assertEqual(taker.call_count, 2)
        self.assertTrue(transport.resume_reading.called)

    async def test_the_end_comes_after_them(self) -> None:
        link, transport, came = self.made()
        user = mock.Mock(spec=LinkUser)
        user.received.side_effect = lambda data, _: came.append(data)
        user.ended.side_effect = lambda _, error: came.append(b"end")
        link.user = user
        with mock.patch("yarrowdoor.link.AT_ONCE", 0.0):
            link.data_received(b"a" * SLICE + b"b")
            link.connection_lost(None)
        self.assertEqual([it[:3] for it in came], [b"aaa", b"b", b"end"])


if __name__ == "__main__":
    unittest.main()
