"""Streams: to the server over TCP, and to peers (RFC 6062); receivers that raise, and sockets that are full."""
import asyncio
import contextlib
import os
import signal
import socket
import ssl
import struct
import unittest
import unittest.mock
from typing import Any, Iterator, List

from yarrowdoor import Clock, PermissionFailed, TurnClient, lingering, open_connection, reasons
from yarrowdoor.aioice import create_turn_endpoint
from yarrowdoor.link import SLICE

from . import coturn as coturn_server
from .case import Case
from .network import Endpoint, StreamEndpoint
from .server import Server

PEER = ("10.1.0.1", 9)
FRAME = struct.pack("!HH", 0x4000, 4) + b"data"
ODD_FRAME = struct.pack("!HH", 0x4000, 1) + b"x\0\0\0"


class ToTheServer(Case):
    async def test_frames_wherever_they_are_cut(self) -> None:
        """What an error response says is read after any piece that ends in the middle of a frame."""
        for frame, data in ((FRAME, b"data"), (ODD_FRAME, b"x")):
            for cut in range(len(frame)):
                endpoint = await self.serve(kind=StreamEndpoint, denied=("10.1.0.2",))
                async with TurnClient(endpoint.uri, "user", "pass") as relay:
                    await relay.bind(PEER)
                    endpoint.writer.get_extra_info("socket").setsockopt(socket.IPPROTO_TCP, socket.TCP_NODELAY, 1)
                    endpoint.writer.write(frame + frame[:cut])
                    self.assertEqual(await asyncio.wait_for(relay.receive(), 5), (data, PEER))
                    endpoint.writer.write(frame[cut:])
                    self.assertEqual(await asyncio.wait_for(relay.receive(), 5), (data, PEER))
                    with self.subTest(frame=frame, cut=cut), self.assertRaises(PermissionFailed) as failed:
                        await relay.permit("10.1.0.2")
                    self.assertEqual(failed.exception.code, 403)

    async def test_a_flood_of_empty_messages(self) -> None:
        """One piece of the stream may have 65,536 of them, and other tasks go on meanwhile."""
        endpoint, count, came = await self.serve(kind=StreamEndpoint), 65_536, [0]

        def receive(data: bytes, peer: Any) -> None:
            came[0] += 1

        async with TurnClient(endpoint.uri, "user", "pass", receiver=receive) as relay:
            await relay.bind(PEER)
            endpoint.writer.write(struct.pack("!HH", 0x4000, 0) * count)
            most = seen = 0
            while seen < count:
                await asyncio.sleep(0)
                most, seen = max(most, came[0] - seen), came[0]
            await relay.permit("10.1.0.2")
        self.assertLessEqual(most, 2 * SLICE // 4 + 1)  # uvloop may take a slice more in the same round.

    async def test_a_receiver_that_raises(self) -> None:
        """Its exception goes to the event loop's handler, and the relay goes on."""
        told: List[Any] = []
        asyncio.get_running_loop().set_exception_handler(lambda loop, context: told.append(context))
        kinds: List[Any] = [Endpoint, StreamEndpoint]
        for kind in kinds:
            endpoint = await self.serve(kind=kind)
            came: List[bytes] = []

            def receive(data: bytes, peer: Any, came: List[bytes] = came) -> None:
                came.append(data)
                raise ZeroDivisionError(data)

            async with TurnClient(endpoint.uri, "user", "pass", receiver=receive) as relay:
                await relay.bind(PEER)
                for number in range(2):
                    if kind is Endpoint:
                        relay.sendto(b"data", PEER)
                    else:
                        endpoint.writer.write(FRAME)
                    while len(came) <= number and not relay.closed:
                        await asyncio.sleep(0.01)
                self.assertFalse(relay.closed)
                await relay.permit("10.1.0.9")
            self.assertEqual([type(it.get("exception")) for it in told], [ZeroDivisionError] * 2)
            self.assertRegex(told[0]["message"], "^the receiver of a TurnClient raised")
            told.clear()


class Told(asyncio.DatagramProtocol):
    """A protocol that keeps what it is told."""

    def __init__(self) -> None:
        self.told: List[Any] = []

    def pause_writing(self) -> None:
        self.told.append("pause")

    def resume_writing(self) -> None:
        self.told.append("resume")

    def error_received(self, exc: Exception) -> None:
        self.told.append(type(exc))


class Transports(Case):
    """What the protocol of a `RelayTransport` is told."""

    async def test_a_socket_that_is_full(self) -> None:
        endpoint = await self.serve(kind=StreamEndpoint)
        host, port = endpoint.where
        transport, protocol = await create_turn_endpoint(Told, (host, port), "user", "pass", transport="tcp")
        transport.sendto(b"x", PEER)
        while PEER not in transport._bound:
            await asyncio.sleep(0.01)
        endpoint.writer.transport.pause_reading()
        for _ in range(20_000):
            if protocol.told:
                break
            transport.sendto(bytes(1200), PEER)
        self.assertEqual((protocol.told, transport.relay.unsent), (["pause"], 0))
        endpoint.writer.transport.resume_reading()
        for _ in range(500):
            if len(protocol.told) > 1:
                break
            await asyncio.sleep(0.01)
        self.assertEqual(protocol.told, ["pause", "resume"])
        transport.close()
        with contextlib.suppress(Exception):
            await asyncio.wait_for(transport.relay.wait_closed(), 5)

    async def test_a_socket_that_is_refused(self) -> None:
        endpoint = await Endpoint.start(Server())
        transport, protocol = await create_turn_endpoint(Told, endpoint.transport.get_extra_info("sockname"), "user", "pass")
        transport.sendto(b"x", PEER)
        while PEER not in transport._bound:
            await asyncio.sleep(0.01)
        endpoint.close()
        for _ in range(500):
            transport.sendto(b"x", PEER)
            if protocol.told:
                break
            await asyncio.sleep(0.01)
        self.assertEqual(protocol.told[:1], [ConnectionRefusedError])
        transport.close()
        await asyncio.sleep(0)


@unittest.skipUnless(coturn_server.IS_HERE, coturn_server.WHY)
class ToPeers(unittest.IsolatedAsyncioTestCase):
    async def test_bytes_of_a_peer_are_no_frames(self) -> None:
        """A connection that is bound is not read for messages, also where they look like some."""
        message = b"\1\1\0\0\x21\x12\xa4\x42" + bytes(12)
        size = 1_000_000

        async def give(reader: asyncio.StreamReader, writer: asyncio.StreamWriter) -> None:
            await reader.readexactly(1)
            writer.write(message * (size // len(message)))
            # coturn drops what it has not passed on yet when a peer closes.
            with contextlib.suppress(ConnectionError):
                await reader.read()
            writer.close()

        with coturn_server.coturn() as at:
            peers = await asyncio.start_server(give, "127.0.0.1", 0)
            self.addCleanup(peers.close)
            uri = at.uri("turn:127.0.0.1:{port}?transport=tcp")
            async with TurnClient(uri, "user", "pass", relay="tcp") as relay:
                with unittest.mock.patch.object(reasons, "read", wraps=reasons.read) as reads:
                    reader, writer = await asyncio.wait_for(relay.connect(peers.sockets[0].getsockname()), 10)
                    writer.write(b"x")
                    await asyncio.wait_for(reader.readexactly(size), 20)
                writer.close()
        self.assertLess(reads.call_count, 50)

    async def connect(self, relay: TurnClient) -> asyncio.StreamWriter:
        """Opens the relay, and a stream to a peer that says nothing."""
        async def hold(reader: asyncio.StreamReader, writer: asyncio.StreamWriter) -> None:
            await asyncio.sleep(60)
            writer.close()

        peers = await asyncio.start_server(hold, "127.0.0.1", 0)
        self.addCleanup(peers.close)
        await relay.open()
        _, writer = await asyncio.wait_for(relay.connect(peers.sockets[0].getsockname()), 10)
        return writer

    async def echo(self, reader: asyncio.StreamReader, writer: asyncio.StreamWriter) -> None:
        """Serves a peer that sends back what it gets."""
        with contextlib.suppress(ConnectionError):
            while data := await reader.read(1000):
                writer.write(data)
        writer.close()

    async def test_a_stream_is_used_and_outlives_its_permission(self) -> None:
        """What is written and read is a use of the peer; where the user has released it, the stream goes on."""
        with coturn_server.coturn() as at:
            peers = await asyncio.start_server(self.echo, "127.0.0.1", 0)
            self.addCleanup(peers.close)
            for releases in (False, True):
                async with TurnClient(at.uri("turn:127.0.0.1:{port}?transport=tcp"), "user", "pass", relay="tcp", clock=Clock(60),
                                      idle=None if releases else 60) as relay:
                    reader, writer = await asyncio.wait_for(relay.connect(peers.sockets[0].getsockname()), 10)
                    if releases:
                        relay.release("127.0.0.1")
                    client = relay._session().client
                    for number in range(66):  # 396 s of the client
                        writer.write(b"%2d" % number)
                        self.assertEqual(await asyncio.wait_for(reader.readexactly(2), 10), b"%2d" % number)
                        await asyncio.sleep(0.1)
                    self.assertEqual(client.have_permission("127.0.0.1"), not releases)
                    writer.close()

    async def test_a_peer_gets_all_that_was_written(self) -> None:
        """What coturn has not passed on when a data connection is closed, or the relayed address deleted, it drops."""
        came: asyncio.Queue[int] = asyncio.Queue()

        async def count(reader: asyncio.StreamReader, writer: asyncio.StreamWriter) -> None:
            size = 0
            with contextlib.suppress(ConnectionError):
                while data := await reader.read(65_536):
                    size += len(data)
            came.put_nowait(size)
            writer.close()

        with coturn_server.coturn() as at:
            peers = await asyncio.start_server(count, "127.0.0.1", 0)
            self.addCleanup(peers.close)
            where, uri = peers.sockets[0].getsockname(), at.uri("turn:127.0.0.1:{port}?transport=tcp")
            for size in (100_000, 2_000_000):
                _, writer = await open_connection(uri, *where, credentials=("user", "pass"))
                writer.write(bytes(size))
                await writer.drain()
                writer.close()
                writer.write(b"this comes too late")
                await writer.wait_closed()
                self.assertEqual(await asyncio.wait_for(came.get(), 20), size)
                async with TurnClient(uri, "user", "pass", relay="tcp") as relay:
                    _, writer = await relay.connect(where)
                    writer.write(bytes(size))
                    await writer.drain()
                self.assertEqual(await asyncio.wait_for(came.get(), 20), size)

    async def test_when_a_stream_is_closed(self) -> None:
        """Some time after its last byte has left, and at once where there was none, or that time has passed."""
        loop = asyncio.get_running_loop()
        with coturn_server.coturn() as at:
            after = lingering.LINGER - 0.01
            for wait, least, most in ((None, 0.0, 0.5), (0.0, after, 30.0), (0.6, after, 30.0), (1.5, after, 0.5)):
                relay = TurnClient(at.uri("turn:127.0.0.1:{port}?transport=tcp"), "user", "pass", relay="tcp")
                writer = await self.connect(relay)
                written = loop.time()
                if wait is not None:
                    writer.write(b"x")
                    await asyncio.sleep(wait)
                began = loop.time()
                writer.close()
                self.assertTrue(writer.is_closing())
                await asyncio.wait_for(writer.wait_closed(), 30)
                self.assertGreaterEqual(loop.time() - written, least)
                self.assertLessEqual(loop.time() - began, most)
                await relay.close()

    async def test_leaving_that_is_cancelled_deletes_the_address(self) -> None:
        """Also while a stream is not closed yet."""
        with coturn_server.coturn() as at:
            relay = TurnClient(at.uri("turn:127.0.0.1:{port}?transport=tcp"), "user", "pass", relay="tcp")
            writer = await self.connect(relay)
            writer.write(b"x")
            session = relay._session()
            closing = asyncio.ensure_future(relay.close())
            await asyncio.sleep(0.1)
            self.assertFalse(session.journal.is_leaving)
            closing.cancel()
            await asyncio.wait([closing])
            self.assertTrue(session.journal.is_leaving)
            self.assertTrue(relay.closed)

    async def test_streams_end_with_the_relay(self) -> None:
        """What waits in a connection to a server that has stopped is dropped when the relay is closed."""
        with coturn_server.coturn() as at:
            relay = TurnClient(at.uri("turn:127.0.0.1:{port}?transport=tcp"), "user", "pass", relay="tcp")
            writer = await self.connect(relay)
            with stopped(at.pid):
                for _ in range(160):
                    writer.write(bytes(65_536))
                self.assertGreater(writer.transport.get_write_buffer_size(), 0)
                await asyncio.wait_for(relay.close(), 10)
                await asyncio.sleep(0.1)
                self.assertEqual(writer.transport.get_write_buffer_size(), 0)

    async def test_a_stream_over_tls_that_is_closed_before_the_relay(self) -> None:
        """A server that has stopped does not answer the end of its TLS, so that it is aborted with the relay."""
        with coturn_server.coturn() as at:
            if not at.certificate:
                self.skipTest("openssl is not installed, which makes a certificate")
            trusting = ssl.create_default_context(cafile=at.certificate)
            relay = TurnClient(at.uri("turns:localhost:{tls_port}"), "user", "pass", relay="tcp", ssl=trusting)
            writer: Any = await self.connect(relay)
            link = writer.transport.link
            with stopped(at.pid), unittest.mock.patch.object(link, "connection_lost", wraps=link.connection_lost) as lost:
                writer.close()
                await asyncio.wait_for(relay.close(), 10)
                for _ in range(500):  # and not 30 s, after which TLS gives up by itself
                    if lost.called:
                        break
                    await asyncio.sleep(0.01)
                self.assertTrue(lost.called)


@contextlib.contextmanager
def stopped(pid: int) -> Iterator[None]:
    """Stops a process meanwhile."""
    os.kill(pid, signal.SIGSTOP)
    try:
        yield
    finally:
        os.kill(pid, signal.SIGCONT)


if __name__ == "__main__":
    unittest.main()
