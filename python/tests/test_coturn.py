"""A client against a real server, coturn, which has to be installed."""
import asyncio
import contextlib
import socket
import ssl
import time
import unittest
import unittest.mock
from typing import Any, AsyncIterator, Awaitable, Callable, ClassVar

from yarrowdoor import Address, AllocationFailed, Clock, ConnectFailed, PermissionFailed, TurnClient, WrongCredentials
from yarrowdoor.link import Link

from . import coturn as server


class Echo(asyncio.DatagramProtocol):
    """A peer that sends back what it gets."""

    def connection_made(self, transport: Any) -> None:
        self.transport = transport

    def datagram_received(self, data: bytes, source: Any) -> None:
        self.transport.sendto(data, source)


class Sink(asyncio.DatagramProtocol):
    """A peer that keeps what it gets."""

    def __init__(self, came: "asyncio.Queue[bytes]") -> None:
        self.came = came

    def datagram_received(self, data: bytes, source: Any) -> None:
        self.came.put_nowait(data)


@contextlib.asynccontextmanager
async def echo_peer() -> AsyncIterator["tuple[str, int]"]:
    transport, _ = await asyncio.get_running_loop().create_datagram_endpoint(Echo, local_addr=("127.0.0.1", 0))
    try:
        yield transport.get_extra_info("sockname")
    finally:
        transport.close()


async def echo_stream(reader: asyncio.StreamReader, writer: asyncio.StreamWriter) -> None:
    """Sends back all, until the connection ends. coturn resets it."""
    with contextlib.suppress(ConnectionError):
        while data := await reader.read(65536):
            writer.write(data)
            await writer.drain()
    writer.close()


@unittest.skipUnless(server.IS_HERE, server.WHY)
class Coturn(unittest.IsolatedAsyncioTestCase):
    server: ClassVar[server.Coturn]

    @classmethod
    def setUpClass(cls) -> None:
        stack = contextlib.ExitStack()
        cls.addClassCleanup(stack.close)
        cls.server = stack.enter_context(server.coturn())

    def tls(self) -> ssl.SSLContext:
        if not self.server.certificate:
            self.skipTest("openssl is not installed, which makes a certificate")
        return ssl.create_default_context(cafile=self.server.certificate)

    async def echo(self, uri: str, **settings: Any) -> None:
        async with echo_peer() as peer, TurnClient(uri, "user", "pass", **settings) as relay:
            self.assertEqual(relay.mapped_address, relay.local_address)
            for way in (relay.permit(peer[0]), relay.bind(peer)):
                await way
                for size in (1, 3, 1200, 9000):
                    await relay.send(bytes([size % 251]) * size, peer)
                    self.assertEqual(await asyncio.wait_for(relay.receive(), 5), (bytes([size % 251]) * size, peer))
            many = [b"%d" % number for number in range(200)]
            for data in many:
                await relay.send(data, peer)
                self.assertEqual(await asyncio.wait_for(relay.receive(), 5), (data, peer))
        self.assertTrue(relay.closed)
        self.assertEqual((relay.dropped, relay.unsent), (0, 0))

    async def test_udp(self) -> None:
        await self.echo(self.server.uri())

    async def test_tcp(self) -> None:
        await self.echo(self.server.uri("turn:127.0.0.1:{port}?transport=tcp"))

    async def test_tls(self) -> None:
        await self.echo(self.server.uri("turns:localhost:{tls_port}"), ssl=self.tls())

    async def test_the_longest_messages(self) -> None:
        """They pass over TCP. With one more coturn would answer nothing any more on this connection."""
        came: "asyncio.Queue[bytes]" = asyncio.Queue()
        loop = asyncio.get_running_loop()
        sink, _ = await loop.create_datagram_endpoint(lambda: Sink(came), local_addr=("127.0.0.1", 0))
        self.addCleanup(sink.close)
        peer = sink.get_extra_info("sockname")
        async with TurnClient(self.server.uri("turn:127.0.0.1:{port}?transport=tcp"), "user", "pass") as relay:
            for prepare, most in ((relay.permit(peer[0]), 65_468), (relay.bind(peer), 65_500)):
                await prepare
                await relay.send(bytes(most), peer)
                self.assertEqual(len(await asyncio.wait_for(came.get(), 5)), most)
                with self.assertRaises(ValueError):
                    await relay.send(bytes(most + 1), peer)
            await asyncio.wait_for(relay.permit("127.0.0.9"), 5)  # it still answers

    async def test_a_certificate_that_nobody_trusts(self) -> None:
        self.tls()
        with self.assertRaisesRegex(Exception, "certificate"):
            await TurnClient(self.server.uri("turns:localhost:{tls_port}"), "user", "pass").open()

    async def test_a_certificate_for_another_name(self) -> None:
        trusting = self.tls()
        relay = TurnClient(self.server.uri("turns:127.0.0.2:{tls_port}"), "user", "pass", ssl=trusting)
        connect, loop = asyncio.get_running_loop().sock_connect, asyncio.get_running_loop()

        async def connect_here(sock: Any, where: Any) -> None:
            await connect(sock, ("127.0.0.1", where[1]))

        with unittest.mock.patch.object(loop, "sock_connect", connect_here):
            with self.assertRaisesRegex(AllocationFailed, "certificate is not valid for '127.0.0.2'") as failed:
                await relay.open()
        self.assertIsInstance(failed.exception.__cause__, ssl.SSLCertVerificationError)

    async def test_a_hidden_user_name(self) -> None:
        with self.assertRaises(WrongCredentials):  # coturn does not know USERHASH
            await TurnClient(self.server.uri(), "user", "pass", anonymous="required").open()

    async def test_wrong_credentials(self) -> None:
        for form in ("turn:127.0.0.1:{port}", "turn:127.0.0.1:{port}?transport=tcp"):
            for user, password in (("user", "other"), ("other", "pass")):
                start = time.monotonic()
                with self.assertRaises(WrongCredentials):
                    await TurnClient(self.server.uri(form), user, password).open()
                self.assertLess(time.monotonic() - start, 15)  # and not 39.5 s

    async def test_a_denied_peer(self) -> None:
        async with TurnClient(self.server.uri(), "user", "pass") as relay:
            with self.assertRaises(PermissionFailed) as failed:
                await relay.permit("0.0.0.1")
            self.assertEqual(failed.exception.code, 403)

    async def streams(self, uri: str, most: int, **settings: Any) -> None:
        peers = await asyncio.start_server(echo_stream, "127.0.0.1", 0)
        peer = peers.sockets[0].getsockname()
        async with TurnClient(uri, "user", "pass", relay="tcp", **settings) as relay:
            for _ in range(2):
                reader, writer = await asyncio.wait_for(relay.connect(peer), 10)
                for size in (1, 100, 100_000, 16384, 16384):  # coturn may stop reading more than that over TLS
                    sent = bytes(it % 251 for it in range(min(size, most)))
                    writer.write(sent)
                    await writer.drain()
                    self.assertEqual(await asyncio.wait_for(reader.readexactly(len(sent)), 20), sent)
                self.assertEqual(writer.get_extra_info("peername"), peer)
                writer.close()
                await writer.wait_closed()
                await asyncio.sleep(0.1)
            await self.accept(relay)
            with self.assertRaises(ValueError):
                await relay.send(b"no datagram", peer)
            with self.assertRaises(ConnectFailed):
                await asyncio.wait_for(relay.connect(("127.0.0.1", server.free_port())), 20)
        peers.close()

    async def accept(self, relay: TurnClient) -> None:
        """A peer connects to the relayed address, and is answered."""
        await relay.permit("127.0.0.1")
        their_reader, their_writer = await asyncio.open_connection(*relay.address)
        reader, writer = await asyncio.wait_for(relay.accept(), 10)
        self.assertEqual(writer.get_extra_info("peername"), their_writer.get_extra_info("sockname"))
        their_writer.write(b"question")
        self.assertEqual(await asyncio.wait_for(reader.readexactly(8), 5), b"question")
        writer.write(b"answer")
        self.assertEqual(await asyncio.wait_for(their_reader.readexactly(6), 5), b"answer")
        their_writer.close()
        with contextlib.suppress(ConnectionError):
            self.assertEqual(await asyncio.wait_for(reader.read(), 5), b"")

    async def test_streams(self) -> None:
        await self.streams(self.server.uri("turn:127.0.0.1:{port}?transport=tcp"), 100_000)

    async def test_streams_over_tls(self) -> None:
        await self.streams(self.server.uri("turns:localhost:{tls_port}"), 16384, ssl=self.tls())

    async def connect_failed(self, open_one: Callable[..., Awaitable[Link]]) -> ConnectFailed:
        """How connecting to a peer fails where data connections are opened so. The client goes on."""
        peers = await asyncio.start_server(echo_stream, "127.0.0.1", 0)
        uri = self.server.uri("turn:127.0.0.1:{port}?transport=tcp")
        self.addCleanup(peers.close)
        async with TurnClient(uri, "user", "pass", relay="tcp") as relay:
            opens = relay._server.stream
            with unittest.mock.patch.object(relay._server, "stream", lambda *them: open_one(opens, *them)):
                with self.assertRaises(ConnectFailed) as failed:
                    await asyncio.wait_for(relay.connect(peers.sockets[0].getsockname()), 10)
            self.assertFalse(relay.closed)
        return failed.exception

    async def test_a_data_connection_that_does_not_open(self) -> None:
        async def no_socket(opens: Callable[..., Awaitable[Link]], *them: object) -> Link:
            raise OSError("too many open files")

        failed = await self.connect_failed(no_socket)
        self.assertIsInstance(failed.__cause__, OSError)
        self.assertIn("too many open files", str(failed))

    async def test_a_data_connection_that_ends_before_it_is_bound(self) -> None:
        """It is asked for once more, and then coturn says that it has a connection to this peer (RFC 6062, section 5.2)."""
        async def one_that_ends(opens: Callable[..., Awaitable[Link]], *them: object) -> Link:
            link = await opens(*them)
            link.close()
            return link

        self.assertEqual((await self.connect_failed(one_that_ends)).code, 446)

    async def test_a_connect_that_is_cancelled(self) -> None:
        peers = await asyncio.start_server(echo_stream, "127.0.0.1", 0)
        self.addCleanup(peers.close)
        peer, opened = peers.sockets[0].getsockname(), []
        async with TurnClient(self.server.uri("turn:127.0.0.1:{port}?transport=tcp"), "user", "pass", relay="tcp") as relay:
            await relay.permit(peer[0])
            opens = relay._server.stream

            async def open_late(*them: Any) -> Link:
                await asyncio.sleep(0.5)
                opened.append(await opens(*them))
                return opened[-1]

            with unittest.mock.patch.object(relay._server, "stream", open_late):
                with self.assertRaises(asyncio.TimeoutError):
                    await asyncio.wait_for(relay.connect(peer), 0.3)
                while not opened or not opened[0].is_over:
                    await asyncio.sleep(0.05)
            self.assertEqual(len(opened), 1)
            self.assertEqual(relay._session().streams._accepted.qsize(), 0)
            await self.check_connects(relay, peer)

    async def test_a_connect_that_is_cancelled_before_or_as_it_is_answered(self) -> None:
        peers = await asyncio.start_server(echo_stream, "127.0.0.1", 0)
        self.addCleanup(peers.close)
        peer = peers.sockets[0].getsockname()
        uri = self.server.uri("turn:127.0.0.1:{port}?transport=tcp")
        async with TurnClient(uri, "user", "pass", relay="tcp", pause=0.5) as relay:
            await relay.permit(peer[0])
            with self.assertRaises(asyncio.TimeoutError):
                await asyncio.wait_for(relay.connect(peer), 0.02)  # the CONNECT leaves half a second after the last request
            await asyncio.sleep(1)
            connected = relay._session().streams.connected

            def cancel(bound: Address) -> None:
                connected(bound)
                connecting.cancel()

            with unittest.mock.patch.object(relay._session().streams, "connected", cancel):
                connecting = asyncio.ensure_future(relay.connect(peer))
                with self.assertRaises(asyncio.CancelledError):
                    await asyncio.wait_for(connecting, 10)
            await asyncio.sleep(0.5)
            await self.check_connects(relay, peer)

    async def check_connects(self, relay: TurnClient, peer: Any) -> None:
        """The next connection to the peer, which sends back what it gets, is made and used."""
        reader, writer = await asyncio.wait_for(relay.connect(peer), 10)
        writer.write(b"hello")
        self.assertEqual(await asyncio.wait_for(reader.readexactly(5), 5), b"hello")

    async def test_a_name_that_leads_elsewhere_later(self) -> None:
        peers = await asyncio.start_server(echo_stream, "127.0.0.1", 0)
        self.addCleanup(peers.close)
        first = iter(["127.0.0.1"])

        async def lead(host: str, port: int, **kinds: int) -> "list[tuple[Any, ...]]":
            return [(socket.AF_INET, socket.SOCK_STREAM, socket.IPPROTO_TCP, "", (next(first, "127.0.0.2"), port))]

        with unittest.mock.patch.object(asyncio.get_running_loop(), "getaddrinfo", lead):
            async with TurnClient(self.server.uri("turn:localhost:{port}?transport=tcp"), "user", "pass", relay="tcp") as relay:
                reader, writer = await asyncio.wait_for(relay.connect(peers.sockets[0].getsockname()), 10)
                writer.write(b"hello")
                self.assertEqual(await asyncio.wait_for(reader.readexactly(5), 5), b"hello")

    async def test_two_relays(self) -> None:
        async with TurnClient(self.server.uri(), "user", "pass") as one, TurnClient(self.server.uri(), "user", "pass") as other:
            await other.permit(one.address[0])
            await one.send(b"question", other.address)
            self.assertEqual(await asyncio.wait_for(other.receive(), 5), (b"question", one.address))
            await other.send(b"answer", one.address)
            self.assertEqual(await asyncio.wait_for(one.receive(), 5), (b"answer", other.address))


@unittest.skipUnless(server.IS_HERE, server.WHY)
@unittest.skipUnless(server.has_ipv6(), "this host has no IPv6 address")
class Ipv6(unittest.IsolatedAsyncioTestCase):
    async def test_a_server_and_a_peer(self) -> None:
        loop = asyncio.get_running_loop()
        transport, _ = await loop.create_datagram_endpoint(Echo, local_addr=("::1", 0))
        self.addCleanup(transport.close)
        peer = transport.get_extra_info("sockname")[:2]
        with server.coturn("-E", "::1", host="::1") as at:
            for form in ("turn:[::1]:{port}", "turn:[::1]:{port}?transport=tcp"):
                async with TurnClient(at.uri(form), "user", "pass", family=6) as relay:
                    self.assertEqual((relay.address.host, relay.mapped_address), ("::1", relay.local_address))
                    for way in (relay.permit(peer[0]), relay.bind(peer)):
                        await way
                        await relay.send(b"hello", peer)
                        self.assertEqual(await asyncio.wait_for(relay.receive(), 10), (b"hello", peer))


@unittest.skipUnless(server.IS_HERE, server.WHY)
class StaleNonces(unittest.IsolatedAsyncioTestCase):
    async def test_half_an_hour(self) -> None:
        """Thirty minutes of the client's time, in 24 seconds, while the server's nonces last 5 seconds."""
        rate, minutes = 75, 30  # half a second for each answer
        with server.coturn("--stale-nonce=5") as at:
            async with echo_peer() as peer, TurnClient(at.uri(), "user", "pass", clock=Clock(rate)) as relay:
                await asyncio.gather(relay.bind(peer), *(relay.permit(f"127.0.0.{number}") for number in range(2, 6)))
                until = asyncio.get_running_loop().time() + 60 * minutes / rate
                number = 0
                while asyncio.get_running_loop().time() < until:
                    await relay.send(b"%d" % number, peer)
                    self.assertEqual(await asyncio.wait_for(relay.receive(), 5), (b"%d" % number, peer))
                    number += 1
                    await asyncio.sleep(0.01)
                self.assertEqual((list(relay.lost), relay.dropped, relay.closed), ([], 0, False))
        self.assertGreater(number, 100)


if __name__ == "__main__":
    unittest.main()
