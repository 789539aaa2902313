"""How often a relay that comes back tries, how long a try may take, and who is asked for credentials."""
import asyncio
import contextlib
import functools
import itertools
import socket
import ssl
import tempfile
import unittest
from typing import Any, Callable, Dict, Iterator, List, Tuple
from unittest import mock

from yarrowdoor import Backoff, Clock, Down, Ended, Refused, Relay, Times, TurnClient, Up, rest_credentials
from yarrowdoor.tries import HELD

from .coturn import make_certificate
from .leaps import LoopClock, run
from .network import Endpoint, StreamEndpoint
from .server import ALLOCATE, Server, Where
from .test_relay import PEER, RelayCase, Restarting
from .turn_servers import fast


class Breaking(StreamEndpoint):
    """A server that breaks each connection some time after its grant."""

    lasts: Callable[[], float]

    def send(self, packets: List[Tuple[bytes, Where]], client: Where) -> None:
        super().send(packets, client)
        if any(data[:2] == (ALLOCATE | 0x0100).to_bytes(2, "big") for data, _ in packets):
            asyncio.get_running_loop().call_later(self.lasts(), self.writer.close)


class Late(Endpoint):
    """A server whose answers come late, in seconds."""

    delay = 2.0

    def datagram_received(self, data: bytes, source: Where) -> None:
        asyncio.get_running_loop().call_later(self.delay, self.answer, data, source)

    def answer(self, data: bytes, source: Where) -> None:
        if not self.transport.is_closing():
            super().datagram_received(data, source)


class LatePath:
    """A path to a server over TCP on which each piece of the server comes late, in seconds."""

    @classmethod
    async def start(cls, server: Where, delay: float) -> "LatePath":
        path = cls()
        path.server, path.delay, path.writers = server, delay, []
        path.listener = await asyncio.start_server(path.carry, "127.0.0.1", 0)
        path.where = path.listener.sockets[0].getsockname()
        return path

    server: Where
    delay: float
    where: Where
    listener: asyncio.AbstractServer
    writers: List[asyncio.StreamWriter]

    async def carry(self, reader: asyncio.StreamReader, writer: asyncio.StreamWriter) -> None:
        its_reader, its_writer = await asyncio.open_connection(*self.server)
        self.writers += [writer, its_writer]
        await asyncio.gather(self.pass_on(reader, its_writer, 0.0), self.pass_on(its_reader, writer, self.delay))

    async def pass_on(self, reader: asyncio.StreamReader, writer: asyncio.StreamWriter, delay: float) -> None:
        with contextlib.suppress(OSError):
            while data := await reader.read(65_536):
                asyncio.get_running_loop().call_later(delay, writer.write, data)

    def close(self) -> None:
        self.listener.close()
        for it in self.writers:
            it.close()


class Granting(Restarting):
    """A server that notes when it is asked."""

    def __init__(self) -> None:
        super().__init__()
        self.times: List[float] = []

    def allocate(self, message: Any, source: Where, allocation: Any, now: float) -> bytes:
        self.times.append(now)
        self.allocations.clear()
        return super().allocate(message, source, allocation, now)


class Tries(unittest.TestCase):
    async def broken(self, lasts: Iterator[float], seconds: float) -> List[float]:
        """When a server is asked whose connections last so long, one after the other."""
        endpoint: Any = await Breaking.start(Granting())
        endpoint.lasts = lambda: next(lasts)
        async with Relay(endpoint.uri, "user", "pass", clock=LoopClock(), probe=None, backoff=Backoff(jitter=0)):
            await asyncio.sleep(seconds)
        endpoint.close()
        return [round(it, 1) for it in endpoint.server.times]

    def test_relays_that_break_soon(self) -> None:
        """Each counts as one more failure, although it came up."""
        self.assertEqual(run(self.broken(itertools.repeat(0.02), 20)), [0.0, 0.5, 1.5, 3.5, 7.5, 11.5, 15.5, 19.5])

    def test_a_relay_that_holds(self) -> None:
        """One that was up for a minute begins the waits anew; each that is past its wait is followed at once."""
        for held, wait in ((HELD + 1, 0.5), (HELD - 1, 4.0)):
            lasts = itertools.chain([0.02, 0.02, held], itertools.repeat(0.02))
            times = run(self.broken(lasts, 1.5 + held + wait + 0.3))
            self.assertEqual(times[:3], [0.0, 0.5, 1.5])
            self.assertEqual([round(it - times[3], 1) for it in times[4:]], [wait])
            self.assertAlmostEqual(times[3], 1.5 + held, delta=0.3)

    def test_a_slow_path(self) -> None:
        """An answer after 2 s is one: it is there after two of them."""
        async def opened(settings: Dict[str, Any]) -> float:
            endpoint: Any = await Late.start(Server())
            loop = asyncio.get_running_loop()
            relay = Relay(endpoint.uri, "user", "pass", clock=LoopClock(), **settings)
            opening = asyncio.ensure_future(relay.open())
            await asyncio.wait([opening], timeout=40)
            took = loop.time()
            await relay.close()
            endpoint.close()
            self.assertTrue(opening.done() and not opening.exception(), "it is not up")
            return took

        choices: List[Dict[str, Any]] = [{}, {"times": Times()}]
        for settings in choices:
            self.assertAlmostEqual(run(opened(settings)), 4.0, delta=0.5)

    def test_a_slow_path_over_tls(self) -> None:
        """TCP, each of the flights of TLS, and two answers take 2 s each, or nearly three."""
        for version, flights, delay in ((ssl.TLSVersion.TLSv1_2, 2, 2.0), (ssl.TLSVersion.TLSv1_3, 1, 2.0),
                                        (ssl.TLSVersion.TLSv1_2, 2, 2.8)):
            with self.subTest(version=version, delay=delay):
                took = run(self.opened_over_tls(version, delay))
                self.assertAlmostEqual(took, delay * (1 + flights + 2), delta=0.5)

    async def opened_over_tls(self, version: ssl.TLSVersion, delay: float) -> float:
        with tempfile.TemporaryDirectory() as room:
            files = make_certificate(room)
            if not files:
                self.skipTest("openssl is not installed")
            there, here = ssl.SSLContext(ssl.PROTOCOL_TLS_SERVER), ssl.create_default_context(cafile=files[0])
            there.load_cert_chain(*files)
        there.maximum_version = version
        loop, server = asyncio.get_running_loop(), StreamEndpoint(Server())
        server.listener = await asyncio.start_server(server.serve, "127.0.0.1", 0, ssl=there)
        path = await LatePath.start(server.listener.sockets[0].getsockname(), delay)
        relay = Relay(f"turns:{path.where[0]}:{path.where[1]}", "user", "pass", clock=LoopClock(), ssl=here)
        connect = loop.sock_connect

        async def late(sock: socket.socket, where: Any) -> None:
            await asyncio.sleep(delay if where == path.where else 0)
            await connect(sock, where)

        with mock.patch.object(loop, "sock_connect", late):
            opening = asyncio.ensure_future(relay.open())
            await asyncio.wait([opening], timeout=40)
            took = loop.time()
        await relay.close()
        path.close()
        server.close()
        self.assertTrue(opening.done() and not opening.exception(), "it is not up")
        return took


class Places(RelayCase):
    async def test_a_port_of_ones_own(self) -> None:
        """The server still knows the allocation of that port, which is lost: the next one is from another port."""
        endpoint = await self.serve(Server())
        with socket.socket(type=socket.SOCK_DGRAM) as free:
            free.bind(("127.0.0.1", 0))
            own = free.getsockname()
        relay, states = self.relay(endpoint, local_addr=own)
        async with relay:
            self.assertEqual(relay.local_address, own)
            client: Any = relay._revival.client
            client._session().breaks("the path is gone", None)
            await self.until(lambda: len(states) == 3, 20)
            self.assertNotEqual(relay.local_address, own)
            self.assertEqual(relay.local_address[0], own[0])
            endpoint.server.allocations.clear()
            client = relay._revival.client
            client._session().breaks("the path is gone", None)
            await self.until(lambda: len(states) == 5, 20)
            self.assertEqual(relay.local_address, own)

    async def test_a_quota_of_one(self) -> None:
        """The server counts the allocation that was lost as long as that may live: it is no end of the relay."""
        endpoint = await self.serve(Restarting())
        endpoint.server.refused = lambda message, life: 486 if endpoint.server.allocations else None
        relay, states = self.relay(endpoint, clock=Clock(rate=60))
        async with relay:
            client: Any = relay._revival.client
            old = tuple(client.local_address)
            receive = endpoint.server.receive
            endpoint.server.receive = lambda data, source, now: [] if source == old else receive(data, source, now)
            client._session().breaks("this host has the address no longer", None)
            await self.until(lambda: endpoint.server.asks > 8, 30)
            self.assertFalse(relay.closed)
            endpoint.server.allocations.clear()  # It has expired.
            await self.until(lambda: isinstance(relay.state, Up), 30)

    async def test_a_quota_that_others_use(self) -> None:
        """When an allocation of one's own cannot live any more, or was deleted, it is final."""
        for is_deleted in (False, True):
            endpoint = await self.serve(Restarting())
            clock = fast(200)
            relay, states = self.relay(endpoint, clock=clock)
            async with relay:
                client: Any = relay._revival.client
                endpoint.server.refused = lambda message, life: 486
                if is_deleted:
                    await client.close()
                else:
                    endpoint.server.is_dead = True
                    client._session().breaks("the path is gone", None)
                    await asyncio.sleep(clock.real(120))
                    endpoint.server.is_dead = False
                with self.assertRaisesRegex(Ended, "486"):
                    await asyncio.wait_for(relay.wait_closed(), 120)

    async def test_addresses(self) -> None:
        endpoint = await self.serve(Restarting())
        relay, states = self.relay(endpoint)
        for name in ("addresses", "address", "local_address"):
            with self.assertRaises(Ended):
                getattr(relay, name)
        async with relay:
            self.assertEqual(relay.addresses, [relay.address])
            self.assertEqual(relay.mapped_address, relay.local_address)
            endpoint.server.refused = lambda message, life: 500
            client: Any = relay._revival.client
            client._session().breaks("the path is gone", None)
            await self.until(lambda: isinstance(relay.state, Down), 20)
            self.assertEqual((relay.addresses, relay.mapped_address), ([relay.address], None))
            with self.assertRaisesRegex(Refused, "the relay is down"):
                relay.local_address


class Asked(RelayCase):
    async def test_closing_just_when_credentials_come(self) -> None:
        """The cancellation is not lost, as by `asyncio.wait_for` up to Python 3.11."""
        endpoint = await self.serve(Restarting())
        calls: List[Callable[[], Any]] = []

        async def credentials() -> Tuple[str, str]:
            await asyncio.sleep(0)
            calls[0]()
            return "user", "pass"

        relay = Relay(endpoint.uri, credentials=credentials)
        opening = asyncio.ensure_future(relay.open())
        await asyncio.sleep(0)
        running: Any = relay._revival._running
        calls.append(running.cancel)  # as `close` does
        await asyncio.wait([running], timeout=5)
        ended = running.done()
        running.cancel()
        await asyncio.wait([opening], timeout=5)
        self.assertTrue(ended, "it goes on")
        self.assertTrue(relay.closed)
        self.assertIsNotNone(opening.exception())
        self.assertEqual(endpoint.server.allocations, {})

    async def test_a_function_that_is_not_async(self) -> None:
        endpoint = await self.serve(Restarting())
        kinds: List[Any] = [TurnClient, Relay]
        for kind in kinds:
            relay = kind(endpoint.uri, credentials=lambda: ("user", "pass"))
            await asyncio.wait_for(relay.open(), 5)
            await relay.send(b"x", PEER)
            await relay.close()
            with self.assertRaisesRegex(TypeError, "^credentials is called without arguments: "):
                kind(endpoint.uri, credentials=functools.partial(rest_credentials))

    async def test_a_function_that_returns_none(self) -> None:
        """That is a mistake of the program, and no other try would mend it."""
        async def nothing() -> None:
            pass

        endpoint = await self.serve(Restarting())
        wrong: List[Any] = [nothing, lambda: None, lambda: "user:pass", lambda: lambda: ("user", "pass")]
        kinds: List[Any] = [TurnClient, Relay]
        for kind in kinds:
            for function in wrong:
                with self.assertRaisesRegex(TypeError, "^credentials is a user and a password, or a function"):
                    await asyncio.wait_for(kind(endpoint.uri, credentials=function).open(), 5)


if __name__ == "__main__":
    unittest.main()
