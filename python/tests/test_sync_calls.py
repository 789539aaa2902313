"""The calls without asyncio: what they have of the client of asyncio, and what they wait for."""
import asyncio
import concurrent.futures
import contextlib
import fcntl
import pathlib
import resource
import socket
import ssl
import subprocess
import sys
import tempfile
import threading
import time
import unittest
from typing import Any, Callable, Iterator, List, Tuple
from unittest import mock

from yarrowdoor import AllocationFailed, Clock, Ended, Lost, PermissionFailed, TurnClient, sync
from yarrowdoor.wire import Tap, Wire

from . import coturn
from .network import StreamEndpoint
from .server import CREATE_PERMISSION, Message, Server
from .threaded import Threaded
from .turn_servers import fast

PEER = ("10.1.0.1", 9)


def public(of: type) -> List[str]:
    return sorted(it for it in dir(of) if not it.startswith("_"))


class Counting(Server):
    """Counts requests for permissions."""

    asked = 0

    def answer(self, message: Message, *args: Any) -> bytes:
        self.asked += message.kind == CREATE_PERMISSION
        return super().answer(message, *args)


@contextlib.contextmanager
def stream_server(server: Server) -> Iterator[Tuple[StreamEndpoint, Callable[[Callable[[], object]], object]]]:
    """A server over TCP in a thread of its own, and what calls a function there."""
    loop = asyncio.new_event_loop()
    thread = threading.Thread(target=loop.run_forever)
    thread.start()

    def do(function: Callable[[], object]) -> object:
        async def call() -> object:
            return function()

        return asyncio.run_coroutine_threadsafe(call(), loop).result(10)

    endpoint = asyncio.run_coroutine_threadsafe(StreamEndpoint.start(server), loop).result(10)
    try:
        yield endpoint, do
    finally:
        def end() -> None:
            endpoint.listener.close()
            endpoint.writer.transport.abort()
            loop.call_later(0.05, loop.stop)

        loop.call_soon_threadsafe(end)
        thread.join()
        loop.close()


def send_many(relay: sync.TurnClient) -> None:
    for _ in range(1_000):
        relay.sendto(b"xy", PEER)


class OverUdp(unittest.TestCase):
    def relay(self, server: Server, **settings: Any) -> Tuple[Threaded, sync.TurnClient]:
        endpoint = Threaded(server)
        endpoint.__enter__()
        self.addCleanup(endpoint.__exit__, None, None, None)
        relay = sync.TurnClient(endpoint.uri, "user", "pass", **settings)
        relay.open()
        self.addCleanup(relay.close)
        return endpoint, relay

    def test_it_has_what_the_other_one_has(self) -> None:
        self.assertEqual(sorted({*public(TurnClient)} - {*public(sync.TurnClient)}), [])
        endpoint, relay = self.relay(Server(), pause=0.001, refresh_ahead=100.5, family=(4, 6), local_addr=("127.0.0.1", 0))
        self.assertEqual(relay.addresses, [relay.address])
        self.assertEqual(relay.local_address[0], "127.0.0.1")
        self.assertEqual(relay.check().mapped, relay.mapped_address)
        relay.send(bytes(10), PEER)
        relay.sendto(memoryview(bytes(40)).cast("Q"), PEER)
        self.assertEqual((relay.counters.packets_out, relay.counters.bytes_out, relay.unsent), (2, 50, 0))
        self.assertGreater(relay.counters.requests, 2)
        with self.assertRaises(TimeoutError):
            relay.wait_closed(timeout=0.01)
        relay.close()
        relay.wait_closed()
        with self.assertRaisesRegex(Ended, "was not opened"):
            sync.TurnClient(endpoint.uri, "user", "pass").wait_closed()

    def test_it_is_there_with_the_package(self) -> None:
        words = [sys.executable, "-c", "import yarrowdoor; yarrowdoor.sync.TurnClient"]
        self.assertEqual(subprocess.run(words, cwd=pathlib.Path(__file__).resolve().parent.parent).returncode, 0)

    def test_bytes_of_wide_items_are_counted(self) -> None:
        async def count(uri: str) -> int:
            async with TurnClient(uri, "user", "pass") as relay:
                await relay.send(memoryview(bytes(40)).cast("Q"), PEER)
                return relay.counters.bytes_out

        endpoint, _ = self.relay(Server())
        self.assertEqual(asyncio.run(count(endpoint.uri)), 40)

    def test_aborting_waits_for_nothing(self) -> None:
        """The relayed address is deleted all the same, also where a signal's handler or the receiver calls it."""
        endpoint, relay = self.relay(Server(), pause=1.0)
        relay.permit(PEER[0])
        start = time.monotonic()
        relay.abort()
        self.assertTrue(relay.closed)
        while endpoint.server.allocations and time.monotonic() < start + 20:
            time.sleep(0.005)
        self.assertEqual(endpoint.server.allocations, {})
        relay.abort()
        relay.close()
        with self.assertRaises(Ended):
            relay.receive()
        sync.TurnClient(endpoint.uri, "user", "pass").abort()

    def test_times_are_seconds(self) -> None:
        endpoint, _ = self.relay(Server(), keepalive=0.25)
        before = len(endpoint.received)
        time.sleep(1.5)
        self.assertIn(len(endpoint.received) - before, range(1, 7))

    def test_what_is_lost_is_told(self) -> None:
        server = Counting()
        _, relay = self.relay(server, clock=fast(100.0))
        told: List[Lost] = []
        relay.on_lost = told.append
        relay.permit(PEER[0])
        server.denied = (PEER[0],)
        start = time.monotonic()
        while not told and time.monotonic() < start + 60:
            time.sleep(0.01)
        self.assertEqual((told, [*relay.lost]), ([Lost("permission", PEER[0])],) * 2)
        with self.assertRaises(PermissionFailed):
            relay.send(b"x", PEER)

    def test_a_server_that_is_gone_is_noticed(self) -> None:
        with Threaded(Server()) as endpoint:
            relay = sync.TurnClient(endpoint.uri, "user", "pass", clock=Clock(rate=10.0))
            relay.open()
            relay.permit(PEER[0])
            errors: List[Exception] = []
            relay.on_error = errors.append
        start = time.monotonic()
        with self.assertRaisesRegex(Ended, "^the connection to the server has ended: ") as raised:
            while time.monotonic() < start + 20:
                relay.sendto(b"x", PEER)
                time.sleep(0.01)
        self.assertIsInstance(raised.exception.__cause__, ConnectionRefusedError)
        self.assertIsInstance(errors[0], ConnectionRefusedError)
        with self.assertRaises(Ended):
            relay.wait_closed(timeout=5)

    def test_a_refused_peer_is_left_alone(self) -> None:
        server = Counting(denied=(PEER[0],))
        _, relay = self.relay(server)
        for _ in range(20):
            with self.assertRaises(PermissionFailed):
                relay.send(b"x", PEER)
        self.assertEqual(server.asked, 1)

    def test_what_threads_send_is_counted(self) -> None:
        _, relay = self.relay(Server())
        relay.permit(PEER[0])
        with concurrent.futures.ThreadPoolExecutor(4) as threads:
            for done in [threads.submit(send_many, relay) for _ in range(4)]:
                done.result()
        self.assertEqual((relay.counters.packets_out + relay.unsent, relay.unsent), (4_000, 0))
        self.assertEqual(relay.counters.bytes_out, 8_000)

    def test_what_the_client_calls_does_not_wait_for_it(self) -> None:
        found: List[Any] = []
        relay: sync.TurnClient

        def take(data: bytes, peer: object) -> None:
            calls: List[Callable[[], object]] = [lambda: relay.permit("10.1.0.2"), relay.receive]
            for call in calls:
                try:
                    call()
                except RuntimeError as error:
                    found.append(type(error))
            relay.keep(PEER[0])
            relay.sendto(b"again", PEER)
            relay.close()

        server = Server()
        endpoint, relay = self.relay(server, receiver=take)
        relay.permit(PEER[0])
        for client in [*server.allocations]:
            for data, where in server.from_peer(b"hello", PEER, client, time.monotonic()):
                endpoint._socket.sendto(data, where)
        relay.wait_closed(timeout=10)
        self.assertEqual(found, [RuntimeError] * 2)
        self.assertEqual(server.allocations, {})

    def test_credentials_of_an_async_function(self) -> None:
        async def credentials() -> Tuple[str, str]:
            return "user", "pass"

        with self.assertRaisesRegex(TypeError, "plain function"):
            sync.TurnClient("turn:127.0.0.1", credentials=credentials).open()  # type: ignore[arg-type]


class OverTcp(unittest.TestCase):
    def test_who_receives_does_not_wait_for_who_sends(self) -> None:
        """The server reads nothing any more, so that one thread waits in `sendto`."""
        with stream_server(Server()) as (endpoint, do):
            with sync.TurnClient(endpoint.uri, "user", "pass") as relay:
                relay.permit(PEER[0])
                do(endpoint.writer.transport.pause_reading)
                pauses: List[bool] = []
                relay.on_pause = pauses.append

                def flood() -> None:
                    with contextlib.suppress(Ended):
                        while not relay.closed:
                            relay.sendto(bytes(1_200), PEER)

                thread = threading.Thread(target=flood)
                thread.start()
                start = time.monotonic()
                while not pauses and time.monotonic() < start + 20:
                    time.sleep(0.01)
                start = time.monotonic()
                with self.assertRaises(TimeoutError):
                    relay.receive(timeout=0.2)
                self.assertLess(time.monotonic() - start, 1.5)
                relay.close()
                thread.join(10)
                self.assertFalse(thread.is_alive())

    def test_all_arrives_in_order(self) -> None:
        server = Server()
        came: List[bytes] = []
        receive = server.receive

        def record(data: bytes, *args: Any) -> Any:
            if data[0] >> 6 == 1:
                came.append(data[4:])
            return receive(data, *args)

        server.receive = record  # type: ignore[assignment]
        with stream_server(server) as (endpoint, _), sync.TurnClient(endpoint.uri, "user", "pass") as relay:
            relay.bind(PEER)
            for number in range(3_000):
                relay.sendto(number.to_bytes(4, "big"), PEER)
            relay.check()
            self.assertEqual(came, [it.to_bytes(4, "big") for it in range(3_000)])
            self.assertEqual(relay.counters.packets_out, 3_000)

    def test_opening_takes_no_longer_than_it_may(self) -> None:
        """The handshake of TLS takes most of the time, and nothing is answered then."""
        with tempfile.TemporaryDirectory() as room, socket.create_server(("127.0.0.1", 0)) as listener:
            files = coturn.make_certificate(room)
            if not files:
                self.skipTest("openssl is not installed, which makes a certificate")
            context = ssl.SSLContext(ssl.PROTOCOL_TLS_SERVER)
            context.load_cert_chain(*files)

            def serve() -> None:
                connection = listener.accept()[0]
                time.sleep(0.8)
                with contextlib.suppress(OSError), context.wrap_socket(connection, server_side=True) as own:
                    while own.recv(1_000):
                        pass

            thread = threading.Thread(target=serve)
            thread.start()
            start = time.monotonic()
            with self.assertRaisesRegex(AllocationFailed, "^no answer from .* in 1.0 s$"):
                sync.TurnClient("turns:127.0.0.1:%d" % listener.getsockname()[1], "user", "pass", timeout=1.0,
                                ssl=ssl.create_default_context(cafile=files[0])).open()
            self.assertLess(time.monotonic() - start, 1.6)
            thread.join(10)

    def test_a_socket_of_any_number_is_waited_for(self) -> None:
        """`select.select` takes none of 1,024 or more."""
        before = resource.getrlimit(resource.RLIMIT_NOFILE)
        resource.setrlimit(resource.RLIMIT_NOFILE, (max(before[0], min(2_048, before[1])), before[1]))
        self.addCleanup(resource.setrlimit, resource.RLIMIT_NOFILE, before)
        with socket.create_server(("127.0.0.1", 0)) as listener:
            near = socket.create_connection(listener.getsockname())
            wire = Wire(socket.socket(fileno=fcntl.fcntl(near.fileno(), fcntl.F_DUPFD, 1_500)), Tap())
            near.close()
            with mock.patch("yarrowdoor.wire._FULL", 0.1), self.assertRaisesRegex(TimeoutError, "reads nothing"):
                for _ in range(100_000):
                    wire.send(bytes(65_536))
            wire.close()


@unittest.skipUnless(coturn.IS_HERE, coturn.WHY)
class Streams(unittest.TestCase):
    def test_a_connection_to_a_peer_and_one_of_it(self) -> None:
        def echo(listener: socket.socket) -> None:
            with listener.accept()[0] as own:
                own.sendall(own.recv(100))

        with coturn.coturn() as at, socket.create_server(("127.0.0.1", 0)) as listener:
            with sync.TurnClient(at.uri("turn:127.0.0.1:{port}?transport=tcp"), "user", "pass", relay="tcp") as relay:
                threading.Thread(target=echo, args=(listener,), daemon=True).start()
                relay.permit("127.0.0.1")
                with relay.connect(listener.getsockname()) as stream:
                    stream.settimeout(10)
                    stream.sendall(b"hello")
                    self.assertEqual((stream.recv(100), stream.recv(100)), (b"hello", b""))
                with socket.create_connection(relay.address) as far:
                    near, peer = relay.accept()
                    self.assertEqual(peer, far.getsockname())
                    with near:
                        near.settimeout(10)
                        far.sendall(b"from the peer")
                        self.assertEqual(near.recv(100), b"from the peer")
                    far.settimeout(10)
                    with contextlib.suppress(ConnectionResetError):
                        self.assertEqual(far.recv(100), b"")
                with self.assertRaises(ValueError):
                    relay.sendto(b"x", listener.getsockname())


if __name__ == "__main__":
    unittest.main()
