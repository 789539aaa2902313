"""The calls without asyncio, over coturn and sockets that misbehave."""
import gc
import socket
import ssl
import threading
import time
import unittest
import warnings
from typing import Any, List, Tuple

from yarrowdoor import AllocationFailed, Ended, PermissionFailed, Refused, WrongCredentials, sync

from . import coturn as server
from .server import Server
from .threaded import Threaded

REFRESH = b"\0\4"
PORTS = "turn:127.0.0.1:{port}", "turn:127.0.0.1:{port}?transport=tcp"


class Peer:
    """A peer that sends back what it gets."""

    def __init__(self) -> None:
        self.socket = socket.socket(type=socket.SOCK_DGRAM)
        self.socket.bind(("127.0.0.1", 0))
        self.where = self.socket.getsockname()
        threading.Thread(target=self.run, daemon=True).start()

    def run(self) -> None:
        while True:
            data, source = self.socket.recvfrom(65_536)
            if data == b"end":
                return self.socket.close()
            self.socket.sendto(data, source)

    def close(self) -> None:
        with socket.socket(type=socket.SOCK_DGRAM) as own:
            own.sendto(b"end", self.where)


@unittest.skipUnless(server.IS_HERE, server.WHY)
class Coturn(unittest.TestCase):
    def setUp(self) -> None:
        self.peer = Peer()
        self.addCleanup(self.peer.close)

    def echo(self, relay: sync.TurnClient) -> None:
        relay.send(b"hello", self.peer.where)
        self.assertEqual(relay.receive(timeout=30), (b"hello", self.peer.where))

    def test_echoes(self) -> None:
        with server.coturn() as at:
            for uri in PORTS:
                with sync.TurnClient(at.uri(uri), "user", "pass") as relay:
                    self.echo(relay)
                    relay.bind(self.peer.where)
                    self.echo(relay)
                    with self.assertRaises(TimeoutError):
                        relay.receive(timeout=0.05)
                    with self.assertRaises(Refused):
                        relay.sendto(b"x", ("192.0.2.7", 9))
                    with self.assertRaises(ValueError):
                        relay.send(b"x", ("localhost", 9))
                    address = relay.address
                    mapped = relay.mapped_address
                    self.assertEqual(mapped and mapped.host, "127.0.0.1")
                self.assertTrue(relay.closed)
                self.assertEqual(relay.address, address)
                calls: List[Any] = [relay.receive, lambda: relay.send(b"x", self.peer.where), lambda: relay.bind(self.peer.where)]
                for call in calls:
                    with self.assertRaisesRegex(Ended, "^the client was closed$"):
                        call()
                self.assertEqual([*relay], [])
                relay.close()

    def test_tls(self) -> None:
        with server.coturn() as at:
            if not at.certificate:
                self.skipTest("openssl is not installed, which makes a certificate")
            context = ssl.create_default_context(cafile=at.certificate)
            with sync.TurnClient(at.uri("turns:localhost:{tls_port}"), "user", "pass", ssl=context) as relay:
                for _ in range(200):
                    relay.send(bytes(1000), self.peer.where)
                self.assertEqual(len(relay.receive(timeout=30)[0]), 1000)
            with self.assertRaisesRegex(AllocationFailed, "certificate"):
                sync.TurnClient(at.uri("turns:localhost:{tls_port}"), "user", "pass").open()

    def test_threads(self) -> None:
        """Four threads ask, send and receive at one time; each waits for the same permission."""
        with server.coturn() as at, sync.TurnClient(at.uri(), "user", "pass") as relay:
            came: List[bytes] = []

            def work(name: int) -> None:
                for number in range(50):
                    relay.send(b"%d-%d" % (name, number), self.peer.where)
                    came.append(relay.receive(timeout=30)[0])

            threads = [threading.Thread(target=work, args=(it,)) for it in range(4)]
            for thread in threads:
                thread.start()
            for thread in threads:
                thread.join(30)
            self.assertEqual(sorted(came), sorted(b"%d-%d" % (name, number) for name in range(4) for number in range(50)))

    def test_closing_while_others_wait(self) -> None:
        with server.coturn() as at, sync.TurnClient(at.uri(), "user", "pass") as relay:
            ended: List[str] = []

            def wait() -> None:
                try:
                    relay.receive()
                except Ended as error:
                    ended.append(str(error))

            threads = [threading.Thread(target=wait) for _ in range(3)]
            for thread in threads:
                thread.start()
            time.sleep(0.1)
            relay.close()
            for thread in threads:
                thread.join(5)
            self.assertEqual(ended, ["the client was closed"] * 3)

    def test_a_wrong_password(self) -> None:
        with server.coturn() as at:
            start = time.monotonic()
            with self.assertRaises(WrongCredentials) as raised:
                sync.TurnClient(at.uri(), "user", "wrong").open()
            self.assertLess(time.monotonic() - start, 10)
            self.assertEqual(raised.exception.code, 401)

    def test_a_denied_peer(self) -> None:
        with server.coturn("--denied-peer-ip", "10.0.0.0-10.255.255.255") as at:
            with sync.TurnClient(at.uri(), "user", "pass") as relay:
                for _ in range(2):
                    with self.assertRaises(PermissionFailed) as raised:
                        relay.send(b"x", ("10.1.2.3", 9))
                    self.assertEqual(raised.exception.code, 403)
                with self.assertRaisesRegex(Refused, "^no-allocation"):
                    relay.permit("2001:db8::1")
                self.echo(relay)

    def test_a_server_that_ends(self) -> None:
        with server.coturn() as at:
            relay = sync.TurnClient(at.uri(PORTS[1]), "user", "pass")
            relay.open()
        with self.assertRaisesRegex(Ended, "^the connection to the server has ended: ") as raised:
            relay.receive(timeout=30)
        self.assertIsInstance(raised.exception.__cause__, ConnectionError)
        self.assertTrue(relay.closed)
        with self.assertRaisesRegex(Ended, "^the connection to the server has ended: "):
            next(iter(relay))

    def test_one_that_nobody_closes(self) -> None:
        """Its relayed address is deleted, and nobody waits for that."""
        with server.coturn() as at:
            relay: Any = sync.TurnClient(at.uri(), "user", "pass")
            relay.open()
            thread, client = relay._thread.thread, relay._client
            with self.assertWarnsRegex(ResourceWarning, "^unclosed turn:"):
                del relay
                gc.collect()
            thread.join(1.5)  # after two seconds it ends without an answer
            self.assertFalse(thread.is_alive())
            with self.assertRaisesRegex(Ended, "^the client was closed$"):
                client.check_open()

    def test_grants_are_released_and_kept(self) -> None:
        with server.coturn() as at, sync.TurnClient(at.uri(), "user", "pass") as relay:
            relay.bind(self.peer.where)
            grants: List[Any] = [self.peer.where, "127.0.0.1"]
            for about in grants:
                relay.release(about)
                relay.keep(about)
                with self.assertRaisesRegex(Refused, "^not-granted$"):
                    relay.release("192.0.2.7" if isinstance(about, str) else ("192.0.2.7", 9))
            self.echo(relay)

    def test_credentials_are_asked_for_when_it_opens(self) -> None:
        asked: List[int] = []

        def credentials() -> Tuple[str, str]:
            asked.append(1)
            return "user", "pass"

        with server.coturn() as at:
            relay = sync.TurnClient(at.uri(), credentials=credentials)
            self.assertEqual(asked, [])
            with relay:
                self.echo(relay)
            self.assertEqual(asked, [1])
            with sync.TurnClient(at.uri(), credentials=("user", "pass")) as relay:
                self.echo(relay)
            with self.assertRaises(TypeError):
                sync.TurnClient(at.uri(), credentials=lambda: "user").open()  # type: ignore[arg-type,return-value]
            with self.assertRaises(TypeError):
                sync.TurnClient(at.uri(), "user", "pass", credentials=("user", "pass"))

    def test_data_that_nobody_takes(self) -> None:
        with server.coturn() as at, sync.TurnClient(at.uri(), "user", "pass", queue=2) as relay:
            for _ in range(3):
                relay.send(b"hello", self.peer.where)
            while not relay.dropped:
                time.sleep(0.01)
            self.assertEqual([relay.receive(timeout=0)[0] for _ in range(2)], [b"hello"] * 2)

    def test_no_socket_is_left(self) -> None:
        with server.coturn() as at, warnings.catch_warnings():
            warnings.simplefilter("error")
            for _ in range(3):
                with sync.TurnClient(at.uri(), "user", "pass"):
                    pass
            while any(it.name == "yarrowdoor" for it in threading.enumerate()):
                time.sleep(0.01)
            gc.collect()


class Sockets(unittest.TestCase):
    def test_a_silent_server(self) -> None:
        for kind, uri in zip((socket.SOCK_DGRAM, socket.SOCK_STREAM), PORTS):
            with socket.socket(type=kind) as silent:
                silent.bind(("127.0.0.1", 0))
                if kind == socket.SOCK_STREAM:
                    silent.listen()
                relay = sync.TurnClient(uri.format(port=silent.getsockname()[1]), "user", "pass", timeout=0.3)
                with self.assertRaisesRegex(AllocationFailed, r"^no answer from turn:127\.0\.0\.1:\S* in [0-9.]+ s$"):
                    relay.open()
                with self.assertRaises(Ended):
                    relay.address
                with self.assertRaises(RuntimeError):
                    relay.open()

    def test_a_stream_that_ends(self) -> None:
        with socket.create_server(("127.0.0.1", 0)) as listener:
            relay = sync.TurnClient(PORTS[1].format(port=listener.getsockname()[1]), "user", "pass", timeout=30)
            threading.Thread(target=self.end_stream, args=(listener,), daemon=True).start()
            with self.assertRaisesRegex(AllocationFailed, "^the connection to the server has ended: the server closed"):
                relay.open()

    def end_stream(self, listener: socket.socket) -> None:
        with listener.accept()[0] as own:
            own.recv(100)  # else it is a reset

    def test_a_grant_that_comes_late_is_given_back(self) -> None:
        """Each answer takes 0.6 s, so that the relayed address is granted when its client has given up."""
        with Threaded(Server(), forger=lambda data: [b"none"], delay=0.6) as endpoint:
            relay = sync.TurnClient(endpoint.uri, "user", "pass", timeout=1.0)
            with self.assertRaisesRegex(AllocationFailed, "^no answer from "):
                relay.open()
            with self.assertRaisesRegex(Ended, "^the client was closed$"):
                relay.permit("192.0.2.7")
            start = time.monotonic()
            while not any(it[:2] == REFRESH for it in endpoint.received) or endpoint.server.allocations:
                self.assertLess(time.monotonic() - start, 20)
                time.sleep(0.01)

    def test_a_closed_port(self) -> None:
        port = server.free_port()
        with self.assertRaisesRegex(AllocationFailed, "^no connection to ") as raised:
            sync.TurnClient(PORTS[1].format(port=port), "user", "pass").open()
        self.assertIsInstance(raised.exception.__cause__, ConnectionRefusedError)
        with self.assertRaisesRegex(AllocationFailed, "no answer"):
            sync.TurnClient(PORTS[0].format(port=port), "user", "pass", timeout=0.5).open()
        with self.assertRaisesRegex(AllocationFailed, "no connection to "):
            sync.TurnClient("turn:no-such-name.invalid", "user", "pass").open()

    def test_wrong_arguments(self) -> None:
        with self.assertRaises(ValueError):
            sync.TurnClient("http://example.org", "user", "pass")
        with self.assertRaisesRegex(ValueError, "^queue is at least 1"):
            sync.TurnClient("turn:127.0.0.1", "user", "pass", queue=0)
        with self.assertRaises(TypeError):
            sync.TurnClient("turn:127.0.0.1", "user")
        with self.assertRaises(Ended):
            sync.TurnClient("turn:127.0.0.1", "user", "pass").receive()
        with warnings.catch_warnings():
            warnings.simplefilter("error")
            with self.assertRaises(ValueError):
                sync.TurnClient("turn:127.0.0.1", "", "pass").open()


if __name__ == "__main__":
    unittest.main()
