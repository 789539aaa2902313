"""The addresses of a server's name: tried one beside the other, and each named where none serves."""
import asyncio
import contextlib
import socket
import threading
import time
import unittest
import unittest.mock
from typing import Any, Iterator, List, Optional, Tuple

from yarrowdoor import AllocationFailed, Times, TurnClient
from yarrowdoor.servers import connected
from yarrowdoor.uri import TurnUri

from .case import Case
from .network import SECOND, Endpoint, StreamEndpoint

SHORT = Times(initial=100_000_000, longest=SECOND, last=300_000_000, count=3)  # 0.1 + 0.2 + 0.3 s
PEER = ("10.1.0.1", 9)


@contextlib.contextmanager
def resolving(*hosts: str) -> Iterator[None]:
    """A resolver that knows these addresses of each name."""
    async def found(host: str, port: int, **kinds: Any) -> List[Tuple[Any, ...]]:
        is_udp = kinds.get("type") == socket.SOCK_DGRAM
        kind = (socket.SOCK_DGRAM, socket.IPPROTO_UDP) if is_udp else (socket.SOCK_STREAM, socket.IPPROTO_TCP)
        asked = hosts if host == "turn.example.org" else (host,)
        return [(socket.AF_INET, *kind, "", (it, port)) for it in asked]

    with unittest.mock.patch.object(asyncio.get_running_loop(), "getaddrinfo", found):
        yield


def port_of(uri: str) -> int:
    return int(uri.split(":")[2].partition("?")[0])


class Names(Case):
    def hole(self, host: str, port: int) -> None:
        """An address that takes packets and says nothing."""
        taken = socket.socket(socket.AF_INET, socket.SOCK_DGRAM)
        self.addCleanup(taken.close)
        taken.bind((host, port))

    async def test_a_first_address_that_is_silent(self) -> None:
        port = port_of((await self.serve()).uri)
        self.hole("127.0.0.2", port)
        start = time.monotonic()
        with resolving("127.0.0.2", "127.0.0.1"):
            async with TurnClient(f"turn:turn.example.org:{port}", "user", "pass") as relay:
                self.assertEqual(relay.address, ("10.9.9.9", 40000))
                self.assertEqual(relay.mapped_address, relay.local_address)
        self.assertLess(time.monotonic() - start, 20)  # and not the 39.5 s of a request

    async def test_a_first_address_that_is_silent_from_a_port_of_ones_own(self) -> None:
        """A port is used by one attempt at a time, and the next one has it when the first one is given up."""
        port = port_of((await self.serve()).uri)
        self.hole("127.0.0.2", port)
        with socket.socket(type=socket.SOCK_DGRAM) as free:
            free.bind(("127.0.0.1", 0))
            own = free.getsockname()
        with resolving("127.0.0.2", "127.0.0.1"):
            for times in (SHORT, None):
                async with TurnClient(f"turn:turn.example.org:{port}", "user", "pass", local_addr=own, times=times) as relay:
                    self.assertEqual(relay.local_address, own)

    async def test_silent_name_servers(self) -> None:
        """They hold no thread of the program, and one look-up of a name serves all who ask for it."""
        loop = asyncio.get_running_loop()
        if type(loop).getaddrinfo is not asyncio.BaseEventLoop.getaddrinfo:
            self.skipTest("this event loop looks names up by itself")
        real, answers, asked = socket.getaddrinfo, threading.Event(), []  # type: Any, threading.Event, List[str]
        self.addCleanup(answers.set)

        def silent(host: str, *it: Any, **options: Any) -> Any:
            if not host.endswith(".example.org"):
                return real(host, *it, **options)
            if options.get("flags"):
                raise socket.gaierror(socket.EAI_NONAME, "Name or service not known")
            asked.append(host)
            answers.wait(60)
            raise socket.gaierror(socket.EAI_AGAIN, "Temporary failure in name resolution")

        with unittest.mock.patch("socket.getaddrinfo", silent):
            names = [f"{number}.example.org" for number in range(40)]
            opening = [asyncio.ensure_future(TurnClient(f"turn:{it}", "user", "pass").open()) for it in 2 * names]
            for _ in range(1000):
                if len(asked) == len(names):
                    break
                await asyncio.sleep(0.01)
            await asyncio.wait_for(loop.run_in_executor(None, time.monotonic), 5)
            answers.set()
            failed = await asyncio.wait_for(asyncio.gather(*opening, return_exceptions=True), 10)
        self.assertEqual(sorted(asked), sorted(names))
        self.assertEqual({type(it) for it in failed}, {AllocationFailed})
        self.assertEqual(len({id(it.__cause__) for it in failed if isinstance(it, Exception)}), len(failed))

    async def test_no_address_answers(self) -> None:
        with socket.socket(type=socket.SOCK_DGRAM) as one:
            one.bind(("127.0.0.2", 0))
            port = one.getsockname()[1]
            self.hole("127.0.0.3", port)
            relay = TurnClient(f"turn:turn.example.org:{port}", "user", "pass", times=SHORT)
            with resolving("127.0.0.2", "127.0.0.3", "127.0.0.4"), self.assertRaises(AllocationFailed) as failed:
                await relay.open()
        said = str(failed.exception)
        for host in ("127.0.0.2: no answer", "127.0.0.3: no answer", "127.0.0.4: .*refused"):
            self.assertRegex(said, host)
        self.assertTrue(relay.closed)

    async def test_a_first_address_that_is_silent_over_tcp(self) -> None:
        endpoint = await self.serve(kind=StreamEndpoint)
        connect = asyncio.get_running_loop().sock_connect

        async def connect_or_hang(sock: Any, where: Any) -> None:
            if where[0] == "127.0.0.2":
                await asyncio.sleep(60)
            await connect(sock, where)

        with resolving("127.0.0.2", "127.0.0.1"):
            with unittest.mock.patch.object(asyncio.get_running_loop(), "sock_connect", connect_or_hang):
                uri = TurnUri("turn.example.org", port_of(endpoint.uri), "tcp")
                relay = TurnClient(uri, "user", "pass")
                await asyncio.wait_for(relay.open(), 20)
                self.assertEqual(relay.address, ("10.9.9.9", 40000))
                await relay.close()

    async def test_a_name_that_is_not_found(self) -> None:
        async def nothing(*it: object, **kinds: object) -> None:
            raise socket.gaierror(socket.EAI_NONAME, "Name or service not known")

        relay = TurnClient("turn:turn.example.org", "user", "pass")
        with unittest.mock.patch.object(asyncio.get_running_loop(), "getaddrinfo", nothing):
            with self.assertRaisesRegex(AllocationFailed, "Name or service not known") as failed:
                await relay.open()
        self.assertIsInstance(failed.exception.__cause__, socket.gaierror)
        self.assertTrue(relay.closed)

    async def test_a_connection_that_is_refused(self) -> None:
        relay = TurnClient("turn:127.0.0.1:1?transport=tcp", "user", "pass")
        with self.assertRaises(AllocationFailed) as failed:
            await relay.open()
        self.assertIsInstance(failed.exception.__cause__, ConnectionRefusedError)
        self.assertTrue(relay.closed)

    async def test_a_wrong_argument_is_not_about_an_address(self) -> None:
        with resolving("127.0.0.2", "127.0.0.1"), self.assertRaisesRegex(ValueError, "'never' is none of"):
            await TurnClient("turn:turn.example.org", "user", "pass", anonymous="never").open()

    async def test_an_address_that_succeeds_beside_another(self) -> None:
        """Both addresses answer in one round of the loop: one is used, and the socket of the other one is closed."""
        endpoint = await self.serve()
        take, late = endpoint.datagram_received, []
        endpoint.datagram_received = lambda *it: late.append(it)
        opened: List[socket.socket] = []

        def count(host: str, port: int, own: Optional[Tuple[str, int]]) -> socket.socket:
            opened.append(connected(host, port, own))
            return opened[-1]

        with resolving("127.0.0.1"), unittest.mock.patch("yarrowdoor.servers.connected", count):
            with unittest.mock.patch("yarrowdoor.servers.interleaved", lambda hosts: ["127.0.0.1", "127.0.0.1"]):
                relay = TurnClient(endpoint.uri, "user", "pass")
                opening = asyncio.ensure_future(relay.open())
                while len(late) < 2:
                    await asyncio.sleep(0.01)
                endpoint.datagram_received = take
                for it in late:
                    take(*it)
                await opening
        self.assertEqual([it.fileno() < 0 for it in opened].count(True), 1)
        await relay.close()
        self.assertTrue(all(it.fileno() < 0 for it in opened))


class Sockets(Case):
    """A socket that is given."""

    def connected(self, uri: str) -> socket.socket:
        is_udp = "transport=tcp" not in uri
        sock = socket.socket(socket.AF_INET, socket.SOCK_DGRAM if is_udp else socket.SOCK_STREAM)
        self.addCleanup(sock.close)
        sock.connect(("127.0.0.1", port_of(uri)))
        return sock

    async def test_a_socket_that_is_given(self) -> None:
        """The name is not looked up, and the socket is closed with the client."""
        kinds: List[Any] = [Endpoint, StreamEndpoint]
        for kind, form in zip(kinds, ("turn:nowhere.invalid:{}", "turn:nowhere.invalid:{}?transport=tcp")):
            endpoint = await self.serve(kind=kind)
            sock = self.connected(endpoint.uri)
            name = sock.getsockname()
            async with TurnClient(form.format(port_of(endpoint.uri)), "user", "pass", sock=sock) as relay:
                self.assertEqual((relay.local_address, relay.address.host), (name, "10.9.9.9"))
                await relay.bind(PEER)
                await relay.send(b"hello", PEER)
                self.assertEqual(await asyncio.wait_for(relay.receive(), 10), (b"hello", PEER))
            while sock.fileno() >= 0:
                await asyncio.sleep(0.01)

    async def test_a_socket_that_is_not_used(self) -> None:
        """One over the other transport, of another family or that is not connected is refused, and left alone."""
        endpoint = await self.serve()
        udp, local = self.connected(endpoint.uri), socket.socketpair(socket.AF_UNIX, socket.SOCK_DGRAM)
        loose = socket.socket(type=socket.SOCK_DGRAM)
        for it in (*local, loose):
            self.addCleanup(it.close)
        none = "^sock is none for"
        for sock, uri, why in ((udp, "turn:127.0.0.1?transport=tcp", none), (local[0], endpoint.uri, none),
                               (loose, endpoint.uri, "^sock is to be connected")):
            with self.assertRaisesRegex(ValueError, why):
                TurnClient(uri, "user", "pass", sock=sock)
            self.assertGreaterEqual(sock.fileno(), 0)


class Arguments(unittest.TestCase):
    def test_a_name_that_is_none(self) -> None:
        for host in ("a..b", "a" * 64 + ".org", ".".join(["a" * 60] * 5), ""):
            for form in (TurnUri(host), TurnUri(host, transport="tcp")):
                with self.subTest(host=host), self.assertRaisesRegex(ValueError, "is no name of a host"):
                    TurnClient(form, "user", "pass")
        with self.assertRaises(ValueError):
            TurnClient("turn:a..b", "user", "pass")
        TurnClient("turn:bücher.example".replace("ü", "%C3%BC"), "user", "pass")

    def test_families_take_turns(self) -> None:
        from yarrowdoor.servers import interleaved

        given = ["2001:db8::1", "2001:db8::2", "192.0.2.1", "2001:db8::1", "fe80::1%3"]
        self.assertEqual(interleaved(given), ["2001:db8::1", "192.0.2.1", "2001:db8::2", "fe80::1%3"])


if __name__ == "__main__":
    unittest.main()
