"""A path to the server that goes: it is told, and a short interruption is none."""
import asyncio
import itertools
import os
import pathlib
import shutil
import socket
import subprocess
import sys
import textwrap
import unittest
import unittest.mock
from typing import Any, List, Optional, Tuple, cast

from yarrowdoor import Clock, Ended, TurnClient
from yarrowdoor.link import StreamLink

from . import coturn as coturn_server, leaps
from .case import Case
from .network import SECOND, Endpoint, StreamEndpoint
from .server import Server

PEER = ("10.1.0.1", 9000)


class Checks(Case):
    """`check`, and `probe=`, which does it by itself."""

    async def test_a_check(self) -> None:
        for kind in (Endpoint, StreamEndpoint):
            endpoint = await self.serve(kind=kind)
            clock: Any = Clock()
            async with TurnClient(endpoint.uri, "user", "pass", clock=clock) as relay:
                self.assertEqual(await relay.check(), (True, relay.local_address))
                endpoint.server.answers_bindings = False
                clock.real = lambda seconds: seconds / 5
                before = endpoint.server.bindings
                self.assertEqual(await relay.check(), (False, None))
                self.assertEqual(endpoint.server.bindings - before, 3 if kind is Endpoint else 1)
                checking = asyncio.ensure_future(relay.check())
                await asyncio.sleep(0.01)
            for call in (lambda: checking, relay.check):
                with self.assertRaisesRegex(Ended, "^the client was closed$"):
                    await call()

    async def test_an_address_that_has_changed(self) -> None:
        endpoint = await self.serve()
        async with TurnClient(endpoint.uri, "user", "pass") as relay:
            mapped, endpoint.server.mapped = endpoint.server.mapped, lambda message, source: mapped(message, ("192.0.2.7", 9))
            self.assertEqual(await relay.check(), (True, ("192.0.2.7", 9)))
            self.assertEqual(relay.mapped_address, relay.local_address)

    async def test_a_silent_server_that_is_probed(self) -> None:
        endpoint = await self.serve()
        async with TurnClient(endpoint.uri, "user", "pass", probe=15, clock=Clock(rate=20)) as relay:
            while endpoint.server.bindings < 4:
                self.assertFalse(relay.closed)
                await asyncio.sleep(0.05)
            endpoint.server.is_dead = True
            why = "^the connection to the server has ended: no answer from .* to 3 checks in a row$"
            with self.assertRaisesRegex(Ended, why):
                await asyncio.wait_for(relay.receive(), 30)

    def test_a_server_that_answers_no_binding_and_sends_data(self) -> None:
        """Data is a sign of life, so that nothing else is asked for."""
        async def main() -> None:
            endpoint = await Endpoint.start(Server())
            server, server.answers_bindings = endpoint.server, False
            async with TurnClient(endpoint.uri, "user", "pass", probe=15, clock=leaps.LoopClock()) as relay:
                await relay.permit(PEER[0])
                asked = len(server.answered)
                while server.bindings < 12:  # four checks
                    await relay.send(b"hello", PEER)
                    self.assertEqual(await relay.receive(), (b"hello", PEER))
                    await asyncio.sleep(0.5)
                self.assertEqual((relay.closed, len(server.answered)), (False, asked))
            endpoint.close()

        leaps.run(main())

    def test_a_server_that_answers_no_binding_and_is_idle(self) -> None:
        """It answers signed requests, so that the relay is well."""
        async def main() -> None:
            endpoint = await Endpoint.start(Server())
            server, server.answers_bindings = endpoint.server, False
            async with TurnClient(endpoint.uri, "user", "pass", probe=1, clock=leaps.LoopClock()) as relay:
                while server.bindings < 15:  # five checks
                    self.assertFalse(relay.closed)
                    await asyncio.sleep(0.5)
                server.is_dead = True
                with self.assertRaisesRegex(Ended, "to 3 checks in a row$"):
                    await relay.receive()
            endpoint.close()

        leaps.run(main())

    async def test_a_nat_with_another_mapping(self) -> None:
        """The first check that tells it leads to a request that only a server which knows the relayed address grants."""
        for is_probed in (True, False):
            endpoint = await self.serve()
            server = endpoint.server
            relay = TurnClient(endpoint.uri, "user", "pass", probe=0.1 if is_probed else None)
            async with relay:
                mapped, server.mapped = server.mapped, lambda message, source: mapped(message, ("192.0.2.7", 9))
                asked = len(server.answered)
                self.assertTrue((await relay.check()).is_answered)
                while len(server.answered) == asked:  # It still knows it: all is well.
                    await asyncio.sleep(0.01)
                server.mapped = lambda message, source: mapped(message, ("192.0.2.8", 9))
                server.allocations.clear()
                if not is_probed:
                    await relay.check()
                with self.assertRaisesRegex(Ended, "^the server no longer knows the relayed address: .*437"):
                    await asyncio.wait_for(relay.receive(), 30)

    async def test_the_same_mapping_asks_for_nothing(self) -> None:
        endpoint = await self.serve()
        async with TurnClient(endpoint.uri, "user", "pass") as relay:
            asked = len(endpoint.server.answered)
            for _ in range(3):
                await relay.check()
            await asyncio.sleep(0.1)
            self.assertEqual(len(endpoint.server.answered), asked)

    @unittest.skipUnless(coturn_server.IS_HERE, coturn_server.WHY)
    async def test_coturn(self) -> None:
        for options, is_answered in (((), True), (("--no-stun",), False)):
            with coturn_server.coturn(*options) as at:
                async with TurnClient(at.uri(), "user", "pass") as relay:
                    checked = await relay.check()
                    self.assertEqual(checked, (is_answered, relay.local_address if is_answered else None))


class Sockets(Case):
    """Errors of a socket, and its end."""

    async def test_a_socket_that_is_closed_by_another(self) -> None:
        """A socket that was given, and that its owner closes, is told with the system's error."""
        endpoint = await self.serve()
        with socket.socket(type=socket.SOCK_DGRAM) as sock:
            sock.connect(endpoint.transport.get_extra_info("sockname"))
            relay = TurnClient(endpoint.uri, "user", "pass", sock=sock, clock=Clock(rate=10))
            await relay.open()
            await relay.bind(PEER)
            receiving = asyncio.ensure_future(relay.receive())
            await asyncio.sleep(0)
        relay.sendto(b"x", PEER)
        self.assertEqual(relay.unsent, 1)
        with self.assertRaisesRegex(Ended, "^the connection to the server has ended: .*Bad file descriptor$") as ended:
            await asyncio.wait_for(receiving, 10)
        self.assertIsInstance(ended.exception.__cause__, OSError)
        self.assertTrue(relay.closed)
        with self.assertRaises(Ended):
            relay.sendto(b"x", PEER)

    async def test_a_server_whose_port_is_closed(self) -> None:
        endpoint = await Endpoint.start(Server())
        errors: List[Exception] = []
        async with TurnClient(endpoint.uri, "user", "pass", clock=Clock(rate=10)) as relay:
            relay.on_error = errors.append
            await relay.bind(PEER)
            endpoint.close()
            await asyncio.sleep(0)
            relay.sendto(b"x", PEER)
            with self.assertRaisesRegex(Ended, "^the connection to the server has ended: .*refused") as ended:
                await asyncio.wait_for(relay.receive(), 10)
        self.assertIsInstance(ended.exception.__cause__, ConnectionRefusedError)
        self.assertGreaterEqual(len(errors), 3)

    async def test_a_port_that_is_closed_for_a_short_time(self) -> None:
        endpoint = await Endpoint.start(Server())
        where, loop = endpoint.transport.get_extra_info("sockname"), asyncio.get_running_loop()
        errors: List[Exception] = []
        async with TurnClient(endpoint.uri, "user", "pass") as relay:
            relay.on_error = errors.append
            await relay.bind(PEER)
            endpoint.close()
            await asyncio.sleep(0)
            relay.sendto(b"x", PEER)
            while not errors:
                await asyncio.sleep(0.01)
            transport, _ = await loop.create_datagram_endpoint(lambda: endpoint, local_addr=where)
            endpoint.transport = transport
            self.addCleanup(transport.close)
            await asyncio.sleep(3.5)  # longer than it takes to give up
            self.assertFalse(relay.closed)
            relay.sendto(b"again", PEER)
            self.assertEqual(await asyncio.wait_for(relay.receive(), 5), (b"again", PEER))

    async def test_a_server_over_tcp_that_answers_no_refresh(self) -> None:
        """TCP repeats what is lost, so that is the end, and not only a lost permission."""
        endpoint = await self.serve(Server(lifetime=3600), StreamEndpoint)
        clock = Clock(rate=60)
        async with TurnClient(endpoint.uri, "user", "pass", clock=clock) as relay:
            await relay.permit(PEER[0])
            endpoint.server.is_dead = True
            with self.assertRaisesRegex(Ended, "^the connection to the server has ended: no answer from .* to a refresh$"):
                await asyncio.wait_for(relay.receive(), 30)
            self.assertLess(clock.now() / SECOND, 1800)  # and not an hour

    async def test_a_route_that_goes_over_tcp(self) -> None:
        """The system has to say so three times. Where it had none from the beginning, nothing is concluded."""
        endpoint = await self.serve(kind=StreamEndpoint)
        gone = OSError(101, "Network is unreachable")
        cases: List[Tuple[List[Optional[OSError]], bool]] = [
            ([None, None, gone, gone, None, gone, gone, gone], True), ([None, gone, gone, None, gone, gone, None], False),
            ([gone] * 9, False)]
        for said, is_end in cases:
            asked = itertools.chain(said, itertools.repeat(None))
            with unittest.mock.patch("yarrowdoor.path.route_error", lambda link: next(asked)):
                async with TurnClient(endpoint.uri, "user", "pass", clock=Clock(rate=50)) as relay:
                    if not is_end:
                        await asyncio.sleep(1)
                        self.assertFalse(relay.closed)
                        continue
                    with self.assertRaisesRegex(Ended, "^the connection to the server has ended: .*unreachable$") as ended:
                        await asyncio.wait_for(relay.receive(), 20)
                    self.assertIs(ended.exception.__cause__, gone)

    async def test_options_of_a_connection(self) -> None:
        """The system gives up on a silent one after 25 s."""
        endpoint = await self.serve(kind=StreamEndpoint)
        async with TurnClient(endpoint.uri, "user", "pass") as relay:
            link = cast(StreamLink, relay._session().link)
            with socket.socket(fileno=os.dup(link.transport.get_extra_info("socket").fileno())) as own:
                self.assertEqual(own.getsockopt(socket.IPPROTO_TCP, getattr(socket, "TCP_USER_TIMEOUT")), 25_000)
                self.assertEqual(own.getsockopt(socket.SOL_SOCKET, socket.SO_KEEPALIVE), 1)
                self.assertEqual(own.getsockopt(socket.IPPROTO_TCP, socket.TCP_KEEPIDLE), 15)


PROGRAM = """
    import asyncio, subprocess, sys, time
    from yarrowdoor import Ended, TurnClient
    from tests.network import Endpoint
    from tests.server import Server

    async def main():
        peer, loop = ("10.1.0.1", 9), asyncio.get_running_loop()
        transport, endpoint = await loop.create_datagram_endpoint(lambda: Endpoint(Server()), local_addr=("0.0.0.0", 0))
        endpoint.transport = transport
        async with TurnClient("turn:10.99.0.1:%d" % transport.get_extra_info("sockname")[1], "user", "pass") as relay:
            await relay.bind(peer)
            subprocess.run("ip addr del 10.99.0.1/24 dev lo", shell=True, check=True)
            away = float(sys.argv[1])
            if away:
                loop.call_later(away, subprocess.run, ["ip", "addr", "add", "10.99.0.1/24", "dev", "lo"])
            start = time.monotonic()
            while time.monotonic() < start + 8:
                try:
                    await relay.send(b"x", peer)
                    await asyncio.wait_for(relay.receive(), 0.1)
                    if not away or time.monotonic() > start + 6:
                        return print("data comes")
                except asyncio.TimeoutError:
                    pass
                except Ended as ended:
                    return print("ended:", type(ended.__cause__).__name__, ended)
            print("nothing comes, and nothing is told")

    asyncio.run(main())
"""


SILENCE = """
    import asyncio, os, subprocess, sys, time
    import yarrowdoor.link
    from yarrowdoor import Clock, Ended, TurnClient
    from tests import network
    from tests.server import Server

    async def main():
        yarrowdoor.wire.KEEPALIVE, yarrowdoor.wire.USER_TIMEOUT = 2, 3_000
        endpoint = await getattr(network, sys.argv[1]).start(Server())
        probe = {"probe": 15, "clock": Clock(rate=10)} if sys.argv[1] == "Endpoint" else {}
        relay = TurnClient(endpoint.uri, "user", "pass", **probe)
        await relay.open()
        start = time.monotonic()
        subprocess.run("tc qdisc add dev lo root blackhole", shell=True, check=True)
        try:
            await asyncio.wait_for(relay.receive(), 15)
        except Ended as ended:
            print(f"ended after {time.monotonic() - start:.1f} s: {ended}", flush=True)
        except asyncio.TimeoutError:
            print("nothing is told", flush=True)
        os._exit(0)

    asyncio.run(main())
"""


def has_namespaces() -> bool:
    """Whether this user may make network namespaces."""
    if not shutil.which("unshare") or not shutil.which("ip"):
        return False
    made = subprocess.run(["unshare", "-n", "ip", "link", "set", "lo", "up"], stdout=subprocess.DEVNULL, stderr=subprocess.DEVNULL)
    return made.returncode == 0


@unittest.skipUnless(has_namespaces(), "this user may make no network namespace (unshare -n)")
class Interfaces(unittest.TestCase):
    """An interface that loses its address, in a network namespace."""

    def run_without_address(self, seconds: float) -> str:
        return self.run_in_namespace(PROGRAM, str(seconds))

    def run_in_namespace(self, program: str, *words: str) -> str:
        python = [sys.executable, "-c", "import tests\n" + textwrap.dedent(program), *words]
        shell = 'ip link set lo up && ip addr add 10.99.0.1/24 dev lo && exec "$@"'
        top = str(pathlib.Path(__file__).resolve().parent.parent)
        ran = subprocess.run(["unshare", "-n", "sh", "-c", shell, "sh", *python], env={**os.environ, "PYTHONPATH": top},
                             stdout=subprocess.PIPE, stderr=subprocess.PIPE, text=True, timeout=60)
        return ran.stdout or ran.stderr  # asyncio's debug mode logs what takes long on a busy machine.

    def test_an_address_that_goes(self) -> None:
        self.assertRegex(self.run_without_address(0), "^ended: OSError the connection to the server has ended: ")

    def test_an_address_that_comes_back_soon(self) -> None:
        said = self.run_without_address(0.15)
        self.assertRegex(said, "^data comes$")

    def test_silence(self) -> None:
        """A path that drops all, and says nothing. The times are a tenth of those that a user has."""
        for kind, why in (("Endpoint", "no answer from .* to 3 checks in a row"), ("StreamEndpoint", ".*timed out")):
            with self.subTest(kind=kind):
                said = self.run_in_namespace(SILENCE, kind)
                self.assertRegex(said, f"^ended after [0-9.]+ s: the connection to the server has ended: {why}\n$")
                self.assertLess(float(said.split()[2]), 14)


if __name__ == "__main__":
    unittest.main()
