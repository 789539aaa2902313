"""Opening a client against the server of the tests, through a socket and an event loop, and how it ends."""
import asyncio
import re
import socket
import time
import unittest
import unittest.mock
from typing import Any, List

from yarrowdoor import AllocationFailed, Clock, Ended, Refused, Times, TurnClient, WrongCredentials
from yarrowdoor.servers import Server

from .case import Case
from .network import SECOND, StreamEndpoint
from .server import Server as TestServer
from .turn_servers import fast


class Opening(Case):
    """A server that answers, refuses, or is silent."""

    def check_waited(self, failed: AllocationFailed, seconds: float) -> None:
        """The wait that the error tells is that of the request, or longer on a machine that is busy."""
        told = float(str(failed).split()[-2])
        self.assertTrue(seconds <= told < seconds + 5, str(failed))

    async def test_a_wrong_password_is_told_soon(self) -> None:
        endpoint = await self.serve()
        start = time.monotonic()
        with self.assertRaises(WrongCredentials) as wrong:
            async with TurnClient(endpoint.uri, "user", "other"):
                self.fail("there is no relayed address")
        self.assertEqual(wrong.exception.code, 401)
        self.assertLess(time.monotonic() - start, 15)  # and not 39.5 s

    async def test_a_refused_allocation(self) -> None:
        for signs_errors in (True, False):
            endpoint = await self.serve(allocate_error=437, signs_errors=signs_errors)
            start = time.monotonic()
            with self.assertRaises(AllocationFailed) as failed:
                await TurnClient(endpoint.uri, "user", "pass").open()
            self.assertNotIsInstance(failed.exception, WrongCredentials)
            self.assertEqual(failed.exception.code, 437)
            self.assertLess(time.monotonic() - start, 15)  # and not 39.5 s

    async def test_no_server(self) -> None:
        endpoint = await self.serve()
        endpoint.close()
        await asyncio.sleep(0)
        with self.assertRaises(AllocationFailed) as failed:
            await TurnClient(endpoint.uri, "user", "pass").open()
        self.assertIn("refused", str(failed.exception).lower())

    async def test_another_address_of_the_server(self) -> None:
        endpoint = await self.serve()

        async def hosts(server: Server) -> "list[str]":
            return ["127.0.0.2", "127.0.0.1"]  # nothing listens at the first one

        with unittest.mock.patch.object(Server, "addresses", hosts):
            async with TurnClient(endpoint.uri, "user", "pass") as relay:
                await relay.send(b"hello", ("10.1.0.1", 9000))
                self.assertEqual(await asyncio.wait_for(relay.receive(), 5), (b"hello", ("10.1.0.1", 9000)))

    async def test_another_address_that_takes_its_time(self) -> None:
        endpoint = await self.serve()
        take = endpoint.datagram_received
        endpoint.datagram_received = lambda *it: asyncio.get_running_loop().call_later(0.3, take, *it)

        async def hosts(server: Server) -> "list[str]":
            return ["127.0.0.2", "127.0.0.1"]

        with unittest.mock.patch.object(Server, "addresses", hosts):
            async with TurnClient(endpoint.uri, "user", "pass") as relay:
                self.assertEqual(relay.address, ("10.9.9.9", 40000))

    async def test_no_address_of_the_server_answers(self) -> None:
        endpoint = await self.serve()

        async def hosts(server: Server) -> "list[str]":
            return ["127.0.0.2", "255.255.255.255"]  # to the second one no socket connects

        with unittest.mock.patch.object(Server, "addresses", hosts):
            relay = TurnClient(endpoint.uri, "user", "pass")
            with self.assertRaises(AllocationFailed):
                await relay.open()
        await asyncio.wait_for(relay.close(), 1)
        with self.assertRaises(Ended):
            await asyncio.wait_for(relay.wait_closed(), 1)

    async def test_a_connection_that_is_reset_at_once(self) -> None:
        endpoint = await self.serve(kind=StreamEndpoint)
        with unittest.mock.patch.object(socket.socket, "getpeername", side_effect=OSError(107, "not connected")):
            with self.assertRaises(AllocationFailed):
                await asyncio.wait_for(TurnClient(endpoint.uri, "user", "pass").open(), 5)

    async def test_opening_that_is_cancelled(self) -> None:
        endpoint = await self.serve()
        endpoint.server.is_dead = True
        relay = TurnClient(endpoint.uri, "user", "pass")
        with self.assertRaises(asyncio.TimeoutError):
            await asyncio.wait_for(relay.open(), 0.1)
        self.assertTrue(relay.closed)
        await relay.close()
        with self.assertRaises(RuntimeError):
            await relay.open()

    async def test_a_server_that_is_silent(self) -> None:
        endpoint = await self.serve()
        endpoint.server.is_dead = True
        times = Times(initial=100_000_000, longest=SECOND, last=100_000_000, count=2)
        why = r"^no answer from turn:127\.0\.0\.1:\d+\?transport=udp in \d\.\d s$"
        with self.assertRaisesRegex(AllocationFailed, why) as failed:
            await TurnClient(endpoint.uri, "user", "pass", times=times).open()
        self.check_waited(failed.exception, 0.2)
        self.assertEqual((failed.exception.code, failed.exception.phrase), (None, ""))

    async def test_a_server_that_is_silent_over_tcp(self) -> None:
        """A request is sent once, and fails as late as over UDP."""
        server = TestServer()
        server.is_dead = True
        endpoint = await self.serve(server, StreamEndpoint)
        times = Times(initial=100_000_000, longest=SECOND, last=200_000_000, count=3)
        with self.assertRaisesRegex(AllocationFailed, r"^no answer from turn:.*\?transport=tcp in \d\.\d s$") as failed:
            await TurnClient(endpoint.uri, "user", "pass", times=times).open()
        self.check_waited(failed.exception, 0.5)

    async def test_a_server_that_is_silent_after_its_challenge(self) -> None:
        endpoint = await self.serve()
        receive = endpoint.server.receive

        def receive_once(*it: Any) -> Any:
            packets = receive(*it)
            endpoint.server.is_dead = True
            return packets

        endpoint.server.receive = receive_once
        times = Times(initial=100_000_000, longest=SECOND, last=100_000_000, count=2)
        with self.assertRaisesRegex(AllocationFailed, r"^no answer from turn:.* in \d\.\d s$") as failed:
            await TurnClient(endpoint.uri, "user", "pass", times=times).open()
        self.check_waited(failed.exception, 0.2)
        self.assertIs(type(failed.exception), AllocationFailed)

    async def test_entering_with_a_limit(self) -> None:
        endpoint = await self.serve()
        endpoint.server.is_dead = True
        relay = TurnClient(endpoint.uri, "user", "pass")
        with self.assertRaises(asyncio.TimeoutError):
            await asyncio.wait_for(relay.__aenter__(), 0.1)
        self.assertTrue(relay.closed)


class Ending(Case):
    """A server that goes, and calls that come too early or too late."""

    async def test_a_server_that_dies(self) -> None:
        endpoint = await self.serve()
        told: List[Any] = []
        async with TurnClient(endpoint.uri, "user", "pass", clock=fast(200)) as relay:
            relay.on_lost = told.append
            await relay.permit("10.1.0.1")
            endpoint.server.is_dead = True
            why = f"^the connection to the server has ended: no answer from {re.escape(str(relay.uri))} to a refresh$"
            with self.assertRaisesRegex(Ended, why):
                async for _ in relay:
                    self.fail("nothing comes")
            self.assertTrue(relay.closed)
            peer = ("10.1.0.1", 1)
            calls: List[Any] = [relay.wait_closed, relay.receive, lambda: relay.permit("10.1.0.2"), lambda: relay.send(b"", peer)]
            for call in calls:
                with self.assertRaisesRegex(Ended, why):
                    await call()
            self.assertEqual(relay.address, ("10.9.9.9", 40000))
        self.assertEqual([(it.what, it.peer) for it in told], [("permission", "10.1.0.1")])
        self.assertEqual(list(relay.lost), told)

    async def test_a_server_that_is_gone(self) -> None:
        endpoint = await self.serve(lifetime=70)  # renewed after 10 s
        async with TurnClient(endpoint.uri, "user", "pass", clock=Clock(rate=30)) as relay:
            endpoint.close()
            why = "^the connection to the server has ended: .*refused"
            with self.assertRaisesRegex(Ended, why) as ended:
                await relay.wait_closed()
            self.assertIsInstance(ended.exception.__cause__, ConnectionRefusedError)

    async def test_a_server_that_challenges_without_end(self) -> None:
        endpoint = await self.serve()
        async with TurnClient(endpoint.uri, "user", "pass", max_stale_nonces=20) as relay:
            endpoint.server.nonce_life = 0  # no nonce is good for the next request
            why = r"^the server has challenged over max_stale_nonces=20 requests in a row \(438\)$"
            with self.assertRaisesRegex(Ended, why):
                await relay.permit("10.1.0.1")

    async def test_a_server_that_forgets(self) -> None:
        endpoint = await self.serve(lifetime=70)  # renewed after 10 s
        async with TurnClient(endpoint.uri, "user", "pass", clock=Clock(rate=30)) as relay:
            endpoint.server.allocations.clear()
            why = r"^the server does not renew the relayed address \(437 no\): it no longer knows it, as after a restart$"
            with self.assertRaisesRegex(Ended, why):
                await relay.wait_closed()

    async def test_a_connection_that_ends(self) -> None:
        for resets in (False, True):
            endpoint = await self.serve(kind=StreamEndpoint)
            async with TurnClient(endpoint.uri, "user", "pass") as relay:
                endpoint.end(resets)
                with self.assertRaisesRegex(Ended, "^the connection to the server has ended: .*(closed|reset)") as ended:
                    await relay.receive()
                self.assertIs(type(ended.exception.__cause__), ConnectionResetError if resets else type(None))
                with self.assertRaises(Ended) as again:
                    await relay.permit("10.1.0.1")
                self.assertEqual(str(again.exception), str(ended.exception))

    async def test_what_is_not_open(self) -> None:
        relay = TurnClient("turn:127.0.0.1", "user", "pass")
        peer = ("10.1.0.1", 1)
        calls: List[Any] = [relay.wait_closed, relay.receive, relay.__anext__, lambda: relay.permit(peer[0]),
                            lambda: relay.bind(peer), lambda: relay.send(b"", peer)]
        for call in calls:
            with self.assertRaisesRegex(Ended, "^the client was not opened$"):
                await call()
        reads: List[Any] = [lambda: relay.address, lambda: relay.local_address, lambda: relay.sendto(b"", ("10.1.0.1", 1))]
        for read in reads:
            with self.assertRaisesRegex(Ended, "^the client was not opened$"):
                read()
        await relay.close()
        self.assertFalse(relay.closed)

    async def test_calls_that_do_not_fit(self) -> None:
        endpoint = await self.serve()
        async with TurnClient(endpoint.uri, "user", "pass") as relay:
            calls: List[Any] = [("connect", relay.connect(("10.1.0.1", 1))), ("accept", relay.accept())]
            for name, call in calls:
                with self.assertRaisesRegex(ValueError, f"^{name} needs relay='tcp'$"):
                    await call
            peer = ("2001:db8::1", 1)
            why = "^no-allocation: the relayed address is IPv4, and 2001:db8::1 is IPv6"
            for call in (relay.permit(peer[0]), relay.bind(peer), relay.send(b"", peer)):
                with self.assertRaisesRegex(Refused, why) as refused:
                    await call
                self.assertEqual(refused.exception.reason, "no-allocation")
            with self.assertRaisesRegex(ValueError, "^'localhost' is not an IP address$"):
                await relay.permit("localhost")


if __name__ == "__main__":
    unittest.main()
