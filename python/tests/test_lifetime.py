"""Opening, closing, and what is left of a client that nobody closes."""
import asyncio
import gc
import os
import pathlib
import socket
import subprocess
import sys
import textwrap
import unittest
import unittest.mock
import warnings
import weakref
from typing import Any, List

from yarrowdoor import AllocationFailed, Ended, Relay, TurnClient, WrongCredentials

from .case import Case
from .network import Endpoint, StreamEndpoint
from .server import Server


class Opening(Case):
    def setUp(self) -> None:
        """A busy machine may take longer for an answer than the two seconds that a client waits for it."""
        session = sys.modules.get("yarrowdoor.session")
        if session is not None:
            patient = unittest.mock.patch.object(session, "DELETE_WAIT", 20.0)
            patient.start()
            self.addCleanup(patient.stop)

    async def serve_after(self, delay: float) -> Any:
        """A server whose answers take their time."""
        endpoint = await self.serve()
        send = endpoint.send
        endpoint.send = lambda *it: asyncio.get_running_loop().call_later(delay, send, *it)
        return endpoint

    async def wait_for_allocation(self, endpoint: Any) -> None:
        while not endpoint.server.allocations:
            await asyncio.sleep(0.005)

    async def test_opening_that_is_cancelled_gives_its_allocation_back(self) -> None:
        endpoint = await self.serve_after(0.2)
        relay = TurnClient(endpoint.uri, "user", "pass")
        opening = asyncio.ensure_future(relay.open())
        await self.wait_for_allocation(endpoint)  # granted, and its success is under way
        opening.cancel()
        with self.assertRaises(asyncio.CancelledError):
            await opening
        self.assertEqual(endpoint.server.allocations, {})
        self.assertTrue(relay.closed)
        await asyncio.wait_for(relay.close(), 1)

    async def test_calls_while_it_is_closed(self) -> None:
        """Each says that the client was closed, also before the server has answered."""
        endpoint = await self.serve_after(0.2)
        relay, peer = TurnClient(endpoint.uri, "user", "pass"), ("10.1.0.1", 9)
        await relay.open()
        await relay.permit(peer[0])
        closing = asyncio.ensure_future(relay.close())
        await asyncio.sleep(0)
        calls: List[Any] = [lambda: relay.sendto(b"x", peer), lambda: relay.release(peer[0]), lambda: relay.keep(peer[0])]
        for call in calls:
            with self.assertRaisesRegex(Ended, "^the client was closed$"):
                call()
        for waiting in (relay.permit(peer[0]), relay.bind(peer), relay.send(b"x", peer), relay.check()):
            with self.assertRaisesRegex(Ended, "^the client was closed$"):
                await waiting
        self.assertFalse(closing.done())
        await closing
        self.assertEqual(endpoint.server.allocations, {})

    async def test_sending_while_it_is_closed(self) -> None:
        """A `send` that is under way ends with the client."""
        endpoint = await self.serve()
        relay = TurnClient(endpoint.uri, "user", "pass")
        await relay.open()

        async def send() -> None:
            while True:
                await relay.send(b"x", ("10.1.0.1", 9))

        sending = asyncio.ensure_future(send())
        while relay._session().count < 9:
            await asyncio.sleep(0)
        await relay.close()
        with self.assertRaisesRegex(Ended, "^the client was closed$"):
            await asyncio.wait_for(sending, 10)

    async def test_requests_that_wait_while_it_is_closed(self) -> None:
        """Those that were not made yet end with the client, too, and are not refused."""
        endpoint = await self.serve_after(0.2)
        relay = TurnClient(endpoint.uri, "user", "pass")
        await relay.open()
        asking = [asyncio.ensure_future(relay.permit(f"10.1.0.{number}")) for number in range(1, 31)]
        await asyncio.sleep(0)
        await relay.close()
        found = await asyncio.gather(*asking, return_exceptions=True)
        self.assertEqual({repr(it) for it in found if it is not None}, {repr(Ended("the client was closed"))})

    async def test_opening_that_is_cancelled_when_it_is_done(self) -> None:
        endpoint = await self.serve()
        relay = TurnClient(endpoint.uri, "user", "pass")
        opening = asyncio.ensure_future(relay.open())
        while not hasattr(relay._phase, "address"):
            await asyncio.sleep(0)
        self.assertFalse(opening.done())
        opening.cancel()
        with self.assertRaises(asyncio.CancelledError):
            await opening
        self.assertTrue(relay.closed)
        self.assertEqual(endpoint.server.allocations, {})

    async def test_closing_while_it_opens(self) -> None:
        endpoint = await self.serve_after(0.2)
        relay = TurnClient(endpoint.uri, "user", "pass")
        opening = asyncio.ensure_future(relay.open())
        await self.wait_for_allocation(endpoint)
        await relay.close()
        self.assertTrue(relay.closed)
        self.assertEqual(endpoint.server.allocations, {})
        with self.assertRaisesRegex(AllocationFailed, "^the client was closed$"):
            await asyncio.wait_for(opening, 1)
        with self.assertRaisesRegex(Ended, "^the client was closed$"):
            await relay.receive()

    async def test_a_waiter_that_is_cancelled_while_it_is_closed(self) -> None:
        """Its cancellation is not taken for the end of the client: a task that is cancelled ends as one."""
        endpoint = await self.serve()
        receive, asked = endpoint.server.receive, asyncio.Event()

        def challenge(data: bytes, *it: Any) -> Any:
            """A challenge, and no answer to the signed request."""
            if data[:2] != b"\0\3" or len(data) < 60:
                return receive(data, *it)
            asked.set()
            return []

        endpoint.server.receive = challenge
        relay = TurnClient(endpoint.uri, "user", "pass")
        opening = asyncio.ensure_future(relay.open())
        await asyncio.wait_for(asked.wait(), 30)
        with unittest.mock.patch("yarrowdoor.session.DELETE_WAIT", 2.0):
            closing = asyncio.ensure_future(relay.close())
            await asyncio.sleep(0)
            await asyncio.sleep(0)
            self.assertFalse(opening.done() or closing.done())
            opening.cancel()
            await asyncio.wait([opening, closing], timeout=30)
        self.assertTrue(opening.cancelled())
        self.assertTrue(closing.done())
        self.assertTrue(relay.closed)

    async def test_closing_that_is_cancelled(self) -> None:
        """The relayed address is deleted, also where a request has left just before, after which there is a pause."""
        endpoint = await self.serve()
        relay = TurnClient(endpoint.uri, "user", "pass", pause=2.0)
        await relay.open()
        asking = asyncio.ensure_future(relay.permit("10.1.0.1"))
        await asyncio.sleep(2.1)
        closing = asyncio.ensure_future(relay.close())
        await asyncio.sleep(0.01)
        closing.cancel()
        await asyncio.wait([closing, asking], timeout=5)
        self.assertTrue(closing.cancelled())
        self.assertTrue(relay.closed)
        for _ in range(100):
            if not endpoint.server.allocations:
                break
            await asyncio.sleep(0.01)
        self.assertEqual(endpoint.server.allocations, {})

    async def test_closing_while_it_connects(self) -> None:
        endpoint = await StreamEndpoint.start(Server())
        self.addCleanup(endpoint.listener.close)
        loop = asyncio.get_running_loop()
        connect = loop.create_connection

        async def connect_late(*it: Any, **options: Any) -> Any:
            await asyncio.sleep(0.3)
            return await connect(*it, **options)

        relay = TurnClient(endpoint.uri, "user", "pass")
        with unittest.mock.patch.object(loop, "create_connection", connect_late):
            opening = asyncio.ensure_future(relay.open())
            await asyncio.sleep(0.05)
            await relay.close()
            self.assertTrue(relay.closed)
            with self.assertRaises(AllocationFailed):
                await asyncio.wait_for(opening, 2)
        self.assertEqual(endpoint.server.allocations, {})

    async def test_a_refusal_that_nobody_signed_and_a_grant_that_comes_late(self) -> None:
        """The grant is given back when it comes, though opening has failed before."""
        endpoint = await self.serve_after(1.5)
        relay = TurnClient(endpoint.uri, "user", "pass")
        receive, answered = endpoint.server.receive, []  # type: Any, List[bytes]

        def forge(data: bytes, source: Any, now: float) -> Any:
            """A challenge at once, and to a signed request a 401 at once, before the answer."""
            packets = receive(data, source, now)
            if endpoint.server.allocations and not answered:
                message = bytes([1, 0x13]) + packets[0][0][2:20]
                answered.append(message)
                body = b"\0\x09\0\4\0\0\4\1"
                endpoint.transport.sendto(message[:2] + len(body).to_bytes(2, "big") + message[4:20] + body, source)
            elif not endpoint.server.allocations:
                for packet, where in packets:
                    endpoint.transport.sendto(packet, where)
                return []
            return packets

        endpoint.server.receive = forge
        with self.assertRaises(WrongCredentials):
            await relay.open()
        self.assertEqual(len(endpoint.server.allocations), 1)
        await relay.close()
        self.assertEqual(endpoint.server.allocations, {})

    async def test_waiting_while_it_opens(self) -> None:
        endpoint = await self.serve_after(0.1)
        relay = TurnClient(endpoint.uri, "user", "pass")
        opening = asyncio.ensure_future(relay.open())
        await asyncio.sleep(0.01)
        with self.assertRaisesRegex(Ended, "^there is no relayed address yet$"):
            relay.address
        waiting = asyncio.ensure_future(relay.wait_closed())
        await opening
        await relay.close()
        await asyncio.wait_for(waiting, 1)


class Arguments(unittest.IsolatedAsyncioTestCase):
    async def test_receiving_with_a_receiver(self) -> None:
        relay = TurnClient("turn:127.0.0.1", "user", "pass", receiver=lambda data, peer: None)
        for call in (relay.receive, relay.__anext__):
            with self.assertRaises(RuntimeError):
                await asyncio.wait_for(call(), 1)

    async def test_numbers(self) -> None:
        numbers: List[Any] = [{"queue": 0}, {"queue": -5}, {"probe": 0}, {"probe": -1.0}]
        for wrong in numbers:
            with self.subTest(**wrong), self.assertRaises(ValueError):
                TurnClient("turn:127.0.0.1", "user", "pass", **wrong)


class Aborted(Case):
    """Nothing is waited for, and the relayed address is deleted all the same."""

    async def given_back(self, endpoint: Any) -> None:
        for _ in range(500):
            if not endpoint.server.allocations:
                return
            await asyncio.sleep(0.01)
        self.fail("the server still has the relayed address")

    async def test_at_once(self) -> None:
        """Also where a request has left just before, after which there is a pause, and others wait."""
        makers: List[Any] = [Endpoint.start, StreamEndpoint.start]
        kinds: List[Any] = [TurnClient, Relay]
        for start, kind in ((start, kind) for start in makers for kind in kinds):
            with self.subTest(start=start, kind=kind):
                endpoint = await start(Server())
                relay = kind(endpoint.uri, "user", "pass", pause=0.5)
                await relay.open()
                await relay.permit("10.1.0.1")
                asking = [asyncio.ensure_future(relay.permit(f"10.1.0.{it}")) for it in range(2, 6)]
                receiving = asyncio.ensure_future(relay.receive())
                await asyncio.sleep(0)
                relay.abort()
                self.assertTrue(relay.closed)
                with self.assertRaisesRegex(Ended, "closed$"):
                    relay.sendto(b"x", ("10.1.0.1", 9))
                found = await asyncio.gather(*asking, receiving, return_exceptions=True)
                self.assertEqual({type(it) for it in found}, {Ended})
                await relay.wait_closed()
                await self.given_back(endpoint)
                relay.abort()
                await relay.close()
                endpoint.close()

    async def test_while_it_opens(self) -> None:
        endpoint = await self.serve()
        send = endpoint.send
        endpoint.send = lambda *it: asyncio.get_running_loop().call_later(0.1, send, *it)
        kinds: List[Any] = [TurnClient, Relay]
        for kind in kinds:
            relay = kind(endpoint.uri, "user", "pass")
            relay.abort()
            if kind is Relay:  # as `close` does
                relay = kind(endpoint.uri, "user", "pass")
            opening = asyncio.ensure_future(relay.open())
            while not endpoint.server.allocations:
                await asyncio.sleep(0.005)
            relay.abort()
            self.assertTrue(relay.closed)
            with self.assertRaisesRegex(AllocationFailed, "was closed$"):
                await asyncio.wait_for(opening, 5)
            await self.given_back(endpoint)

    async def test_a_silent_server(self) -> None:
        endpoint = await self.serve()
        relay = TurnClient(endpoint.uri, "user", "pass")
        await relay.open()
        local = relay.local_address
        endpoint.server.is_dead = True
        relay.abort()
        with socket.socket(type=socket.SOCK_DGRAM) as again:
            again.bind(local)  # which the client has closed


class Abandoned(Case):
    async def test_a_client_that_nobody_closes(self) -> None:
        """It is collected, which is told, and its relayed address is given back."""
        endpoint = await self.serve()
        relay = TurnClient(endpoint.uri, "user", "pass")
        await relay.open()
        await relay.permit("10.1.0.1")
        told = []
        with warnings.catch_warnings():
            warnings.simplefilter("always")
            # One that is recorded keeps what it is about.
            warnings.showwarning = lambda message, category, *where: told.append((category, str(message)))
            gone = weakref.ref(relay)
            del relay
            gc.collect()
            self.assertIsNone(gone())
        self.assertEqual([category for category, message in told if "unclosed TurnClient" in message], [ResourceWarning])
        for _ in range(200):
            if not endpoint.server.allocations:
                break
            await asyncio.sleep(0.01)
        self.assertEqual(endpoint.server.allocations, {})


class AtExit(unittest.TestCase):
    def test_no_client_is_freed_while_a_thread_may_use_it(self) -> None:
        program = textwrap.dedent("""
            import atexit, ctypes
            from yarrowdoor import client, library

            class Counting:
                def __init__(self):
                    self.of, self.freed, self.call, self.new = library.load(), 0, library.load().call, library.load().new
                def free(self, place):
                    self.freed += 1
                    self.of.free(place)

            atexit.register(lambda: print("freed at exit:", counting.freed))  # runs after those that are registered later
            counting = Counting()
            used = client.Client(("127.0.0.1", 1), ("127.0.0.1", 2), "u", "p", library=counting)
        """)
        env = {**os.environ, "PYTHONPATH": str(pathlib.Path(__file__).resolve().parent.parent)}
        ran = subprocess.run([sys.executable, "-c", program], env=env, stdout=subprocess.PIPE, text=True, timeout=60)
        self.assertEqual(ran.stdout, "freed at exit: 0\n")


if __name__ == "__main__":
    unittest.main()
