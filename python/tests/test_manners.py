"""What clients say of themselves, and how they behave where one guesses: copies, limits of time, and errors."""
import asyncio
import copy
import inspect
import pickle
import socket
import ssl
import time
import unittest
import unittest.mock
from typing import Any, Callable, List

import yarrowdoor
from yarrowdoor import (
    AllocationFailed, Ended, PermissionFailed, Relay, TurnClient, create_datagram_endpoint, open_connection, start_server, sync,
)
from yarrowdoor.path import Check

from .server import Server
from .test_relay import RelayCase, Restarting

KINDS: List[Any] = [TurnClient, Relay]
SECRET = "hunter2"


class Manners(RelayCase):
    async def test_copies(self) -> None:
        """A copy that is collected would close the original."""
        endpoint = await self.serve(Server())
        ways: List[Callable[[Any], Any]] = [copy.copy, copy.deepcopy, pickle.dumps]
        for kind in KINDS:
            async with kind(endpoint.uri, "user", "pass") as relay:
                for way in ways:
                    with self.assertRaisesRegex(TypeError, f"^a {kind.__name__} is not copied"):
                        way(relay)
                await relay.permit("10.1.0.1")

    async def test_repr(self) -> None:
        """Where and whether, and no secret."""
        endpoint = await self.serve(Server(password=SECRET))
        for kind in KINDS:
            relay = kind(endpoint.uri, "user", SECRET)
            said = [repr(relay)]
            opening = asyncio.ensure_future(relay.open())
            await asyncio.sleep(0)
            said.append(repr(relay))
            await opening
            said.append(repr(relay))
            await relay.close()
            said.append(repr(relay))
            began, up = ("connecting", "open") if kind is TurnClient else ("down", "up")
            self.assertEqual([it.split(": ")[1] for it in said],
                             ["not opened>", f"{began}>", f"{up} at {relay.address}>", "closed>"])
            for text in said:
                self.assertIn(endpoint.uri, text)
                self.assertNotIn(SECRET, text)

    async def test_arguments_of_other_packages(self) -> None:
        """The error says what to write in their place."""
        uri, both = "turn:127.0.0.1", ("user", "pass")
        makers: List[Any] = [TurnClient, Relay, sync.TurnClient]
        calls: List[Any] = [lambda **given: create_datagram_endpoint(uri, asyncio.DatagramProtocol, credentials=both, **given),
                            lambda **given: open_connection(f"{uri}?transport=tcp", "10.1.0.1", 9, credentials=both, **given),
                            lambda **given: start_server(f"{uri}?transport=tcp", print, credentials=both, **given)]
        for guess, hint in (("username", "`user`"), ("ssl_context", "`ssl`"), ("host", "is a URI"), ("port", "in the URI")):
            for make in makers:
                with self.assertRaisesRegex(TypeError, f"^there is no argument '{guess}': .*{hint}"):
                    make(uri, **{guess: "x"})
            for call in calls if guess not in ("host", "port") else calls[:1]:  # which are of the peer there
                with self.assertRaisesRegex(TypeError, f"^there is no argument '{guess}': .*{hint}"):
                    await call(**{guess: "x"})
        with self.assertRaisesRegex(TypeError, "'timeout': .*`open_timeout`"):
            TurnClient(uri, *both, timeout=5)  # type: ignore[call-arg]
        with self.assertRaisesRegex(AttributeError, "^module 'yarrowdoor' has no attribute 'connect': use `async with TurnClient"):
            getattr(yarrowdoor, "connect")
        self.assertFalse(hasattr(yarrowdoor, "nonsense"))
        self.assertEqual([*inspect.signature(TurnClient).parameters][:3], ["uri", "user", "password"])

    async def test_errors_of_those_who_wait_together(self) -> None:
        """Each has one of its own, whose traceback is its own."""
        endpoint = await self.serve(Server(denied=("10.1.0.2",)))
        async with TurnClient(endpoint.uri, "user", "pass") as relay:
            found = await asyncio.gather(*(relay.permit("10.1.0.2") for _ in range(3)), return_exceptions=True)
        self.assertEqual({(type(it), getattr(it, "code"), str(it)) for it in found},
                         {(PermissionFailed, 403, "no permission for 10.1.0.2 (403 no)")})
        self.assertEqual(len({id(it) for it in found}), 3)

    async def test_a_relay_that_is_not_up(self) -> None:
        endpoint = await self.serve(Restarting())
        endpoint.server.is_dead = True
        relay, _ = self.relay(endpoint)
        opening = asyncio.ensure_future(relay.open())
        await asyncio.sleep(0)
        with self.assertRaisesRegex(Ended, "^there is no relayed address yet$"):
            relay.address
        self.assertEqual(await asyncio.wait_for(relay.check(), 1), Check(False, None))
        endpoint.server.is_dead = False
        await asyncio.wait_for(opening, 30)
        self.assertTrue((await relay.check()).is_answered)
        await relay.close()
        with self.assertRaises(Ended):
            await relay.check()

    async def test_limits_of_time(self) -> None:
        endpoint = await self.serve(Server())
        for kind in KINDS:
            endpoint.server.is_dead = True
            relay = kind(endpoint.uri, "user", "pass", open_timeout=0.2)
            began = time.monotonic()
            with self.assertRaisesRegex(AllocationFailed, "^no relayed address from turn:.* in 0.2 s"):
                await relay.open()
            self.assertLess(time.monotonic() - began, 20)
            self.assertTrue(relay.closed)
            endpoint.server.is_dead = False
            relay = kind(endpoint.uri, "user", "pass", open_timeout=30, close_timeout=0.1)
            await relay.open()
            endpoint.server.is_dead = True
            began = time.monotonic()
            with unittest.mock.patch("yarrowdoor.session.DELETE_WAIT", 30.0):
                await relay.close()
            self.assertLess(time.monotonic() - began, 20)
            for name in ("open_timeout", "close_timeout"):
                settings: Any = {name: 0}
                with self.assertRaisesRegex(ValueError, f"^{name} is a number of seconds above 0"):
                    kind(endpoint.uri, "user", "pass", **settings)

    async def test_a_socket_that_is_not_used(self) -> None:
        """It is the client's from `open` on, also where that fails before it is used."""
        async def fail() -> Any:
            raise KeyError("vault")

        async def wait() -> Any:
            await asyncio.sleep(60)

        endpoint = await self.serve(Server())
        for credentials in (fail, wait):
            sock = socket.socket(type=socket.SOCK_DGRAM)
            self.addCleanup(sock.close)
            sock.connect(endpoint.transport.get_extra_info("sockname"))
            relay = TurnClient(endpoint.uri, credentials=credentials, sock=sock)
            opening = asyncio.ensure_future(relay.open())
            await asyncio.sleep(0.05)
            opening.cancel()
            await asyncio.wait([opening])
            self.assertIn(type(opening.cancelled() or opening.exception()), (bool, KeyError))
            self.assertEqual(sock.fileno(), -1)

    async def test_one_context_for_all_tries(self) -> None:
        """To make one takes a tenth of a second."""
        with unittest.mock.patch("ssl.create_default_context", wraps=ssl.create_default_context) as made:
            relay = Relay("turns:127.0.0.1:1", "user", "pass")
            make: Any = relay._revival._tries._make
            contexts = [make(("user", "pass"), False).ssl for _ in range(3)]
        self.assertEqual(made.call_count, 1)
        self.assertEqual(len({id(it) for it in contexts}), 1)


if __name__ == "__main__":
    unittest.main()
