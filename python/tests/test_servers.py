"""Credentials, both families of relayed addresses, and servers that name another one."""
import asyncio
import base64
import functools
import hashlib
import hmac
import socket
import ssl
import struct
import time
import unittest
import unittest.mock
from typing import Any, List, Set, Tuple

import yarrowdoor
from yarrowdoor import AllocationFailed, Credentials, Refused, TurnClient, WrongCredentials
from yarrowdoor.servers import Server as Reached
from yarrowdoor.uri import parse

from . import coturn as coturn_server
from .case import Case
from .server import Server, Where, attribute, xored

PEER = ("10.1.0.1", 9)
BOTH = ("user", "pass")


class Who(Case):
    """Credentials."""

    async def test_a_function(self) -> None:
        endpoint = await self.serve(Server())
        asked: List[int] = []

        async def credentials() -> Tuple[str, bytes]:
            asked.append(1)
            return "user", b"pass"

        relay = TurnClient(endpoint.uri, credentials=credentials)
        self.assertEqual(asked, [])
        async with relay:
            self.assertEqual(asked, [1])

        async def fails() -> Tuple[str, str]:
            raise OSError("no such service")

        async def wrong() -> Any:
            return "user"

        failing: List[Any] = [(fails, OSError), (wrong, TypeError)]
        for source, error in failing:
            relay = TurnClient(endpoint.uri, credentials=source)
            with self.assertRaises(error):
                await relay.open()
            self.assertTrue(relay.closed)

    def test_wrong_arguments(self) -> None:
        wrong: List[Any] = [(("user",), {}), (("user", "pass"), {"credentials": BOTH}), ((), {"credentials": "user"}),
                            ((), {"credentials": ("user", 5)}), ((), {})]
        for positional, named in wrong:
            with self.assertRaises(TypeError):
                TurnClient("turn:10.0.0.1", *positional, **named)

    def test_rest_credentials(self) -> None:
        before = time.time()
        found = yarrowdoor.rest_credentials("north", "alice", 3600)
        expiry, _, name = str(found.user).partition(":")
        self.assertEqual(name, "alice")
        self.assertTrue(before + 3599 <= int(expiry) <= time.time() + 3600)
        self.assertEqual(found.password,
                         base64.b64encode(hmac.new(b"north", str(found.user).encode(), hashlib.sha1).digest()).decode())
        self.assertNotIn(str(found.password), repr(found))
        self.assertRegex(str(yarrowdoor.rest_credentials(b"north").user), "^[0-9]+$")
        wrong: List[Any] = [("north", "a:b", 1), ("north", "a", 0), (5, "a", 1)]
        for secret, user, ttl in wrong:
            with self.assertRaises((ValueError, TypeError)):
                yarrowdoor.rest_credentials(secret, user, ttl)

    @unittest.skipUnless(coturn_server.IS_HERE, coturn_server.WHY)
    async def test_rest_credentials_through_coturn(self) -> None:
        with coturn_server.coturn("--use-auth-secret", "--static-auth-secret", "north") as at:
            async with TurnClient(at.uri(), *yarrowdoor.rest_credentials("north", "alice", 60)) as relay:
                self.assertFalse(relay.closed)
            name = f"{int(time.time()) - 60}:alice"  # it has expired
            old = Credentials(name, base64.b64encode(hmac.new(b"north", name.encode(), hashlib.sha1).digest()))
            for wrong in (old, yarrowdoor.rest_credentials("south", "alice", 60)):
                with self.assertRaises(WrongCredentials):
                    await TurnClient(at.uri(), *wrong).open()


class Dual(Server):
    """A server that grants the families that are asked for, as far as it has them."""

    families = (4, 6)

    def allocate(self, message: Any, source: Where, allocation: Any, now: float) -> bytes:
        super().allocate(message, source, allocation, now)
        six = b"\0\2" + struct.pack("!H", 50_000 ^ 0x2112) + bytes(
            a ^ b for a, b in zip(socket.inet_pton(socket.AF_INET6, "2001:db8::9"), b"\x21\x12\xa4\x42" + message.transaction))
        body = b"".join(attribute(0x0016, xored(("10.9.9.9", 40_000)) if it == 4 else six) for it in self.families
                        if it == 4 or 0x8000 in message.attributes)
        return self.success(message, body + attribute(0x000D, struct.pack("!I", 600)))


class Families(Case):
    async def test_both(self) -> None:
        endpoint = await self.serve(Dual())
        async with TurnClient(endpoint.uri, *BOTH, family=(4, 6)) as relay:
            self.assertEqual(relay.addresses, [("10.9.9.9", 40_000), ("2001:db8::9", 50_000)])
            self.assertEqual(relay.address, relay.addresses[0])
            await relay.permit(PEER[0])
            relay.sendto(b"x", PEER)
            self.assertEqual(await asyncio.wait_for(relay.receive(), 30), (b"x", PEER))

    async def test_a_server_that_has_one_of_them(self) -> None:
        endpoint = await self.serve(Server())
        async with TurnClient(endpoint.uri, *BOTH, family=(4, 6)) as relay:
            self.assertEqual(relay.addresses, [relay.address])
            with self.assertRaisesRegex(Refused, "^no-allocation: the relayed address is IPv4"):
                await relay.permit("2001:db8::1")

    async def test_a_server_that_has_none(self) -> None:
        endpoint = await self.serve(Server(allocate_error=440))
        with self.assertRaises(AllocationFailed) as failed:
            await asyncio.wait_for(TurnClient(endpoint.uri, *BOTH, family=(4, 6)).open(), 30)
        self.assertEqual(failed.exception.code, 440)


class Redirecting(Server):
    """A server that names another one, in the answer to the first request, as RFC 8489, section 10, has it."""

    def __init__(self, to: Any, **settings: Any) -> None:
        super().__init__(**settings)
        self.to = to
        self.asked: Set[bytes] = set()  # the IDs of requests, each of which may be sent again

    def answer(self, message: Any, source: Where, allocation: Any, now: float) -> bytes:
        self.asked.add(message.transaction)
        host, port = self.to()
        body = attribute(0x0009, struct.pack("!HBB", 0, 3, 0) + b"elsewhere")
        body += attribute(0x8023, b"\0\1" + struct.pack("!H", port) + socket.inet_aton(host))
        return struct.pack("!HH", 0x0113, len(body)) + b"\x21\x12\xa4\x42" + bytes(message.transaction) + body


class Redirects(Case):
    async def chain(self, count: int) -> List[Any]:
        """Servers, each of which names the next one, and one that serves."""
        endpoints: List[Any] = [await self.serve(Server())]
        for _ in range(count):
            to = endpoints[0].transport.get_extra_info("sockname")
            endpoints.insert(0, await self.serve(Redirecting(functools.partial(tuple, to))))
        return endpoints

    async def test_followed_where_asked_for(self) -> None:
        endpoints = await self.chain(2)
        async with TurnClient(endpoints[0].uri, *BOTH, redirects=2):
            self.assertEqual([len(it.server.asked) for it in endpoints[:2]], [1, 1])
            self.assertEqual(len(endpoints[2].server.allocations), 1)

    async def test_not_followed_further(self) -> None:
        endpoints = await self.chain(2)
        for redirects in (0, 1):
            with self.assertRaises(AllocationFailed) as failed:
                await asyncio.wait_for(TurnClient(endpoints[0].uri, *BOTH, redirects=redirects).open(), 30)
            self.assertEqual((failed.exception.code, failed.exception.alternate),
                             (300, endpoints[redirects + 1].transport.get_extra_info("sockname")))
        self.assertEqual(endpoints[2].server.allocations, {})

    def place(self, places: List[Any], at: int) -> Any:
        return places[at].transport.get_extra_info("sockname")

    async def test_from_a_port_of_ones_own(self) -> None:
        """The first socket is closed before the next one has its port."""
        endpoints = await self.chain(2)
        with socket.socket(type=socket.SOCK_DGRAM) as free:
            free.bind(("127.0.0.1", 0))
            own = free.getsockname()
        async with TurnClient(endpoints[0].uri, *BOTH, redirects=2, local_addr=own) as relay:
            self.assertEqual(relay.local_address, own)

    async def test_no_loop(self) -> None:
        places: List[Any] = []
        for at in (1, 0):
            places.append(await self.serve(Redirecting(functools.partial(self.place, places, at))))
        with self.assertRaises(AllocationFailed):
            await asyncio.wait_for(TurnClient(places[0].uri, *BOTH, redirects=50).open(), 30)
        self.assertEqual([len(it.server.asked) for it in places], [1, 1])

    async def test_another_name_over_tls(self) -> None:
        """The certificate has to be for the name of the first URI."""
        context = ssl.create_default_context()
        server = Reached(parse("turns:turn.example.org"), context).redirected(yarrowdoor.Address("192.0.2.7", 5350))
        self.assertEqual((server.uri.host, server.uri.port, server.uri.secure), ("192.0.2.7", 5350, True))
        names: List[Any] = []

        async def reach(sock: socket.socket, where: Any) -> None:
            names.append(where)

        async def connect(factory: Any, sock: socket.socket, **settings: Any) -> Any:
            names.append((settings["server_hostname"], settings["ssl"]))
            sock.close()
            raise OSError("enough")

        loop = asyncio.get_running_loop()
        with unittest.mock.patch.multiple(loop, sock_connect=reach, create_connection=connect), self.assertRaises(OSError):
            await server.connect("192.0.2.7")
        self.assertEqual(names, [("192.0.2.7", 5350), ("turn.example.org", context)])


if __name__ == "__main__":
    unittest.main()
