"""A relay that comes back: when another client follows, and what the peers keep."""
import asyncio
import types
import unittest
import unittest.mock
from typing import Any, Callable, Dict, List, Optional, Tuple

from yarrowdoor import Address, Backoff, Clock, Down, Ended, Lost, PermissionFailed, Refused, Relay, Times, Up, tries, vigil

from .case import Case
from .network import StreamEndpoint
from .server import CHANNEL_BIND, CREATE_PERMISSION, Server, Where, attribute, parse, unxored, xored
from .turn_servers import fast

PEER, OTHER = ("10.1.0.1", 9), ("10.1.0.2", 9)
QUICK = Backoff(first=0.05, longest=0.2)
# 0.1 s four times, and 0.1 s more.
SHORT = Times(initial=100_000_000, longest=100_000_000, last=100_000_000, count=4)


class Restarting(Server):
    """A server that forgets all, and whose next relayed addresses are others."""

    def __init__(self, **settings: Any) -> None:
        super().__init__(**settings)
        self.asked: List[Tuple[int, str]] = []
        self.lives = self.asks = 0
        self.refused: Callable[[Any, Any], Optional[int]] = lambda message, life: None

    def forget(self) -> None:
        self.lives += 1
        self.allocations.clear()
        self.answered.clear()
        self.nonce = b"nonce-of-life-%d" % self.lives

    def answer(self, message: Any, source: Where, allocation: Any, now: float) -> bytes:
        if message.kind in (CREATE_PERMISSION, CHANNEL_BIND) and message.attributes.get(0x0015) == self.nonce:
            self.asked.append((message.kind, unxored(message.attributes[0x0012])[0]))
        return super().answer(message, source, allocation, now)

    def allocate(self, message: Any, source: Where, allocation: Any, now: float) -> bytes:
        self.asks += 1
        code = self.refused(message, self.lives)
        if code is not None:
            return self.error(message, code)
        super().allocate(message, source, allocation, now)
        found = self.allocations[source]
        found.relayed = ("10.9.9.9", 41_000 + 100 * self.lives + len(self.allocations))
        body = attribute(0x0016, xored(found.relayed)) + attribute(0x0020, xored(source))
        return self.success(message, body + attribute(0x000D, (600).to_bytes(4, "big")))


class RelayCase(Case):
    def relay(self, endpoint: Any, *credentials: Any, **settings: Any) -> Tuple[Relay, List[Any]]:
        """A relay that is quick, and its states."""
        states: List[Any] = []
        who = credentials or ("user", "pass")
        quick: Dict[str, Any] = {"backoff": QUICK, **settings}
        relay = Relay(endpoint.uri, *who, on_state=states.append, **quick)
        self.addAsyncCleanup(relay.close)
        return relay, states

    async def until(self, holds: Callable[[], Any], seconds: float = 60) -> None:
        async def wait() -> None:
            while not holds():
                await asyncio.sleep(0.01)

        await asyncio.wait_for(wait(), seconds)

    async def echo(self, relay: Relay, peer: Where = PEER) -> None:
        await relay.send(b"x", peer)
        self.assertEqual(await asyncio.wait_for(relay.receive(), 30), (b"x", peer))


class Returns(RelayCase):
    def refuse(self, relay: Relay) -> None:
        """The socket tells that the server's port is closed."""
        client: Any = relay._revival.client
        session = client._session()
        session.refused(session.link, ConnectionRefusedError(111, "Connection refused"))

    async def test_a_server_that_was_restarted(self) -> None:
        """It answers checks of the path as before. An error of the socket makes one ask it what it knows."""
        endpoint = await self.serve(Restarting())
        relay, states = self.relay(endpoint)
        async with relay:
            await relay.bind(PEER)
            await relay.permit(OTHER[0])
            await self.echo(relay)
            first = relay.address
            endpoint.server.forget()
            endpoint.server.asked.clear()
            self.refuse(relay)
            await self.until(lambda: len(states) == 3)
            self.assertEqual([type(it) for it in states], [Up, Down, Up])
            self.assertRegex(str(states[1].reason), "^the server no longer knows the relayed address: .*437")
            self.assertEqual((states[2].before, states[2].is_new), (first, True))
            self.assertEqual(relay.address, states[2].address)
            for peer in (PEER, OTHER):
                relay.sendto(b"again", peer)
                self.assertEqual(await asyncio.wait_for(relay.receive(), 30), (b"again", peer))
            asked = [it for it in endpoint.server.asked if not it[1].startswith("192.0.2.")]
            self.assertEqual(sorted(set(asked)), [(CREATE_PERMISSION, OTHER[0]), (CHANNEL_BIND, PEER[0])])
            self.assertEqual(list(relay.lost), [])
        self.assertTrue(relay.closed)
        self.assertEqual(endpoint.server.allocations, {})

    async def test_a_server_that_was_restarted_and_met_by_no_packet(self) -> None:
        """It shows at the next refresh."""
        endpoint = await self.serve(Restarting())
        for grants in (True, False):
            relay, states = self.relay(endpoint, clock=fast(200), probe=1500, times=Times())
            async with relay:
                if grants:
                    await relay.permit(PEER[0])
                endpoint.server.forget()
                await self.until(lambda: len(states) == 3, 120)
                self.assertRegex(str(states[1].reason), "^the server no longer knows the relayed address: .*437")
                await self.echo(relay)

    async def test_a_server_that_was_restarted_with_another_realm(self) -> None:
        """It takes no request that is signed for the one before (441), and signs none of these answers."""
        endpoint = await self.serve(Restarting())
        relay, states = self.relay(endpoint, clock=fast(200), probe=1500, times=Times())
        async with relay:
            await relay.permit(PEER[0])
            endpoint.server.forget()
            endpoint.server.serve_realm(b"another realm")
            await self.until(lambda: len(states) == 3, 120)
            self.assertRegex(str(states[1].reason), "^the server no longer knows the relayed address: .*441")
            await self.echo(relay)

    async def test_a_server_that_answers_no_check(self) -> None:
        """It is asked by a signed request before it is given up."""
        endpoint = await self.serve(Restarting())
        endpoint.server.answers_bindings = False
        relay, states = self.relay(endpoint, clock=Clock(rate=20), times=Times(), probe=0.1)
        async with relay:
            await self.until(lambda: len(endpoint.server.asked) >= 3)
            await self.echo(relay)
            self.assertEqual(len(states), 1)
            endpoint.server.is_dead = True
            await self.until(lambda: len(states) == 2)
            self.assertEqual(str(states[1].reason), "the server answers no signed request: 3 in a row")
            endpoint.server.is_dead = False
            await self.until(lambda: isinstance(relay.state, Up))

    async def test_a_nat_with_another_mapping(self) -> None:
        """A check tells it, and the server does not know the relayed address from there."""
        endpoint = await self.serve(Restarting())
        relay, states = self.relay(endpoint, probe=0.1)
        async with relay:
            await relay.permit(PEER[0])
            mapped, endpoint.server.mapped = endpoint.server.mapped, lambda message, source: mapped(message, ("192.0.2.7", 9))
            endpoint.server.forget()
            await self.until(lambda: len(states) == 3, 10)
            self.assertRegex(str(states[1].reason), "^the server no longer knows the relayed address: .*437")
            await self.echo(relay)

    async def test_an_error_that_means_nothing(self) -> None:
        endpoint = await self.serve(Restarting())
        relay, states = self.relay(endpoint)
        async with relay:
            await relay.permit(PEER[0])
            for _ in range(3):
                self.refuse(relay)
                await asyncio.sleep(0.1)
            await self.echo(relay)
            self.assertEqual(len(states), 1)
            asked = [ip for _, ip in endpoint.server.asked if ip.startswith("192.0.2.")]
            self.assertLessEqual(len(asked), 2)  # and not one for each error

    async def test_a_question_that_ends_with_its_client(self) -> None:
        """Who waits for its answer, since a request failed, asks the next client, and is not cancelled."""
        endpoint = await self.serve(Restarting(), StreamEndpoint)
        relay, states = self.relay(endpoint)
        receive, asked = endpoint.server.receive, asyncio.Event()

        def silent(data: bytes, source: Where, now: float) -> Any:
            found = parse(data)
            if found.kind == CREATE_PERMISSION and unxored(found.attributes[0x0012])[0].startswith("192.0.2."):
                asked.set()
                return []
            return receive(data, source, now)

        async with relay:
            endpoint.server.forget()
            endpoint.server.receive = silent
            asking = asyncio.ensure_future(relay.permit(PEER[0]))  # gets a 437
            await asyncio.wait_for(asked.wait(), 30)
            self.assertEqual((len(states), asking.done()), (1, False))
            endpoint.end(resets=True)
            await asyncio.wait([asking], timeout=30)
            self.assertEqual((asking.done(), asking.cancelled()), (True, False))
            await asking
            endpoint.server.receive = receive
            await self.echo(relay)

    async def test_a_stream_that_breaks(self) -> None:
        endpoint = await self.serve(Restarting(), StreamEndpoint)
        relay, states = self.relay(endpoint, waits=True)
        async with relay:
            await self.echo(relay)
            endpoint.server.forget()
            endpoint.end(resets=True)
            await self.until(lambda: isinstance(relay.state, Down))
            await self.echo(relay)  # waits until it is up
            self.assertEqual([type(it) for it in states], [Up, Down, Up])
            self.assertEqual(relay.unsent, 0)

    async def test_a_client_that_ends_as_soon_as_it_is_open(self) -> None:
        """Who begins to watch it finds that it has ended."""
        def gone(client: Any) -> Any:
            raise Ended("it has ended")

        endpoint = await self.serve(Restarting())
        relay, states = self.relay(endpoint)
        with unittest.mock.patch.object(tries.Watched, "link", property(gone)):
            opening = asyncio.ensure_future(relay.open())
            await self.until(lambda: any(isinstance(it, Down) for it in states))
        await asyncio.wait_for(opening, 30)
        await self.until(lambda: isinstance(relay.state, Up))
        await self.echo(relay)

    async def test_data_is_dropped_meanwhile(self) -> None:
        endpoint = await self.serve(Restarting(), StreamEndpoint)
        endpoint.server.refused = lambda message, life: 500 if life == 1 else None
        relay, states = self.relay(endpoint)
        async with relay:
            await self.echo(relay)
            endpoint.server.forget()
            endpoint.end(resets=False)
            await self.until(lambda: isinstance(relay.state, Down))
            for _ in range(3):
                await relay.send(b"lost", PEER)
                relay.sendto(b"lost", PEER)
            self.assertEqual((relay.unsent, relay.counters.unsent), (6, 6))
            with self.assertRaises(ValueError):
                await relay.send(b"x", ("localhost", 9))
            with self.assertRaisesRegex(Refused, "^not-granted"):
                relay.release(PEER)
            endpoint.server.lives = 2
            await self.until(lambda: isinstance(relay.state, Up))
            await self.echo(relay)
            self.assertEqual((relay.unsent, len(states)), (6, 3))
            self.assertEqual((relay.counters.packets_in, relay.counters.packets_out), (2, 2))
        self.assertEqual(relay.unsent, 6)

    async def test_what_is_released_is_not_asked_for_again(self) -> None:
        endpoint = await self.serve(Restarting(), StreamEndpoint)
        relay, states = self.relay(endpoint)
        async with relay:
            await relay.bind(PEER)
            await relay.permit(OTHER[0])
            relay.release(OTHER[0])
            endpoint.server.forget()
            endpoint.server.asked.clear()
            endpoint.end(resets=True)
            await self.until(lambda: len(states) == 3)
            self.assertEqual({ip for _, ip in endpoint.server.asked}, {PEER[0]})

    async def test_what_is_released_and_asked_for_again(self) -> None:
        """It is kept again, also by the clients that follow."""
        endpoint = await self.serve(Restarting(), StreamEndpoint)
        relay, states = self.relay(endpoint)
        async with relay:
            for _ in range(2):
                await relay.permit(OTHER[0])
                relay.release(OTHER[0])
            await relay.permit(OTHER[0])
            endpoint.server.forget()
            endpoint.server.asked.clear()
            endpoint.end(resets=True)
            await self.until(lambda: len(states) == 3)
            self.assertEqual({ip for _, ip in endpoint.server.asked}, {OTHER[0]})

    async def test_what_is_not_granted_again_is_told_once(self) -> None:
        endpoint = await self.serve(Restarting(), StreamEndpoint)
        told: List[Lost] = []
        relay, states = self.relay(endpoint)
        relay.on_lost = told.append
        async with relay:
            for ip in (PEER[0], OTHER[0]):
                await relay.permit(ip)
            endpoint.server.denied = (OTHER[0],)
            for count in (3, 5):
                endpoint.server.forget()
                endpoint.end(resets=True)
                await self.until(lambda: len(states) == count)
            await self.echo(relay)
            self.assertEqual((told, list(relay.lost)), ([Lost("permission", OTHER[0])],) * 2)
            with self.assertRaises(PermissionFailed):
                await relay.permit(OTHER[0])

    async def test_a_host_with_another_address(self) -> None:
        server: Any = Address("127.0.0.1", 9)
        links: List[Any] = [types.SimpleNamespace(local=Address(it, 1), remote=server) for it in ("127.0.0.1", "192.0.2.1")]
        self.assertEqual([vigil.has_address(it) for it in links], [True, False])
        endpoint = await self.serve(Restarting(), StreamEndpoint)
        relay, states = self.relay(endpoint)
        async with relay:
            with unittest.mock.patch.object(vigil, "has_address", lambda link: False):
                await self.until(lambda: len(states) == 2, 30)
            await self.until(lambda: isinstance(relay.state, Up), 30)
            self.assertEqual(str(states[1].reason), "this host has the address 127.0.0.1 no longer")
            await self.echo(relay)


if __name__ == "__main__":
    unittest.main()
