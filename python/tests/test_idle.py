"""Peers that come and go: they are let go when nobody uses them, and kept again when somebody does.

`YARROWDOOR_PEERS=20000` has that many come in a day; without it 1,000 come, as many in a second.
"""
import asyncio
import os
import unittest
from typing import Any, List, Optional, Tuple

from yarrowdoor import Address, TurnClient
from yarrowdoor.link import Link
from yarrowdoor.servers import Server as Reached

from .leaps import LeapingLoop, LeapingSelector, LoopClock, run
from .network import Endpoint
from .server import CHANNEL_BIND, CREATE_PERMISSION, Server, Where
from .test_hours import Watched

PEERS = int(os.environ.get("YARROWDOOR_PEERS", "1000"))
# A day has so many seconds for 20,000 peers.
BETWEEN = 86_400 / 20_000
# So many are alive at a time.
ALIVE = 10
PEER, OTHER = ("10.1.0.1", 9), ("10.1.0.2", 9)


class JumpingSelector(LeapingSelector):
    """Where a timer is next, it is due at once: nothing comes from outside."""

    def select(self, timeout: Optional[float] = None) -> Any:
        if timeout:
            self.time += timeout + 1e-6
        return super(LeapingSelector, self).select(None if timeout is None else 0)


class Counting(Server):
    """A server that counts what there is at a time."""

    def __init__(self) -> None:
        super().__init__(lifetime=3600)
        self.numbers: List[int] = []
        self.most = 0

    def answer(self, message: Any, source: Where, allocation: Any, now: float) -> bytes:
        answer = super().answer(message, source, allocation, now)
        self.answered.clear()  # A link in memory repeats nothing.
        if message.kind == CHANNEL_BIND:
            self.numbers.append(int.from_bytes(message.attributes[0x000C][:2], "big"))
        if allocation is not None:
            allocation.permissions = {ip: until for ip, until in allocation.permissions.items() if until > now}
            self.most = max(self.most, len(allocation.permissions))
        return answer


class MemoryLink(Link):
    """A link to a server in memory, whose peers send back what they get."""

    def __init__(self, server: Server) -> None:
        super().__init__()
        self.server, self.loop, self.own = server, asyncio.get_running_loop(), Address("10.0.0.1", 5000)
        self.local, self.remote = self.own, Address("10.0.0.2", 3478)

    def close(self) -> None:
        self.is_over = True

    def send(self, data: bytes) -> None:
        self.loop.call_later(0.01, self._carry, self.server.receive(data, self.own, self.loop.time()))

    def send_data(self, data: bytes) -> bool:
        self.send(data)
        return True

    def _carry(self, packets: List[Tuple[bytes, Where]]) -> None:
        for data, where in packets:
            if where == self.own:
                self._received(data, self)
            else:
                self._carry(self.server.from_peer(data, where, self.own, self.loop.time()))


class Near(Reached):
    """A server that is reached in memory."""

    def __init__(self, server: Server) -> None:
        super().__init__(TurnClient("turn:10.0.0.2", "user", "pass").uri, None)
        self.server = server

    async def addresses(self) -> List[str]:
        return ["10.0.0.2"]

    async def connect(self, host: str) -> Link:
        return MemoryLink(self.server)


class Day(unittest.TestCase):
    def test_peers_one_after_another(self) -> None:
        loop = LeapingLoop(JumpingSelector())
        try:
            loop.run_until_complete(self.come_and_go())
        finally:
            loop.close()

    async def come_and_go(self) -> None:
        server, came = Counting(), []  # type: Any, List[Where]
        relay = TurnClient("turn:10.0.0.2", "user", "pass", clock=LoopClock(), idle=60, receiver=lambda _, peer: came.append(peer))
        relay._server = Near(server)
        async with relay:
            for number in range(PEERS):
                peer = (f"10.{1 + number // 62_500}.{number // 250 % 250}.{1 + number % 250}", 9)
                await relay.bind(peer)  # raises where it is refused
                asyncio.ensure_future(self.live(relay, peer))
                await asyncio.sleep(BETWEEN)
            await asyncio.sleep(ALIVE * BETWEEN)
            self.assertEqual(len(came), PEERS * ALIVE)
            self.assertEqual(list(relay.lost), [])
            idle: Any = relay._session().idle
            self.assertLess(max(len(idle._released), len(idle._used)), 400)
        self.assertEqual(len(server.numbers), PEERS)
        self.assertLess(max(server.numbers), 0x40F0)
        self.assertLessEqual(server.most, 100)

    async def live(self, relay: TurnClient, peer: Where) -> None:
        for _ in range(ALIVE):
            relay.sendto(b"x", peer)
            await asyncio.sleep(BETWEEN)


class Idle(unittest.TestCase):
    def test_what_is_used_is_kept(self) -> None:
        run(self.used())

    async def used(self) -> None:
        endpoint: Any = await Watched.start(Server())
        async with TurnClient(endpoint.uri, "user", "pass", clock=LoopClock(), idle=60) as relay:
            await relay.bind(PEER)
            await relay.permit(OTHER[0])
            await relay.permit("10.1.0.3")
            for _ in range(20):  # one is sent to, and one is heard from
                relay.sendto(b"x", PEER)
                (client, allocation), = endpoint.server.allocations.items()
                now = asyncio.get_running_loop().time()
                endpoint.send(endpoint.server.from_peer(b"y", OTHER, client, now), client, now)
                await asyncio.sleep(30)
            asked = [ip for _, ip in endpoint.asked(CREATE_PERMISSION)]
            self.assertEqual({ip: asked.count(ip) > 1 for ip in asked}, {PEER[0]: True, OTHER[0]: True, "10.1.0.3": False})
            self.assertEqual([ip for _, ip in endpoint.asked(CHANNEL_BIND)], [PEER[0]] * 2)
            self.assertEqual(list(relay.lost), [])
        endpoint.close()

    def test_one_that_comes_back(self) -> None:
        run(self.comes_back())

    async def comes_back(self) -> None:
        """Before its permission ends it is kept again, and afterwards asked for."""
        endpoint: Any = await Watched.start(Server())
        async with TurnClient(endpoint.uri, "user", "pass", clock=LoopClock(), idle=60) as relay:
            for ip in (PEER[0], OTHER[0]):
                await relay.permit(ip)
            relay.release(OTHER[0])  # by the user, and so not kept again
            await asyncio.sleep(100)
            self.assertEqual(relay._session().grants.released(), {PEER[0], OTHER[0]})
            for peer in (OTHER, PEER):
                relay.sendto(b"x", peer)
            self.assertEqual(relay._session().grants.released(), {OTHER[0]})
            await asyncio.sleep(120)
            self.assertEqual(relay._session().grants.released(), {PEER[0], OTHER[0]})
            await asyncio.sleep(400)
            self.assertEqual(relay._session().grants.granted(), set())
            await relay.send(b"x", PEER)
            self.assertEqual(relay._session().grants.released(), set())
            await asyncio.sleep(100)
            self.assertEqual(relay._session().grants.released(), {PEER[0]})
            self.assertEqual(list(relay.lost), [])
        endpoint.close()

    def test_one_that_is_asked_for_again(self) -> None:
        """It is kept as long as a new one."""
        run(self.asked_again())

    async def asked_again(self) -> None:
        endpoint: Any = await Watched.start(Server())
        async with TurnClient(endpoint.uri, "user", "pass", clock=LoopClock(), idle=60) as relay:
            loop = asyncio.get_running_loop()
            calls: List[Any] = [(relay.permit, "10.1.0.5", "10.1.0.5"), (relay.bind, ("10.1.0.6", 9), "10.1.0.6")]
            for call, about, ip in calls:
                await call(about)
                await asyncio.sleep(290)  # it is released after 60
                await call(about)
                (client, allocation), = endpoint.server.allocations.items()
                await asyncio.sleep(59)
                self.assertGreater(allocation.permissions[ip], loop.time() + 200)
                self.assertNotIn(ip, relay._session().grants.released())
        endpoint.close()

    def test_closing(self) -> None:
        run(self.closes())

    async def closes(self) -> None:
        """While the relayed address is given back, nobody is let go."""
        endpoint: Any = await Watched.start(Server())
        failed: List[Any] = []
        asyncio.get_running_loop().set_exception_handler(lambda _, context: failed.append(context))
        relay = TurnClient(endpoint.uri, "user", "pass", clock=LoopClock(), idle=1)
        await relay.open()
        await relay.permit(PEER[0])
        endpoint.server.is_dead = True
        await relay.close()  # in two seconds, since there is no answer
        self.assertEqual(failed, [])
        endpoint.close()

    def test_none_is_let_go_without_it(self) -> None:
        run(self.without())

    async def without(self) -> None:
        endpoint = await Endpoint.start(Server())
        async with TurnClient(endpoint.uri, "user", "pass", clock=LoopClock()) as relay:
            await relay.bind(PEER)
            await asyncio.sleep(2_000)
            self.assertEqual(relay._session().grants.granted(), {PEER, PEER[0]})
            self.assertEqual(relay._session().grants.released(), set())
        endpoint.close()

    def test_wrong_values(self) -> None:
        for wrong in (0, -1, float("nan")):
            with self.assertRaisesRegex(ValueError, "^idle is a number of seconds above 0"):
                TurnClient("turn:10.0.0.2", "user", "pass", idle=wrong)


if __name__ == "__main__":
    unittest.main()
