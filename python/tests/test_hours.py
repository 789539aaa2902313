"""What a client does by itself over hours: it keeps its path open, renews what is granted, and lets go what is released."""
import asyncio
import unittest
from typing import Any, List, NamedTuple, Tuple

from yarrowdoor import Address, Lost, PermissionFailed, Refused, TurnClient

from .leaps import LoopClock, run
from .network import Endpoint
from .server import CHANNEL_BIND, CREATE_PERMISSION, Server, Where, parse, unxored

PEER = ("10.1.0.1", 9)


class Watched(Endpoint):
    """A server that notes what has come, and when."""

    def __init__(self, server: Server) -> None:
        super().__init__(server)
        self.packets: List[Tuple[float, bytes]] = []

    def datagram_received(self, data: bytes, source: Where) -> None:
        self.packets.append((asyncio.get_running_loop().time(), data))
        super().datagram_received(data, source)

    def asked(self, kind: int) -> List[Tuple[float, str]]:
        """When each request of a kind has come, and for which IP address."""
        messages = [(when, parse(data)) for when, data in self.packets if data[0] < 4]
        return [(when, unxored(it.attributes[0x0012])[0]) for when, it in messages if it.kind == kind]


class Nat(asyncio.DatagramProtocol):
    """A NAT between client and server: it forgets a mapping by which nothing was sent for `life` seconds (RFC 4787, section 4.3),
    and a later packet of the client comes from another port."""

    inside: Any
    client: Any

    def __init__(self, server: Any, life: float) -> None:
        self.server, self.life, self.last, self.mappings = server, life, 0.0, 0
        self.out: Any = None
        self.sends = asyncio.Lock()

    def connection_made(self, transport: Any) -> None:
        self.inside = transport

    def datagram_received(self, data: bytes, client: Any) -> None:
        self.client = client
        asyncio.ensure_future(self.send(data))

    def has_mapping(self) -> bool:
        return self.out is not None and asyncio.get_running_loop().time() - self.last <= self.life

    async def send(self, data: bytes) -> None:
        async with self.sends:
            if not self.has_mapping():
                self.close()
                back = NatBack(self)
                self.out, _ = await asyncio.get_running_loop().create_datagram_endpoint(lambda: back, remote_addr=self.server)
                self.mappings += 1
            self.last = asyncio.get_running_loop().time()
            self.out.sendto(data)

    def close(self) -> None:
        if self.out is not None:
            self.out.close()


class NatBack(asyncio.DatagramProtocol):
    def __init__(self, nat: Nat) -> None:
        self.nat = nat

    def datagram_received(self, data: bytes, server: Any) -> None:
        if self.nat.has_mapping():
            self.nat.inside.sendto(data, self.nat.client)


class Idle(NamedTuple):
    """How many packets a peer has sent, how many came, how many mappings the NAT has made, and whether the relay has ended."""

    sent: int
    came: int
    mappings: int
    closed: bool


async def idle(seconds: int, **settings: Any) -> Idle:
    """A relay that only waits for what a peer sends every 30 s, behind a NAT that forgets after two minutes."""
    loop = asyncio.get_running_loop()
    endpoint = await Endpoint.start(Server())
    server = endpoint.transport.get_extra_info("sockname")
    inside, nat = await loop.create_datagram_endpoint(lambda: Nat(server, 120), local_addr=("127.0.0.1", 0))
    came: List[Any] = []
    relay = TurnClient("turn:%s:%d" % inside.get_extra_info("sockname"), "user", "pass", clock=LoopClock(),
                       receiver=lambda *it: came.append(it), **settings)
    async with relay:
        await relay.permit(PEER[0])
        (client, _), = endpoint.server.allocations.items()
        for _ in range(seconds // 30):
            await asyncio.sleep(30)
            endpoint.send(endpoint.server.from_peer(b"x", PEER, client, loop.time()), client, loop.time())
        await asyncio.sleep(1)
        found = Idle(seconds // 30, len(came), nat.mappings, relay.closed)
    nat.close()
    inside.close()
    endpoint.close()
    await asyncio.sleep(0)
    return found


class Nats(unittest.TestCase):
    def test_an_idle_relay_for_an_hour(self) -> None:
        self.assertEqual(run(idle(3_700)), Idle(sent=123, came=123, mappings=1, closed=False))

    def test_a_relay_without_keepalive(self) -> None:
        found = run(idle(3_700, keepalive=0))
        self.assertLess(found.came, 10)
        self.assertGreater(found.mappings, 1)
        self.assertTrue(found.closed)


async def serve(server: Server) -> Any:
    return await Watched.start(server)


class Defaults(unittest.TestCase):
    """What a client sends when it was told nothing of it."""

    def test_when_something_is_sent(self) -> None:
        run(self.times())

    async def times(self) -> None:
        endpoint = await serve(Server())
        async with TurnClient(endpoint.uri, "user", "pass", clock=LoopClock()) as relay:
            peers = [f"10.1.0.{number}" for number in range(100)]
            await asyncio.gather(*(relay.permit(it) for it in peers))
            asked = [when for when, _ in endpoint.asked(CREATE_PERMISSION)]
            # 5 ms lie between two requests
            self.assertEqual([round(after - first, 3) for first, after in zip(asked, asked[1:])], [0.005] * 99)
            await asyncio.sleep(148)
            # 15 s lie between two packets where no request is due, and permissions are renewed 150 s ahead
            times = [when for when, _ in endpoint.packets[-9:]]
            self.assertEqual([round(after - first, 1) for first, after in zip(times, times[1:])], [15] * 8)
            self.assertEqual(len(endpoint.asked(CREATE_PERMISSION)), 100)
            await asyncio.sleep(4)
            self.assertEqual(sorted(it for _, it in endpoint.asked(CREATE_PERMISSION)[100:]), sorted(peers))
        endpoint.close()


class LettingGo(unittest.TestCase):
    """`release` and `keep`."""

    async def echo(self, relay: TurnClient, *peers: Where) -> None:
        """Data goes to these peers, and comes back."""
        for peer in peers:
            relay.sendto(b"x", peer)
            self.assertEqual(await asyncio.wait_for(relay.receive(), 5), (b"x", peer))

    def test_permissions(self) -> None:
        run(self.permissions())

    async def permissions(self) -> None:
        endpoint, told = await serve(Server()), []  # type: Any, List[Lost]
        peers = [(f"10.1.0.{number}", 9) for number in (1, 2, 3)]
        async with TurnClient(endpoint.uri, "user", "pass", clock=LoopClock()) as relay:
            relay.on_lost = told.append
            for ip, _ in peers:
                await relay.permit(ip)
            for ip, _ in peers[:2]:
                relay.release(ip)
            relay.keep(peers[1][0])
            await asyncio.sleep(295)
            await self.echo(relay, *peers)
            await asyncio.sleep(10)
            self.assertEqual([it for _, it in endpoint.asked(CREATE_PERMISSION)[3:]], ["10.1.0.2", "10.1.0.3"] * 2)
            with self.assertRaisesRegex(Refused, "^no-permission"):
                relay.sendto(b"x", PEER)
            for call in (relay.release, relay.keep):
                with self.assertRaisesRegex(Refused, "^not-granted"):
                    call(PEER[0])
            self.assertEqual((told, list(relay.lost)), ([], []))
            # `send` asks for it at once, and what is granted later is kept.
            await relay.send(b"again", PEER)
            self.assertEqual(await asyncio.wait_for(relay.receive(), 5), (b"again", PEER))
            await asyncio.sleep(400)
            await self.echo(relay, PEER)
            # The loss of what is kept is told, also where it was let go before.
            endpoint.server.denied = (PEER[0], peers[1][0])
            await asyncio.sleep(300)
            lost = {Lost("permission", it) for it in endpoint.server.denied}
            self.assertEqual((len(told), set(told), set(relay.lost)), (2, lost, lost))
        endpoint.close()

    def test_channels(self) -> None:
        run(self.channels())

    async def channels(self) -> None:
        endpoint, told = await serve(Server()), []  # type: Any, List[Lost]
        other = ("10.1.0.2", 9)
        async with TurnClient(endpoint.uri, "user", "pass", clock=LoopClock()) as relay:
            relay.on_lost = told.append
            for peer in (PEER, other):
                await relay.bind(peer)
                relay.release(peer)
            relay.keep(other)
            await asyncio.sleep(590)
            self.assertEqual([it for _, it in endpoint.asked(CHANNEL_BIND)], [PEER[0], other[0], other[0]])
            await self.echo(relay, PEER, other)
            self.assertEqual([data[0] for _, data in endpoint.packets[-2:]], [0x40, 0x40])
            await asyncio.sleep(20)
            # Its permission is another grant, and is kept: data goes on, in longer packets.
            await self.echo(relay, PEER, other)
            self.assertEqual([data[0] for _, data in endpoint.packets[-2:]], [0, 0x40])
            with self.assertRaisesRegex(Refused, "^expired"):
                await relay.bind(PEER)
            with self.assertRaisesRegex(Refused, "^not-granted"):
                relay.release(PEER)
            self.assertEqual((told, list(relay.lost)), ([], []))
        endpoint.close()

    def test_what_is_asked_for_again(self) -> None:
        """A request of what was released keeps it again, at once, whether it is granted or has just ended."""
        run(self.asked_again())

    async def asked_again(self) -> None:
        for seconds in (200.0, 299.99, 305.0):
            endpoint: Any = await serve(Server())
            async with TurnClient(endpoint.uri, "user", "pass", clock=LoopClock()) as relay:
                await relay.bind(PEER)
                await relay.permit(PEER[0])
                relay.release(PEER)
                relay.release(PEER[0])
                await asyncio.sleep(seconds)
                await relay.permit(PEER[0])
                await relay.bind(PEER)
                await asyncio.sleep(700)
                await self.echo(relay, PEER)
                self.assertEqual(endpoint.packets[-1][1][0], 0x40)
                self.assertEqual(list(relay.lost), [])
            endpoint.close()

    def test_what_was_never_granted(self) -> None:
        run(self.never_granted())

    async def never_granted(self) -> None:
        endpoint = await serve(Server(denied=("10.1.0.2",)))
        async with TurnClient(endpoint.uri, "user", "pass", clock=LoopClock()) as relay:
            with self.assertRaises(PermissionFailed):
                await relay.permit("10.1.0.2")
            await relay.permit("10.1.0.3")
            wrong: List[Any] = ["10.1.0.1", "10.1.0.2", PEER, Address("10.1.0.3", 9)]
            for call in (relay.release, relay.keep):
                for peer in wrong:
                    with self.assertRaises(Refused) as refused:
                        call(peer)
                    self.assertEqual(refused.exception.reason, "not-granted")
                for text in ("localhost", "10.1.0.1:9", ""):
                    with self.assertRaises(ValueError):
                        call(text)
        endpoint.close()


if __name__ == "__main__":
    unittest.main()
