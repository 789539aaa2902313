"""A network that loses, delays, doubles and reorders: by a program in between, and by the kernel where it can (netem)."""
import asyncio
import json
import random
import unittest
from typing import Any, Tuple

from yarrowdoor import Address, Times, TurnClient

from .namespaces import ONE, WHY, has_namespaces, printed, start
from .network import SECOND, Endpoint
from .server import Server

PEER = ("10.1.0.1", 9)
COUNT = 300
SOON = Times(initial=100_000_000, longest=SECOND, last=SECOND, count=9)


class Lossy(asyncio.DatagramProtocol):
    """Carries packets between a client and a server: of ten it loses one and doubles one, and each is late by up to 20 ms."""

    def __init__(self, server: Any) -> None:
        self.server, self.client, self.draw = server, None, random.Random(7)  # type: Any, Any, random.Random

    def connection_made(self, transport: Any) -> None:
        self.transport = transport

    def datagram_received(self, data: bytes, source: Any) -> None:
        if source != self.server:
            self.client = source
        to = self.server if source != self.server else self.client
        for _ in range(self.draw.choice((0, 2, 1, 1, 1, 1, 1, 1, 1, 1))):
            asyncio.get_running_loop().call_later(self.draw.uniform(0, 0.02), self.transport.sendto, data, to)


async def echo(uri: str) -> "dict[str, int]":
    """Requests a permission and a channel, sends numbers to a peer that sends them back, and says what came of them."""
    async with TurnClient(uri, "user", "pass", times=SOON) as relay:
        await relay.permit(PEER[0])
        await relay.bind(PEER)
        came = []

        async def take() -> None:
            async for data, peer in relay:
                came.append((data, peer))

        taking = asyncio.ensure_future(take())
        for number in range(COUNT):
            await relay.send(b"%d" % number, PEER)
            await asyncio.sleep(0.002)
        await asyncio.sleep(0.5)
        taking.cancel()
        wanted = {(b"%d" % number, Address(*PEER)) for number in range(COUNT)}
        numbers = [int(data) for data, _ in came]
        return {"different": len(set(came)), "other": len(set(came) - wanted), "doubled": len(came) - len(set(came)),
                "reordered": sum(after < before for before, after in zip(numbers, numbers[1:])), "lost": len(relay.lost)}


PROGRAM = """
    import asyncio, json, subprocess
    from tests.network import Endpoint
    from tests.server import Server
    from tests.test_loss import echo

    async def main():
        endpoint = await Endpoint.start(Server())
        subprocess.run("tc qdisc add dev lo root netem loss 10% duplicate 10% delay 10ms 8ms reorder 25%", shell=True, check=True)
        print(json.dumps(await echo(endpoint.uri)))

    asyncio.run(main())
"""
NETEM = "tc qdisc add dev lo root netem loss 1%"


def has_netem() -> bool:
    return has_namespaces() and printed(start("print(1)", setup=f"{ONE} && {NETEM}"), 30).endswith("1\n")


class Losses(unittest.TestCase):
    def check(self, found: "dict[str, int]") -> None:
        """A fifth is lost on the way there and back. What comes is whole, and the relay has lost nothing that it was granted."""
        self.assertTrue(COUNT // 2 < found["different"] < COUNT, found)
        self.assertEqual((found["other"], found["lost"]), (0, 0))
        self.assertGreater(found["doubled"], 0)
        self.assertGreater(found["reordered"], 0)

    def test_a_program_in_between(self) -> None:
        async def main() -> "dict[str, int]":
            loop = asyncio.get_running_loop()
            endpoint = await Endpoint.start(Server())
            server: Tuple[str, int] = endpoint.transport.get_extra_info("sockname")
            transport, _ = await loop.create_datagram_endpoint(lambda: Lossy(server), local_addr=("127.0.0.1", 0))
            try:
                return await echo("turn:%s:%d" % transport.get_extra_info("sockname"))
            finally:
                transport.close()
                endpoint.close()
                await asyncio.sleep(0.05)

        self.check(asyncio.run(main()))

    @unittest.skipUnless(has_netem(), f"the kernel has no netem, or {WHY}")
    def test_netem(self) -> None:
        self.check(json.loads(printed(start(PROGRAM, setup=ONE), 60)))


if __name__ == "__main__":
    unittest.main()
