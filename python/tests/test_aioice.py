"""The ICE agent of aioice over this client: two agents connect, relay to relay, through coturn."""
import asyncio
import unittest
from typing import Any

try:
    import aioice
    from aioice.ice import TransportPolicy

    HAS_AIOICE = True
except ImportError:
    HAS_AIOICE = False

import yarrowdoor.aioice

from . import coturn as server


@unittest.skipUnless(HAS_AIOICE, "aioice is not installed (Debian's package python3-aioice)")
@unittest.skipUnless(server.IS_HERE, server.WHY)
class Agents(unittest.IsolatedAsyncioTestCase):
    def setUp(self) -> None:
        import aioice.turn

        own = aioice.turn.create_turn_endpoint
        yarrowdoor.aioice.install()
        self.addCleanup(setattr, aioice.turn, "create_turn_endpoint", own)

    def agent(self, at: server.Coturn, transport: str, is_controlling: bool) -> Any:
        return aioice.ice.Connection(ice_controlling=is_controlling, components=1, turn_server=("127.0.0.1", at.port),
                                     turn_username="user", turn_password="pass", turn_transport=transport, use_ipv6=False,
                                     transport_policy=TransportPolicy.RELAY)

    async def connect(self, transport: str) -> None:
        with server.coturn() as at:
            one, other = self.agent(at, transport, True), self.agent(at, transport, False)
            await asyncio.gather(one.gather_candidates(), other.gather_candidates())
            self.assertEqual([it.type for it in one.local_candidates], ["relay"])
            for agent, remote in ((one, other), (other, one)):
                for candidate in remote.local_candidates:
                    await agent.add_remote_candidate(candidate)
                await agent.add_remote_candidate(None)
                agent.remote_username, agent.remote_password = remote.local_username, remote.local_password
            await asyncio.wait_for(asyncio.gather(one.connect(), other.connect()), 20)
            for sender, taker in ((one, other), (other, one)):
                for number in range(100):
                    await sender.send(b"%d" % number)
                    self.assertEqual(await asyncio.wait_for(taker.recv(), 5), b"%d" % number)
            await asyncio.wait_for(asyncio.gather(one.close(), other.close()), 10)

    async def test_over_udp(self) -> None:
        await self.connect("udp")

    async def test_over_tcp(self) -> None:
        await self.connect("tcp")

    async def test_a_wrong_password(self) -> None:
        with server.coturn() as at:
            with self.assertRaises(yarrowdoor.WrongCredentials):
                await yarrowdoor.aioice.create_turn_endpoint(asyncio.DatagramProtocol, ("127.0.0.1", at.port), "user", "other")


if __name__ == "__main__":
    unittest.main()
