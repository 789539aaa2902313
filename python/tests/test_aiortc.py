"""Libraries that know nothing of this client: a data channel of aiortc between two relays, and a protocol of aioice."""
import asyncio
import functools
import unittest
import unittest.mock
from typing import Any, List

try:
    import aioice.turn
    import aiortc
    import aiortc.rtcicetransport
    from aioice import stun
    from aioice.ice import Connection, StunProtocol, TransportPolicy

    HAS_AIORTC = True
except ImportError:
    HAS_AIORTC = False

import yarrowdoor.aioice

from . import coturn as server


@unittest.skipUnless(HAS_AIORTC, "aiortc is not installed (Debian's package python3-aiortc)")
@unittest.skipUnless(server.IS_HERE, server.WHY)
class DataChannels(unittest.IsolatedAsyncioTestCase):
    def setUp(self) -> None:
        self.made: List[Any] = []
        own = yarrowdoor.aioice.create_turn_endpoint

        async def noted(*words: Any, **more: Any) -> Any:
            self.made.append(await own(*words, **more))
            return self.made[-1]

        relayed = functools.partial(Connection, transport_policy=TransportPolicy.RELAY)
        patches: List[Any] = [(aioice.turn, "create_turn_endpoint", noted), (aiortc.rtcicetransport, "Connection", relayed)]
        for place, name, value in patches:
            patch = unittest.mock.patch.object(place, name, value)
            patch.start()
            self.addCleanup(patch.stop)

    def peer(self, at: server.Coturn) -> Any:
        servers = [aiortc.RTCIceServer(f"turn:127.0.0.1:{at.port}?transport=udp", "user", "pass")]
        return aiortc.RTCPeerConnection(aiortc.RTCConfiguration(servers))

    async def test_a_data_channel(self) -> None:
        with server.coturn() as at:
            one, other, came = self.peer(at), self.peer(at), asyncio.Queue()  # type: Any, Any, asyncio.Queue[Any]

            def answer(channel: Any) -> None:
                channel.on("message", lambda message: channel.send(message.upper()))

            other.on("datachannel", answer)
            channel = one.createDataChannel("words")
            channel.on("message", came.put_nowait)
            channel.on("open", lambda: [channel.send(f"word {number}") for number in range(100)])
            await one.setLocalDescription(await one.createOffer())
            self.assertIn(" typ relay", one.localDescription.sdp)
            self.assertNotIn(" typ host", one.localDescription.sdp)
            await other.setRemoteDescription(one.localDescription)
            await other.setLocalDescription(await other.createAnswer())
            await one.setRemoteDescription(other.localDescription)
            for number in range(100):
                self.assertEqual(await asyncio.wait_for(came.get(), 20), f"WORD {number}")
            for transport, _ in self.made:
                self.assertGreater(transport.relay.counters.packets_in, 50)
            self.assertEqual(len(self.made), 2)
            await asyncio.gather(one.close(), other.close())


@unittest.skipUnless(HAS_AIORTC, "aiortc is not installed (Debian's package python3-aiortc)")
@unittest.skipUnless(server.IS_HERE, server.WHY)
class Protocols(unittest.IsolatedAsyncioTestCase):
    async def test_a_protocol_of_aioice(self) -> None:
        """Its own STUN protocol, which knows nothing of TURN, asks a server what address it has: the relayed one."""
        with server.coturn() as at, server.coturn() as other:
            transport, protocol = await yarrowdoor.create_datagram_endpoint(
                at.uri(), lambda: StunProtocol(unittest.mock.Mock()), credentials=("user", "pass"))
            request = stun.Message(stun.Method.BINDING, stun.Class.REQUEST)
            answer, source = await asyncio.wait_for(protocol.request(request, ("127.0.0.1", other.port)), 10)
            self.assertEqual(source, ("127.0.0.1", other.port))
            self.assertEqual(answer.attributes["XOR-MAPPED-ADDRESS"], transport.get_extra_info("sockname"))
            await asyncio.wait_for(protocol.close(), 5)


if __name__ == "__main__":
    unittest.main()
