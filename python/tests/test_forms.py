"""asyncio's own forms over a relay: datagram endpoints, streams and servers."""
import asyncio
import errno
import gc
import socket
import unittest
import unittest.mock
from typing import Any, Dict, List, Optional, Tuple

import yarrowdoor
from yarrowdoor import AllocationFailed, Ended, PermissionFailed, Refused

from . import coturn as coturn_server
from .case import Case
from .server import Server

PEER, OTHER = ("10.1.0.1", 9), ("10.1.0.2", 9)
BOTH = ("user", "pass")


class Echo(asyncio.DatagramProtocol):
    """A protocol that knows nothing of TURN."""

    def __init__(self) -> None:
        self.came: "asyncio.Queue[Tuple[bytes, Any]]" = asyncio.Queue()
        self.errors: List[Exception] = []
        self.lost = asyncio.get_running_loop().create_future()

    def connection_made(self, transport: Any) -> None:
        self.transport = transport

    def datagram_received(self, data: bytes, addr: Any) -> None:
        self.came.put_nowait((data, addr))
        if data.startswith(b"ask"):
            self.transport.sendto(b"answer", addr)

    def error_received(self, exc: Exception) -> None:
        self.errors.append(exc)

    def connection_lost(self, exc: Optional[Exception]) -> None:
        self.lost.set_result(exc)


class Datagrams(Case):
    async def test_an_endpoint(self) -> None:
        endpoint = await self.serve(Server())
        transport, protocol = await yarrowdoor.create_datagram_endpoint(endpoint.uri, Echo, credentials=BOTH)
        self.assertEqual(transport.get_extra_info("sockname"), ("10.9.9.9", 40000))
        self.assertIs(transport.get_protocol(), protocol)
        for number in range(100):
            transport.sendto(b"%d" % number, PEER)
        for number in range(64):
            self.assertEqual(await asyncio.wait_for(protocol.came.get(), 30), (b"%d" % number, PEER))
        transport.sendto(b"more", PEER)
        self.assertEqual(await asyncio.wait_for(protocol.came.get(), 30), (b"more", PEER))
        with self.assertRaises(ValueError):
            transport.sendto(b"x")
        transport.sendto(b"x", ("2001:db8::1", 9))  # the relayed address reaches it not
        self.assertFalse(transport.is_closing())
        transport.close()
        self.assertIsNone(await asyncio.wait_for(protocol.lost, 30))
        self.assertTrue(transport.is_closing())
        self.assertEqual(endpoint.server.allocations, {})

    async def test_one_peer(self) -> None:
        endpoint = await self.serve(Server())
        transport, protocol = await yarrowdoor.create_datagram_endpoint(endpoint.uri, Echo, credentials=BOTH, remote_addr=PEER)
        self.assertEqual(transport.get_extra_info("peername"), PEER)
        (client, allocation), = endpoint.server.allocations.items()
        await transport.get_extra_info("relay").permit(OTHER[0])
        for peer in (OTHER, PEER):
            endpoint.send(endpoint.server.from_peer(b"y", peer, client, 0.0), client, 0.0)
        self.assertEqual(await asyncio.wait_for(protocol.came.get(), 30), (b"y", PEER))
        transport.sendto(b"x")
        self.assertEqual(await asyncio.wait_for(protocol.came.get(), 30), (b"x", PEER))
        with self.assertRaises(ValueError):
            transport.sendto(b"x", OTHER)
        transport.abort()
        await asyncio.wait_for(protocol.lost, 30)

    async def test_a_peer_that_sends_first(self) -> None:
        endpoint = await self.serve(Server())
        transport, protocol = await yarrowdoor.create_datagram_endpoint(endpoint.uri, Echo, credentials=BOTH, peers=[PEER[0]])
        (client, allocation), = endpoint.server.allocations.items()
        endpoint.send(endpoint.server.from_peer(b"ask", PEER, client, 0.0), client, 0.0)
        self.assertEqual(await asyncio.wait_for(protocol.came.get(), 30), (b"ask", PEER))
        self.assertEqual(await asyncio.wait_for(protocol.came.get(), 30), (b"answer", PEER))  # sent back by the test's peer
        transport.close()
        await asyncio.wait_for(protocol.lost, 30)

    async def test_a_peer_that_is_denied(self) -> None:
        endpoint = await self.serve(Server(denied=(OTHER[0],)))
        transport, protocol = await yarrowdoor.create_datagram_endpoint(endpoint.uri, Echo, credentials=BOTH)
        transport.sendto(b"x", OTHER)
        transport.sendto(b"x", PEER)
        self.assertEqual(await asyncio.wait_for(protocol.came.get(), 30), (b"x", PEER))
        self.assertRegex(str(protocol.errors[0]), "^no data to 10.1.0.2:9: .*403")
        transport.sendto(b"x", OTHER)  # is not asked for again so soon
        await asyncio.sleep(0.1)
        self.assertEqual(len(protocol.errors), 1)
        transport.close()
        await asyncio.wait_for(protocol.lost, 30)
        settings: List[Any] = [{"peers": [OTHER[0]]}, {"remote_addr": OTHER}]
        for wrong in settings:
            with self.assertRaises((PermissionFailed, yarrowdoor.ChannelFailed)):
                await yarrowdoor.create_datagram_endpoint(endpoint.uri, Echo, credentials=BOTH, **wrong)
        self.assertEqual(endpoint.server.allocations, {})

    async def test_a_peer_whose_channel_is_still_reserved(self) -> None:
        """It gets longer packets."""
        endpoint = await self.serve(Server())
        transport, protocol = await yarrowdoor.create_datagram_endpoint(endpoint.uri, Echo, credentials=BOTH)

        async def refused(peer: Any) -> None:
            raise Refused("expired", 30)

        with unittest.mock.patch.object(transport.relay, "bind", refused):
            transport.sendto(b"x", PEER)
            self.assertEqual(await asyncio.wait_for(protocol.came.get(), 30), (b"x", PEER))
        (allocation,) = endpoint.server.allocations.values()
        self.assertEqual((allocation.channels, [*allocation.permissions]), ({}, [PEER[0]]))
        transport.close()
        await asyncio.wait_for(protocol.lost, 30)

    async def test_what_goes_wrong_in_sending_is_told(self) -> None:
        """And what waits behind it is sent."""
        told: List[Any] = []
        asyncio.get_running_loop().set_exception_handler(lambda loop, context: told.append(context))
        endpoint = await self.serve(Server())
        transport, protocol = await yarrowdoor.create_datagram_endpoint(endpoint.uri, Echo, credentials=BOTH)
        for wrong, kind in ((5, TypeError), ("text", TypeError)):
            with self.assertRaises(kind):
                transport.sendto(wrong, PEER)
        for no_peer in (("localhost", 9), ("10.1.0.1", 70_000)):
            with self.assertRaises(ValueError):
                transport.sendto(b"x", no_peer)
        transport.sendto(bytes(65_505), PEER)
        transport.sendto(b"good", PEER)
        self.assertEqual(await asyncio.wait_for(protocol.came.get(), 5), (b"good", PEER))
        self.assertEqual([it.errno for it in protocol.errors if isinstance(it, OSError)], [errno.EMSGSIZE])
        with unittest.mock.patch.object(transport.relay, "bind", side_effect=MemoryError):
            transport.sendto(b"x", OTHER)
            await asyncio.sleep(0.01)
        gc.collect()
        await asyncio.sleep(0.01)
        self.assertEqual((len(protocol.errors), told), (2, []))
        transport.close()
        await asyncio.wait_for(protocol.lost, 5)

    async def test_data_that_comes_before_the_protocol(self) -> None:
        """A peer that has waited for its permission sends at once."""
        cases: List[Tuple[int, Dict[str, Any]]] = [
            (5, {"remote_addr": PEER}), (5, {"peers": [PEER[0]]}), (1_030, {"peers": [PEER[0]]})]
        for count, settings in cases:
            endpoint = await self.serve(Server())
            early = count

            async def permit(relay: yarrowdoor.TurnClient, *args: object, early: int = early) -> None:
                await real_permit(relay, *args)
                for number in range(early):
                    relay._inbox.put(b"%d" % number, yarrowdoor.Address(*PEER))

            real_permit: Any = yarrowdoor.TurnClient.bind if "remote_addr" in settings else yarrowdoor.TurnClient.permit
            with unittest.mock.patch.object(yarrowdoor.TurnClient, real_permit.__name__, permit):
                transport, protocol = await yarrowdoor.create_datagram_endpoint(endpoint.uri, Echo, credentials=BOTH, **settings)
            kept = min(count, 1_024)
            came = [await asyncio.wait_for(protocol.came.get(), 5) for _ in range(kept)]
            self.assertEqual(came, [(b"%d" % it, PEER) for it in range(kept)])
            self.assertEqual(transport.relay.dropped, count - kept)
            transport.close()
            await asyncio.wait_for(protocol.lost, 5)

    async def test_bytes_to_all_peers_are_limited(self) -> None:
        endpoint = await self.serve(Server())
        transport, protocol = await yarrowdoor.create_datagram_endpoint(endpoint.uri, Echo, credentials=BOTH)
        paused: List[bool] = []
        protocol.pause_writing = lambda: paused.append(True)  # type: ignore[assignment]
        protocol.resume_writing = lambda: paused.append(False)  # type: ignore[assignment]
        self.assertEqual(transport.get_write_buffer_limits(), (16_384, 65_536))
        for number in range(2_000):
            transport.sendto(bytes(1_200), (f"10.1.{number // 250}.{number % 250}", 9))
        self.assertEqual(paused, [True])
        self.assertEqual(transport.get_write_buffer_size(), (1 << 20) // 1_200 * 1_200)
        self.assertEqual(transport.relay.unsent, 2_000 - (1 << 20) // 1_200)
        while transport.get_write_buffer_size():
            await asyncio.sleep(0.01)
        self.assertEqual(paused, [True, False])
        transport.set_write_buffer_limits(high=100)
        self.assertEqual(transport.get_write_buffer_limits(), (25, 100))
        with self.assertRaises(ValueError):
            transport.set_write_buffer_limits(high=1, low=2)
        transport.close()
        await asyncio.wait_for(protocol.lost, 5)

    async def test_ends_as_asyncio_has_them(self) -> None:
        """After `close` no data comes, and `abort` waits for no server."""
        endpoint = await self.serve(Server())
        transport, protocol = await yarrowdoor.create_datagram_endpoint(endpoint.uri, Echo, credentials=BOTH, peers=[PEER[0]])
        transport.close()
        transport.relay._inbox.put(b"late", yarrowdoor.Address(*PEER))
        await asyncio.wait_for(protocol.lost, 5)
        self.assertTrue(protocol.came.empty())
        silent = Server()
        endpoint = await self.serve(silent)
        transport, protocol = await yarrowdoor.create_datagram_endpoint(endpoint.uri, Echo, credentials=BOTH)
        silent.is_dead = True
        start = asyncio.get_running_loop().time()
        transport.abort()
        await protocol.lost
        self.assertLess(asyncio.get_running_loop().time() - start, 1)
        transport.abort()
        await transport.relay.wait_closed()

    async def test_an_ipv6_peer_in_any_spelling(self) -> None:
        sent: List[object] = []
        endpoint = await self.serve(Server())
        transport, protocol = await yarrowdoor.create_datagram_endpoint(endpoint.uri, Echo, credentials=BOTH)
        await asyncio.sleep(0)
        transport._remote = yarrowdoor.Address("2001:db8::7", 9)
        relay: Any = unittest.mock.Mock(closed=False, addresses=[("2001:db8::1", 1)], bind=unittest.mock.AsyncMock())
        relay.sendto = lambda data, peer: sent.append(peer)
        real, transport.relay = transport.relay, relay
        spellings: List[Any] = [("2001:db8::7", 9), ("2001:DB8::7", 9), ("2001:db8:0:0:0:0:0:7", 9, 0, 0)]
        for spelling in spellings:
            transport.sendto(b"x", spelling)
        await asyncio.sleep(0.01)
        self.assertEqual((sent, relay.bind.await_count), ([("2001:db8::7", 9)] * 3, 1))
        transport.relay = real
        transport.close()
        await asyncio.wait_for(protocol.lost, 5)

    async def test_arguments_in_the_order_of_asyncio(self) -> None:
        swapped: Any = (Echo, "turn:127.0.0.1")
        with self.assertRaisesRegex(TypeError, "the URI of the server comes first"):
            await yarrowdoor.create_datagram_endpoint(*swapped, credentials=BOTH)

    async def test_a_relay_that_ends(self) -> None:
        endpoint = await self.serve(Server())
        transport, protocol = await yarrowdoor.create_datagram_endpoint(endpoint.uri, Echo, credentials=BOTH)
        transport.relay._session().breaks("gone", None)
        self.assertIsInstance(await asyncio.wait_for(protocol.lost, 30), Ended)
        transport.sendto(b"x", PEER)  # as asyncio's own transports, it says nothing

    async def test_the_socket_to_the_server(self) -> None:
        endpoint = await self.serve(Server())
        port = coturn_server.free_port()
        own = ("127.0.0.9", port)
        transport, protocol = await yarrowdoor.create_datagram_endpoint(endpoint.uri, Echo, credentials=BOTH, local_addr=own,
                                                                        family=socket.AF_INET)
        self.assertEqual(transport.get_extra_info("related_address"), own)
        transport.close()
        await asyncio.wait_for(protocol.lost, 30)
        with self.assertRaisesRegex(AllocationFailed, "no connection to "):
            await yarrowdoor.create_datagram_endpoint(endpoint.uri, Echo, credentials=BOTH, family=socket.AF_INET6)

    @unittest.skipUnless(coturn_server.IS_HERE, coturn_server.WHY)
    async def test_two_endpoints_through_coturn(self) -> None:
        with coturn_server.coturn() as at:
            made = [await yarrowdoor.create_datagram_endpoint(at.uri(), Echo, credentials=BOTH, peers=["127.0.0.1"])
                    for _ in range(2)]
            (one, taker), (other, answerer) = made
            one.sendto(b"ask", other.get_extra_info("sockname"))
            self.assertEqual(await asyncio.wait_for(answerer.came.get(), 30), (b"ask", one.get_extra_info("sockname")))
            self.assertEqual(await asyncio.wait_for(taker.came.get(), 30), (b"answer", other.get_extra_info("sockname")))
            for transport, protocol in made:
                transport.close()
                await asyncio.wait_for(protocol.lost, 30)


@unittest.skipUnless(coturn_server.IS_HERE, coturn_server.WHY)
class Streams(Case):
    """RFC 6062, through coturn."""

    async def test_a_connection(self) -> None:
        async def answer(reader: asyncio.StreamReader, writer: asyncio.StreamWriter) -> None:
            writer.write(await reader.readexactly(4))
            await writer.drain()
            writer.close()

        peer = await asyncio.start_server(answer, "127.0.0.1", 0)
        port = peer.sockets[0].getsockname()[1]
        with coturn_server.coturn() as at:
            uri = at.uri("turn:127.0.0.1:{port}?transport=tcp")
            reader, writer = await yarrowdoor.open_connection(uri, "localhost", port, credentials=BOTH)
            writer.write(b"ping")
            self.assertEqual(await asyncio.wait_for(reader.readexactly(4), 30), b"ping")
            self.assertEqual(len(yarrowdoor.connections._closing), 1)
            writer.close()
            while yarrowdoor.connections._closing:
                await asyncio.sleep(0.01)
            with self.assertRaises(yarrowdoor.ConnectFailed):
                await yarrowdoor.open_connection(uri, "no-such-name.invalid", port, credentials=BOTH)
            with self.assertRaises(yarrowdoor.ConnectFailed):
                await yarrowdoor.open_connection(uri, "127.0.0.1", coturn_server.free_port(), credentials=BOTH)
            self.assertEqual(len(yarrowdoor.connections._closing), 0)
        peer.close()

    async def test_a_server(self) -> None:
        problems: List[Any] = []
        asyncio.get_running_loop().set_exception_handler(lambda loop, context: problems.append(context))

        async def answer(reader: asyncio.StreamReader, writer: asyncio.StreamWriter) -> None:
            asked = await reader.readexactly(4)
            if asked == b"fail":
                raise KeyError(asked)
            writer.write(asked.upper())
            await writer.drain()

        with coturn_server.coturn() as at:
            uri = at.uri("turn:127.0.0.1:{port}?transport=tcp")
            server = await yarrowdoor.start_server(uri, answer, credentials=BOTH, peers=["127.0.0.1"])
            async with server:
                self.assertTrue(server.is_serving())
                pairs = [await asyncio.open_connection(*server.address) for _ in range(2)]
                for (reader, writer), asked in zip(pairs, (b"ping", b"fail")):
                    writer.write(asked)
                self.assertEqual(await asyncio.wait_for(pairs[0][0].readexactly(4), 30), b"PING")
                while not problems:
                    await asyncio.sleep(0.01)
                self.assertIsInstance(problems[0]["exception"], KeyError)
                self.assertEqual(problems[0]["message"], "the function of a start_server raised")
            self.assertFalse(server.is_serving())
            await server.wait_closed()
            for _, writer in pairs:
                writer.close()
            server = await yarrowdoor.start_server(uri, answer, credentials=BOTH)
            serving = asyncio.ensure_future(server.serve_forever())
            await asyncio.sleep(0)
            serving.cancel()
            with self.assertRaises(asyncio.CancelledError):
                await serving
            self.assertFalse(server.is_serving())


if __name__ == "__main__":
    unittest.main()
