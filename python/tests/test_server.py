"""A client against the server of the tests, through a socket and an event loop: data and requests."""
import asyncio
import unittest
import unittest.mock
from typing import Any, List

from yarrowdoor import ChannelFailed, Ended, PermissionFailed, Refused, TurnClient

from .case import Case
from .network import StreamEndpoint
from .turn_servers import fast


class ThroughASocket(Case):
    """`TurnClient` and a server on a socket of this host."""

    async def test_an_echo(self) -> None:
        endpoint = await self.serve()
        peer = ("10.1.0.1", 9000)
        async with TurnClient(endpoint.uri, "user", "pass") as relay:
            self.assertEqual(relay.address, ("10.9.9.9", 40000))
            self.assertEqual(relay.mapped_address, relay.local_address)
            with self.assertRaises(Refused) as refused:
                relay.sendto(b"too early", peer)
            self.assertEqual(refused.exception.reason, "no-permission")
            await relay.send(b"by a message", peer)
            self.assertEqual(await relay.receive(), (b"by a message", peer))
            await relay.bind(peer)
            await relay.bind(peer)
            relay.sendto(bytearray(b"by a channel"), peer)
            async for data, source in relay:
                self.assertEqual((data, source), (b"by a channel", peer))
                break
            with self.assertRaises(ValueError):
                relay.sendto(bytes(65505), peer)
            self.assertFalse(relay.closed)
        self.assertTrue(relay.closed)
        self.assertEqual(endpoint.server.allocations, {})
        await relay.wait_closed()
        self.assertEqual([it async for it in relay], [])
        with self.assertRaises(Ended):
            relay.sendto(b"too late", peer)

    async def test_many_requests_at_once(self) -> None:
        endpoint = await self.serve()
        async with TurnClient(endpoint.uri, "user", "pass") as relay:
            endpoint.server.stale = 40
            await asyncio.gather(*(relay.bind((f"10.1.0.{number}", 9000)) for number in range(30)))
            self.assertEqual(len(next(iter(endpoint.server.allocations.values())).channels), 30)
            self.assertGreaterEqual(endpoint.server.challenges, 40)
            self.assertFalse(relay.closed)

    async def test_who_asks_for_the_same_waits_for_the_same(self) -> None:
        endpoint = await self.serve(denied=("10.1.0.2",))
        async with TurnClient(endpoint.uri, "user", "pass") as relay:
            await asyncio.gather(*(relay.permit("10.1.0.1") for _ in range(20)))
            found = await asyncio.gather(*(relay.permit("10.1.0.2") for _ in range(3)), return_exceptions=True)
            for error in found:
                self.assertIsInstance(error, PermissionFailed)
                self.assertEqual(error.code, 403)
            with self.assertRaises(ChannelFailed) as failed:
                await relay.bind(("10.1.0.2", 9000))
            self.assertEqual(failed.exception.code, 403)
            self.assertEqual(list(relay.lost), [])

    async def test_a_request_that_failed_is_made_again(self) -> None:
        endpoint = await self.serve(denied=("10.1.0.2",))
        async with TurnClient(endpoint.uri, "user", "pass") as relay:
            with self.assertRaises(PermissionFailed):
                await relay.permit("10.1.0.2")
            endpoint.server.denied = ()
            await relay.permit("10.1.0.2")
            await relay.send(b"hello", ("10.1.0.2", 9000))
            self.assertEqual(await asyncio.wait_for(relay.receive(), 5), (b"hello", ("10.1.0.2", 9000)))

    async def test_a_permission_that_a_channel_requested(self) -> None:
        endpoint = await self.serve(denied=("10.1.0.2",))
        peer = ("10.1.0.1", 9000)
        async with TurnClient(endpoint.uri, "user", "pass") as relay:
            await asyncio.gather(relay.bind(peer), relay.send(b"hello", peer))
            self.assertEqual(await asyncio.wait_for(relay.receive(), 5), (b"hello", peer))
            found = await asyncio.gather(relay.bind(("10.1.0.2", 9)), relay.permit("10.1.0.2"), return_exceptions=True)
            self.assertEqual([type(it) for it in found], [ChannelFailed, PermissionFailed])

    async def test_a_channel_whose_permission_is_gone(self) -> None:
        endpoint = await self.serve()
        peer, is_lost = ("10.1.0.1", 9000), asyncio.Event()
        async with TurnClient(endpoint.uri, "user", "pass", clock=fast(100)) as relay:
            relay.on_lost = lambda lost: is_lost.set()
            await relay.bind(peer)
            endpoint.server.denied = (peer[0],)
            await asyncio.wait_for(is_lost.wait(), 60)  # the refresh at 240 s
            endpoint.server.denied = ()
            await relay.bind(peer)
            relay.sendto(b"hello", peer)
            self.assertEqual(await asyncio.wait_for(relay.receive(), 5), (b"hello", peer))

    async def test_what_on_lost_raises_is_not_the_clients(self) -> None:
        endpoint = await self.serve()
        told: List[Any] = []
        asyncio.get_running_loop().set_exception_handler(lambda loop, context: told.append(context["exception"]))

        def refuse(lost: object) -> None:
            raise KeyError(lost)

        async with TurnClient(endpoint.uri, "user", "pass", clock=fast(200)) as relay:
            relay.on_lost = refuse
            await relay.permit("10.1.0.1")
            endpoint.server.is_dead = True
            with self.assertRaises(Ended):
                await asyncio.wait_for(relay.wait_closed(), 120)
        self.assertEqual([type(it) for it in told], [KeyError])

    async def test_takers_that_are_cancelled_are_forgotten(self) -> None:
        endpoint = await self.serve()
        async with TurnClient(endpoint.uri, "user", "pass") as relay:
            for _ in range(3):
                with self.assertRaises(asyncio.TimeoutError):
                    await asyncio.wait_for(relay.receive(), 0.01)
            self.assertEqual(len(relay._inbox._takers), 0)

    async def test_sending_to_a_server_that_stopped_reading(self) -> None:
        endpoint = await self.serve(kind=StreamEndpoint)
        relay = TurnClient(endpoint.uri, "user", "pass")
        await relay.open()
        await relay.permit("10.1.0.1")
        endpoint.writer.transport.pause_reading()

        async def send() -> None:
            while True:
                await relay.send(bytes(60_000), ("10.1.0.1", 9000))

        sending = asyncio.ensure_future(send())
        await asyncio.sleep(0.3)
        self.assertFalse(sending.done())
        await relay.close()
        with self.assertRaises(Ended):
            await asyncio.wait_for(sending, 10)
        endpoint.end(resets=True)
        await asyncio.sleep(0.1)

    async def test_data_that_does_not_fit(self) -> None:
        endpoint = await self.serve()
        peer = ("10.1.0.1", 9000)
        async with TurnClient(endpoint.uri, "user", "pass") as relay:
            for prepare, most in ((relay.permit(peer[0]), 65_468), (relay.bind(peer), 65_500)):
                await prepare
                relay.sendto(bytes(most), peer)
                self.assertEqual(await asyncio.wait_for(relay.receive(), 5), (bytes(most), peer))
                for call in (relay.sendto, relay.send):
                    with self.assertRaisesRegex(ValueError, "and at most 65507 fit$"):
                        await (call(bytes(most + 1), peer) or asyncio.sleep(0))
            self.assertEqual(relay.unsent, 0)
            with unittest.mock.patch("yarrowdoor.turn.MAX_MESSAGE", 1 << 20):
                relay.sendto(bytes(65_501), peer)
            self.assertEqual(relay.unsent, 1)  # the socket says EMSGSIZE
            relay.sendto(b"hello", peer)
            self.assertEqual((await asyncio.wait_for(relay.receive(), 5), relay.unsent), ((b"hello", peer), 1))

    async def test_sending_lets_others_run(self) -> None:
        endpoint = await self.serve()
        peer = ("10.1.0.1", 9000)
        async with TurnClient(endpoint.uri, "user", "pass") as relay:
            await relay.permit(peer[0])
            others = 0

            async def other() -> None:
                nonlocal others
                while True:
                    others += 1
                    await asyncio.sleep(0)

            task = asyncio.ensure_future(other())
            for _ in range(100):
                await relay.send(b"hello", peer)
            task.cancel()
            self.assertGreaterEqual(others, 99)
            meanwhile = [await asyncio.wait_for(relay.receive(), 5) for _ in range(100)]
            self.assertEqual(meanwhile, [(b"hello", peer)] * 100)

    async def test_the_queue_is_bounded(self) -> None:
        endpoint = await self.serve()
        peer = ("10.1.0.1", 9000)
        async with TurnClient(endpoint.uri, "user", "pass", queue=5) as relay:
            await relay.bind(peer)
            for number in range(12):
                relay.sendto(b"%d" % number, peer)
            while relay.dropped < 7:
                await asyncio.sleep(0.01)
            self.assertEqual([(await relay.receive())[0] for _ in range(5)], [b"0", b"1", b"2", b"3", b"4"])
            self.assertEqual(relay.dropped, 7)

    async def test_a_receiver(self) -> None:
        endpoint = await self.serve()
        came = asyncio.get_running_loop().create_future()
        async with TurnClient(endpoint.uri, "user", "pass", receiver=lambda *it: came.set_result(it)) as relay:
            await relay.send(b"hello", ("10.1.0.1", 9000))
            self.assertEqual(await asyncio.wait_for(came, 5), (b"hello", ("10.1.0.1", 9000)))

    async def test_a_taker_that_is_cancelled(self) -> None:
        endpoint = await self.serve()
        async with TurnClient(endpoint.uri, "user", "pass") as relay:
            with self.assertRaises(asyncio.TimeoutError):
                await asyncio.wait_for(relay.receive(), 0.05)
            await relay.send(b"hello", ("10.1.0.1", 9000))
            self.assertEqual(await asyncio.wait_for(relay.receive(), 5), (b"hello", ("10.1.0.1", 9000)))


if __name__ == "__main__":
    unittest.main()
