"""What ends a relay that comes back, and what does not."""
import asyncio
import functools
import gc
import hashlib
import socket
import traceback
import unittest
from typing import Any, Callable, List, Optional, Tuple

from yarrowdoor import AllocationFailed, Backoff, Down, Ended, Relay, Up, WrongCredentials
from yarrowdoor.tries import Failures

from .network import StreamEndpoint
from .server import CREATE_PERMISSION, Where, parse
from .test_relay import OTHER, PEER, SHORT, RelayCase, Restarting


class Credentials(RelayCase):
    """Nobody has to have signed the packet that says that credentials are wrong."""

    async def test_one_forged_packet_ends_nothing(self) -> None:
        endpoint = await self.serve(Restarting())
        relay, states = self.relay(endpoint)
        async with relay:
            await relay.permit(PEER[0])
            for _ in range(2):
                await self.forge(relay, endpoint)
            await asyncio.sleep(2.5)
            await self.echo(relay)
            self.assertEqual(len(states), 1)

    async def forge(self, relay: Relay, endpoint: Any) -> None:
        """A 401 to a request that is under way, before the server's answer."""
        client: Any = relay._revival.client
        session, receive = client._session(), endpoint.server.receive

        def forging(data: bytes, source: Where, now: float) -> Any:
            answers = receive(data, source, now)
            if data[0] < 4 and parse(data).kind == CREATE_PERMISSION:
                answers.insert(0, (endpoint.server.error(parse(data), 401, is_signed=False), source))
            return answers

        endpoint.server.receive = forging
        await session.grants.permit("10.1.0.77" if not session.grants.granted() & {"10.1.0.77"} else "10.1.0.78")
        endpoint.server.receive = receive

    async def test_wrong_from_the_beginning(self) -> None:
        endpoint = await self.serve(Restarting())
        relay, states = self.relay(endpoint, "user", "wrong")
        with self.assertRaises(WrongCredentials):
            await asyncio.wait_for(relay.open(), 40)
        self.assertTrue(relay.closed)
        self.assertIsInstance(states[-1], Down)
        traceback.clear_frames(states[-1].reason.__traceback__)
        calls: List[Callable[[], Any]] = [relay.wait_closed, relay.receive, lambda: relay.send(b"x", PEER),
                                          lambda: relay.permit(PEER[0])]
        for call in calls:
            with self.assertRaisesRegex(Ended, "user name or password are wrong"):
                await call()

    async def test_wrong_ones_count_in_a_row(self) -> None:
        """A try that fails otherwise clears them, and so do they what a quota counts. A relay that is up clears both."""
        wrong, silent, full = WrongCredentials("wrong", (401, "no")), AllocationFailed("silent"), AllocationFailed("", (486, ""))
        rows: List[Tuple[List[Exception], int]] = [
            ([wrong, wrong], 1), ([wrong, silent, wrong, full, wrong, wrong], 5), ([full, full, full], 2),
            ([full, full, silent, full, full, wrong, full, full, full], 8)]
        for errors, last in rows:
            failures = Failures()
            self.assertEqual([it for it, error in enumerate(errors) if failures.is_final(error)], [last])
        failures = Failures()
        self.assertFalse(failures.is_final(wrong))
        failures.clear()
        self.assertFalse(failures.is_final(wrong))

    async def test_a_function_is_asked_once_more(self) -> None:
        endpoint = await self.serve(Restarting())
        answers = [("user", "old"), ("user", "pass"), ("user", "pass")]

        async def credentials() -> Tuple[str, str]:
            return answers.pop(0)

        relay, states = self.relay(endpoint, None, None, credentials=credentials)
        async with relay:
            self.assertEqual((len(answers), [type(it) for it in states if not isinstance(it, Down)]), (1, [Up]))

    async def test_credentials_that_the_server_takes_no_longer(self) -> None:
        """Its key is another one: each signed request gets a 401, and nothing signed comes."""
        for new in ("later", "wrong"):
            endpoint = await self.serve(Restarting())
            answers = [("user", "pass"), ("user", new), ("user", new)]

            async def credentials() -> Tuple[str, str]:
                return answers.pop(0)

            relay, states = self.relay(endpoint, None, None, credentials=credentials)
            async with relay:
                await relay.permit(PEER[0])
                endpoint.server.key = hashlib.md5(b"user:realm:later").digest()
                asking = asyncio.ensure_future(relay.permit(OTHER[0]))  # gets the first 401, and waits for the next client
                if new == "later":
                    await asyncio.wait_for(asking, 40)
                    await self.until(lambda: len(states) == 3)
                    self.assertRegex(str(states[1].reason), "takes user name and password no longer")
                    await self.echo(relay)
                else:
                    with self.assertRaisesRegex(Ended, "user name or password are wrong"):
                        await asyncio.wait_for(asking, 40)
                    with self.assertRaisesRegex(Ended, "user name or password are wrong"):
                        await relay.wait_closed()
            self.assertEqual(len(answers), 1)

    async def test_a_function_that_raises(self) -> None:
        endpoint = await self.serve(Restarting())
        fails: List[Optional[Exception]] = [OSError("no network"), KeyError("user"), None]

        async def credentials() -> Tuple[str, str]:
            error = fails.pop(0)
            if error is not None:
                raise error
            return "user", "pass"

        relay, states = self.relay(endpoint, None, None, credentials=credentials)
        async with relay:
            self.assertRegex(str(states[0].reason), "^no credentials: OSError: no network$")
            await self.echo(relay)


class Ends(RelayCase):
    async def test_codes(self) -> None:
        for code, asks in ((403, 1), (440, 1), (442, 1), (486, 3)):
            with self.subTest(code=code):
                endpoint = await self.serve(Restarting())
                endpoint.server.refused = functools.partial(lambda code, message, life: code, code)
                relay, _ = self.relay(endpoint)
                opening = asyncio.ensure_future(relay.open())
                await self.until(lambda: opening.done() or endpoint.server.asks > asks)
                self.assertTrue(opening.done(), "it is asked again")
                with self.assertRaises(AllocationFailed) as failed:
                    await opening
                self.assertEqual((failed.exception.code, endpoint.server.asks), (code, asks))

    async def test_twice_486_and_then_room(self) -> None:
        endpoint = await self.serve(Restarting())
        codes: List[Optional[int]] = [486, 486, 508, 486, 486, None]
        endpoint.server.refused = lambda message, life: codes.pop(0)
        relay, states = self.relay(endpoint)
        async with relay:
            await self.until(lambda: len(states) == 2)
            self.assertEqual((codes, [type(it) for it in states]), ([], [Down, Up]))

    async def test_a_server_that_is_not_there_yet(self) -> None:
        endpoint = await self.serve(Restarting())
        endpoint.server.is_dead = True
        relay, states = self.relay(endpoint, times=SHORT)
        opening = asyncio.ensure_future(relay.open())
        await self.until(lambda: states)
        self.assertIsInstance(states[0], Down)
        self.assertFalse(relay.closed)
        traceback.clear_frames(states[0].reason.__traceback__)  # as `assertRaises` does; it ends coroutines that wait
        endpoint.server.is_dead = False
        await asyncio.wait_for(opening, 30)
        await self.echo(relay)

    async def test_opening_that_is_cancelled(self) -> None:
        endpoint = await self.serve(Restarting())
        endpoint.server.is_dead = True
        relay, _ = self.relay(endpoint, times=SHORT)
        with self.assertRaises(asyncio.TimeoutError):
            await asyncio.wait_for(relay.open(), 1)
        self.assertTrue(relay.closed)
        await relay.close()
        with self.assertRaisesRegex(Ended, "^the relay was closed$"):
            await relay.receive()
        with self.assertRaises(RuntimeError):
            await relay.open()

    async def test_closing_while_it_is_down(self) -> None:
        endpoint = await self.serve(Restarting(), StreamEndpoint)
        relay, states = self.relay(endpoint, waits=True)
        await relay.open()
        endpoint.server.refused = lambda message, life: 500
        endpoint.end(resets=True)
        await self.until(lambda: isinstance(relay.state, Down))
        waiting = [asyncio.ensure_future(it) for it in (relay.send(b"x", PEER), relay.permit(PEER[0]), relay.receive())]
        await asyncio.sleep(0.1)
        await asyncio.wait_for(relay.close(), 30)
        for task in waiting:
            with self.assertRaisesRegex(Ended, "^the relay was closed$"):
                await asyncio.wait_for(task, 1)
        await relay.wait_closed()

    async def test_a_loop_that_ends(self) -> None:
        """The relayed address is deleted where nobody has closed the relay."""
        endpoint = await self.serve(Restarting())
        relay, _ = self.relay(endpoint)
        await relay.open()
        running: Any = relay._revival._running
        running.cancel()  # what asyncio.run does at its end
        await asyncio.wait([running], timeout=5)
        self.assertEqual(endpoint.server.allocations, {})

    async def test_one_that_nobody_has_any_more(self) -> None:
        endpoint = await self.serve(Restarting())
        relay = Relay(endpoint.uri, "user", "pass")
        await relay.open()
        with self.assertWarnsRegex(ResourceWarning, "^unclosed Relay of turn:"):
            del relay
            gc.collect()
        await self.until(lambda: not endpoint.server.allocations)

    async def test_states(self) -> None:
        endpoint = await self.serve(Restarting(), StreamEndpoint)
        relay, _ = self.relay(endpoint)
        seen: List[Any] = []

        async def look() -> None:
            async for state in relay.states():
                seen.append(type(state))

        async with relay:
            looking = asyncio.ensure_future(look())
            await asyncio.sleep(0)
            endpoint.server.forget()
            endpoint.end(resets=True)
            await self.until(lambda: len(seen) == 3)
        await asyncio.wait_for(looking, 1)
        self.assertEqual(seen, [Up, Down, Up])

    async def test_states_of_a_relay_that_ends_by_itself(self) -> None:
        endpoint = await self.serve(Restarting(), StreamEndpoint)
        relay, _ = self.relay(endpoint)
        async with relay:
            endpoint.server.refused = lambda message, life: 403
            endpoint.end(resets=True)
            with self.assertRaisesRegex(Ended, r"the server refuses \(403 no\)"):
                async for _ in relay.states():
                    pass
            with self.assertRaisesRegex(Ended, r"the server refuses \(403 no\)"):
                async for _, _ in relay:
                    pass

    async def test_wrong_arguments(self) -> None:
        settings: List[Any] = [{"relay": "tcp"}, {"sock": socket.socket}, {"probe": -1}, {"family": 5},
                               {"credentials": ("a", "b")}, {"nothing": 1}]
        for wrong in settings:
            with self.assertRaises((ValueError, TypeError)):
                Relay("turn:10.0.0.1", "user", "pass", **wrong)
        for first, longest, jitter in ((0, 1, 0), (2, 1, 0), (1, 2, 1.5)):
            with self.assertRaises(ValueError):
                Backoff(first, longest, jitter)

    def test_backoff(self) -> None:
        waits = Backoff().waits()
        for longest in (0.5, 1, 2, 4, 4, 4):
            self.assertTrue(longest / 2 <= next(waits) <= longest)


if __name__ == "__main__":
    unittest.main()
