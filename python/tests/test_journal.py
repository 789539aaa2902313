"""What the log has, and the counters."""
import asyncio
import dataclasses
import logging
import subprocess
import sys
import unittest
import unittest.mock
from typing import Any, List, Tuple

from yarrowdoor import Clock, Counters, Ended, PermissionFailed, TurnClient

from .case import Case
from .server import CREATE_PERMISSION, Server, Where, parse

PEER, OTHER = ("10.1.0.1", 9), ("10.1.0.2", 9)


class Deaf(Server):
    """A server that does not hear the first copy of a request for a permission."""

    def __init__(self, **settings: Any) -> None:
        super().__init__(**settings)
        self.heard: List[bytes] = []

    def receive(self, data: bytes, source: Where, now: float) -> List[Tuple[bytes, Where]]:
        if data[0] < 4 and parse(data).kind == CREATE_PERMISSION:
            self.heard.append(parse(data).transaction)
            if self.heard.count(self.heard[-1]) == 1:
                return []
        return super().receive(data, source, now)


class Log(Case):
    async def test_lines(self) -> None:
        endpoint = await self.serve(Server(denied=(OTHER[0],), password="passw0rd"))
        with self.assertLogs("yarrowdoor", "DEBUG") as logs:
            async with TurnClient(endpoint.uri, "user", "passw0rd") as relay:
                own = relay.local_address
                await relay.bind(PEER)
                with self.assertRaises(PermissionFailed):
                    await relay.permit(OTHER[0])
                await relay.send(b"he", PEER)
                await relay.receive()
        server, relayed = f"turn:{endpoint.uri[5:]}?transport=udp", "10.9.9.9:40000"
        lines = [(it.levelname, it.getMessage()) for it in logs.records]
        self.assertEqual(lines[:3], [
            ("INFO", f"{server}: connected from {own} to {endpoint.uri[5:]}"),
            ("DEBUG", f"{server}: refused: allocation (401 no)"),
            ("INFO", f"{relayed}: allocated by {server} for {own}"),
        ])
        self.assertEqual(sorted(lines[3:5]), [
            ("INFO", f"{relayed}: granted: channel to 10.1.0.1:9"), ("INFO", f"{relayed}: granted: permission of 10.1.0.1"),
        ])
        self.assertEqual(lines[5:], [
            ("WARNING", f"{relayed}: refused: permission of 10.1.0.2 (403 no)"),
            ("DEBUG", f"{relayed}: deleted"),
            ("INFO", f"{relayed}: ended: the client was closed"),
        ])
        self.has_no_secret(lines)

    def has_no_secret(self, lines: List[Tuple[str, str]]) -> None:
        """Neither password, key, nonce nor data."""
        for _, line in lines:
            for secret in ("passw0rd", b"he".hex(), "nonce", "key", "b'"):
                self.assertNotIn(secret, line)

    async def test_refreshes_and_the_end(self) -> None:
        endpoint = await self.serve(Server())
        with self.assertLogs("yarrowdoor", "DEBUG") as logs:
            # (a faster clock takes a pause of a busy machine for a minute without answers)
            async with TurnClient(endpoint.uri, "user", "pass", clock=Clock(rate=40), probe=15) as relay:
                await relay.bind(PEER)
                await relay.permit(OTHER[0])
                relay.release(OTHER[0])
                while not relay.closed and not any("refreshed: channel" in it for it in logs.output):
                    await asyncio.sleep(0.01)
                endpoint.server.is_dead = True
                with self.assertRaises(Ended):
                    await asyncio.wait_for(relay.wait_closed(), 60)
        lines = {(it.levelname, it.getMessage()) for it in logs.records}
        for level, what in (("DEBUG", "refreshed"), ("DEBUG", "refreshed: permission of 10.1.0.1"),
                            ("DEBUG", "refreshed: channel to 10.1.0.1:9"), ("DEBUG", "ended: permission of 10.1.0.2")):
            self.assertIn((level, f"10.9.9.9:40000: {what}"), lines)
        (last,) = [it for it in logs.records if it.getMessage().startswith("10.9.9.9:40000: ended: the")]
        self.assertRegex(last.getMessage(), "ended: the connection to the server has ended: no answer from ")
        self.assertEqual(last.levelname, "WARNING")

    async def test_a_loss(self) -> None:
        endpoint = await self.serve(Server())
        with self.assertLogs("yarrowdoor", "WARNING") as logs:
            async with TurnClient(endpoint.uri, "user", "pass", clock=Clock(rate=30)) as relay:
                await relay.permit(PEER[0])
                endpoint.server.denied = (PEER[0],)
                while not relay.lost:
                    await asyncio.sleep(0.01)
        self.assertEqual([it.getMessage() for it in logs.records], ["10.9.9.9:40000: lost: permission of 10.1.0.1 (403 no)"])

    async def test_wrong_credentials(self) -> None:
        endpoint = await self.serve(Server())
        with self.assertLogs("yarrowdoor", "WARNING") as logs:
            with self.assertRaises(Exception):
                await TurnClient(endpoint.uri, "user", "passw0rd").open()
        lines = [(it.levelname, it.getMessage()) for it in logs.records]
        self.assertRegex(lines[0][1], r": refused: allocation \(401 no\)$")
        self.has_no_secret(lines)

    def test_nothing_is_printed_where_nobody_asks(self) -> None:
        program = "import logging, yarrowdoor; logging.getLogger('yarrowdoor').warning('x')"
        ran = subprocess.run([sys.executable, "-c", program], stderr=subprocess.PIPE, text=True, check=True)
        self.assertEqual(ran.stderr, "")
        self.assertEqual(logging.getLogger("yarrowdoor").level, logging.NOTSET)


class Numbers(Case):
    async def test_counters(self) -> None:
        endpoint = await self.serve(Server())
        async with TurnClient(endpoint.uri, "user", "pass", queue=2) as relay:
            before = relay.counters
            self.assertEqual(dataclasses.replace(before, round_trip=None), Counters(requests=2))
            assert before.round_trip is not None
            self.assertTrue(0 < before.round_trip < 5)
            await relay.bind(PEER)
            for size in (0, 1, 1000, 10):
                relay.sendto(bytes(size), PEER)
            while relay.counters.packets_in < 4:
                await asyncio.sleep(0.01)
            found = relay.counters
            self.assertEqual(dataclasses.replace(found, round_trip=None), Counters(4, 1011, 4, 1011, 2, 0, 3))
            self.assertEqual(before.packets_in, 0)  # a copy
        self.assertEqual(relay.counters.packets_out, 4)  # it can be read after the end too

    async def test_requests_that_are_sent_again(self) -> None:
        endpoint = await self.serve(Deaf())
        async with TurnClient(endpoint.uri, "user", "pass") as relay:
            first = relay.counters
            await relay.permit(PEER[0])
            found = relay.counters
            self.assertEqual((found.requests - first.requests, found.retransmissions), (1, 1))
            # The answer may be to either copy, so that it says nothing of the round trip (RFC 6298, section 3).
            self.assertEqual(found.round_trip, first.round_trip)

    async def test_unsent(self) -> None:
        endpoint = await self.serve(Server())
        async with TurnClient(endpoint.uri, "user", "pass") as relay:
            await relay.permit(PEER[0])
            with unittest.mock.patch.object(relay._session().link, "send_data", lambda data: False):  # as where it is full
                relay.sendto(b"x", PEER)
            self.assertEqual((relay.counters.unsent, relay.counters.packets_out), (1, 0))

    def test_the_mean(self) -> None:
        counters = Counters()
        for seconds, mean in ((0.8, 0.8), (1.6, 0.9), (0.9, 0.9)):
            counters.measure(seconds)
            self.assertAlmostEqual(counters.round_trip or 0, mean)


if __name__ == "__main__":
    unittest.main()
