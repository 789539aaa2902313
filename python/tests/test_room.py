"""How many grants are renewed in time, and a client that gives up its allocation by one packet."""
import logging
import math
import unittest
from typing import Any, Dict, List
from unittest import mock

from yarrowdoor import LibraryError, TurnClient, client as sans_io, kept_grants, library, longest_pause
from yarrowdoor.clock import Alarm
from yarrowdoor.counters import Counters
from yarrowdoor.room import Room

from .network import CLIENT, SECOND, Network
from .server import REFRESH, Server, parse
from .test_relay import RelayCase

HAS_THEM = library.load().has_room
WHY = "the library is older than these calls"


def expected(late: int, delay: int, pause: int, ahead: int, slots: int, extras: int) -> int:
    """The most grants for which (count + slots + extras) * (pause + late) + delay + late < ahead, in milliseconds."""
    return max(0, math.ceil((ahead - delay - late) / (pause + late)) - 1 - slots - extras)


@unittest.skipUnless(HAS_THEM, WHY)
class Grants(unittest.TestCase):
    def test_how_many_are_kept(self) -> None:
        for late, delay, pause, ahead, slots, extras in ((2, 450, 5, 150_000, 8, 0), (16, 100, 5, 150_000, 8, 100),
                                                         (0, 0, 50, 60_000, 1, 0), (5, 3_000, 1_000, 10_000, 8, 0)):
            with self.subTest(late=late, delay=delay, pause=pause, ahead=ahead, slots=slots, extras=extras):
                found = kept_grants(late=late / 1e3, delay=delay / 1e3, pause=pause / 1e3, refresh_ahead=ahead / 1e3, slots=slots,
                                    extras=extras)
                self.assertEqual(found, expected(late, delay, pause, ahead, slots, extras))
        self.assertEqual(kept_grants(late=0, delay=0, pause=0), (1 << 64) - 1)

    def test_the_longest_pause(self) -> None:
        # (count + slots) * (pause + late) + delay + late < ahead, solved for the pause
        for count, late, delay, ahead, slots in ((4_096, 2, 450, 150_000, 8), (100, 16, 100, 60_000, 8), (1, 0, 0, 10_000, 0)):
            with self.subTest(count=count, late=late, delay=delay, ahead=ahead, slots=slots):
                load: Dict[str, Any] = {"late": late / 1e3, "delay": delay / 1e3, "slots": slots, "refresh_ahead": ahead / 1e3}
                found = longest_pause(count, **load)
                assert found is not None
                self.assertAlmostEqual(found, ((ahead - delay - late) / (count + slots) - late) / 1e3, delta=2e-9)
                self.assertGreaterEqual(kept_grants(pause=found, **load), count)
                self.assertLess(kept_grants(pause=found + 2e-9, **load), count)
        self.assertIsNone(longest_pause(4_096, late=0.05, delay=0.0, refresh_ahead=60.0))
        with self.assertRaises(ValueError):
            longest_pause(0, late=0.0, delay=0.0)

    def test_what_is_no_load(self) -> None:
        wrong: List[Dict[str, Any]] = [{"late": -1.0}, {"delay": -1.0}, {"slots": -1}, {"extras": 1 << 32}, {"pause": -1.0},
                                       {"refresh_ahead": 0.0}]
        usual: Dict[str, Any] = {"late": 0.0, "delay": 0.0}
        for given in wrong:
            with self.subTest(given=given), self.assertRaises(ValueError):
                kept_grants(**{**usual, **given})

    def test_a_warning_comes_once(self) -> None:
        alarm, counters = mock.Mock(spec=Alarm, late=0.005), Counters()
        counters.measure(0.1)
        room = Room("turn:192.0.2.1", alarm, counters, 1_000_000_000, 10_000_000_000)
        kept = kept_grants(late=0.005, delay=0.1, pause=1.0, refresh_ahead=10.0)
        with self.assertLogs("yarrowdoor", logging.WARNING) as logged:
            for count in range(kept + 3):
                room.counted(count)
        self.assertRegex("".join(logged.output), rf"^WARNING:yarrowdoor:turn:192\.0\.2\.1: {kept + 1} permissions and channels, of "
                         rf"which {kept} are renewed in time \(timers are 5\.0 ms late, and answers take 100 ms\)")
        self.assertEqual(len(logged.output), 1)


@unittest.skipUnless(HAS_THEM, WHY)
class Warned(RelayCase):
    async def test_a_client_with_more_than_it_renews(self) -> None:
        endpoint = await self.serve(Server())
        async with TurnClient(endpoint.uri, "user", "pass", pause=0.2, refresh_ahead=2.0) as relay:
            with self.assertLogs("yarrowdoor", logging.WARNING) as logged:
                for number in range(1, 5):
                    await relay.permit(f"10.1.0.{number}")
        self.assertEqual(len([it for it in logged.output if "renewed in time" in it]), 1)

    async def test_a_client_with_few(self) -> None:
        endpoint = await self.serve(Server())
        async with TurnClient(endpoint.uri, "user", "pass") as relay:
            with self.assertLogs("yarrowdoor", logging.INFO) as logged:
                for number in range(1, 20):
                    await relay.permit(f"10.1.0.{number}")
        self.assertEqual([it for it in logged.output if "renewed in time" in it], [])


@unittest.skipUnless(HAS_THEM, WHY)
class Abandoned(unittest.TestCase):
    def test_one_packet_deletes_the_allocation(self) -> None:
        """Past the pause after another request, and what is queued."""
        network = Network(Server(), pause=10 * SECOND)
        network.run(30)
        client, now = network.client, network.now
        for number in range(3):
            client.create_permission(f"10.1.0.{number + 1}", now)
        packet = client.abandon(now)
        assert packet is not None
        message = parse(packet.data)
        self.assertEqual((message.kind, message.attributes[0x000D]), (REFRESH, bytes(4)))
        network.server.receive(packet.data, CLIENT, now / SECOND)
        self.assertEqual(network.server.allocations, {})
        self.assertIsInstance(client.poll(now), sans_io.Closed)
        self.assertIsNone(client.poll_transmit(now + 100 * SECOND))
        self.assertIsNone(client.abandon(now))

    def test_nothing_that_was_granted(self) -> None:
        client = sans_io.Client(CLIENT, ("10.0.0.2", 3478), "user", "pass")
        self.assertIsNone(client.abandon(0))
        self.assertIsInstance(client.poll(0), sans_io.Closed)


class OlderLibrary(unittest.TestCase):
    def test_it_is_refused_in_words(self) -> None:
        loaded = library.load()
        client = sans_io.Client(CLIENT, ("10.0.0.2", 3478), "user", "pass")
        with mock.patch.multiple(loaded, _kept_grants=None, _longest_cadence=None, has_room=False, has_abandon=False):
            with self.assertRaisesRegex(LibraryError, "is older than this package: it has no yarrowdoor_kept_grants$"):
                kept_grants(late=0.0, delay=0.0)
            with self.assertRaisesRegex(LibraryError, "is older than this package: it has no yarrowdoor_longest_cadence$"):
                longest_pause(1, late=0.0, delay=0.0)
            with self.assertRaisesRegex(LibraryError, "is older than this package: it has no call to abandon allocations$"):
                client.abandon(0)
            Room("", mock.Mock(spec=Alarm, late=1e6), Counters(), 10**9, 10**9).counted(100)  # It does not warn.


if __name__ == "__main__":
    unittest.main()
