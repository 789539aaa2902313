"""A client without I/O against the server of the tests, in a time of its own, and what is no client."""
import unittest
from collections import Counter
from typing import Any, List
from unittest import mock

from yarrowdoor import Address, Times, TurnClient
from yarrowdoor.client import (
    AllocationCreated, AllocationCreateFailed, ChannelCreated, ChannelCreateFailed, PermissionCreated, PermissionCreateFailed,
)
from yarrowdoor.uri import TurnUri

from .network import SECOND, Network
from .server import Server as TestServer


class InItsOwnTime(unittest.TestCase):
    """`client.Client` and a server, with a network in between."""

    def allocated(self, server: TestServer, **settings: Any) -> Network:
        network = Network(server, **settings)
        network.run(30)
        self.assertEqual(network.events, [AllocationCreated(Address("10.9.9.9", 40000), "udp")])
        return network

    def test_thirty_peers_and_a_stale_nonce(self) -> None:
        server = TestServer(nonce_life=5)
        network = self.allocated(server)
        peers = [(f"10.1.0.{number}", 9000) for number in range(30)]
        for number, peer in enumerate(peers):
            network.client.bind_channel(peer, network.now)
            network.run(31 + number)
        self.assertEqual([it.peer for it in network.of(ChannelCreated)], peers)
        for minute in range(1, 31):
            network.run(60 * minute)
            for peer in peers:
                network.send(b"%d" % minute, peer)
        network.run(1801)
        self.assertFalse(network.is_closed)
        self.assertEqual(network.of(PermissionCreateFailed) + network.of(ChannelCreateFailed), [])
        wanted = [(b"%d" % minute, peer) for minute in range(1, 31) for peer in peers]
        self.assertEqual(sorted(network.data), sorted(wanted))
        self.assertGreater(server.challenges, 50)
        self.assertGreater(server.refreshes, 30 * 5)

    def thirty_peers_over_a_slow_link(self, limit: int) -> Network:
        """A client after 20 minutes with a round trip of 700 ms, whose requests leave long before the first one is answered."""
        network = self.allocated(TestServer(nonce_life=5), delay=0.35, max_stale_nonces=limit, pause=5_000_000)
        for number in range(30):
            network.client.create_permission(f"10.1.0.{number}", network.now)
        network.run(1200)
        return network

    def test_a_limit_of_challenges_above_the_number_of_peers(self) -> None:
        network = self.thirty_peers_over_a_slow_link(256)
        self.assertFalse(network.is_closed)
        self.assertEqual((len(network.of(PermissionCreated)), network.of(PermissionCreateFailed)), (30, []))

    def test_a_limit_of_challenges_below_the_number_of_peers(self) -> None:
        network = self.thirty_peers_over_a_slow_link(9)
        self.assertTrue(network.is_closed)
        self.assertEqual(network.of(PermissionCreated), [])

    def most_at_once(self, **settings: Any) -> int:
        """How many packets leave in one instant after 250 permissions were requested at once. Each request is answered in 20 ms."""
        network = self.allocated(TestServer(), **settings)
        left: Counter[int] = Counter()
        carry = network.to_server

        def counted(data: bytes) -> None:
            left[network.now] += 1
            carry(data)

        with mock.patch.object(network, "to_server", counted):
            for number in range(250):
                network.client.create_permission(f"10.1.0.{number}", network.now)
            network.run(60)
        self.assertEqual(len(network.of(PermissionCreated)), 250)
        return max(left.values())

    def test_a_burst(self) -> None:
        self.assertEqual(self.most_at_once(), 1)
        self.assertGreater(self.most_at_once(timed_from_send=False), 200)

    def test_loss_and_late_and_doubled_packets(self) -> None:
        network = self.allocated(TestServer(), loss=0.1, doubled=0.1, jitter=0.2, seed=7)
        peer = ("10.1.0.1", 9000)
        network.client.create_permission(peer[0], network.now)
        network.run(60)
        network.client.bind_channel(peer, network.now)
        network.run(90)
        self.assertEqual(len(network.of(PermissionCreated)), 1)
        self.assertEqual(len(network.of(ChannelCreated)), 1)
        for number in range(1000):
            network.run(90 + number)
            network.send(b"%d" % number, peer)
        network.run(1200)
        self.assertFalse(network.is_closed)
        self.assertEqual(network.of(PermissionCreateFailed) + network.of(ChannelCreateFailed), [])
        came = {data for data, _ in network.data}
        self.assertLessEqual(came, {b"%d" % number for number in range(1000)})
        self.assertGreater(len(came), 750)  # 0.9 * 0.9 of them
        self.assertGreater(len(network.data), len(came))  # some of them twice

    def test_a_wrong_password_is_silence(self) -> None:
        network = Network(TestServer(password="other"))
        network.run(60)
        self.assertTrue(network.is_closed)
        self.assertEqual(network.events, [])
        self.assertAlmostEqual(network.now / SECOND, 39.5, delta=0.5)

    def test_a_refused_allocation(self) -> None:
        network = Network(TestServer(allocate_error=486))
        network.run(60)
        self.assertEqual(network.events, [AllocationCreateFailed(4)])
        self.assertTrue(network.is_closed)
        self.assertLess(network.now, SECOND)

    def test_a_server_that_dies(self) -> None:
        server = TestServer()
        network = self.allocated(server)
        network.client.create_permission("10.1.0.1", network.now)
        network.run(31)
        server.is_dead = True
        network.run(400)
        self.assertEqual([it.ip for it in network.of(PermissionCreateFailed)], ["10.1.0.1"])
        network.run(700)
        self.assertTrue(network.is_closed)
        self.assertLessEqual(network.now, 601 * SECOND)

    def test_own_times(self) -> None:
        server = TestServer()
        server.is_dead = True
        times = Times(initial=SECOND, longest=2 * SECOND, last=3 * SECOND, count=4)
        network = Network(server, times=times)
        network.run(60)
        self.assertEqual(network.sent_packets, 4)
        self.assertEqual(network.events, [AllocationCreateFailed(4)])
        self.assertEqual(network.now, 8 * SECOND)  # 1 + 2 + 2, and 3 after the last one

    def test_the_times_of_the_readme(self) -> None:
        server = TestServer()
        server.is_dead = True
        network = Network(server, times=Times.seconds(initial=0.2, longest=0.8, last=1.6, count=4))
        network.run(60)
        self.assertEqual((network.sent_packets, network.now), (4, 3 * SECOND))


class Arguments(unittest.TestCase):
    """What is no client, told when it is made."""

    def test_tls_over_udp(self) -> None:
        with self.assertRaises(ValueError):
            TurnClient(TurnUri("turn.example.org", 5349, "udp", secure=True), "user", "pass")

    def test_credentials(self) -> None:
        wrong: List[Any] = [(5, "pass", "user"), ("user", 5, "password")]
        for user, password, name in wrong:
            with self.assertRaisesRegex(TypeError, f"^{name} is str or bytes, and not "):
                TurnClient("turn:127.0.0.1", user, password)
        for missing in ((None, "pass"), ("user", None)):
            with self.assertRaisesRegex(TypeError, "^user and password are missing, or credentials="):
                TurnClient("turn:127.0.0.1", *missing)

    def test_times(self) -> None:
        wrong: List[Any] = [3, 0.5, (1, 2, 3, 4)]
        for times in wrong:
            with self.assertRaisesRegex(TypeError, "^times is a yarrowdoor.Times, whose waits are nanoseconds"):
                TurnClient("turn:127.0.0.1", "user", "pass", times=times)
        half: Any = 0.5
        for times in (Times(initial=half), Times(initial=-1), Times(initial=1 << 64)):
            with self.assertRaisesRegex(ValueError, "^times.initial is a whole number of nanoseconds"):
                TurnClient("turn:127.0.0.1", "user", "pass", times=times)

    def test_times_in_seconds(self) -> None:
        self.assertEqual(Times.seconds(0.2, 0.8, 1.6, 4), Times(200_000_000, 800_000_000, 1_600_000_000, 4))
        default = Times()
        self.assertEqual(Times.seconds(longest=1.0), Times(default.initial, SECOND, default.last, default.count))
        for wrong in (-0.1, 1.1e9, float("nan"), float("inf")):
            with self.assertRaisesRegex(ValueError, "^last is a number of seconds from 0 to 1e9, and not "):
                Times.seconds(last=wrong)


if __name__ == "__main__":
    unittest.main()
