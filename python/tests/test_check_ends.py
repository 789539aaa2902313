"""Checks that end too early: a server that goes in the middle, a broken handshake, an interrupt. Each has an answer."""
import contextlib
import io
import json
import os
import shutil
import signal
import socket
import ssl
import tempfile
import threading
import unittest
from dataclasses import replace
from typing import Any, Callable, Dict, Iterator, List, Tuple
from unittest import mock

from yarrowdoor import Address
from yarrowdoor.command import extras, joining, output, outside, traffic
from yarrowdoor.command.credentials import Credentials
from yarrowdoor.command.driver import leave_all
from yarrowdoor.command.exchange import Exchange
from yarrowdoor.command.pair import Server, find_way, join
from yarrowdoor.command.steps import Outcome, Step
from yarrowdoor.uri import parse
from yarrowdoor.wire import Tap

from . import coturn, turn_servers
from .server import parse as parse_message, unxored
from .test_command import check, command
from .threaded import Ipv4Server, Threaded


def json_of(*words: str) -> Tuple[int, Dict[str, Any]]:
    """The status of a check, and its whole object of JSON."""
    status, out, _ = command("check", *words, "--user", "user", "--json")
    found: Dict[str, Any] = json.loads(out)
    return status, found


def hooked(name: str, do: Callable[[], object]) -> Any:
    """Has something done as soon as a step of this name is added."""
    add = output.JsonOutput.add

    def added(self: output.JsonOutput, step: Step) -> None:
        add(self, step)
        if step.name == name:
            do()

    return mock.patch.object(output.JsonOutput, "add", added)


class Payload(unittest.TestCase):
    def test_nothing_that_passes_is_an_answer(self) -> None:
        with Threaded(Ipv4Server(), loss=1.0) as server:
            opened: List[Exchange] = []
            asked = Server(parse(server.uri), Credentials("user", "pass"), None, None, 1.5, Tap())
            try:
                trip = join(asked, find_way(asked), opened, None, False)
                step = traffic.payload_step(trip, 65_468, 0.01)
            finally:
                leave_all(opened)
        self.assertEqual((step.outcome, step.facts["bytes"]), (Outcome.FAILED, 0))
        self.assertIn("none passes", step.said)


class Rates(unittest.TestCase):
    def test_over_a_stream_loss_comes_before_a_limit_of_rate(self) -> None:
        for is_stream, said in ((True, "the network on the way loses packets, for which a stream waits"), (False, "a policer")):
            trip = mock.Mock()
            trip.sender.wire.is_stream = is_stream
            step = traffic._judged(trip, "messages", traffic.Echoes(100, [0.001] * 6), 1.0, True)
            self.assertEqual((step.outcome, step.facts["received"]), (Outcome.FAILED, 6))
            self.assertIn(said, step.advice)

    def test_what_a_stream_has_sent_again_is_named(self) -> None:
        for resent, said in ((2, ""), (4, "TCP has sent 8 packets again from here")):
            trip = mock.Mock(all=[mock.Mock(**{"count_resent.return_value": resent}) for _ in range(2 if said else 1)])
            step = traffic._judged(trip, "messages", traffic.Echoes(100, [0.001] * 100), 1.0, False)
            self.assertEqual((step.outcome, step.advice[:len(said) or 9]), (Outcome.OK, said))


class Pauses(unittest.TestCase):
    """A clock that only moves while packets are sent, and while what comes is waited for."""

    def sent(self, late: float, stall: float = 0.0) -> List[float]:
        """When packets leave with a pause of 2 ms, each wait of which ends so much later, and once so much later still."""
        now, times = [0.0], []  # type: List[float], List[float]
        trip = mock.Mock(all=[])

        def drive(holds: Callable[[], bool], seconds: float) -> bool:
            now[0] += max(0.0, seconds) + late + (stall if len(times) == 20 else 0.0)
            return holds()

        trip.drive.side_effect = drive
        trip.sender.send.side_effect = lambda data, peer: times.append(now[0])
        with mock.patch("time.monotonic", lambda: now[0]):
            traffic.send_all(trip, [100] * 100, 0.002, 0.0, lambda number: None)
        return times

    def test_what_sending_takes_is_a_part_of_the_pause(self) -> None:
        for late in (0.0, 0.0005, 0.001):
            self.assertAlmostEqual(self.sent(late)[-1], 0.198, delta=0.003)

    def test_a_stall_is_not_made_up_for_in_a_burst(self) -> None:
        times = self.sent(0.0, 0.1)
        self.assertAlmostEqual(times[-1], 0.298, delta=0.003)
        self.assertGreater(min(after - before for before, after in zip(times, times[1:])), 0.0004)


class Balancers(unittest.TestCase):
    def test_what_follows_from_one_does_not_fail(self) -> None:
        failed = Step("permission", Outcome.FAILED, "refused: 437", 0.0, "Mend it.", {"code": 437})
        rows = ((0, "permission", Outcome.FAILED), (2, "permission", Outcome.NOTE), (2, "udp", Outcome.FAILED))
        for stale, name, outcome in rows:
            step = extras.blamed_on_balancer(replace(failed, name=name), [mock.Mock(stale_early=stale)])
            self.assertEqual((step.outcome, "`balancer`" in step.advice), (outcome, outcome is Outcome.NOTE))


class PartOfThePorts(unittest.TestCase):
    """Two relayed addresses, of which a firewall lets packets in to some."""

    def tried(self, *reached: int) -> Step:
        """The step `outside`, where packets get to these of both."""
        exchanges = [mock.Mock(), mock.Mock()]
        for it in exchanges:
            it.wire.local, it.round_trip.return_value = ("127.0.0.1", 9), 0.0
        with contextlib.ExitStack() as stack:
            relays = [stack.enter_context(socket.socket(type=socket.SOCK_DGRAM)) for _ in exchanges]
            for sock in relays:
                sock.bind(("127.0.0.1", 0))
                sock.settimeout(5.0)
            own = [Address(*it.getsockname()) for it in relays]
            tried = stack.enter_context(outside.Outside(exchanges[0], own[0], ["127.0.0.1"]))
            tried.begin()
            tried.send_further(exchanges[1], own[1])
            for number in reached:
                for _ in range(outside.COUNT):
                    data, source = relays[number].recvfrom(100)
                    exchanges[number].on_data(data, Address(*source))
            step = tried.finish([])
        return step

    def test_one_that_is_not_reached_is_named(self) -> None:
        for reached in (0, 1):
            step = self.tried(reached)
            self.assertEqual((step.facts["in"], step.facts["further_in"]), (3 - 3 * reached, 3 * reached))
            self.assertEqual(step.outcome, Outcome.FAILED)
            self.assertIn("a part of the relay ports", step.advice)

    def test_both_or_none(self) -> None:
        self.assertIn("(egress)", self.tried(0, 1).advice)  # These exchanges send nothing.
        self.assertIn("not the relay ports", self.tried().advice)

    def test_what_comes_of_others_is_left_to_them(self) -> None:
        exchange, came = mock.Mock(), mock.Mock()
        exchange.wire.local, exchange.on_data = ("127.0.0.1", 9), came
        with outside.Outside(mock.Mock(wire=exchange.wire), Address("127.0.0.1", 9), ["127.0.0.1"]) as tried:
            tried.send_further(exchange, Address("127.0.0.1", 9))
            exchange.on_data(b"of another", Address("127.0.0.1", 9))
        came.assert_called_once_with(b"of another", Address("127.0.0.1", 9))


class Security(unittest.TestCase):
    """The server relays at 10.9.9.9."""

    def tried(self, *denied: str) -> Dict[str, Any]:
        with Threaded(Ipv4Server(denied=denied)) as server:
            _, steps = check(server, "--security")
            indications = [parse_message(it) for it in server.received if it[:2] == b"\x00\x16"]
            self.assertEqual({unxored(it.attributes[0x0012])[0] for it in indications}, {"10.9.9.9"})
        return {name: it for name, it in steps.items() if name.startswith("security")}

    def test_each_network_that_is_open_has_its_line(self) -> None:
        steps = self.tried("127.0.0.1", "0.0.0.0", "192.168.0.1")
        outcomes = {name: it["outcome"] for name, it in steps.items()}
        self.assertEqual(outcomes, {"security-metadata": "failed", "security-private-10": "note", "security-private-172": "failed",
                                    "security-shared": "failed"})
        self.assertIn("denied-peer-ip=169.254.0.0-169.254.255.255", steps["security-metadata"]["advice"])
        self.assertEqual(steps["security-private-172"]["facts"]["line"], "denied-peer-ip=172.16.0.0-172.31.255.255")

    def test_a_server_that_is_closed(self) -> None:
        denied = ("169.254.169.254", "127.0.0.1", "0.0.0.0", "10.0.0.1", "172.16.0.1", "192.168.0.1", "100.64.0.1")
        steps = self.tried(*denied)
        self.assertEqual([(name, it["outcome"]) for name, it in steps.items()], [("security", "ok")])


@unittest.skipUnless(coturn.IS_HERE, coturn.WHY)
class Killed(unittest.TestCase):
    """The server is killed when a step is done, and what was found by then is kept."""

    def killed_after(self, name: str, form: str) -> List[Dict[str, Any]]:
        with coturn.coturn() as server, hooked(name, lambda: os.kill(server.pid, signal.SIGKILL)):
            status, found = json_of(server.uri(form))
        self.assertEqual((status, found["status"]), (1, 1))
        steps: List[Dict[str, Any]] = found["steps"]
        self.assertEqual((steps[-1]["name"], steps[-1]["outcome"]), ("connection", "failed"))
        self.assertIn("went in the middle of this check", steps[-1]["advice"])
        for step in steps[:-1]:
            self.assertNotIn("firewall", step["advice"] if step["outcome"] == "failed" else "")
        return steps

    def test_over_udp(self) -> None:
        for name in ("challenge", "permission", "messages"):
            with self.subTest(name):
                steps = self.killed_after(name, "turn:127.0.0.1:{port}")
                self.assertIn(name, [it["name"] for it in steps])

    def test_over_tcp(self) -> None:
        for name in ("allocation", "messages"):
            with self.subTest(name):
                steps = self.killed_after(name, "turn:127.0.0.1:{port}?transport=tcp")
                self.assertIn(name, [it["name"] for it in steps])
                self.assertNotIn("relays no TCP", json.dumps(steps))


@contextlib.contextmanager
def wanting_a_certificate(room: str) -> Iterator[Tuple[int, str]]:
    """A server of TLS that ends each connection, since the client has no certificate: its port, and its certificate."""
    files = turn_servers.make_certificate(room, "127.0.0.1")
    context = ssl.SSLContext(ssl.PROTOCOL_TLS_SERVER)
    context.load_cert_chain(*files)
    context.load_verify_locations(files[0])
    context.verify_mode = ssl.CERT_REQUIRED
    with socket.create_server(("127.0.0.1", 0)) as listening:
        def serve() -> None:
            with contextlib.suppress(OSError):
                while True:
                    one, _ = listening.accept()
                    with contextlib.suppress(OSError):
                        context.wrap_socket(one, server_side=True).close()

        thread = threading.Thread(target=serve)
        thread.start()
        try:
            yield listening.getsockname()[1], files[0]
        finally:
            listening.shutdown(socket.SHUT_RDWR)
            thread.join()


@unittest.skipUnless(shutil.which("openssl"), "openssl is not installed, which makes a certificate")
class Handshake(unittest.TestCase):
    def test_one_that_breaks_after_its_end_is_a_step(self) -> None:
        with tempfile.TemporaryDirectory() as room, wanting_a_certificate(room) as (port, certificate):
            for _ in range(3):  # The alert comes before the certificate is read, or after it.
                status, found = json_of(f"turns:127.0.0.1:{port}", "--ca", certificate)
                self.assertEqual((status, found["steps"][-1]["name"], found["steps"][-1]["outcome"]), (1, "tls", "failed"))
                self.assertNotIn("error", found)


@unittest.skipUnless(coturn.IS_HERE, coturn.WHY)
class Connections(unittest.TestCase):
    def test_one_that_is_not_made_in_time_is_no_refusal(self) -> None:
        def connect(*words: Any, **more: Any) -> Any:
            raise socket.timeout("timed out")

        with coturn.coturn() as server, mock.patch("yarrowdoor.command.driver.connect_stream", connect):
            status, found = json_of(server.uri())
        step = found["steps"][-1]
        self.assertEqual((status, step["name"], step["outcome"]), (1, "connection", "failed"))
        self.assertIn("was not made in time: packets are lost on the way", step["advice"])


class Json(unittest.TestCase):
    def test_it_has_a_version_and_each_step_a_name_of_its_own(self) -> None:
        shown = output.JsonOutput(io.StringIO(), "turn:x")
        for _ in range(3):
            shown.add(Step("allocation", Outcome.OK, "said"))
        self.assertEqual([it.name for it in shown.steps], ["allocation", "allocation-2", "allocation-3"])
        with Threaded(Ipv4Server()) as server:
            _, found = json_of(server.uri)
        names = [it["name"] for it in found["steps"]]
        self.assertEqual((found["version"], len(names)), (1, len({*names})))

    def test_an_interrupt_keeps_what_was_found(self) -> None:
        def interrupt() -> None:
            raise KeyboardInterrupt

        with Threaded(Ipv4Server()) as server, hooked("permission", interrupt):
            status, found = json_of(server.uri)
            self.assertEqual(server.server.allocations, {})
        self.assertEqual((status, found["status"], found["error"]), (130, 130, "interrupted"))
        self.assertEqual(found["steps"][-1]["name"], "permission")

    def test_an_error_keeps_what_was_found(self) -> None:
        with Threaded(Ipv4Server()) as server, mock.patch.object(joining, "permission_step", side_effect=ValueError("planted")):
            status, found = json_of(server.uri)
            self.assertEqual(server.server.allocations, {})
        self.assertEqual((status, found["error"]), (2, "planted"))
        self.assertIn("allocation", [it["name"] for it in found["steps"]])

    def test_what_cannot_be_tried_has_the_same_form(self) -> None:
        status, out, _ = command("check", "turn:127.0.0.1:1", "--user", "u", "--json", env={})
        self.assertEqual((status, [*json.loads(out)]), (2, ["version", "uri", "status", "error", "steps"]))

    def test_each_name_of_a_step_is_of_one_step(self) -> None:
        with Threaded(Ipv4Server(allocate_error=486)) as server:
            _, steps = check(server)
        self.assertEqual(steps["allocation"]["facts"]["code"], 486)


if __name__ == "__main__":
    unittest.main()
