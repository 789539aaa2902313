"""`yarrowdoor load`: what stops it, what it measures, and that all is given back, however it ends."""
import json
import os
import resource
import signal
import subprocess
import sys
import time
import unittest
from typing import Any, Dict, List, Optional, Tuple
from unittest import mock

from yarrowdoor import reasons
from yarrowdoor.command import driver, output, ramp
from yarrowdoor.command.percentiles import percentile, percentiles
from yarrowdoor.command.steps import Step

from . import coturn
from .server import Allocation, Message, Where
from .test_command import command
from .test_packets import PACKAGE, echoing, start
from .threaded import Ipv4Server, Threaded
from .turn_servers import limit

QUICK = ("--rate", "200", "--packets", "4", "--hold", "0.3")


class Limited(Ipv4Server):
    """A server that grants so many allocations at one time, and then refuses by this error."""

    def __init__(self, most: int, code: int = 486) -> None:
        super().__init__()
        self.most, self.code, self.least, self.granted = most, code, 0, 0

    def allocate(self, message: Message, source: Where, allocation: Optional[Allocation], now: float) -> bytes:
        if len(self.allocations) >= self.most:
            return self.error(message, self.code)
        self.granted += 1
        return super().allocate(message, source, allocation, now)


def load(server: Threaded, *words: str) -> Tuple[int, Dict[str, Any], Dict[str, Any]]:
    """The status, the steps by name, and the whole object."""
    status, out, errors = command("load", server.uri, "--user", "user", "--json", *words)
    if errors:
        raise AssertionError(errors)
    found = json.loads(out)
    names = [it["name"] for it in found["steps"]]
    if len(names) != len(set(names)) or found["version"] != 1:
        raise AssertionError(out)
    return status, {it["name"]: it for it in found["steps"]}, found


class Percentiles(unittest.TestCase):
    def test_by_the_nearest_rank(self) -> None:
        # The example of NIST's handbook of statistics has others; this is the definition: the least value that so many percent of
        # the values do not exceed.
        times = [15.0, 20.0, 35.0, 40.0, 50.0]
        self.assertEqual([percentile(times, it) for it in (5, 30, 40, 50, 100)], [15, 20, 20, 35, 50])
        self.assertEqual(percentiles([3.0]), {"p50": 3.0, "p90": 3.0, "p99": 3.0, "most": 3.0})
        self.assertEqual(percentiles([float(it) for it in range(100, 0, -1)]), {"p50": 50, "p90": 90, "p99": 99, "most": 100})
        self.assertEqual(percentiles([]), {})


class Loads(unittest.TestCase):
    def test_all_that_is_asked_for(self) -> None:
        for more in ((), ("--channel",)):
            with Threaded(Ipv4Server()) as server:
                status, steps, _ = load(server, "--allocations", "7", *QUICK, *more)
                self.assertEqual(server.server.allocations, {})
            self.assertEqual((status, [*steps]), (0, ["name", "udp", "ramp", "packets", "hold", "given-back"]))
            facts = steps["ramp"]["facts"]
            self.assertEqual((facts["granted"], facts["stopped"]), (7, "asked"))
            self.assertLessEqual(facts["p50"], facts["most"])
            self.assertEqual((steps["packets"]["facts"]["sent"], steps["packets"]["facts"]["received"]), (12, 12))
            self.assertEqual(steps["given-back"]["facts"], {"held": 7, "given_back": 7})

    def test_the_first_refusal_stops_it(self) -> None:
        limited = Limited(5)
        with Threaded(limited) as server:
            status, steps, _ = load(server, "--allocations", "400", *QUICK)
            self.assertEqual(server.server.allocations, {})
        step = steps["ramp"]
        self.assertEqual((status, step["outcome"], step["facts"]["stopped"], step["facts"]["code"]), (0, "note", "refused", 486))
        self.assertEqual((step["facts"]["granted"], limited.granted, step["facts"]["phrase"]), (5, 5, "no"))
        self.assertIn("user-quota=", step["advice"])
        # Each has an ALLOCATE that is not signed. On a busy machine many are on the way when the first refusal comes.
        unsigned = [it for it in server.received if it[:2] == b"\0\3" and reasons.attribute(it, 0x0006) is None]
        self.assertLess(len({*unsigned}), 400)

    def test_a_refusal_that_is_no_limit_is_a_failure(self) -> None:
        for most, code in ((3, 403), (0, 486)):
            with Threaded(Limited(most, code)) as server:
                status, steps, _ = load(server, "--allocations", "9", *QUICK)
                self.assertEqual(server.server.allocations, {})
            step = steps["ramp"]
            self.assertEqual((status, step["outcome"], step["facts"]["code"], step["facts"]["granted"]), (1, "failed", code, most))

    def test_local_ports_that_are_taken(self) -> None:
        taken: Dict[Where, bool] = {}

        class Taken(Limited):
            """It has something of each second local port that comes: of those that the system draws too many may be taken."""

            def allocate(self, message: Message, source: Where, allocation: Optional[Allocation], now: float) -> bytes:
                if taken.setdefault(source, len(taken) % 2 == 1):
                    return self.error(message, 437)
                return super().allocate(message, source, allocation, now)

        with Threaded(Taken(100)) as server:
            status, steps, _ = load(server, "--allocations", "9", *QUICK)
            self.assertEqual(server.server.allocations, {})
        facts = steps["ramp"]["facts"]
        self.assertEqual((status, facts["granted"], facts["stopped"]), (0, 9, "asked"))
        self.assertGreater(facts["again"], 0)
        with Threaded(Ipv4Server(allocate_error=437)) as server:
            status, steps, _ = load(server, "--allocations", "9", *QUICK)
        self.assertEqual((status, steps["ramp"]["outcome"], steps["ramp"]["facts"]["code"]), (1, "failed", 437))

    def test_the_rate_is_kept(self) -> None:
        with Threaded(Ipv4Server()) as server:
            _, steps, _ = load(server, "--allocations", "11", "--rate", "20", "--packets", "0", "--hold", "0")
        self.assertTrue(0.5 <= steps["ramp"]["facts"]["seconds"] <= limit(0.7), steps["ramp"])
        self.assertNotIn("packets", steps)

    def test_packets_that_are_lost(self) -> None:
        with Threaded(Ipv4Server(), loss=0.3) as server:
            status, steps, _ = load(server, "--allocations", "4", "--rate", "100", "--packets", "50", "--hold", "0.5")
        step = steps["packets"]
        self.assertEqual((status, step["outcome"], step["facts"]["sent"]), (1, "failed", 100))
        self.assertTrue(30 <= step["facts"]["received"] <= 70, step)  # 49 of 100 pass both ways
        self.assertIn("--max-loss", step["advice"])
        with Threaded(Ipv4Server(), loss=0.3) as server:
            status, steps, _ = load(server, "--allocations", "4", *QUICK, "--max-loss", "60")
        self.assertEqual((status, steps["packets"]["outcome"]), (0, "ok"))

    def test_peers_that_are_refused(self) -> None:
        with Threaded(Ipv4Server(denied=("10.9.9.9",))) as server:
            status, steps, _ = load(server, "--allocations", "4", *QUICK)
            self.assertEqual(server.server.allocations, {})
        self.assertEqual((status, steps["permission"]["facts"]["code"], "packets" in steps), (1, 403, False))

    def test_a_server_that_falls_silent_in_the_ramp(self) -> None:
        limited = Limited(100)

        def stop(data: bytes) -> List[bytes]:
            limited.is_dead = limited.granted >= 3
            return []

        begun = time.monotonic()
        with Threaded(limited, forger=stop) as server:
            status, steps, _ = load(server, "--allocations", "100", *QUICK, "--timeout", "0.3")
        self.assertEqual((status, steps["ramp"]["outcome"], steps["ramp"]["facts"]["stopped"]), (1, "failed", "silent"))
        self.assertEqual((steps["given-back"]["outcome"], steps["given-back"]["facts"]["given_back"]), ("failed", 0))
        self.assertLess(time.monotonic() - begun, limit(8))

    def test_nothing_listens(self) -> None:
        status, out, _ = command("load", "turn:127.0.0.1:1", "--user", "user", "--json")
        steps = json.loads(out)["steps"]
        self.assertEqual((status, [it["name"] for it in steps], steps[-1]["outcome"]), (1, ["name", "udp"], "failed"))


class GivenBack(unittest.TestCase):
    def test_after_an_interrupt(self) -> None:
        add = output.JsonOutput.add
        for name in ("udp", "ramp", "packets"):
            def interrupted(self: output.JsonOutput, step: Step) -> None:
                add(self, step)
                if step.name == name:
                    raise KeyboardInterrupt

            with Threaded(Ipv4Server()) as server, mock.patch.object(output.JsonOutput, "add", interrupted):
                status, steps, found = load(server, "--allocations", "6", *QUICK)
                self.assertEqual(server.server.allocations, {})
            self.assertEqual((status, found["error"]), (130, "interrupted"))
            self.assertEqual("given-back" in steps, name != "udp")

    def test_after_an_interrupt_in_the_middle_of_the_ramp(self) -> None:
        opened = driver.open_exchange
        count = 0

        def open_some(*words: Any) -> Any:
            nonlocal count
            count += 1
            if count == 5:
                raise KeyboardInterrupt
            return opened(*words)

        with Threaded(Ipv4Server()) as server, mock.patch.object(ramp, "open_exchange", open_some):
            status, steps, _ = load(server, "--allocations", "9", "--rate", "1000")
            self.assertEqual(server.server.allocations, {})
        self.assertEqual((status, [*steps][-1]), (130, "given-back"))

    def test_after_a_signal(self) -> None:
        for number in (signal.SIGTERM, signal.SIGINT):
            with Threaded(Ipv4Server()) as server:
                program = start("load", server.uri, "--json", "--allocations", "5", "--rate", "100", "--hold", "60")
                deadline = time.monotonic() + limit(10)
                while len(server.server.allocations) < 5 and time.monotonic() < deadline:
                    time.sleep(0.02)
                program.send_signal(number)
                out, errors = program.communicate(timeout=limit(10))
                self.assertEqual((program.returncode, errors, server.server.allocations), (130, "", {}))
            self.assertEqual(json.loads(out)["error"], "interrupted")

    def test_where_this_host_opens_no_more_files(self) -> None:
        words = ["load", "--allocations", "60", "--json", "--user", "user", "--rate", "200", "--packets", "2", "--hold", "0.2"]
        with Threaded(Ipv4Server()) as server:
            program = subprocess.Popen(
                [sys.executable, "-m", "yarrowdoor", *words, server.uri], stdout=subprocess.PIPE, stderr=subprocess.PIPE, text=True,
                env={**os.environ, "PYTHONPATH": str(PACKAGE), "YARROWDOOR_PASSWORD": "pass"},
                preexec_fn=lambda: resource.setrlimit(resource.RLIMIT_NOFILE, (64, 64)))
            out, errors = program.communicate(timeout=60)
            self.assertEqual((program.returncode, errors, server.server.allocations), (2, "", {}))
        steps = {it["name"]: it for it in json.loads(out)["steps"]}
        self.assertEqual((steps["ramp"]["outcome"], steps["ramp"]["facts"]["stopped"]), ("untried", "files"))
        self.assertIn("ulimit -n", steps["ramp"]["advice"])
        granted = steps["ramp"]["facts"]["granted"]
        self.assertTrue(10 <= granted < 21, steps["ramp"])
        self.assertEqual(steps["given-back"]["facts"], {"held": granted, "given_back": granted})

    def test_more_files_than_usual_are_opened(self) -> None:
        soft, hard = resource.getrlimit(resource.RLIMIT_NOFILE)
        resource.setrlimit(resource.RLIMIT_NOFILE, (80, hard))
        try:
            with Threaded(Ipv4Server()) as server:
                status, steps, _ = load(server, "--allocations", "40", *QUICK)
                self.assertEqual((status, steps["ramp"]["facts"]["granted"], server.server.allocations), (0, 40, {}))
            self.assertEqual(resource.getrlimit(resource.RLIMIT_NOFILE), (80, hard))
        finally:
            resource.setrlimit(resource.RLIMIT_NOFILE, (soft, hard))


@unittest.skipUnless(coturn.IS_HERE, coturn.WHY)
class Coturn(unittest.TestCase):
    def test_over_each_transport(self) -> None:
        with coturn.coturn() as server:
            forms = [("turn:127.0.0.1:{port}", ()), ("turn:127.0.0.1:{port}?transport=tcp", ())]
            if server.certificate:
                forms.append(("turns:localhost:{tls_port}", ("--ca", server.certificate)))  # type: ignore[arg-type]
            for form, more in forms:
                status, out, _ = command("load", server.uri(form), "--user", "user", "--json", "--allocations", "12", *QUICK, *more)
                steps = {it["name"]: it["facts"] for it in json.loads(out)["steps"]}
                self.assertEqual((status, steps["ramp"]["granted"], steps["given-back"]["given_back"]), (0, 12, 12), out)
                self.assertGreaterEqual(steps["packets"]["received"], 23)

    def killed(self, form: str, *words: str) -> Dict[str, Any]:
        """The steps of a load whose server is killed after the ramp."""
        add = output.JsonOutput.add
        with coturn.coturn() as server:
            def kill(self: output.JsonOutput, step: Step) -> None:
                add(self, step)
                if step.name == "ramp":
                    os.kill(server.pid, signal.SIGKILL)

            with mock.patch.object(output.JsonOutput, "add", kill):
                begun = time.monotonic()
                more = ("--user", "user", "--json", "--allocations", "20", "--rate", "200", *words)
                status, out, _ = command("load", server.uri(form), *more)
        self.assertLess(time.monotonic() - begun, limit(8))
        steps = {it["name"]: it for it in json.loads(out)["steps"]}
        self.assertEqual((status, steps["given-back"]["outcome"]), (1, "failed"), out)
        return steps

    def test_a_server_that_is_killed(self) -> None:
        for form in ("turn:127.0.0.1:{port}", "turn:127.0.0.1:{port}?transport=tcp"):
            steps = self.killed(form, "--packets", "10", "--hold", "60")
            self.assertEqual((steps["hold"]["outcome"], steps["hold"]["said"]), ("failed", "the server has gone"), form)

    def test_a_server_that_is_killed_while_nothing_is_sent(self) -> None:
        self.killed("turn:127.0.0.1:{port}", "--packets", "0", "--hold", "0.2")

    def test_by_a_peer_that_sends_back(self) -> None:
        with coturn.coturn() as server, echoing() as peer:
            program = start("load", server.uri(), "--allocations", "3", *QUICK, "--peer", "127.0.0.1:%d" % peer.getsockname()[1],
                            "--json")
            for _ in range(12):
                data, relayed = peer.recvfrom(2000)
                peer.sendto(data, relayed)
            out, _ = program.communicate(timeout=60)
        steps = {it["name"]: it for it in json.loads(out)["steps"]}
        self.assertEqual((program.returncode, steps["packets"]["facts"]["received"]), (0, 12), out)


if __name__ == "__main__":
    unittest.main()
