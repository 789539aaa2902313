"""`yarrowdoor check --all`: each transport of each address, with relayed addresses of both families."""
import contextlib
import io
import json
import tempfile
import unittest
from typing import Any, Dict, Tuple
from unittest import mock

from yarrowdoor.command import doors, output
from yarrowdoor.command.steps import Outcome, Step
from yarrowdoor.uri import parse
from yarrowdoor.wire import Tap

from . import coturn
from .test_command import command
from .threaded import Ipv4Server, Threaded
from .turn_servers import coturn as started, limit


def tried(uri: str, *words: str) -> Tuple[int, Dict[str, Any]]:
    status, out, errors = command("check", uri, "--all", "--user", "user", "--json", "--timeout", str(limit(1.5)), *words)
    steps = json.loads(out)["steps"]
    names = [it["name"] for it in steps]
    if errors or len(names) != len(set(names)):
        raise AssertionError((errors, names))
    return status, {it["name"]: it for it in steps}


class Tables(unittest.TestCase):
    def test_columns_are_as_wide_as_they_need_to_be(self) -> None:
        out = io.StringIO()
        table = [["", "udp", "tls"], ["192.0.2.1", "IPv4, IPv6", "-"]]
        output.TextOutput(out).add(Step("matrix", Outcome.OK, "said", 0.0, "advice", {}, table))
        self.assertEqual(out.getvalue().splitlines()[1:], [f"{'':12}           udp         tls",
                                                           f"{'':12}192.0.2.1  IPv4, IPv6  -", f"{'':12}advice"])


class OneTransport(unittest.TestCase):
    def test_what_does_not_answer_is_a_note(self) -> None:
        with Threaded(Ipv4Server()) as server:
            _, steps = tried(server.uri)
            self.assertEqual(server.server.allocations, {})
        facts = steps["all-1-udp"]["facts"]
        self.assertEqual((facts["ipv4"], facts["ipv6"], facts["ipv6_code"], facts["code"]), (True, False, 440, None))
        self.assertEqual([steps[f"all-1-{it}"]["outcome"] for it in ("udp", "tcp", "tls")], ["ok", "note", "note"])
        self.assertEqual((steps["matrix"]["outcome"], steps["matrix"]["facts"]["lacking"]), ("ok", []))

    def test_a_server_that_grants_nothing(self) -> None:
        with Threaded(Ipv4Server(allocate_error=403)) as server:
            status, steps = tried(server.uri)
        self.assertEqual((status, steps["matrix"]["outcome"], steps["all-1-udp"]["facts"]["code"]), (1, "failed", 403))

    def test_a_limit_says_nothing_of_the_others(self) -> None:
        with Threaded(Ipv4Server(allocate_error=486)) as server:
            _, steps = tried(server.uri)
        self.assertEqual((steps["matrix"]["outcome"], steps["all-1-udp"]["facts"]["code"]), ("note", 486))


@unittest.skipUnless(coturn.IS_HERE, coturn.WHY)
class Coturn(unittest.TestCase):
    @unittest.skipUnless(coturn.has_ipv6(), "this host has no IPv6")
    def test_all_ways_and_families(self) -> None:
        with coturn.coturn("-L", "::1", "-E", "127.0.0.1", "-E", "::1") as server:
            words = ("--ca", server.certificate) if server.certificate else ()
            status, steps = tried(server.uri(), *words)
        self.assertEqual(status, 0, [it for it in steps.values() if it["outcome"] not in ("ok", "note")])
        for transport in ("udp", "tcp", "tls") if server.certificate else ("udp", "tcp"):
            facts = steps[f"all-1-{transport}"]["facts"]
            self.assertEqual((facts["address"], facts["ipv4"], facts["ipv6"]), ("127.0.0.1", True, True), transport)

    def test_addresses_that_differ(self) -> None:
        port = coturn.free_port()
        with tempfile.TemporaryDirectory() as room, contextlib.ExitStack() as stack:
            stack.enter_context(started(room, port))
            stack.enter_context(mock.patch.object(doors, "lookup", lambda *words: ["127.0.0.1", "127.0.0.2"]))
            _, steps = tried(f"turn:turn.example.org:{port}")
            self.assertEqual(steps["matrix"]["facts"]["lacking"],
                             [f"127.0.0.2 over {it} (IPv4)" for it in ("UDP", "TCP")])
            self.assertEqual((steps["matrix"]["outcome"], steps["all-2-tcp"]["facts"]["verdict"]), ("failed", "refused"))
            self.assertIn("set them up alike", steps["matrix"]["advice"])


class Ports(unittest.TestCase):
    def test_usual_ones_and_others(self) -> None:
        rows = [("turn:h", [3478, 3478, 5349]), ("turns:h", [3478, 3478, 5349]), ("turn:h:443", [443, 443, 443])]
        for uri, ports in rows:
            asked: "list[int]" = []
            with mock.patch.object(doors, "knock", side_effect=lambda door, host, seconds, tap: asked.append(door.port)):
                with doors.Doors(parse(uri), ["192.0.2.1"], None, 1.0, Tap(), True):
                    pass
            self.assertEqual(asked, ports)


if __name__ == "__main__":
    unittest.main()
