"""The command against servers of this host: each run of docs/CHECK.md and CHECK-RUNS.md, and pion and ejabberd's library."""
import contextlib
import io
import json
import os
import shutil
import socket
import tempfile
import unittest
from typing import Any, Dict, Tuple
from unittest import mock

from yarrowdoor.command.main import main

from . import check_page, coturn, turn_servers
from .coturn import free_port


def run(*words: str, password: str = "pass") -> Tuple[int, Dict[str, Any]]:
    """The status of a check, and its steps by name."""
    printed = io.StringIO()
    with mock.patch.dict(os.environ, {"YARROWDOOR_PASSWORD": password}), contextlib.redirect_stdout(printed):
        # A server that shares its processor with many programs may need longer than a user waits.
        status = main(["check", *words, "--user", "user", "--json", "--timeout", str(turn_servers.limit(1.5))])
    return status, {it["name"]: it for it in json.loads(printed.getvalue())["steps"]}


@unittest.skipUnless(coturn.IS_HERE, coturn.WHY)
@unittest.skipUnless(shutil.which("openssl"), "openssl is not installed, which makes a certificate")
@unittest.skipUnless(check_page.PAGE.exists(), "the sources are not here")
class Page(unittest.TestCase):
    """Each run of the page prints what stands there. What is wrong is told within three seconds."""

    def compare(self, *names: str) -> None:
        told = dict(check_page.blocks())
        for name in names:
            with self.subTest(name):
                # A server that shares its processor with many programs may need longer than a user waits.
                patience = turn_servers.limit(1.0)
                status, printed, spent = check_page.make(name, patience)
                self.assertEqual(check_page.plain(printed), check_page.plain(told[name]))
                self.assertEqual(status, check_page.RUNS[name].status)
                if status:
                    self.assertLess(spent, 3.0 * max(patience, turn_servers.limit(1.0)))

    def test_a_run_of_each_is_on_the_page(self) -> None:
        self.assertEqual([it for it, _ in check_page.blocks()], [*check_page.RUNS])

    def test_ports_that_are_drawn_are_left_out(self) -> None:
        """Also those that begin as the usual ones do."""
        for port, shown in (("3478", "3478"), ("34784", "PORT"), ("5349", "5349"), ("53490", "PORT")):
            self.assertEqual(check_page.plain(f"at 127.0.0.1:{port}, for"), f"at 127.0.0.1:{shown}, for")

    def test_what_works(self) -> None:
        self.compare("all is well", "quota and nonce, if asked", "all transports", "echo", "bench", "load", "load up to a limit")

    def test_credentials(self) -> None:
        self.compare("a wrong password", "an expired user", "another secret", "no credentials asked", "a quota")

    def test_addresses(self) -> None:
        self.compare("a private address", "no peers on loopback")

    def test_certificates(self) -> None:
        self.compare(*check_page.CERTIFIED)

    def test_ports(self) -> None:
        self.compare("nothing listens", "UDP is blocked", "no TURN server", "a server of STUN alone")


class Others(unittest.TestCase):
    """Servers that are not coturn: all works, and what they do otherwise is named."""

    def check(self, port: int, **longest: int) -> None:
        for end, most in longest.items():
            status, steps = run(f"turn:127.0.0.1:{port}?transport={end}")
            failed = {name: it["said"] for name, it in steps.items() if it["outcome"] == "failed"}
            self.assertEqual((status, failed), (0, {}))
            self.assertTrue(1_400 <= steps["payload"]["facts"]["bytes"] <= most, steps["payload"])
            self.assertEqual(steps["messages"]["facts"]["sent"], 100)
            self.assertEqual(steps["streams"]["outcome"], "note")
            self.assertIn("(442", steps["streams"]["advice"])

    def wrong_password(self, port: int, code: int) -> None:
        status, steps = run(f"turn:127.0.0.1:{port}", password="wrong")
        self.assertEqual((status, steps["allocation"]["facts"]["code"]), (1, code))
        self.assertIn("The realm 'realm' does not take the user 'user' with this password", steps["allocation"]["advice"])

    @unittest.skipUnless(turn_servers.HAS_PION, turn_servers.WHY_NO_PION)
    def test_pion(self) -> None:
        port = free_port()
        with tempfile.TemporaryDirectory() as room, turn_servers.pion(room, port):
            # A longer packet vanishes over UDP, and would end this server over TCP.
            self.check(port, udp=1596, tcp=1500)
            self.wrong_password(port, 400)
            self.assertIn("it granted one of the other family", run(f"turn:127.0.0.1:{port}")[1]["ipv6"]["advice"])

    @unittest.skipUnless(turn_servers.HAS_P1, turn_servers.WHY_NO_P1)
    def test_the_library_of_ejabberd(self) -> None:
        port = free_port()
        with turn_servers.p1(port):
            self.check(port, udp=65_468, tcp=1500)
            self.wrong_password(port, 401)


@unittest.skipUnless(coturn.IS_HERE, coturn.WHY)
class Dropped(unittest.TestCase):
    def test_udp_that_is_dropped_in_silence_is_blocked_too(self) -> None:
        with tempfile.TemporaryDirectory() as room, socket.socket(type=socket.SOCK_DGRAM) as silent:
            silent.bind(("127.0.0.1", 0))
            port = silent.getsockname()[1]
            with turn_servers.coturn(room, port, "--no-udp"):
                status, steps = run(f"turn:127.0.0.1:{port}")
        self.assertEqual((status, steps["udp"]["said"]), (1, f"port {port}: no answer"))
        self.assertIn("is blocked, and TCP is open", steps["udp"]["advice"])
        self.assertEqual((steps["messages"]["outcome"], steps["channels"]["outcome"]), ("ok", "ok"))
        self.assertEqual(steps["payload"]["facts"]["bytes"], 1500)  # A longer one would end some servers over TCP.


@unittest.skipUnless(coturn.IS_HERE, coturn.WHY)
@unittest.skipUnless(coturn.has_ipv6(), "this host has no IPv6")
class Families(unittest.TestCase):
    def test_a_server_with_ipv6_alone(self) -> None:
        with coturn.coturn(host="::1") as server:
            for form in ("turn:[::1]:{port}", "turn:[::1]:{port}?transport=tcp"):
                status, steps = run(server.uri(form))
                failed = {name: it for name, it in steps.items() if it["outcome"] == "failed"}
                self.assertEqual((status, failed, steps["ipv4"]["outcome"]), (0, {}, "note"))
                self.assertRegex(steps["allocation"]["facts"]["relayed"], r"^\[::1\]:")
                self.assertGreater(steps["channels"]["facts"]["received"], 95)
            echoed = io.StringIO()
            with mock.patch.dict(os.environ, {"YARROWDOOR_PASSWORD": "pass"}), contextlib.redirect_stdout(echoed):
                self.assertEqual(main(["echo", server.uri("turn:[::1]:{port}"), "--user", "user", "--count", "5"]), 0)

    def test_a_server_with_both(self) -> None:
        with coturn.coturn("-L", "::1", "-E", "127.0.0.1", "-E", "::1") as server:
            status, steps = run(server.uri())
        self.assertEqual((status, steps["ipv6"]["outcome"]), (0, "ok"))
        self.assertRegex(steps["ipv6"]["facts"]["relayed"], r"^\[::1\]:")


@unittest.skipUnless(coturn.IS_HERE, coturn.WHY)
class Certified(unittest.TestCase):
    @unittest.skipUnless(shutil.which("openssl"), "openssl is not installed, which makes a certificate")
    def test_tls_is_checked_with_the_names_and_the_end_of_its_certificate(self) -> None:
        with coturn.coturn() as server:
            uri = server.uri("turns:localhost:{tls_port}")
            status, steps = run(uri, "--ca", server.certificate)
            self.assertEqual((status, steps["tls"]["facts"]["names"]), (0, ["localhost", "127.0.0.1"]))
            self.assertRegex(steps["tls"]["facts"]["ends"], r"^\d{4}-\d\d-\d\d$")
            untrusted, steps = run(uri)
            self.assertEqual(untrusted, 1)
            self.assertIn("signed by itself", steps["tls"]["advice"])
            self.assertEqual(steps["tls"]["facts"]["names"], ["localhost", "127.0.0.1"])


if __name__ == "__main__":
    unittest.main()
