"""Sentences and sockets of the command by themselves: addresses, certificates, quotas, and a server that reads nothing."""
import socket
import ssl
import time
import unittest
from typing import Any, List
from unittest import mock

from yarrowdoor import wire
from yarrowdoor.command import advice, certificate, extras
from yarrowdoor.command.certificate import Certificate
from yarrowdoor.command.exchange import Exchange, Said
from yarrowdoor.command.steps import Outcome

from .coturn import free_port
from .test_command import check, command
from .threaded import Ipv4Server, Threaded
from .turn_servers import other_service

DAY = 86_400.0


class Addresses(unittest.TestCase):
    def test_each_kind_of_address(self) -> None:
        rows = [("0.0.0.0", "to which nothing can be sent"), ("::", "to which nothing can be sent"),
                ("127.0.0.1", "is a loopback one"),
                ("169.254.1.2", "is a link-local one"), ("fe80::1", "is a link-local one"), ("10.1.2.3", "is a private one"),
                ("172.31.0.1", "is a private one"), ("192.168.0.1", "is a private one"), ("100.64.0.1", "is a private one"),
                ("fd00::1", "is a private one")]
        for ip, said in rows:
            self.assertIn(said, advice.about_address(ip, "192.0.2.1"), ip)
        for ip in ("8.8.8.8", "2606:4700:4700::1111"):
            self.assertEqual(advice.about_address(ip, "192.0.2.1"), "")

    def test_who_is_in_one_network(self) -> None:
        rows = [("10.0.0.1", "10.9.9.9", True), ("10.0.0.1", "192.168.0.1", False), ("127.0.0.1", "10.0.0.1", False),
                ("fe80::1", "fe80::2%eth0", True), ("8.8.8.8", "8.8.8.8", False), ("::1", "127.0.0.1", False)]
        for one, other, is_same in rows:
            self.assertIs(advice.same_network(one, other), is_same, (one, other))

    def test_a_peer_that_is_refused(self) -> None:
        denied = Said(403, "Forbidden", True, 0.0)
        rows = [("127.0.0.1", "allow-loopback-peers"), ("10.0.0.1", "allowed-peer-ip=10.0.0.1"), ("8.8.8.8", "its own relayed")]
        for ip, said in rows:
            self.assertIn(said, advice.about_peer(ip, denied))
            self.assertIn("(403 Forbidden)", advice.about_peer(ip, denied))
        self.assertIn("an error without a code", advice.about_peer("10.0.0.1", Said(0, "", True, 0.0)))
        self.assertIn("PermissionHandler", advice.about_peer("10.0.0.1", Said(0, "", True, 0.0)))
        self.assertIn("answered nothing", advice.about_peer("10.0.0.1", None))


class Certificates(unittest.TestCase):
    def explained(self, code: int, found: Any, message: str = "why") -> str:
        error = ssl.SSLCertVerificationError(1, "refused")
        error.verify_code, error.verify_message = code, message
        return certificate.explain(found, error, "turn.example.org")

    def test_each_fault(self) -> None:
        now = time.time()
        good = Certificate(("turn.example.org",), "Some Authority", now - DAY, now + DAY)
        self.assertIn("signed by itself", self.explained(18, good))
        self.assertIn("issuer: Some Authority", self.explained(20, good))
        self.assertEqual(self.explained(99, good), "The certificate is refused: why.")
        self.assertEqual(self.explained(10, None), "The certificate is refused: why.")
        early = Certificate(("turn.example.org",), "", now + DAY, now + 2 * DAY)
        self.assertIn("the clock of this host is late", self.explained(9, early))
        both = Certificate((), "", now - 2 * DAY, now - DAY, False)
        self.assertRegex(self.explained(10, both), "^The certificate is for no name, and not for turn.*out of date since")

    def test_text_of_a_certificate_steers_no_terminal(self) -> None:
        found = {"subjectAltName": (("DNS", "a\x1b[31m.example"),), "issuer": ((("commonName", "b\x07"),),),
                 "notBefore": "Jan  1 00:00:00 2026 GMT", "notAfter": "Jan  2 00:00:00 2026 GMT"}
        read = certificate.of_peer(found)
        self.assertEqual((read.names, read.issuer, read.end), (("a[31m.example",), "b", "2026-01-02"))

    def test_a_server_that_is_gone_when_it_is_read(self) -> None:
        self.assertIsNone(certificate.read_refused("127.0.0.1", free_port(), "localhost", 1.0))


class Streams(unittest.TestCase):
    def test_a_server_that_reads_nothing_is_given_up(self) -> None:
        with socket.create_server(("127.0.0.1", 0)) as server, mock.patch.object(wire, "_FULL", 0.2):
            made = wire.connect_stream("127.0.0.1", server.getsockname()[1], 1.0)
            held, _ = server.accept()
            begun = time.monotonic()
            with self.assertRaisesRegex(TimeoutError, "reads nothing"):
                while time.monotonic() - begun < 20:
                    made.send(bytes(1_000_000))
            made.close()
            held.close()

    def test_what_speaks_no_tls(self) -> None:
        port = free_port()
        with other_service(b"SSH-2.0-none\r\n", port):
            status, out, _ = command("check", f"turns:127.0.0.1:{port}", env={})
            self.assertEqual(status, 1)
            self.assertIn("speaks no TLS", " ".join(out.split()))
            status, out, _ = command("check", f"turn:127.0.0.1:{port}?transport=tcp", "--timeout", "0.3", env={})
            self.assertEqual(status, 1)
            self.assertIn("but it is no TURN server", " ".join(out.split()))


class Commands(unittest.TestCase):
    def test_what_keeps_packets_from_being_sent(self) -> None:
        words = ["--user", "user", "--timeout", "0.5"]
        status, _, errors = command("echo", f"turn:127.0.0.1:{free_port()}", *words)
        self.assertEqual(status, 1)
        self.assertIn("Nothing listens", errors)
        status, _, errors = command("bench", "turn:127.0.0.1:1", env={})
        self.assertEqual(status, 2)
        with Threaded(Ipv4Server(denied=("10.9.9.9",))) as server:
            status, _, errors = command("echo", server.uri, *words)
            self.assertEqual((status, "allowed-peer-ip=10.9.9.9" in errors), (1, True))
            status, _, errors = command("relay", server.uri, "--peer", "10.9.9.9:1", *words)
            self.assertEqual((status, "permission: refused: 403 no" in errors), (1, True))
            status, _, errors = command("echo", server.uri, "--peer", "[::1]:9", *words)
            self.assertEqual((status, "440" in errors), (1, True))
            self.assertEqual(server.server.allocations, {})
        with mock.patch("socket.getaddrinfo", side_effect=socket.gaierror(socket.EAI_AGAIN, "try again")):
            status, _, errors = command("echo", "turn:nowhere.example", *words)
        self.assertEqual(status, 2)

    def test_nothing_comes_back(self) -> None:
        with Threaded(Ipv4Server(), loss=1.0) as server:
            status, out, _ = command("echo", server.uri, "--user", "user", "--count", "3")
            self.assertEqual((status, out.splitlines()[1]), (1, "none of 3 came back"))
            status, out, _ = command("bench", server.uri, "--user", "user", "--seconds", "0.6")
            self.assertEqual((status, "100.00 % of" in out), (1, True))

    def test_a_payload_that_comes_cut_has_not_passed(self) -> None:
        # coturn and pion cut what a peer sends, without a sign of it (docs/REAL-SERVERS.md).
        for cut, outcome in ((1_350, "ok"), (1_199, "failed")):
            with Threaded(Ipv4Server(), cut=cut) as server:
                _, steps = check(server)
            self.assertTrue(cut - 100 <= steps["payload"]["facts"]["bytes"] <= cut, steps["payload"])
            self.assertEqual(steps["payload"]["outcome"], outcome)

    def test_a_quota_that_is_not_met(self) -> None:
        with Threaded(Ipv4Server()) as server:
            status, steps = check(server, "--quota", "4")
            self.assertEqual(steps["quota"]["facts"], {"granted": 4, "limit": False})
            self.assertEqual(server.server.allocations, {})

    def test_a_quota_for_which_this_host_has_no_sockets(self) -> None:
        made: List[Exchange] = []

        def make() -> Exchange:
            raise OSError(24, "Too many open files")

        step = extras.quota_step(make, 5, len(made) + 2, 0.5, lambda number: None)
        self.assertEqual((step.outcome, "2 addresses" in step.said), (Outcome.UNTRIED, True))

    def test_what_is_no_number(self) -> None:
        for words in ("--timeout x", "--timeout nan", "--quota 0", "--nonce=-1"):
            status, _, errors = command("check", "turn:127.0.0.1", *words.split())
            self.assertEqual(status, 2, words)
            self.assertIn("is not a number", errors)


if __name__ == "__main__":
    unittest.main()
