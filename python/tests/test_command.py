"""The command by itself: its words and its status, what it keeps secret, and what it says of servers that do one thing wrong."""
import contextlib
import errno
import io
import json
import os
import pathlib
import socket
import struct
import tempfile
import threading
import time
import unittest
import zipfile
from typing import Any, Dict, List, Optional, Tuple
from unittest import mock

from yarrowdoor.command import credentials, knock, main as entry, output
from yarrowdoor.command.challenge import Challenge
from yarrowdoor.command.steps import Outcome, Step

from .server import ALLOCATE, COOKIE, Allocation, Message, Where, attribute, parse
from .test_wheel import BACKEND, wheel_with
from .threaded import Ipv4Server, Threaded
from .turn_servers import limit

QUIET = {"YARROWDOOR_PASSWORD": "pass"}


def command(*words: str, env: Optional[Dict[str, str]] = None) -> Tuple[int, str, str]:
    """The status of the command, and what it printed."""
    out, errors = io.StringIO(), io.StringIO()
    kept = {it: value for it, value in os.environ.items() if not it.startswith("YARROWDOOR_") or it == "YARROWDOOR_LIB"}
    with mock.patch.dict(os.environ, {**kept, **(QUIET if env is None else env)}, clear=True), \
            contextlib.redirect_stdout(out), contextlib.redirect_stderr(errors):
        try:
            status = entry.main([*words])
        except SystemExit as ended:
            status = int(ended.code or 0)
    return status, out.getvalue(), errors.getvalue()


def check(server: Threaded, *words: str, env: Optional[Dict[str, str]] = None) -> Tuple[int, Dict[str, Any]]:
    """The status of a check, and its steps by name: of two with one name, the last one."""
    status, out, _ = command("check", server.uri, "--user", "user", "--json", *words, env=env)
    return status, {it["name"]: it for it in json.loads(out)["steps"]}


class Words(unittest.TestCase):
    def test_help_of_each_fits_a_screen(self) -> None:
        for words in ("", "check", "echo", "relay", "bench", "probe", "load"):
            status, out, _ = command(*words.split(), "--help", env={"COLUMNS": "80"})
            self.assertEqual(status, 0)
            self.assertLessEqual(len(out.splitlines()), 34, words)

    def test_what_is_no_word_cannot_be_tried(self) -> None:
        rows = [("check", "URI"), ("check http://x", "'http://x' has not the form turn:"), ("ping", "ping"), ("", "COMMAND"),
                ("relay turn:h", "--peer"), ("echo turn:h --peer host:1", "'host:1' is not an IP address"),
                ("bench turn:h --size 5", "'5' is not a number of bytes"), ("load turn:h --rate 0", "'0' is not a number"),
                ("load turn:h --packets x", "'x' is not a number"), ("probe turn:h --every nan", "'nan' is not a number"),
                ("probe turn:h --listen 9643", "'9643' is not an IP address with a port")]
        for words, said in rows:
            status, _, errors = command(*words.split())
            self.assertEqual(status, 2, words)
            self.assertIn(said, errors)

    def test_no_word_is_a_password(self) -> None:
        for word in ("--password", "--secret", "--pass"):
            status, _, errors = command("check", "turn:127.0.0.1", word, "hidden")
            self.assertEqual(status, 2)
            self.assertIn(word, errors)

    def test_what_lacks_cannot_be_tried(self) -> None:
        rows: List[Tuple[str, Dict[str, str], str]] = [
            ("--user u", {}, "set YARROWDOOR_PASSWORD"), ("--ask-secret", {}, "there is no secret"),
            ("", QUIET, "there is a password and no user"),
            ("--user u --password-file /none", {}, "/none cannot be read"), ("--ca /none", {}, "/none"),
            ("--pcap /none/x", {}, "/none/x"),
        ]
        for words, env, said in rows:
            with mock.patch("sys.stdin", io.StringIO()):
                status, out, errors = command("check", "turn:127.0.0.1:1", *words.split(), env=env)
            self.assertEqual((status, out), (2, ""))
            self.assertIn(said, errors)
            self.assertNotIn("Traceback", errors)

    def test_json_of_what_cannot_be_tried(self) -> None:
        status, out, errors = command("echo", "turn:127.0.0.1:1", "--json", env={})
        self.assertEqual((status, errors), (2, ""))
        self.assertEqual(json.loads(out)["status"], 2)
        self.assertIn("--user NAME", json.loads(out)["error"])


@unittest.skipUnless(BACKEND.exists(), "the sources are not here")
class Installed(unittest.TestCase):
    def test_a_wheel_has_the_command(self) -> None:
        with tempfile.TemporaryDirectory() as room:
            with zipfile.ZipFile(pathlib.Path(room, wheel_with("", room))) as wheel:
                names = wheel.namelist()
                [points] = [wheel.read(it).decode() for it in names if it.endswith(".dist-info/entry_points.txt")]
        self.assertEqual(points, "[console_scripts]\nyarrowdoor = yarrowdoor.command.main:main\n")
        own = {f"yarrowdoor/command/{it.name}" for it in pathlib.Path(entry.__file__).parent.glob("*.py")}
        self.assertEqual({*names} & own, own)


class Challenges(unittest.TestCase):
    def of(self, *rows: Tuple[int, bytes]) -> Challenge:
        body = b"".join(attribute(*it) for it in rows)
        return Challenge.of(struct.pack("!HH", ALLOCATE | 0x0110, len(body)) + COOKIE + bytes(12) + body)

    def test_what_a_server_offers(self) -> None:
        # The nonce is that of RFC 8489, appendix B.1, whose request hides the user name; the algorithms are MD5 and SHA-256
        # (section 18.5.1), each without parameters.
        found = self.of((0x0009, b"\0\0\4\1"), (0x0014, b"example.org"), (0x8002, b"\0\1\0\0\0\2\0\0"),
                        (0x0015, b"obMatJos2AAACf//499k954d6OL34oL9FSTvy64sA"), (0x8022, b"a\x1b[31mb"))
        self.assertEqual(found, Challenge("example.org", ("MD5", "SHA-256"), True, "a[31mb"))

    def test_what_is_malformed_offers_nothing(self) -> None:
        rows = [(b"obMatJos2", b"\0"), (b"obMatJos2????", b"\0\1\0"), (b"", b""), (b"AAACobMatJos2AAAC", b"\0\0\0")]
        for nonce, algorithms in rows:
            found = self.of((0x0009, b"\0\0\4\1"), (0x0014, b"\xff"), (0x8002, algorithms), (0x0015, nonce))
            self.assertEqual((found.algorithms, found.takes_user_hash), ((), False))


class Secrets(unittest.TestCase):
    def resolve(self, *args: Any, **env: str) -> Optional[credentials.Credentials]:
        with mock.patch.dict(os.environ, env, clear=True):
            return credentials.resolve(*args)

    def test_the_first_line_of_a_file(self) -> None:
        with tempfile.TemporaryDirectory() as room:
            path = pathlib.Path(room, "password")
            path.write_bytes(b" pass word \r\nmore\n")
            found = self.resolve("user", str(path), None, YARROWDOOR_PASSWORD="other")
            self.assertEqual(found, credentials.Credentials("user", " pass word "))
            self.assertNotIn("pass word", repr(found))
            path.write_bytes(b"\n")
            with self.assertRaisesRegex(credentials.NoCredentials, "is empty"):
                self.resolve("user", str(path), None)

    def test_a_password_is_asked_on_a_terminal(self) -> None:
        with mock.patch("sys.stdin.isatty", lambda: True, create=True), mock.patch("getpass.getpass", lambda text: "secret"):
            self.assertEqual(self.resolve("user", None, None), credentials.Credentials("user", "secret"))
            asked = self.resolve("1700000000:alice", None, None, True)
        self.assertEqual(asked, self.resolve("1700000000:alice", None, None, YARROWDOOR_SECRET="secret"))

    def test_a_shared_secret(self) -> None:
        # printf %s 1700000000:alice | openssl dgst -sha1 -hmac secret -binary | base64
        found = self.resolve("1700000000:alice", None, None, YARROWDOOR_SECRET="secret")
        self.assertEqual(found, credentials.Credentials("1700000000:alice", "d8soP47RbdIKLDUOpnJPVQyq5Ts="))
        made = self.resolve("alice", None, None, YARROWDOOR_SECRET="secret")
        assert made is not None
        self.assertAlmostEqual(credentials.rest_expiry(made.user) or 0, time.time() + 3600, delta=10)
        self.assertTrue(made.user.endswith(":alice"))
        self.assertIsNone(credentials.rest_expiry("12345:alice"))


class Servers(unittest.TestCase):
    """What is said of a server that does one thing wrong. It relays at 10.9.9.9, which is said each time."""

    def test_a_sentence_for_each_code(self) -> None:
        rows = [(403, "forbids"), (437, "for this local port"), (440, "of this family"), (441, "under other credentials"),
                (442, "no-udp-relay"), (486, "as many relayed addresses"), (508, "has no room"), (599, "refuses (599 no)")]
        for code, said in rows:
            for signs in (True, False) if code == 437 else (True,):
                with Threaded(Ipv4Server(allocate_error=code, signs_errors=signs)) as server:
                    status, steps = check(server)
                self.assertEqual((status, steps["allocation"]["outcome"]), (1, "failed"))
                self.assertIn(said, steps["allocation"]["advice"])
                self.assertLess(steps["allocation"]["seconds"], limit(1.0))

    def test_a_local_port_that_is_taken_is_changed_for_another(self) -> None:
        class Taken(Ipv4Server):
            """It has something of the first two local ports."""

            seen: "set[int]" = set()

            def allocate(self, message: Message, source: Where, allocation: Optional[Allocation], now: float) -> bytes:
                self.seen.add(source[1])
                return self.error(message, 437) if len(self.seen) < 3 else super().allocate(message, source, allocation, now)

        with Threaded(Taken()) as server:
            _, steps = check(server)
            self.assertEqual(server.server.allocations, {})
        self.assertEqual((steps["permission"]["outcome"], steps["messages"]["outcome"]), ("ok", "ok"))

    def test_a_forged_refusal_is_none(self) -> None:
        # Who sees the request may send an error for it, which nobody has signed: the server's own answer counts.
        def forge(data: bytes) -> "list[bytes]":
            message = parse(data) if data[4:8] == COOKIE else None
            if message is None or message.kind != ALLOCATE or 0x0008 not in message.attributes:
                return []
            body = attribute(0x0009, struct.pack("!HBB", 0, 4, 1) + b"forged")
            return [struct.pack("!HH", ALLOCATE | 0x0110, len(body)) + COOKIE + message.transaction + body]

        with Threaded(Ipv4Server(), forger=forge, delay=0.1) as server:
            _, steps = check(server)
        self.assertEqual((steps["challenge"]["outcome"], steps["permission"]["outcome"]), ("ok", "ok"))

    def test_packets_that_are_lost_are_counted(self) -> None:
        with Threaded(Ipv4Server(), loss=0.2) as server:
            status, steps = check(server)
        facts = steps["channels"]["facts"]
        self.assertEqual((status, steps["channels"]["outcome"], facts["sent"]), (1, "failed", 100))
        self.assertTrue(45 <= facts["received"] <= 85, facts)  # 64 of 100 pass both ways
        self.assertIn(f"Of 100 packets {100 - facts['received']} are lost", steps["channels"]["advice"])

    def test_a_peer_that_is_refused(self) -> None:
        with Threaded(Ipv4Server(denied=("10.9.9.9",))) as server:
            status, steps = check(server)
        self.assertEqual((status, steps["permission"]["said"]), (1, "refused: 403 no"))
        self.assertIn("allowed-peer-ip=10.9.9.9", steps["permission"]["advice"])
        self.assertNotIn("messages", steps)

    def test_a_server_that_falls_silent(self) -> None:
        for after in (3, 6):
            server = Ipv4Server()

            def stop(data: bytes) -> "list[bytes]":
                stop.seen += 1  # type: ignore[attr-defined]
                server.is_dead = stop.seen > after  # type: ignore[attr-defined]
                return []

            stop.seen = 0  # type: ignore[attr-defined]
            with Threaded(server, forger=stop) as threaded:
                begun = time.monotonic()
                status, steps = check(threaded, "--timeout", "0.3")
            self.assertEqual(status, 1)
            self.assertLess(time.monotonic() - begun, limit(5))
            self.assertIn("failed", [it["outcome"] for it in steps.values()])

    def test_without_credentials_nothing_is_signed(self) -> None:
        with Threaded(Ipv4Server()) as server:
            status, out, _ = command("check", server.uri, "--json", env={})
        steps = {it["name"]: it for it in json.loads(out)["steps"]}
        self.assertEqual((status, steps["challenge"]["facts"]["realm"]), (2, "realm"))
        self.assertEqual(steps["allocation"]["said"], "is not tried")
        self.assertFalse([it for it in server.received if 0x0008 in parse(it).attributes])


class GivenBack(unittest.TestCase):
    def test_all_is_given_back(self) -> None:
        with Threaded(Ipv4Server()) as server:
            check(server)
            self.assertEqual(server.server.allocations, {})

    def test_also_after_an_interrupt(self) -> None:
        add = output.JsonOutput.add

        def interrupted(self: output.JsonOutput, step: Step) -> None:
            add(self, step)
            if step.name == "permission":
                raise KeyboardInterrupt

        with Threaded(Ipv4Server()) as server, mock.patch.object(output.JsonOutput, "add", interrupted):
            status, out, errors = command("check", server.uri, "--user", "user", "--json")
            self.assertEqual((status, json.loads(out)["error"], errors), (130, "interrupted", ""))
            self.assertEqual(server.server.allocations, {})


class Names(unittest.TestCase):
    def test_a_name_that_nobody_has(self) -> None:
        error = socket.gaierror(socket.EAI_NONAME, "Name or service not known")
        with mock.patch("socket.getaddrinfo", side_effect=error):
            status, out, _ = command("check", "turn:nobody.example", env={})
        self.assertEqual(status, 1)
        self.assertIn("has no address: check its spelling", " ".join(out.split()))

    def test_name_servers_that_do_not_answer_say_nothing_of_the_server(self) -> None:
        ended = threading.Event()
        self.addCleanup(ended.set)

        def wait(*named: Any) -> Any:
            ended.wait(20)
            raise socket.gaierror(socket.EAI_AGAIN, "too late")

        for effect, said in ((socket.gaierror(socket.EAI_AGAIN, "try again"), "No name server answers here"),
                             (wait, "The system does not answer for this name")):
            with mock.patch("socket.getaddrinfo", side_effect=effect):
                begun = time.monotonic()
                status, out, _ = command("check", "turn:silent.example", "--timeout", "0.5", env={})
            self.assertEqual(status, 2)
            self.assertLess(time.monotonic() - begun, limit(3))
            self.assertIn("cannot be tried from here", out)
            self.assertIn(said, " ".join(out.split()))

    def test_of_two_addresses_one_may_be_dead(self) -> None:
        real = socket.getaddrinfo

        def two(host: str, port: int, *more: Any, **named: Any) -> Any:
            if host != "two.example":
                return real(host, port, *more, **named)
            return [(socket.AF_INET, socket.SOCK_STREAM, 6, "", (it, port)) for it in ("127.0.0.9", "127.0.0.1")]

        with Threaded(Ipv4Server()) as server, mock.patch("socket.getaddrinfo", two):
            uri = server.uri.replace("127.0.0.1", "two.example")
            status, out, _ = command("check", uri, "--json", env={})
        steps = {it["name"]: it for it in json.loads(out)["steps"]}
        self.assertEqual((steps["udp"]["outcome"], steps["udp"]["facts"]["answering"]), ("failed", ["127.0.0.1"]))
        self.assertEqual(status, 1)
        self.assertIn("127.0.0.9 does not answer (nothing listens)", steps["udp"]["advice"])
        self.assertEqual(steps["challenge"]["outcome"], "ok")


class Silence(unittest.TestCase):
    def test_a_port_that_drops_all(self) -> None:
        with socket.socket(type=socket.SOCK_DGRAM) as silent:
            silent.bind(("127.0.0.1", 0))
            begun = time.monotonic()
            status, out, _ = command("check", "turn:127.0.0.1:%d" % silent.getsockname()[1], env={})
        self.assertEqual(status, 1)
        self.assertLess(time.monotonic() - begun, limit(3))
        self.assertIn("Nothing comes back from 127.0.0.1", " ".join(out.split()))

    def test_a_stream_that_says_nothing(self) -> None:
        with socket.create_server(("127.0.0.1", 0)) as mute:
            for form in ("turn:127.0.0.1:%d?transport=tcp", "turns:127.0.0.1:%d"):
                begun = time.monotonic()
                status, out, _ = command("check", form % mute.getsockname()[1], "--timeout", "0.5", env={})
                self.assertEqual(status, 1)
                self.assertLess(time.monotonic() - begun, limit(3))
                self.assertIn("accepts the connection and says nothing", " ".join(out.split()))


class Terminal(io.StringIO):
    def isatty(self) -> bool:
        return True


class Unreachable(unittest.TestCase):
    def test_a_network_without_a_way_says_nothing_of_the_server(self) -> None:
        with mock.patch.object(knock, "connect_udp", side_effect=OSError(errno.ENETUNREACH, "Network is unreachable")), \
                mock.patch.object(knock, "connect_stream", side_effect=OSError(errno.ENETUNREACH, "Network is unreachable")):
            status, out, _ = command("check", "turn:192.0.2.1:5000", env={})
        self.assertEqual(status, 2)
        self.assertIn("There is no way from here to 192.0.2.1", out)

    @unittest.skipUnless(os.path.exists("/dev/full"), "there is no /dev/full")
    def test_a_capture_that_cannot_be_written(self) -> None:
        with Threaded(Ipv4Server()) as server:
            status, _, errors = command("check", server.uri, "--pcap", "/dev/full", env={})
        self.assertEqual(status, 2)
        self.assertIn("the capture cannot be written", errors)


class Printed(unittest.TestCase):
    STEP = Step("udp", Outcome.FAILED, "port 1: no answer", 0.5, "Nothing comes back.")

    def text(self, file: io.StringIO, **env: str) -> str:
        with mock.patch.dict(os.environ, {"TERM": "xterm", **env}, clear=True):
            shown = output.TextOutput(file)
            shown.add(self.STEP)
            self.assertEqual(shown.end(), 1)
        return file.getvalue()

    def test_colour_is_for_terminals(self) -> None:
        self.assertIn("\033[31mfailed", self.text(Terminal()))
        self.assertNotIn("\033", self.text(Terminal(), NO_COLOR="1"))
        plain = self.text(io.StringIO())
        self.assertEqual(plain.splitlines()[0], "udp         failed      500 ms  port 1: no answer")
        self.assertEqual(plain.splitlines()[1], "            Nothing comes back.")

    def test_a_bar_is_for_terminals_and_goes(self) -> None:
        shown, piped = Terminal(), io.StringIO()
        for file in (shown, piped):
            bar = output.Bar(file, True, "messages", 4)
            for done in range(1, 5):
                bar(done)
        self.assertIn("[#######", shown.getvalue())
        self.assertTrue(shown.getvalue().endswith("\r"))
        self.assertEqual(piped.getvalue(), "")

    def test_the_status_is_that_of_the_worst(self) -> None:
        for outcomes, status in (("OK NOTE", 0), ("OK UNTRIED", 2), ("UNTRIED FAILED", 1), ("", 0)):
            shown = output.Output(io.StringIO())
            for it in outcomes.split():
                shown.add(Step("name", Outcome[it], "said"))
            self.assertEqual(shown.end(), status, outcomes)


if __name__ == "__main__":
    unittest.main()
