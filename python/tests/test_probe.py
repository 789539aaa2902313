"""`yarrowdoor probe`: the text that scrapers get, the server that gives it to them, and the checks in between."""
import contextlib
import http.client
import json
import pathlib
import re
import shutil
import signal
import socket
import subprocess
import tempfile
import time
import unittest
import urllib.parse
import urllib.request
from typing import Any, Dict, Iterator, List, Tuple
from unittest import mock

from yarrowdoor.address import Address
from yarrowdoor.command import probe
from yarrowdoor.command.metrics import CONTENT_TYPE, Metric, Probed, metrics_of, render
from yarrowdoor.command.output import Output
from yarrowdoor.command.scrape import Page
from yarrowdoor.command.steps import Outcome, Step

from . import check_page
from .coturn import free_port
from .test_command import command
from .test_packets import start
from .threaded import Ipv4Server, Threaded
from .turn_servers import limit

STEPS = (
    Step("tls", Outcome.OK, "said", 0.25, "", {"days": 29.5, "names": ["turn.example.org"]}),
    Step("messages", Outcome.FAILED, "said", 1.5, "advice",
         {"sent": 100, "received": 75, "lost_of_crossing": 6.94, "least": 0.001, "median": 0.5, "most": 2.0}),
    Step("streams", Outcome.NOTE, "said", 0.0, "", {"code": 442, "phrase": "no"}),
)
# By the text format of exposition, version 0.0.4 (Prometheus, "Exposition formats"): each metric once, with its help and its type.
TEXT = r"""# HELP turn_up Whether nothing failed in the last check, and all could be tried.
# TYPE turn_up gauge
turn_up{uri="turn:a\"b\\c"} 0
# HELP turn_status Of the last check: 0 all is well, 1 something fails, 2 it cannot be tried.
# TYPE turn_status gauge
turn_status{uri="turn:a\"b\\c"} 1
# HELP turn_step Whether a step of the last check has this outcome.
# TYPE turn_step gauge
turn_step{uri="turn:a\"b\\c",step="tls",outcome="ok"} 1
turn_step{uri="turn:a\"b\\c",step="tls",outcome="note"} 0
turn_step{uri="turn:a\"b\\c",step="tls",outcome="failed"} 0
turn_step{uri="turn:a\"b\\c",step="tls",outcome="untried"} 0
turn_step{uri="turn:a\"b\\c",step="messages",outcome="ok"} 0
turn_step{uri="turn:a\"b\\c",step="messages",outcome="note"} 0
turn_step{uri="turn:a\"b\\c",step="messages",outcome="failed"} 1
turn_step{uri="turn:a\"b\\c",step="messages",outcome="untried"} 0
turn_step{uri="turn:a\"b\\c",step="streams",outcome="ok"} 0
turn_step{uri="turn:a\"b\\c",step="streams",outcome="note"} 1
turn_step{uri="turn:a\"b\\c",step="streams",outcome="failed"} 0
turn_step{uri="turn:a\"b\\c",step="streams",outcome="untried"} 0
# HELP turn_step_seconds How long a step of the last check took.
# TYPE turn_step_seconds gauge
turn_step_seconds{uri="turn:a\"b\\c",step="tls"} 0.25
turn_step_seconds{uri="turn:a\"b\\c",step="messages"} 1.5
turn_step_seconds{uri="turn:a\"b\\c",step="streams"} 0
# HELP turn_step_code The STUN error code with which a step was refused.
# TYPE turn_step_code gauge
turn_step_code{uri="turn:a\"b\\c",step="streams"} 442
# HELP turn_round_trip_seconds How soon packets came back.
# TYPE turn_round_trip_seconds gauge
turn_round_trip_seconds{uri="turn:a\"b\\c",step="messages",stat="least"} 0.001
turn_round_trip_seconds{uri="turn:a\"b\\c",step="messages",stat="median"} 0.5
turn_round_trip_seconds{uri="turn:a\"b\\c",step="messages",stat="most"} 2
# HELP turn_loss_ratio Which part of the packets did not come back.
# TYPE turn_loss_ratio gauge
turn_loss_ratio{uri="turn:a\"b\\c",step="messages"} 0.25
# HELP turn_crossing_loss_ratio Which part was lost at each crossing between here and the server.
# TYPE turn_crossing_loss_ratio gauge
turn_crossing_loss_ratio{uri="turn:a\"b\\c",step="messages"} 0.0694
# HELP turn_certificate_days For how many days the certificate is still good.
# TYPE turn_certificate_days gauge
turn_certificate_days{uri="turn:a\"b\\c",step="tls"} 29.5
# HELP turn_probe_duration_seconds How long the last check took.
# TYPE turn_probe_duration_seconds gauge
turn_probe_duration_seconds{uri="turn:a\"b\\c"} 2
# HELP turn_probe_timestamp_seconds When it ended, in seconds since 1970.
# TYPE turn_probe_timestamp_seconds gauge
turn_probe_timestamp_seconds{uri="turn:a\"b\\c"} 1700000000.5
# HELP turn_probes_total How many checks were made.
# TYPE turn_probes_total counter
turn_probes_total{uri="turn:a\"b\\c"} 3
"""


def probed(uri: str = 'turn:a"b\\c') -> Probed:
    return Probed(uri, 1, STEPS, 2.0, 1_700_000_000.5, 3)


class Text(unittest.TestCase):
    def test_each_metric_of_a_check(self) -> None:
        self.maxDiff = None
        self.assertEqual(render(metrics_of(probed())), TEXT)

    @unittest.skipUnless(check_page.PAGE.exists(), "the sources are not here")
    def test_the_page_names_each_metric(self) -> None:
        paragraph = re.search(r"(?s)\nEach metric has .*?\n\n", check_page.PAGE.read_text())
        named = re.findall(r"`(turn_\w+)`", paragraph[0] if paragraph else "")
        self.assertEqual(named, re.findall(r"(?m)^# TYPE (\w+) ", TEXT))

    def test_numbers_and_words_of_all_kinds(self) -> None:
        rows = [(float("nan"), "NaN"), (float("inf"), "+Inf"), (-float("inf"), "-Inf"), (1e-7, "1e-07"), (0.1, "0.1"),
                (3.0, "3"), (1e17, "100000000000000000")]
        for value, shown in rows:
            self.assertEqual(render([Metric("a", "b\\\nc", samples=[({}, value)])]).splitlines(),
                             [r"# HELP a b\\\nc", "# TYPE a gauge", f"a {shown}"])
        self.assertIn(r'a{b="c\nd"} 1', render([Metric("a", "", samples=[({"b": "c\nd"}, 1)])]))

    @unittest.skipUnless(shutil.which("promtool"), "promtool is not installed (Debian's package prometheus)")
    def test_promtool_finds_nothing_wrong(self) -> None:
        ran = subprocess.run(["promtool", "check", "metrics"], input=TEXT, stdout=subprocess.PIPE, stderr=subprocess.STDOUT,
                             text=True)
        # It would have seconds in place of days, which operators count.
        self.assertEqual([it for it in ran.stdout.splitlines() if "turn_certificate_days" not in it], [], ran.stdout)


class Pages(unittest.TestCase):
    """No scraper keeps another one from the page."""

    @contextlib.contextmanager
    def page(self, host: str = "127.0.0.1") -> Iterator[Tuple[Page, Address]]:
        with Page(Address(host, 0)) as page:
            page.show("text\n")
            where = urllib.parse.urlsplit(page.url)
            yield page, Address(str(where.hostname), int(where.port or 0))

    def get(self, where: Address, path: str = "/metrics", method: str = "GET") -> Tuple[int, Any, bytes]:
        made = http.client.HTTPConnection(where.host, where.port, timeout=limit(3.0))
        with contextlib.closing(made):
            made.request(method, path)
            found = made.getresponse()
            return found.status, found.headers["Content-Type"], found.read()

    def test_what_is_answered(self) -> None:
        with self.page() as (page, where):
            self.assertEqual(self.get(where), (200, CONTENT_TYPE, b"text\n"))
            self.assertEqual(self.get(where, "/metrics?x=1"), (200, CONTENT_TYPE, b"text\n"))
            self.assertEqual(self.get(where, method="HEAD"), (200, CONTENT_TYPE, b""))
            self.assertEqual([self.get(where, it)[0] for it in ("/", "/other")], [200, 404])
            self.assertEqual(self.get(where, method="POST")[0], 501)
            page.show("other\n")
            self.assertEqual(self.get(where)[2], b"other\n")

    def test_scrapers_that_hang(self) -> None:
        silent = mock.patch("yarrowdoor.command.scrape._Handler.timeout", limit(4.0))
        with silent, self.page() as (_, where), contextlib.ExitStack() as stack:
            hanging = [stack.enter_context(socket.create_connection(where, limit(10.0))) for _ in range(60)]
            for number, it in enumerate(hanging):
                with contextlib.suppress(OSError):  # It is one of those that were closed for others.
                    it.sendall(b"GET /metrics HTTP/1.1\r\nHost: x\r\n"[:number])
            begun = time.monotonic()
            self.assertEqual(self.get(where)[2], b"text\n")
            self.assertLess(time.monotonic() - begun, limit(1.0))
            hanging[0].settimeout(0.5)  # The oldest ones were closed for those that came later, before they were silent too long.
            with contextlib.suppress(ConnectionError):
                self.assertEqual(hanging[0].recv(100), b"")
        self.assertLess(time.monotonic() - begun, limit(2.0))  # Nor is its end waited for.

    def test_many_that_come_at_once_all_get_in(self) -> None:
        """Also before one is taken: a system asks again after 1 s, 3 s and 7 s where the backlog is full."""
        page = Page(Address("127.0.0.1", 0))
        page.show("text\n")
        url = urllib.parse.urlsplit(page.url)
        where = Address(str(url.hostname), int(url.port or 0))
        with contextlib.ExitStack() as stack:
            for _ in range(60):
                stack.enter_context(socket.create_connection(where, 0.9))
            with page:
                self.assertEqual(self.get(where)[2], b"text\n")

    def test_a_scraper_that_is_silent_is_left(self) -> None:
        with mock.patch("yarrowdoor.command.scrape._Handler.timeout", 0.2), self.page() as (_, where):
            with socket.create_connection(where, limit(3.0)) as silent:
                self.assertEqual(silent.recv(100), b"")

    def test_what_is_no_http(self) -> None:
        with self.page() as (_, where):
            for data in (b"\x16\x03\x01\x02\0\1\0\1\xfc\3\3\r\n", b"GET\r\n\r\n", b"A" * 70_000 + b"\r\n", b"\0" * 10):
                with contextlib.suppress(OSError), socket.create_connection(where, limit(3.0)) as it:
                    it.sendall(data)
                    it.shutdown(socket.SHUT_WR)
                    self.assertNotIn(b"200", it.recv(100))
            self.assertEqual(self.get(where)[0], 200)


@unittest.skipUnless(shutil.which("prometheus"), "prometheus is not installed (Debian's package prometheus)")
class Prometheus(unittest.TestCase):
    def test_it_takes_each_sample(self) -> None:
        with Page(Address("127.0.0.1", 0)) as page:
            page.show(TEXT)
            with self.scraping(page.url) as port:
                found = self.asked(port, 'count({__name__=~"turn_.+"})')
                self.assertEqual(found[0]["value"][1], str(sum(not it.startswith("#") for it in TEXT.splitlines())))
                [failed] = self.asked(port, 'turn_step{outcome="failed"} == 1')
                self.assertEqual((failed["metric"]["step"], failed["metric"]["uri"]), ("messages", 'turn:a"b\\c'))

    def test_it_scrapes_a_probe(self) -> None:
        with Threaded(Ipv4Server()) as server:
            uri = f"{server.uri}?transport=udp"
            program = start("probe", uri, "--every", "1", "--listen", "127.0.0.1:0")
            try:
                assert program.stdout is not None
                with self.scraping(program.stdout.readline().split()[2].rstrip(",")) as port:
                    [step] = self.asked(port, 'turn_step{step="challenge",outcome="ok"}')
                    [up] = self.asked(port, "turn_up")
            finally:
                program.terminate()
                program.communicate()
        self.assertEqual((step["value"][1], up["value"][1]), ("1", "0"))  # It relays at a private address.
        self.assertEqual(up["metric"]["uri"], uri)

    @contextlib.contextmanager
    def scraping(self, url: str) -> Iterator[int]:
        """A prometheus that scrapes this page each second, by the port at which it is asked."""
        port, target = free_port(), urllib.parse.urlsplit(url).netloc
        with tempfile.TemporaryDirectory() as room:
            config = pathlib.Path(room, "prometheus.yml")
            config.write_text("scrape_configs:\n  - job_name: turn\n    scrape_interval: 1s\n    static_configs:\n"
                              f"      - targets: ['{target}']\n")
            words = ["prometheus", f"--config.file={config}", f"--storage.tsdb.path={room}/data",
                     f"--web.listen-address=127.0.0.1:{port}"]
            program = subprocess.Popen(words, stdout=subprocess.DEVNULL, stderr=subprocess.DEVNULL)
            try:
                yield port
            finally:
                program.terminate()
                program.wait()

    def asked(self, port: int, query: str) -> List[Dict[str, Any]]:
        """What it has scraped, when it has scraped something."""
        url = f"http://127.0.0.1:{port}/api/v1/query?{urllib.parse.urlencode({'query': query})}"
        deadline = time.monotonic() + limit(20)
        while time.monotonic() < deadline:
            with contextlib.suppress(OSError), urllib.request.urlopen(url, timeout=limit(3.0)) as answer:
                found: List[Dict[str, Any]] = json.loads(answer.read())["data"]["result"]
                if found:
                    return found
            time.sleep(0.2)
        raise AssertionError(f"nothing was scraped for {query}")


class Probes(unittest.TestCase):
    def test_metrics_once(self) -> None:
        with Threaded(Ipv4Server()) as server:
            uri = f"{server.uri}?transport=udp"
            status, out, errors = command("probe", uri, "--user", "user", "--once")
        self.assertEqual((status, errors), (1, ""))  # It relays at a private address.
        self.assertIn(f'turn_up{{uri="{uri}"}} 0\n', out)
        self.assertIn('step="challenge",outcome="ok"} 1\n', out)
        self.assertRegex(out, r'(?m)^turn_round_trip_seconds\{uri="[^"]+",step="messages",stat="median"\} 0\.\d+\n')

    def test_json_of_each_check(self) -> None:
        with Threaded(Ipv4Server(allocate_error=486)) as server:
            status, out, _ = command("probe", server.uri, "--user", "user", "--once", "--json")
        found = json.loads(out)
        [step] = [it for it in found["steps"] if it["name"] == "allocation"]
        self.assertEqual((status, found["version"], step["facts"]["code"]), (1, 1, 486))

    def test_until_a_signal(self) -> None:
        for number in (signal.SIGTERM, signal.SIGINT):
            with Threaded(Ipv4Server()) as server:
                program = start("probe", server.uri, "--every", "1", "--listen", "127.0.0.1:0")
                assert program.stdout is not None
                url = program.stdout.readline().split()[2].rstrip(",")
                self.assertRegex(program.stdout.readline(), r"^\d{4}-\d\d-\d\dT\d\d:\d\d:\d\dZ fails: allocation\n$")
                with urllib.request.urlopen(url, timeout=limit(3.0)) as answer:
                    self.assertIn(b"turn_probes_total", answer.read())
                program.send_signal(number)
                out, errors = program.communicate(timeout=limit(10))
                self.assertEqual((program.returncode, out, errors), (0, "", ""))
                self.assertEqual(server.server.allocations, {})

    def test_a_port_that_is_taken(self) -> None:
        with socket.create_server(("127.0.0.1", 0)) as taken:
            port = taken.getsockname()[1]
            status, _, errors = command("probe", "turn:127.0.0.1:1", "--user", "u", "--listen", f"127.0.0.1:{port}")
        self.assertEqual(status, 2)
        self.assertIn(f"127.0.0.1:{port}", errors)
        self.assertIn("Address already in use", errors)

    def test_credentials_of_a_secret_are_made_anew_for_each_check(self) -> None:
        users: List[str] = []

        def check(plan: Any, output: Output, tap: object) -> None:
            users.append(plan.credentials.user)
            if len(users) == 3:
                raise KeyboardInterrupt

        words = ("probe", "turn:127.0.0.1:1", "--user", "alice", "--listen", "127.0.0.1:0", "--every", "1")
        now = [1_700_000_000.0]
        with mock.patch.object(probe, "check", check), mock.patch("time.time", lambda: now[0]), \
                mock.patch("time.sleep", lambda seconds: now.__setitem__(0, now[0] + 3000)):
            status, _, errors = command(*words, env={"YARROWDOOR_SECRET": "secret"})
        self.assertEqual((status, errors), (0, ""))
        self.assertEqual(users, [f"{1_700_003_600 + 3000 * it}:alice" for it in range(3)])

    def test_an_error_ends_one_check_only(self) -> None:
        count = 0

        def check(plan: Any, output: Output, tap: object) -> None:
            nonlocal count
            count += 1
            if count == 3:
                raise KeyboardInterrupt
            if count == 1:
                raise OSError("no way")

        words = ("probe", "turn:127.0.0.1:1", "--user", "alice", "--listen", "127.0.0.1:0", "--every", "1")
        with mock.patch.object(probe, "check", check), mock.patch("time.sleep"):
            status, out, errors = command(*words)
        self.assertEqual((status, errors), (0, "yarrowdoor: no way\n"))
        self.assertEqual([it.split(" ", 1)[1] for it in out.splitlines()[1:]], ["cannot be tried", "all is well"])


if __name__ == "__main__":
    unittest.main()
