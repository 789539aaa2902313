"""A peer that is named with `--peer`, and what is said where it is not reached; and hosts that have no file left."""
import contextlib
import json
import os
import resource
import socket
import subprocess
import sys
import threading
import time
import unittest
from typing import Any, Dict, Iterator, Tuple

from . import coturn
from .test_command import command
from .test_packets import PACKAGE
from .threaded import Ipv4Server, Threaded
from .turn_servers import limit


@contextlib.contextmanager
def peer(host: str = "127.0.0.1", answers: bool = True, port: int = 0) -> Iterator[str]:
    """A peer that sends back what it is sent, or says nothing."""
    with socket.socket(type=socket.SOCK_DGRAM) as sock:
        sock.bind((host, port))
        sock.settimeout(0.1)
        has_ended = threading.Event()

        def serve() -> None:
            while not has_ended.is_set():
                with contextlib.suppress(socket.timeout, ConnectionError):
                    data, source = sock.recvfrom(4096)
                    if answers:
                        sock.sendto(data, source)

        thread = threading.Thread(target=serve)
        thread.start()
        try:
            yield "%s:%d" % sock.getsockname()
        finally:
            has_ended.set()
            thread.join()


def outside(uri: str, named: str) -> Tuple[int, Dict[str, Any]]:
    """The status of a check with this peer, and its step `outside`."""
    status, out, _ = command("check", uri, "--user", "user", "--json", "--peer", named, "--timeout", str(limit(1.5)))
    [step] = [it for it in json.loads(out)["steps"] if it["name"] == "outside"]
    return status, step


@unittest.skipUnless(coturn.IS_HERE, coturn.WHY)
class Named(unittest.TestCase):
    def test_one_that_sends_back(self) -> None:
        for form in ("turn:127.0.0.1:{port}", "turn:127.0.0.1:{port}?transport=tcp"):
            with coturn.coturn() as server, peer() as named:
                status, step = outside(server.uri(form), named)
            self.assertEqual((status, step["outcome"], step["facts"]), (0, "ok", {"out_and_in": 3, "sent": 3, "peer": named}))
            self.assertEqual(step["said"], f"3 of 3 packets came back from {named}")

    def test_one_that_sends_nothing_back(self) -> None:
        with coturn.coturn() as server, peer(answers=False) as named:
            status, step = outside(server.uri(), named)
        self.assertEqual((status, step["outcome"], step["facts"]["out_and_in"]), (1, "failed", 0))
        self.assertIn(f"{named} sends nothing back", step["advice"])

    def test_one_that_the_server_refuses(self) -> None:
        with coturn.coturn("--denied-peer-ip", "127.0.0.9") as server, peer("127.0.0.9") as named:
            status, step = outside(server.uri(), named)
        self.assertEqual((status, step["outcome"], step["facts"]["code"]), (1, "failed", 403))
        self.assertIn("refuses 127.0.0.9 as a peer (403 Forbidden IP): permit it (coturn: allowed-peer-ip=127.0.0.9",
                      step["advice"])
        self.assertNotIn("its own", step["advice"])

    def test_one_of_the_other_family(self) -> None:
        with coturn.coturn() as server:
            status, step = outside(server.uri(), "[::1]:9")
        self.assertEqual((status, step["outcome"]), (2, "untried"))
        self.assertIn("of the other family", step["said"])


class NoFiles(unittest.TestCase):
    def test_all_is_given_back_where_this_host_opens_no_more(self) -> None:
        # An allocation takes three files: of these limits one leaves none of them for anything else.
        for most in (64, 65, 66):
            words = [sys.executable, "-m", "yarrowdoor", "check", "--quota", "60", "--json", "--user", "user"]
            with Threaded(Ipv4Server()) as server:
                ran = subprocess.run(
                    [*words, server.uri], stdout=subprocess.PIPE, stderr=subprocess.PIPE, text=True, timeout=60,
                    env={**os.environ, "PYTHONPATH": str(PACKAGE), "YARROWDOOR_PASSWORD": "pass"},
                    preexec_fn=lambda: resource.setrlimit(resource.RLIMIT_NOFILE, (most, most)))
                deadline = time.monotonic() + limit(3.0)
                while server.server.allocations and time.monotonic() < deadline:
                    time.sleep(0.05)
                self.assertEqual((ran.stderr, server.server.allocations), ("", {}), most)
            step = json.loads(ran.stdout)["steps"][-1]
            self.assertEqual((step["name"], step["outcome"]), ("quota", "untried"), ran.stdout)
            self.assertIn(f"this host lets this program open {most} files", step["said"])
            self.assertIn("ulimit -n", step["advice"])


if __name__ == "__main__":
    unittest.main()
