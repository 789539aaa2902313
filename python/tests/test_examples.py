"""The examples, each as a program of its own, through coturn."""
import contextlib
import os
import pathlib
import signal
import socket
import subprocess
import sys
import tempfile
import unittest
from typing import Any, ClassVar

from . import coturn as server

ROOT = pathlib.Path(__file__).resolve().parent.parent.parent
EXAMPLES = ROOT / "examples"
# The client that is used by lines, where the gate has left it or TURN_LIVE names it.
LIVE = pathlib.Path(os.environ.get("TURN_LIVE") or ROOT / "crates" / "turn_live" / "out" / "turn_live")


def start(*words: str) -> "subprocess.Popen[str]":
    env = {**os.environ, "PYTHONPATH": str(ROOT / "python"), "PYTHONUNBUFFERED": "1"}
    return subprocess.Popen(
        [sys.executable, *words],
        stdout=subprocess.PIPE,
        stderr=subprocess.STDOUT,
        text=True,
        env=env,
        # what runs in the background of a shell ignores SIGINT, and so would the example
        preexec_fn=lambda: signal.signal(signal.SIGINT, signal.SIG_DFL),
    )


def end(program: "subprocess.Popen[str]") -> None:
    """Ends an example that a failed test has left behind."""
    program.kill()
    program.communicate()


@unittest.skipUnless(EXAMPLES.exists(), "the sources are not here")
@unittest.skipUnless(server.IS_HERE, server.WHY)
class Examples(unittest.TestCase):
    server: ClassVar[server.Coturn]
    room: ClassVar[str]
    port: ClassVar[int]

    @classmethod
    def setUpClass(cls) -> None:
        stack = contextlib.ExitStack()
        cls.addClassCleanup(stack.close)
        cls.server = stack.enter_context(server.coturn())
        cls.room = stack.enter_context(tempfile.TemporaryDirectory())
        cls.port = server.free_port()
        peer = subprocess.Popen(["turnutils_peer", "-L", "127.0.0.1", "-p", str(cls.port)], stdout=subprocess.DEVNULL)
        stack.callback(peer.wait)
        stack.callback(peer.terminate)
        server.wait_for(peer, {("udp", "127.0.0.1", cls.port)})

    def echo(self, *options: str) -> None:
        program = start(str(EXAMPLES / "turn.py"), *options, "user", "pass", f"127.0.0.1:{self.port}", "hello")
        said: Any = program.stdout
        self.addCleanup(said.close)
        lines = [said.readline() for _ in range(2)]
        program.send_signal(signal.SIGINT)
        rest = said.read()
        self.assertRegex(lines[0], r"^relayed at 127\.0\.0\.1 \d+$")
        self.assertEqual((lines[1], rest), (f"data from 127.0.0.1 {self.port} hello\n", ""))
        self.assertEqual(program.wait(10), 0)

    def test_turn(self) -> None:
        self.echo(f"127.0.0.1:{self.server.port}")
        self.echo("--tcp", f"127.0.0.1:{self.server.port}")

    def test_turn_over_tls(self) -> None:
        if not self.server.certificate:
            self.skipTest("openssl is not installed, which makes a certificate")
        self.echo("--tls", "--ca", self.server.certificate, f"localhost:{self.server.tls_port}")

    def test_two_relays(self) -> None:
        program = start(str(EXAMPLES / "two_relays.py"), self.server.uri(), "user", "pass", "hello")
        said, _ = program.communicate(timeout=60)
        self.assertRegex(said.splitlines()[-1], r"^alice got hello from 127\.0\.0\.1:\d+$")

    def lines(self, peer: str) -> "subprocess.CompletedProcess[str]":
        program = start(str(EXAMPLES / "lines.py"), f"127.0.0.1:{self.server.port}", "user", "pass", peer, "hello")
        self.addCleanup(end, program)
        said, _ = program.communicate(timeout=60)
        return subprocess.CompletedProcess(program.args, program.returncode, said)

    @unittest.skipUnless(LIVE.exists(), "turn_live is not built")
    def test_lines(self) -> None:
        done = self.lines(f"127.0.0.1:{self.port}")
        allocated, *rest = done.stdout.splitlines()
        self.assertRegex(allocated, r"^allocated udp 127\.0\.0\.1:\d+$")
        self.assertEqual(rest, ["permitted udp 127.0.0.1", f"data from 127.0.0.1:{self.port} hello"])
        self.assertEqual(done.returncode, 0)

    @unittest.skipUnless(LIVE.exists(), "turn_live is not built")
    def test_lines_that_are_wrong(self) -> None:
        done = self.lines(f"localhost:{self.port}")
        self.assertEqual(done.stdout.splitlines()[-1], "permit: bad argument")
        self.assertEqual(done.returncode, 1)

    def test_a_file(self) -> None:
        if not self.server.certificate:
            self.skipTest("openssl is not installed, which makes a certificate")
        sent, taken, port = pathlib.Path(self.room, "sent"), pathlib.Path(self.room, "taken"), server.free_port()
        sent.write_bytes(os.urandom(1_000_001))
        taker = start(str(EXAMPLES / "send_file.py"), "take", str(port), str(taken))
        self.addCleanup(end, taker)
        server.wait_for(taker, {("tcp", "0.0.0.0", port)})
        socket.create_connection(("127.0.0.1", port), 60).close()  # a connection without data takes no file
        uri = self.server.uri("turns:localhost:{tls_port}")
        words = ["send", "--ca", self.server.certificate, uri, "user", "pass", f"127.0.0.1:{port}", str(sent)]
        said, _ = start(str(EXAMPLES / "send_file.py"), *words).communicate(timeout=60)
        self.assertRegex(said, r"^sent 1000001 bytes, SHA-256 [0-9a-f]{64}$")
        taker.communicate(timeout=60)
        self.assertEqual(taken.read_bytes(), sent.read_bytes())


if __name__ == "__main__":
    unittest.main()
