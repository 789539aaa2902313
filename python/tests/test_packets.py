"""`yarrowdoor echo`, `bench` and `relay`, and the command as a program: signals, and an output that nobody reads."""
import io
import json
import os
import pathlib
import signal
import socket
import subprocess
import sys
import threading
import time
import unittest
from typing import Any, Dict, List

from yarrowdoor import Address
from yarrowdoor.command.credentials import Credentials
from yarrowdoor.command.pair import CannotRelay, Server
from yarrowdoor.command.relay import relay
from yarrowdoor.uri import parse
from yarrowdoor.wire import Tap

from .coturn import IS_HERE, WHY, coturn
from .threaded import Ipv4Server, Threaded

PACKAGE = pathlib.Path(__file__).resolve().parent.parent


def start(*words: str) -> "subprocess.Popen[str]":
    """The command as a program."""
    path = os.pathsep.join([str(PACKAGE), os.environ.get("PYTHONPATH", "")])
    env = {**os.environ, "PYTHONPATH": path, "YARROWDOOR_PASSWORD": "pass", "YARROWDOOR_USER": "user"}
    return subprocess.Popen([sys.executable, "-m", "yarrowdoor", *words], env=env, text=True, stdout=subprocess.PIPE,
                            stderr=subprocess.PIPE, preexec_fn=lambda: signal.signal(signal.SIGINT, signal.SIG_DFL))


def run(*words: str) -> Dict[str, Any]:
    """What the command prints as JSON, where it ends with 0."""
    program = start(*words, "--json")
    out, errors = program.communicate(timeout=60)
    if program.returncode:
        raise AssertionError(f"{words}: {program.returncode} {out} {errors}")
    found: Dict[str, Any] = json.loads(out)
    if found["version"] != 1:
        raise AssertionError(out)
    return found


def echoing() -> socket.socket:
    """A socket of a peer."""
    found = socket.socket(type=socket.SOCK_DGRAM)
    found.bind(("127.0.0.1", 0))
    found.settimeout(30)
    return found


@unittest.skipUnless(IS_HERE, WHY)
class Packets(unittest.TestCase):
    def test_echo_and_bench_over_each_transport(self) -> None:
        with coturn() as server:
            forms: List[List[str]] = [[server.uri()], [server.uri("turn:127.0.0.1:{port}?transport=tcp")]]
            if server.certificate:
                forms.append([server.uri("turns:localhost:{tls_port}"), "--ca", server.certificate])
            for words in forms:
                for more in ("--size", "1000"), ("--size", "1000", "--channel"):
                    found = run("echo", *words, *more, "--count", "30", "--pause", "0.003")
                    self.assertEqual((found["sent"], found["doubled"]), (30, 0))
                    self.assertGreaterEqual(found["received"], 25, words)
                    self.assertLessEqual(found["least"], found["most"])
                load = run("bench", *words, "--seconds", "0.5", "--channel")
                self.assertGreater(load["received"], 10, words)
                self.assertLessEqual(load["received"], load["sent"])

    def test_bench_keeps_a_rate(self) -> None:
        with coturn() as server:
            load = run("bench", server.uri(), "--seconds", "1", "--rate", "100")
        self.assertTrue(40 <= load["sent"] <= 110, load)

    def test_echo_by_a_peer(self) -> None:
        with coturn() as server, echoing() as peer:
            program = start("echo", server.uri(), "--peer", "127.0.0.1:%d" % peer.getsockname()[1], "--count", "5", "--json")
            for _ in range(5):
                data, relayed = peer.recvfrom(2000)
                peer.sendto(data + b"not the same", relayed)
                peer.sendto(data, relayed)
                peer.sendto(data, relayed)
            found = json.loads(program.communicate(timeout=60)[0])
        self.assertEqual((found["received"], found["doubled"], found["relayed"]), (5, 5, "%s:%d" % relayed))

    def carry(self, uri: str) -> None:
        with echoing() as peer, echoing() as user, echoing() as stranger:
            program = start("relay", uri, "--peer", "127.0.0.1:%d" % peer.getsockname()[1])
            self.addCleanup(program.communicate)
            self.addCleanup(program.kill)
            assert program.stdout is not None
            words = program.stdout.readline().split()
            host, _, port = words[2].rpartition(":")
            user.sendto(bytes(65_507), (host, int(port)))  # is too long for a message, and lost
            for data in (b"", b"hello", bytes(1200)):
                user.sendto(data, (host, int(port)))
                taken, relayed = peer.recvfrom(2000)
                self.assertEqual((taken, "%s:%d" % relayed), (data, words[5]))
                stranger.sendto(b"from another port of the same host", relayed)
                peer.sendto(b"back " + data, relayed)
                self.assertEqual(user.recvfrom(2000), (b"back " + data, (host, int(port))))
            program.send_signal(signal.SIGTERM)
            self.assertEqual(program.wait(60), 0)

    def test_a_relay_carries_both_ways(self) -> None:
        with coturn() as server:
            self.carry(server.uri())
            self.carry(server.uri("turn:127.0.0.1:{port}?transport=tcp"))

    def test_a_relay_in_a_thread(self) -> None:
        # The same in this process, where the lines that it takes are counted.
        printed, ended = io.StringIO(), []  # type: io.StringIO, List[str]
        with echoing() as peer, echoing() as user, coturn() as server:
            asked = Server(parse(server.uri("turn:127.0.0.1:{port}?transport=tcp")), Credentials("user", "pass"), None, None, 1.5,
                           Tap())

            def carry() -> None:
                try:
                    relay(asked, Address("127.0.0.1", 0), Address(*peer.getsockname()), printed)
                except CannotRelay as error:
                    ended.append(str(error))

            thread = threading.Thread(target=carry)
            thread.start()
            end = time.monotonic() + 60
            while not printed.getvalue().endswith("\n") and time.monotonic() < end:
                time.sleep(0.01)
            local = printed.getvalue().split()[2].rpartition(":")
            user.sendto(b"hello", (local[0], int(local[2])))
            data, relayed = peer.recvfrom(2000)
            peer.sendto(data, relayed)
            self.assertEqual(user.recvfrom(2000)[0], b"hello")
            os.kill(server.pid, signal.SIGKILL)
            thread.join(60)
        self.assertEqual(len(ended), 1)
        self.assertIn("the relayed address is gone", ended[0])

    def test_a_relay_ends_with_its_server(self) -> None:
        with echoing() as peer:
            with coturn() as server:
                uri = server.uri("turn:127.0.0.1:{port}?transport=tcp")
                program = start("relay", uri, "--peer", "127.0.0.1:%d" % peer.getsockname()[1])
                assert program.stdout is not None
                program.stdout.readline()
            _, errors = program.communicate(timeout=60)
        self.assertEqual(program.returncode, 1)
        self.assertRegex(errors, "^yarrowdoor: relay: the relayed address is gone: .*Start this again.\n$")


class Program(unittest.TestCase):
    def test_an_interrupt_gives_back_what_was_granted(self) -> None:
        for number in (signal.SIGINT, signal.SIGTERM):
            with Threaded(Ipv4Server()) as server:
                program = start("echo", server.uri, "--count", "10000")
                assert program.stdout is not None
                program.stdout.readline()
                self.assertEqual(len(server.server.allocations), 2)
                program.send_signal(number)
                _, errors = program.communicate(timeout=60)
                self.assertEqual((program.returncode, errors, server.server.allocations), (130, "", {}))

    def test_an_output_that_nobody_reads(self) -> None:
        with Threaded(Ipv4Server()) as server:
            program = start("check", server.uri)
            assert program.stdout is not None and program.stderr is not None
            program.stdout.readline()
            program.stdout.close()
            errors = program.stderr.read()
            program.stderr.close()
            self.assertEqual((program.wait(60), errors), (1, ""))
            self.assertEqual(server.server.allocations, {})

    def test_a_library_that_is_missing(self) -> None:
        words = [sys.executable, "-m", "yarrowdoor", "check", "turn:127.0.0.1"]
        ran = subprocess.run(words, cwd=PACKAGE, stderr=subprocess.PIPE, text=True, env={**os.environ, "YARROWDOOR_LIB": "/none"})
        self.assertEqual(ran.returncode, 2)
        self.assertRegex(ran.stderr, "^yarrowdoor: .*/none.*\n$")

    def test_v_logs_requests_and_no_password(self) -> None:
        with Threaded(Ipv4Server()) as server:
            program = start("echo", server.uri, "--count", "2", "-v")
            _, errors = program.communicate(timeout=60)
        for wanted in ("ALLOCATE sent", "ALLOCATE answered by a success", "CREATE_PERMISSION answered by a success"):
            self.assertIn(wanted, errors)
        self.assertNotIn("pass", errors.replace("passed", ""))


if __name__ == "__main__":
    unittest.main()
