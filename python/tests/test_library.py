"""The library through `library.py` and `client.py`: what it answers, what it refuses, and that nothing is kept."""
import contextlib
import ctypes
import gc
import os
import pathlib
import re
import shutil
import subprocess
import sys
import tempfile
import threading
import time
import timeit
import unittest
from typing import Any, Callable, Dict, List, Optional

from yarrowdoor import address, client as sans_io, handle, layout, library
from yarrowdoor.errors import Busy, LibraryError, Refused

from .replay import replay
from .steps import Interrupted, interrupt

ROOT = pathlib.Path(__file__).resolve().parent.parent.parent
LOCAL, REMOTE = ("192.168.0.1", 1000), ("10.0.0.2", 2000)
PAGE = ROOT / "docs" / "rattle" / "LINES.md"


def new_client(**settings: Any) -> sans_io.Client:
    return sans_io.Client(LOCAL, REMOTE, "user", "pass", seed=bytes(32), algorithms=("sha1",), **settings)


def blocks() -> List[str]:
    """The indented blocks of the page on lines."""
    text = re.sub(r"```[\s\S]*?```", "", PAGE.read_text())
    return [re.sub(r"^    ", "", it, flags=re.M) + "\n" for it in re.findall(r"(?:^    .*\n?)+", text, re.M)]


class Exchanges(unittest.TestCase):
    """What the client answers: as the pages say, as the transcripts say, and as turn_replay says."""

    @unittest.skipUnless(PAGE.exists(), "the sources are not here")
    def test_the_exchange_of_the_page(self) -> None:
        exchange, answers = (it.strip("\n") + "\n" for it in blocks()[:2])
        self.assertEqual("".join(f"{it}\n" for it in replay(exchange)), answers)

    @unittest.skipUnless((ROOT / "include" / "tests").exists(), "the sources are not here")
    def test_the_traces_of_the_repository(self) -> None:
        program = pathlib.Path(os.environ.get("TURN_REPLAY") or ROOT / "crates" / "turn_replay" / "out" / "turn_replay")
        with tempfile.TemporaryDirectory() as room:
            made = [sys.executable, str(ROOT / "include" / "tests" / "traces.py"), room, "200"]
            subprocess.run(made, check=True, stdout=subprocess.DEVNULL)
            compared = 0
            for trace in sorted(pathlib.Path(room, "traces").iterdir()):
                wanted = self.wanted(trace, program)
                if wanted is not None:
                    with self.subTest(trace=trace.name):
                        self.check_same([*replay(trace.read_text())], wanted)
                    compared += 1
        self.assertGreater(compared, 300 if program.exists() else 100)

    def check_same(self, found: List[str], wanted: List[str]) -> None:
        """Names the first answer that differs: a whole comparison of long lists takes minutes."""
        for number, (one, other) in enumerate(zip(found, wanted)):
            self.assertTrue(one == other, f"answer {number}: {one[:200]}, and not {other[:200]}")
        self.assertEqual(len(found), len(wanted))

    def wanted(self, trace: pathlib.Path, program: pathlib.Path) -> "List[str] | None":
        """What a trace is answered: by turn_replay where it is built, else by the transcript. None where neither says."""
        if program.exists():
            with open(trace, "rb") as file:
                ran = subprocess.run([str(program)], stdin=file, stdout=subprocess.PIPE)
            return ran.stdout.decode().splitlines() if ran.returncode == 0 else None
        answers = trace.parent.parent / "answers" / trace.name
        return answers.read_text().splitlines() if answers.exists() else None


class Refusals(unittest.TestCase):
    """What is no call, and what the client refuses."""

    def test_what_is_no_client(self) -> None:
        wrong: List[Dict[str, Any]] = [
            {"allocation": "tcp"}, {"transport": "sctp"}, {"families": ()}, {"families": (4, 6, 4)}, {"families": (5,)},
            {"algorithms": ("md5",)}, {"anonymous": "yes"}, {"times": sans_io.Times(initial=-1)}, {"seed": bytes(31)},
            {"user": ""}, {"user": "u" * 509}, {"password": "p" * 65536}, {"local": ("localhost", 1)},
            {"remote": ("1.2.3.4", 70000)},
        ]
        for settings in wrong:
            chosen: Dict[str, Any] = {"local": LOCAL, "remote": REMOTE, "user": "user", "password": "pass", **settings}
            with self.subTest(settings=list(settings)), self.assertRaises(ValueError):
                sans_io.Client(**chosen)

    def test_what_is_no_call(self) -> None:
        client = new_client()
        three: Any = ("1.2.3.4", 5, 6)
        calls: List[Any] = [
            lambda: client.poll(-1), lambda: client.poll((1 << 62) + 1), lambda: client.poll(1 << 64),
            lambda: client.recv(b"", 0, transport="sctp"), lambda: client.recv(b"", 0, remote=("::g", 1)),
            lambda: client.send_to(("1.2.3.4", 5), bytes(65505), 0), lambda: client.create_permission("1.2.3", 0),
            lambda: client.bind_channel(("1.2.3.4", -1), 0), lambda: client.tcp_connect(three, 0),
        ]
        for bad in calls:
            with self.assertRaises(ValueError):
                bad()
        self.assertEqual(client.poll(0), sans_io.WaitUntil(0))

    def test_what_is_refused(self) -> None:
        client = new_client()
        calls: List[Any] = [
            (lambda: client.delete(0), "no-allocation"), (lambda: client.create_permission("1.2.3.4", 0), "no-allocation"),
            (lambda: client.bind_channel(("1.2.3.4", 5), 0), "no-allocation"),
            (lambda: client.send_to(("1.2.3.4", 5), b"", 0), "no-permission"),
        ]
        for refused, reason in calls:
            with self.assertRaises(Refused) as found:
                refused()
            self.assertEqual((found.exception.reason, found.exception.until), (reason, 0))

    def test_ipv6(self) -> None:
        client = sans_io.Client(("fe80::1", 1000, 0, 3), ("fe80::2", 2000, 0, 3), "user", "pass", families=(6,))
        packet: Any = client.poll_transmit(0)
        self.assertEqual((packet.local, packet.remote), (("fe80::1", 1000, 0, 3), ("fe80::2", 2000, 0, 3)))
        self.assertEqual(address.socket_address(address.packed(("::1", 5, 0, 0))), ("::1", 5))

    def test_buffers_of_the_caller(self) -> None:
        answers: List[Any] = []
        kinds: List[Any] = [bytes, bytearray, memoryview, lambda it: memoryview(bytearray(it)), lambda it: memoryview(it * 2)[::2]]
        for kind in kinds:
            client: Any = new_client()
            client.poll_transmit(0)
            challenge = bytes.fromhex(
                "011300202112a44276b8e0ada0f13d90405d6ae50009000400000401001400057265616c6d000000001500056e6f6e6365000000")
            doubled = bytes(it for one in challenge for it in (one, 0))
            given = memoryview(doubled)[::2] if len(answers) == len(kinds) - 1 else kind(challenge)
            answers.append((client.recv(given, 0), client.poll_transmit(50_000_000).data))
        self.assertEqual(answers, answers[:1] * 5)
        self.assertEqual(answers[0][0], sans_io.Handled())


class Ownership(unittest.TestCase):
    """A client is used by one thread at a time, and is freed once."""

    def test_a_client_that_was_closed_is_not_shared(self) -> None:
        """It is freed, and a function that calls it would read memory that is another's."""
        client = new_client()
        client.close()
        with self.assertRaisesRegex(ValueError, "the client was closed"):
            client.shared()

    def test_a_client_that_is_closed_while_it_is_shared(self) -> None:
        """`close` before each step of `shared`: either nothing is shared, or what is shared is not freed."""
        def share() -> None:
            with contextlib.suppress(ValueError):
                shared.append(client.shared())

        are_freed: List[bool] = []
        has_run = True
        while has_run:
            client, shared = new_client(), []  # type: sans_io.Client, List[object]
            has_run = interrupt(share, len(are_freed), {handle.__file__, sans_io.__file__}, client.close)
            are_freed.append(not client._handle._finalizer.alive)
            self.assertFalse(shared and are_freed[-1])
        self.assertGreater(len(are_freed), 10)
        self.assertIn(True, are_freed)

    def test_a_second_thread_gets_an_error(self) -> None:
        within = CallingLibrary()
        client = new_client(library=within)
        found: List[object] = []

        def use() -> None:
            for call in (lambda: client.poll(0), lambda: client.recv(b"", 0), client.close):
                try:
                    found.append(call())
                except Busy as error:
                    found.append(error)

        def use_in_a_thread() -> None:
            thread = threading.Thread(target=use)
            thread.start()
            thread.join()

        within.calls = use_in_a_thread
        self.assertEqual(client.poll(0), sans_io.WaitUntil(0))
        self.assertEqual([type(it) for it in found], [Busy] * 3)
        self.assertEqual(client.poll(0), sans_io.WaitUntil(0))

    def test_an_interrupt_leaves_the_client_to_the_next_call(self) -> None:
        """Each call is interrupted before each of its steps, as Ctrl-C may do it."""
        client = new_client()
        client.poll_transmit(0)
        calls: List[Callable[[], object]] = [
            lambda: client.poll(0), lambda: client.data_from(b"\x40\0\0\0", 0), lambda: client.recv(bytearray(4), 0),
            lambda: client.data_to(("192.0.2.7", 9), b"x", 0), lambda: client.head_to(("192.0.2.7", 9), 1, 0),
        ]
        for call in calls:
            steps = 0
            while interrupted(call, steps, lambda: self.assertEqual(client.poll(0), sans_io.WaitUntil(500_000_000))):
                steps += 1
            self.assertGreater(steps, 20)

    def test_who_shares_a_client_needs_no_turn(self) -> None:
        """One that is shared sends while another call is under way, and in a signal's handler. It is freed when nobody has it."""
        within = CallingLibrary()
        client = new_client(library=within)
        sends: List[Any] = [client.shared()]
        refused: List[str] = []

        def use() -> None:
            with self.assertRaises(Refused) as raised:
                sends[0](("192.0.2.7", 9), bytearray(b"x"), 0)
            refused.append(raised.exception.reason)

        within.calls = use
        client.poll(0)
        self.assertEqual(refused, ["no-permission"])
        steps = 0
        while interrupted(lambda: sends[0](("192.0.2.7", 9), b"x", 0), steps, use):
            steps += 1
        self.assertEqual(refused, ["no-permission"] * (steps + 1))
        self.assertGreater(steps, 20)
        with self.assertRaises(ValueError):
            sends[0](("192.0.2.7", 9), bytes(70_000), 0)
        client.close()
        self.assertEqual(within.freed, 0)
        use()
        sends.clear()
        del client
        gc.collect()
        self.assertEqual(within.freed, 1)

    def test_bytes_of_each_kind_take_about_as_long(self) -> None:
        client = new_client()
        client.poll_transmit(0)

        def least(data: Any) -> float:
            return min(timeit.repeat(lambda: client.data_from(data, 0), number=50, repeat=40))

        def least_of_new_lengths(kind: Any) -> float:
            given = [kind(it) for it in range(1_000, 1_400)]
            return min(timeit.timeit(lambda: [client.data_from(it, 0) for it in given[at:at + 50]], number=1)
                       for at in range(0, 400, 50))

        self.assertLess(least(bytearray(1_200)), 3 * least(bytes(1_200)))
        self.assertLess(least_of_new_lengths(bytearray), 3 * least_of_new_lengths(bytes))

    def test_many_threads_break_nothing(self) -> None:
        """No call is made while another one is under way: it is `Busy`. The library is one that takes its time, in which threads
        change."""
        slow = SlowLibrary()
        client = new_client(library=slow)
        client.poll_transmit(0)
        wrong: List[object] = []
        busy: List[Busy] = []

        def use() -> None:
            for _ in range(50):
                try:
                    if client.poll(0) != sans_io.WaitUntil(500_000_000):
                        wrong.append("another answer")
                except Busy as error:
                    busy.append(error)
                except Exception as error:
                    wrong.append(error)

        threads = [threading.Thread(target=use) for _ in range(8)]
        for thread in threads:
            thread.start()
        for thread in threads:
            thread.join()
        self.assertEqual((wrong, slow.together), ([], 1))
        self.assertGreater(len(busy), 0)

    def test_each_client_is_freed_once(self) -> None:
        counted = CountingLibrary()
        clients = [new_client(library=counted) for _ in range(10)]
        for client in clients[:5]:
            client.close()
            client.close()
        self.assertEqual((counted.made, counted.freed), (10, 5))
        del client, clients
        gc.collect()
        self.assertEqual((counted.made, counted.freed), (10, 10))
        with self.assertRaises(ValueError):
            new_client(library=counted, families=(7,))
        self.assertEqual(counted.made, counted.freed)

    def test_a_closed_client_makes_no_call(self) -> None:
        client = new_client()
        client.close()
        calls: List[Any] = [lambda: client.poll(0), lambda: client.recv(b"x", 0), lambda: client.send_to(("1.2.3.4", 5), b"", 0)]
        for call in calls:
            with self.assertRaises(ValueError):
                call()


class CountingLibrary:
    """The library, with the clients counted that it makes and frees."""

    def __init__(self) -> None:
        self.of, self.made, self.freed = library.load(), 0, 0
        self.call: Any = self.of.call

    def new(self, *args: object) -> int:
        error = self.of.new(*args)
        self.made += not error
        return int(error)

    def free(self, client: ctypes.c_void_p) -> None:
        self.freed += 1
        self.of.free(client)


class SlowLibrary(CountingLibrary):
    """The library, whose calls last longer, and count how many are made at once."""

    def __init__(self) -> None:
        super().__init__()
        self.inside = self.together = 0
        self.call = self.call_slowly

    def call_slowly(self, *args: object) -> int:
        self.inside += 1
        self.together = max(self.together, self.inside)
        time.sleep(0.001)
        answer = self.of.call(*args)
        self.inside -= 1
        return int(answer)


class CallingLibrary(CountingLibrary):
    """The library, which does something within the next call."""

    def __init__(self) -> None:
        super().__init__()
        self.calls: Optional[Callable[[], None]] = None
        self.call = self.call_first

    def call_first(self, *args: object) -> int:
        first, self.calls = self.calls, None
        if first is not None:
            first()
        return int(self.of.call(*args))


def interrupted(call: Callable[[], object], step: int, then: Callable[[], object]) -> bool:
    """Makes a call, which is interrupted before a step of the interpreter, does something then, while the exception is there, and
    says whether the call has so many steps."""
    def fail() -> None:
        raise Interrupted

    try:
        return interrupt(call, step, [handle.__file__], fail)
    except Interrupted:
        then()
        return True


OTHER = """
#include <stdint.h>
#include <string.h>
static char client[1];
uint32_t yarrowdoor_new(void *s, void *u, size_t ul, void *p, size_t pl, void *d, size_t dl, char **place)
{ *place = client; return 0; }
uint32_t yarrowdoor_call(void *c, void *q, void *b, size_t bl, void *r, size_t rl, uint32_t *answer)
{ memset(answer, 0, 152); answer[0] = 14; return 14; }
void yarrowdoor_free(void *c) {}
uint32_t yarrowdoor_read_message(uint32_t t, void *b, size_t n, void *m) { return 37; }
uint32_t yarrowdoor_read_attribute(void *b, size_t n, uint16_t t, size_t *s, size_t *l) { return 22; }
"""


class Loading(unittest.TestCase):
    """Where there is no library, or another one."""

    def test_no_file(self) -> None:
        with self.assertRaises(LibraryError):
            library.Library("/nowhere/libyarrowdoor.so.0")

    def test_no_library(self) -> None:
        with self.assertRaises(LibraryError):
            library.Library(__file__)

    @unittest.skipUnless(shutil.which("cc"), "there is no C compiler")
    def test_other_versions_and_structs(self) -> None:
        with tempfile.TemporaryDirectory() as room:
            source = pathlib.Path(room, "other.c")
            source.write_text(OTHER)
            for name, reason in (("libyarrowdoor.so.1", "is libyarrowdoor.so.1"), (layout.NAME, "other structs")):
                made = pathlib.Path(room, name)
                subprocess.run(["cc", "-shared", "-fPIC", f"-Wl,-soname,{name}", str(source), "-o", str(made)], check=True)
                with self.assertRaisesRegex(LibraryError, reason):
                    library.Library(made)


if __name__ == "__main__":
    unittest.main()
