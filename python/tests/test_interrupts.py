"""Signals and forks in a program that uses a client without asyncio: nothing hangs, and all is given back."""
import asyncio
import json
import os
import signal
import threading
import time
import unittest
from typing import Any, Callable, Dict, List
from unittest import mock

from yarrowdoor import Address, Ended, Refused, handle, loop_thread, mailbox, session, sync, threads

from .server import Server
from .steps import Interrupted, interrupt, interrupted
from .threaded import Threaded

PEER = ("10.1.0.1", 9)
# How long a call, and closing after it, may take, in seconds. What hangs takes longer.
LIMIT = 10.0
# How long is waited that a signal interrupts, in seconds.
WAIT = 0.2
FILES = [str(it.__file__) for it in (handle, loop_thread, mailbox, sync, threads)]
# Only each so many-th step of a call is interrupted by a handler that closes, since each needs another client.
STRIDE = 7
CALLS: Dict[str, Callable[[sync.TurnClient], object]] = {
    "sendto": lambda relay: relay.sendto(b"x", PEER),
    "send to a new peer": lambda relay: relay.send(b"x", ("10.1.0.2", 9)),
    "permit": lambda relay: relay.permit("10.1.0.3"),
    "release": lambda relay: relay.release(PEER[0]),
    "receive": lambda relay: relay.receive(timeout=0.02),
}


class Signals(unittest.TestCase):
    def setUp(self) -> None:
        # A busy machine may take long for an answer, which closing waits two seconds for.
        for module, name in ((session, "DELETE_WAIT"), (sync, "CLOSE_WAIT")):
            patient = mock.patch.object(module, name, 2 * LIMIT)
            patient.start()
            self.addCleanup(patient.stop)
        self.endpoint = Threaded(Server())
        self.endpoint.__enter__()
        self.addCleanup(self.endpoint.__exit__, None, None, None)

    def relay(self) -> sync.TurnClient:
        relay = sync.TurnClient(self.endpoint.uri, "user", "pass", timeout=10)
        relay.open()
        relay.permit(PEER[0])
        return relay

    def check_given_back(self, relay: sync.TurnClient, since: float) -> None:
        self.assertLess(time.monotonic() - since, LIMIT)
        self.assertTrue(relay.closed)
        self.assertEqual(self.endpoint.server.allocations, {})
        with self.assertRaises(Ended):
            relay.sendto(b"x", PEER)

    def check_steps(self, interrupt_at: Callable[[sync.TurnClient, Callable[[], object], int], bool]) -> None:
        """Has each call interrupted at one step after the other. `interrupt_at` says whether the call has so many steps."""
        for name, call in CALLS.items():
            step, has_run = 0, True
            while has_run:
                relay = self.relay()
                start = time.monotonic()
                with self.subTest(call=name, step=step):
                    has_run = interrupt_at(relay, lambda: call(relay), step)
                    relay.close()
                    self.check_given_back(relay, start)
                step += STRIDE
            self.assertGreater(step, 50)

    def test_a_handler_that_closes(self) -> None:
        self.check_steps(lambda relay, call, step: interrupt(call, step, FILES, relay.close))

    def test_a_handler_that_raises(self) -> None:
        def raises(relay: sync.TurnClient, call: Callable[[], object], step: int) -> bool:
            has_run = interrupted(call, step, FILES)
            relay.sendto(b"x", PEER)
            relay.check()
            return has_run

        self.check_steps(raises)

    def test_opening_that_is_interrupted(self) -> None:
        step = 0
        while True:
            relay = sync.TurnClient(self.endpoint.uri, "user", "pass", timeout=10)
            start = time.monotonic()
            has_run = interrupted(relay.open, step, FILES)
            relay.close()
            with self.subTest(step=step):
                while self.endpoint.server.allocations and time.monotonic() < start + LIMIT:
                    time.sleep(0.001)
                self.assertEqual(self.endpoint.server.allocations, {})
            if not has_run:
                break
            step += STRIDE
        start = time.monotonic()
        while any(it.name == "yarrowdoor" for it in threading.enumerate()):
            self.assertLess(time.monotonic() - start, 5)
            time.sleep(0.01)

    def test_each_thread_that_waits_learns_of_the_end(self) -> None:
        """One of them is interrupted when it has learned of it."""
        relay = self.relay()
        ended: List[str] = []

        def wait() -> None:
            try:
                relay.receive()
            except Ended as error:
                ended.append(str(error))

        waiting = [threading.Thread(target=wait, daemon=True) for _ in range(2)]
        for thread in waiting:
            thread.start()
        relay.close()
        for step in range(0, 200, 3):
            interrupted(relay.receive, step, FILES)
        for thread in waiting:
            thread.join(12)
        self.assertEqual(ended, ["the client was closed"] * 2)

    def test_an_end_that_is_not_passed_on(self) -> None:
        """Since the thread that learns of it is interrupted then: each other one looks again after a while."""
        inbox, found, news = threads.ThreadInbox(1, None), [], TakenNews()  # type: threads.ThreadInbox, List[object], TakenNews
        with mock.patch.object(mailbox, "TURN", 0.05), mock.patch.object(inbox._came, "_news", news):
            waiting = threading.Thread(target=lambda: found.append(inbox.take_in_thread(None)), daemon=True)
            waiting.start()
            self.assertTrue(news.is_awaited.wait(LIMIT))
            inbox.end()
            waiting.join(LIMIT)
        self.assertEqual(found, [None])


class TakenNews:
    """News that another thread always takes first."""

    def __init__(self) -> None:
        self.is_awaited = threading.Event()

    def acquire(self, timeout: float) -> bool:
        self.is_awaited.set()
        time.sleep(timeout)
        return False

    def locked(self) -> bool:
        return False


class LongHandlers(unittest.TestCase):
    """The handler of a signal returns when the wait that it has interrupted should be over."""

    def setUp(self) -> None:
        self.has_run = False
        self.addCleanup(signal.signal, signal.SIGALRM, signal.signal(signal.SIGALRM, self.handle))
        self.addCleanup(signal.setitimer, signal.ITIMER_REAL, 0.0)

    def handle(self, *_: object) -> None:
        if self.has_run:
            raise Interrupted  # It waits on.
        self.has_run = True
        time.sleep(2 * WAIT)

    def test_who_waits_for_data(self) -> None:
        inbox = threads.ThreadInbox(1, None)
        signal.setitimer(signal.ITIMER_REAL, WAIT / 2, LIMIT)
        with self.assertRaises(TimeoutError):
            inbox.take_in_thread(WAIT)
        self.assertTrue(self.has_run)

    def test_who_waits_for_the_event_loop(self) -> None:
        async def work() -> None:
            self.over = asyncio.Event()
            await self.over.wait()

        thread = loop_thread.LoopThread()
        thread.start(work)
        self.addCleanup(lambda: thread.do(lambda: self.over.set()))
        signal.setitimer(signal.ITIMER_REAL, WAIT / 2, LIMIT)
        with self.assertRaises(loop_thread.NotAnswered):
            thread.call(lambda: asyncio.sleep(3 * LIMIT), WAIT)
        self.assertTrue(self.has_run)

    def test_who_looks_again_and_again(self) -> None:
        """Without a wait, each time that something was taken."""
        inbox, peer = threads.ThreadInbox(1, None), Address(*PEER)
        self.has_run = True
        signal.setitimer(signal.ITIMER_REAL, 6 * LIMIT)
        for _ in range(100_000):
            inbox.put(b"x", peer)
            self.assertIsNotNone(inbox.take_in_thread(0))
            try:
                self.assertIsNone(inbox.take_in_thread(0))
            except TimeoutError:
                pass


class Forks(unittest.TestCase):
    def test_the_child_is_told(self) -> None:
        """And the parent's client goes on, also when the child closes it."""
        with Threaded(Server()) as endpoint, sync.TurnClient(endpoint.uri, "user", "pass") as relay:
            relay.permit(PEER[0])
            found = in_a_child(lambda: told(relay))
            self.assertEqual(found, [[*CALLS], True])
            relay.permit("10.1.0.4")
            relay.check()
            self.assertEqual((relay.closed, len(endpoint.server.allocations)), (False, 1))


def told(relay: sync.TurnClient) -> object:
    """Which calls say that the client is of another process, and whether it is closed. It is closed then."""
    found = [name for name, call in CALLS.items() if is_told(call, relay)], relay.closed
    relay.close()
    return found


def is_told(call: Callable[[sync.TurnClient], object], relay: sync.TurnClient) -> bool:
    """Whether a call says that the client is of another process."""
    try:
        call(relay)
    except Ended as error:
        return "forked" in str(error)
    except (Refused, TimeoutError):
        pass
    return False


def in_a_child(work: Callable[[], object]) -> Any:
    """What a function gives in a fork of this process. `TimeoutError` where it takes too long."""
    reading, writing = os.pipe()
    child = os.fork()
    if not child:
        try:
            os.write(writing, json.dumps(work()).encode())
        finally:
            os._exit(0)
    os.close(writing)
    killer = threading.Timer(10, os.kill, (child, 9))
    killer.start()
    with open(reading, "rb") as answer:
        found = answer.read()
    killer.cancel()
    os.waitpid(child, 0)
    if not found:
        raise TimeoutError("the child says nothing")
    return json.loads(found)


if __name__ == "__main__":
    unittest.main()
