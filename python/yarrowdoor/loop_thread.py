"""An event loop in a thread of its own, and calls into it from other threads.

No call waits for a lock that another one may have: a handler of a signal may interrupt a call, and make another one in the same
thread. So what is waited for comes through a `Mailbox`.
"""
from __future__ import annotations

import asyncio
import contextlib
import os
import queue
import threading
import weakref
from typing import Any, Awaitable, Callable, Generic, Optional, Set, Tuple, TypeVar

from .mailbox import Mailbox
from .tasks import Tasks

__all__ = ["LoopThread", "NotAnswered"]

_Result = TypeVar("_Result")

# How long the thread goes on when its work is done, for what is still being closed, and how long `join` waits for it, in seconds.
LINGER = 3.0
JOIN = 0.3


class NotAnswered(Exception):
    """The loop has not answered a call: it is too late, or the loop has ended."""


class _Call(Generic[_Result]):
    """A call into the loop."""

    def __init__(self, make: Callable[[], Awaitable[_Result]]) -> None:
        self._make = make
        self._task: Optional[asyncio.Future[None]] = None
        self._is_cancelled = False
        self.answer = Mailbox[Tuple[Optional[BaseException], Optional[_Result]]]()
        """what it raises, or returns; it ends without where the thread does"""

    def begin(self) -> None:
        """Begins it, in the loop."""
        if not self._is_cancelled:
            self._task = asyncio.ensure_future(self._run())

    async def _run(self) -> None:
        try:
            self.answer.put((None, await self._make()))
        except asyncio.CancelledError:
            self.answer.end()
        except BaseException as error:
            self.answer.put((error, None))

    def cancel(self) -> None:
        """Nobody waits for it any more."""
        self._is_cancelled = True
        if self._task is not None:
            self._task.cancel()


class LoopThread:
    """A thread with an event loop, which ends when some work is done. After a fork the child has no such thread."""

    def __init__(self) -> None:
        self.thread = threading.Thread(target=self._run, name="yarrowdoor", daemon=True)
        self.is_forked = False
        """whether this is the copy of one that runs in the process that has forked"""
        self._calls: Set[_Call[Any]] = set()
        self._tasks = Tasks()
        self._loop: Optional[asyncio.AbstractEventLoop] = None
        self._is_over = False
        self._begun = Mailbox[OSError]()

    def start(self, work: Callable[[], Awaitable[None]]) -> None:
        """Begins, and goes on until the work is done. `OSError` where too many files are open."""
        self._work = work
        _started.add(self)
        self.thread.start()
        error = self._begun.get()
        if error is not None:
            raise error

    def _run(self) -> None:
        try:
            loop = asyncio.SelectorEventLoop()
        except OSError as error:
            return self._begun.put(error)
        asyncio.set_event_loop(loop)
        self._loop = loop
        self._begun.end()
        try:
            loop.run_until_complete(self._live())
        finally:
            self._is_over = True
            loop.close()
            for call in [*self._calls]:
                call.answer.end()

    async def _live(self) -> None:
        try:
            await self._work()
            others = asyncio.all_tasks() - {asyncio.current_task()}
            if others:
                await asyncio.wait(others, timeout=LINGER)
        finally:
            self._is_over = True
            await asyncio.sleep(0)  # What was posted before begins.
            others = asyncio.all_tasks() - {asyncio.current_task()}
            for task in others:
                task.cancel()
            await asyncio.gather(*others, return_exceptions=True)

    @property
    def is_here(self) -> bool:
        """Whether the caller is in this thread, which can wait for nothing."""
        return threading.get_ident() == self.thread.ident

    def call(self, make: Callable[[], Awaitable[_Result]], seconds: Optional[float] = None) -> _Result:
        """Has the loop do something, and waits for what that returns or raises. It is cancelled where the wait is interrupted, and
        after that many seconds: `NotAnswered`, as where the loop has ended. `RuntimeError` in the thread itself."""
        if self.is_here:
            raise RuntimeError("a function that the client calls cannot wait for the client: have another thread make this call")
        call = _Call(make)
        self._calls.add(call)
        try:
            self._post(call.begin)
            found = call.answer.get(seconds)
        except queue.Empty:
            self.post(call.cancel)
            raise NotAnswered(f"no answer in {seconds} s") from None
        except BaseException:
            self.post(call.cancel)
            raise
        finally:
            self._calls.discard(call)
        if found is None:
            raise NotAnswered("the thread has ended")
        error, result = found
        if error is not None:
            raise error
        return result  # type: ignore[return-value]

    def do(self, function: Callable[[], _Result]) -> _Result:
        """The same for a function that does not wait, also in the thread itself."""
        async def make() -> _Result:
            return function()

        return function() if self.is_here else self.call(make)

    def begin(self, make: Callable[[], Awaitable[None]]) -> None:
        """Has the loop do something, and does not wait for it."""
        self.post(lambda: self._tasks.spawn(make()))

    def post(self, function: Callable[[], object]) -> None:
        """Has the loop call a function soon, unless it has ended."""
        with contextlib.suppress(NotAnswered):
            self._post(function)

    def _post(self, function: Callable[[], object]) -> None:
        if self.is_forked or self._is_over or self._loop is None:
            raise NotAnswered("the thread has ended")
        try:
            self._loop.call_soon_threadsafe(function)
        except RuntimeError:  # the loop was closed just now
            raise NotAnswered("the thread has ended") from None

    def join(self) -> None:
        """Waits for the end of the thread, but not for long."""
        if not self.is_here and not self.is_forked and self.thread.is_alive():
            self.thread.join(JOIN)


_started: weakref.WeakSet[LoopThread] = weakref.WeakSet()


def _forget() -> None:
    for it in [*_started]:
        it.is_forked = True


os.register_at_fork(after_in_child=_forget)
