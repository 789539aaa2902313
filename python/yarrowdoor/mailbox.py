"""What threads leave for each other."""
from __future__ import annotations

import collections
import math
import queue
import threading
import time
from typing import Deque, Generic, Optional, TypeVar

__all__ = ["Mailbox"]

_Item = TypeVar("_Item")

# How long one waits before it looks again, in seconds. Who takes something wakes the next one, unless it is interrupted just then.
TURN = 10.0


class Mailbox(Generic[_Item]):
    """A queue between threads. No call holds a lock, so the handler of a signal that interrupts one may make another one.

    `queue.Queue` holds one. `queue.SimpleQueue` does not, but up to Python 3.12 its `get` waits for ever where the handler of a
    signal returns after the timeout, and on 3.9 and 3.10 now and then where the timeout is 0.
    """

    def __init__(self) -> None:
        self._items: Deque[_Item] = collections.deque()
        self._has_ended = False
        self._news = threading.Lock()
        """open where there may be something to take: one who waits closes it, and looks"""
        self._news.acquire()

    def __len__(self) -> int:
        return len(self._items)

    def put(self, item: _Item) -> None:
        """Leaves something."""
        self._items.append(item)
        self._wake()

    def end(self) -> None:
        """Says that nothing more is left."""
        self._has_ended = True
        self._wake()

    def get(self, timeout: Optional[float] = None) -> Optional[_Item]:
        """Waits for something, and takes it: None when all is taken and nothing more comes. `queue.Empty` after that many
        seconds."""
        deadline = math.inf if timeout is None else time.monotonic() + timeout
        try:
            while True:
                has_ended = self._has_ended
                try:
                    if self._items:
                        return self._items.popleft()
                except IndexError:  # Another thread was quicker.
                    pass
                if has_ended:
                    return None
                rest = deadline - time.monotonic()
                if rest <= 0.0:
                    raise queue.Empty
                self._news.acquire(timeout=min(rest, TURN))
        finally:
            if self._items or self._has_ended:
                self._wake()  # another one that waits

    def _wake(self) -> None:
        try:
            if self._news.locked():
                self._news.release()
        except RuntimeError:  # Another thread was quicker.
            pass
