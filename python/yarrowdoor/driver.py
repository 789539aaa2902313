"""Has clients work in one thread, without an event loop."""
from __future__ import annotations

import selectors
import time
from typing import Callable, Sequence, Tuple

from .worker import Worker

__all__ = ["drive"]

# The longest wait between two looks at the clocks of the clients, in seconds: the system's may stand still while it sleeps.
MAX_WAIT = 10.0


def drive(workers: Sequence[Worker], holds: Callable[[], bool], seconds: float,
          others: Sequence[Tuple[int, Callable[[], None]]] = ()) -> bool:
    """Has workers work, in this thread, until something holds, or this many seconds are over, and says whether it holds. `others`
    are further files to be read, each with what reads it."""
    deadline = time.monotonic() + seconds
    with selectors.DefaultSelector() as selector:
        for worker in workers:
            if not worker.is_over:
                selector.register(worker.wire, selectors.EVENT_READ, worker.take)
                selector.register(worker.woken, selectors.EVENT_READ, worker.wakes)
        for number, taker in others:
            selector.register(number, selectors.EVENT_READ, taker)
        while True:
            for worker in workers:
                worker.work()
                if worker.is_over and worker.wire in selector.get_map():
                    selector.unregister(worker.wire)
                    selector.unregister(worker.woken)
            now = time.monotonic()
            if holds():
                return True
            if now >= deadline or not selector.get_map():
                return False
            for key, _ in selector.select(_wait(workers, deadline, now)):
                key.data()
            for worker in workers:
                if worker.has_more():
                    worker.take()


def _wait(workers: Sequence[Worker], deadline: float, now: float) -> float:
    """How long nothing is to be done, unless something comes, in seconds."""
    open_ones = [it for it in workers if not it.is_over]
    if any(it.has_more() for it in open_ones):
        return 0.0
    judged = [it.judged for it in open_ones if it.judged > now]
    return max(0.0, min([deadline, now + MAX_WAIT, *judged, *(it.wakeup for it in open_ones)]) - now)
