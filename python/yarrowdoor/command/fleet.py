"""Many exchanges in one thread, each looked at when something has come for it, or is due."""
from __future__ import annotations

import heapq
import math
import selectors
import time
from typing import Callable, Dict, List, Tuple

from .exchange import Exchange

__all__ = ["Fleet"]


class Fleet:
    """Exchanges, in the order in which they were added. What one event costs does not grow with
    their number, unlike `drive`. It opens no file when it is used, so that it works where this
    host has none left. It ends with its `with`."""

    def __init__(self, changed: Callable[[Exchange], object] = lambda exchange: None) -> None:
        """`changed` is called with an exchange that has done what was due."""
        self.all: List[Exchange] = []
        self._changed = changed
        self._selector = selectors.DefaultSelector()
        self._numbers: Dict[int, int] = {}
        """the place of each exchange, by its identity"""
        self._due: List[Tuple[float, int]] = []
        self._next: Dict[int, float] = {}
        """when each is looked at, of which `_due` may have older entries too"""

    def __enter__(self) -> Fleet:
        return self

    def __exit__(self, *how: object) -> None:
        for it in self.all:
            it.close()
        self._selector.close()

    def add(self, exchange: Exchange) -> None:
        """Takes an exchange, and closes it at the end."""
        number = len(self.all)
        self.all.append(exchange)
        self._numbers[id(exchange)] = number
        self._selector.register(exchange.wire, selectors.EVENT_READ, number)
        self._work(number)

    def work(self, exchange: Exchange) -> None:
        """Has an exchange do what is due, after a call that makes something due."""
        self._work(self._numbers[id(exchange)])

    def _work(self, number: int) -> None:
        exchange = self.all[number]
        while True:
            exchange.work()
            if not exchange.has_more():
                break
            exchange.take()
        if exchange.is_over:
            self._forget(exchange, number)
        else:
            now = time.monotonic()
            due = min(exchange.wakeup, exchange.judged if exchange.judged > now else math.inf)
            if due < self._next.get(number, math.inf):
                self._next[number] = due
                heapq.heappush(self._due, (due, number))
        self._changed(exchange)

    def _forget(self, exchange: Exchange, number: int) -> None:
        self._next.pop(number, None)
        if exchange.wire.fileno() in self._selector.get_map():
            self._selector.unregister(exchange.wire)

    def drive(self, holds: Callable[[], bool], until: float) -> bool:
        """Has all of them work until something holds, or until this time of `time.monotonic`, and
        says whether it holds."""
        while True:
            self._do_due()
            if holds():
                return True
            now = time.monotonic()
            first = self._due[0][0] if self._due else until
            # Who is late looks once all the same: what has come is not to wait.
            for key, _ in self._selector.select(max(0.0, min(until, first) - now)):
                self.all[key.data].take()
                self._work(key.data)
            if now >= until:
                return holds()

    def _do_due(self) -> None:
        now = time.monotonic()
        while self._due and self._due[0][0] <= now:
            due, number = heapq.heappop(self._due)
            if self._next.get(number) == due:
                del self._next[number]
                self._work(number)
