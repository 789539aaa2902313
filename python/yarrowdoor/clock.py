"""The clock of a client."""
from __future__ import annotations

import asyncio
import time
from time import clock_gettime_ns
from typing import Callable, Optional

__all__ = ["Alarm", "Clock"]

# A timer of the event loop may stand still while the computer sleeps, so that none is longer, in seconds.
MAX_SLEEP = 15.0


class Clock:
    """Nanoseconds since it was made, also while the computer sleeps. With another `rate` it is faster, as tests need it."""

    def __init__(self, rate: float = 1.0) -> None:
        self._which: int = getattr(time, "CLOCK_BOOTTIME", time.CLOCK_MONOTONIC)
        self._start, self._rate = clock_gettime_ns(self._which), rate

    def now(self) -> int:
        """The time of the client."""
        passed = clock_gettime_ns(self._which) - self._start
        return passed if self._rate == 1.0 else int(passed * self._rate)

    def seconds(self, until: int) -> float:
        """How long it takes until this time of the client, in seconds of the event loop; 0 where it has passed."""
        return max(0.0, (until - self.now()) / 1e9 / self._rate)

    def real(self, seconds: float) -> float:
        """So many seconds of the client, in seconds of the event loop."""
        return seconds / self._rate


class Alarm:
    """Calls a function at a time of the client, or at most `MAX_SLEEP` later: one that comes too early does no harm."""

    def __init__(self, clock: Clock, ring: Callable[[], None]) -> None:
        self._clock, self._ring = clock, ring
        self._timer: Optional[asyncio.TimerHandle] = None
        self._due = -1
        self.late = 0.0
        """how much too late it rings, in seconds: a mean, in which the last time counts an eighth"""

    def set(self, due: int) -> None:
        """Rings at this time, and no longer at the one that was set before."""
        if self._timer is not None:
            if due == self._due:
                return
            self._timer.cancel()
        self._due = due
        self._timer = asyncio.get_running_loop().call_later(min(self._clock.seconds(due), MAX_SLEEP), self._rings)

    def _rings(self) -> None:
        self._timer = None
        late = (self._clock.now() - self._due) / 1e9
        if late >= 0:
            self.late += (late - self.late) / 8
        self._ring()

    def cancel(self) -> None:
        """Does not ring any more."""
        if self._timer is not None:
            self._timer.cancel()
            self._timer = None
