"""Two exchanges with a server that is far away, which begin before it is known whether it answers: that saves a round trip."""
from __future__ import annotations

import contextlib
import math
from typing import Callable, List, Optional, Sequence

from ..driver import drive
from .doors import Doors
from .exchange import Exchange
from .reach import Way

__all__ = ["Ahead"]

# A server that answers within this many seconds is near, and nothing is sent ahead. The packets that ask whether it is there have
# left by then, so that a limit of new flows sees them first.
_NEAR = 0.05


class Ahead:
    """The exchanges that have begun, or none: where the URI is not one of UDP, and where the server is near."""

    def __init__(self, doors: Doors, make: Callable[[Way], Exchange]) -> None:
        self._doors, self._make = doors, make
        self._way: Optional[Way] = None
        self.all: List[Exchange] = []

    def work(self) -> None:
        """Opens them, and has them work until it is known which way leads to the server."""
        self._way = self._doors.likely_way()
        if self._way is None or self._doors.is_way_known(_NEAR):
            return
        with contextlib.suppress(OSError):  # What is wrong with this host's sockets is found again where they are needed.
            for _ in range(2):
                self.all.append(self._make(self._way))
                self._doors.knocking.when_heard(self.all[-1].wake)
        drive(self.all, self._doors.is_way_known, math.inf)

    def taken(self, way: Optional[Way]) -> Sequence[Exchange]:
        """Both, where they have taken the right way."""
        return self.all if way is not None and way == self._way and len(self.all) == 2 else []
