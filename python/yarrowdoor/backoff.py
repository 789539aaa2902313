"""How soon it is tried again what has failed."""
from __future__ import annotations

import random
from dataclasses import dataclass
from typing import Iterator

__all__ = ["Backoff"]


@dataclass(frozen=True)
class Backoff:
    """How long lies between the beginnings of two tries, in seconds. The first try is made at once."""

    first: float = 0.5
    """before the second try; then it doubles"""
    longest: float = 4.0
    """the longest wait"""
    jitter: float = 0.5
    """the random part of each wait, from 0 to 1: with 0.5 it is half of the wait to all of it, so that many clients
    of a server that was restarted do not come back at one time"""

    def __post_init__(self) -> None:
        if not 0 < self.first <= self.longest < 1e9:
            raise ValueError(f"first is above 0, and longest at least first: {self}")
        if not 0 <= self.jitter <= 1:
            raise ValueError(f"jitter is from 0 to 1, and not {self.jitter!r}")

    def waits(self) -> Iterator[float]:
        """The waits, one after the other, without an end."""
        whole = self.first
        while True:
            yield whole * (1 - self.jitter * random.random())
            whole = min(2 * whole, self.longest)
