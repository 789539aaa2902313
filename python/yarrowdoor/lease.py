"""How long a server may keep an allocation."""
from __future__ import annotations

from typing import Optional

from .clock import Clock

__all__ = ["Lease"]

# The lifetime where a server does not say it, in seconds (RFC 8656, section 3.2).
DEFAULT_LIFETIME = 600


class Lease:
    """The lifetime of an allocation, from the last sign of it. It ends when the server has confirmed that it is deleted."""

    def __init__(self, clock: Clock) -> None:
        self._clock, self._until = clock, 0

    def renew(self, lifetime: Optional[int]) -> None:
        """The server has granted it for this many seconds."""
        self._until = self._clock.now() + (DEFAULT_LIFETIME if lifetime is None else lifetime) * 1_000_000_000

    def end(self) -> None:
        """The server has deleted it."""
        self._until = 0

    @property
    def is_running(self) -> bool:
        """Whether the server may still keep it."""
        return self._clock.now() < self._until
