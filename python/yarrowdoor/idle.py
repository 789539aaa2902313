"""Peers without data in either direction are released, and kept again when they come back."""
from __future__ import annotations

import asyncio
from typing import Dict, Optional, Set, Tuple

from .address import Address
from .asked import About
from .clock import Clock
from .errors import Ended, Refused
from .grants import Grants
from .inbox import Receiver

__all__ = ["Idle"]

# How often it is looked for idle peers, in parts of the time after which a peer is idle.
LOOKS = 4


class Idle:
    """When each permission and channel was used last: released `seconds` later, and kept again when it is used again."""

    def __init__(self, grants: Grants, clock: Clock, seconds: float) -> None:
        self._grants, self._clock, self._life = grants, clock, int(seconds * 1e9)
        self._used: Dict[About, int] = {}
        # What was released here, and not by the user.
        self._released: Set[About] = set()
        self._every = seconds / LOOKS
        self._timer: Optional[asyncio.TimerHandle] = None
        self._look()

    def listening(self, put: Receiver) -> Receiver:
        """A receiver of data that takes the peer as used."""
        def heard(data: bytes, peer: Address) -> None:
            self.use(peer)
            put(data, peer)
        return heard

    def use(self, peer: Address) -> None:
        """Data came from a peer, or was sent to it."""
        self._used[peer] = self._used[peer.host] = self._clock.now()
        if self._released:
            abouts: Tuple[About, About] = (peer, peer.host)
            for about in abouts:
                if about in self._released:
                    self._released.discard(about)
                    self._set_kept(about, True)

    def ask(self, about: About) -> None:
        """The user asks for a grant: it is not released sooner than if it were new."""
        self._used[about] = self._clock.now()
        self._released.discard(about)

    def _look(self) -> None:
        # First, so that an error, as want of memory, does not end the looks.
        self._timer = asyncio.get_running_loop().call_later(self._clock.real(self._every), self._look)
        granted, now = self._grants.granted(), self._clock.now()
        self._used = {about: self._used.get(about, now) for about in granted}
        self._released &= self._grants.released()  # The others have ended.
        for about in granted - self._grants.released():
            if now - self._used[about] >= self._life and self._set_kept(about, False):
                self._released.add(about)

    def _set_kept(self, about: About, is_kept: bool) -> bool:
        """Says whether there is still such a grant."""
        try:
            self._grants.set_kept(about, is_kept)
        except (Ended, Refused):
            return False
        return True

    def end(self) -> None:
        """No peer is looked at any more."""
        if self._timer is not None:
            self._timer.cancel()
