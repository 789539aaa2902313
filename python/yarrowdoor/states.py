"""Whether a relay is up or down, for who looks, is called, or waits for the next change."""
from __future__ import annotations

import asyncio
import collections
from dataclasses import dataclass
from typing import AsyncIterator, Callable, Deque, List, Optional, Union

from .address import Address

__all__ = ["Down", "State", "States", "Up"]

# So many changes wait for an iterator that does not take them. Then the oldest one is forgotten.
HISTORY = 64


@dataclass(frozen=True)
class Up:
    """There is a relayed address."""

    address: Address
    """what peers send to"""
    before: Optional[Address] = None
    """what they sent to before, if there was one"""

    @property
    def is_new(self) -> bool:
        """Whether the relayed address is another one than before, so that the peers have to learn it."""
        return self.address != self.before


@dataclass(frozen=True)
class Down:
    """There is no relayed address, or none that carries data."""

    reason: Exception
    """what has ended the last one, or why there is no new one"""


State = Union[Up, Down]


class States:
    """The state of a relay now, and its changes."""

    def __init__(self, on_state: Optional[Callable[[State], None]]) -> None:
        self.now: Optional[State] = None
        self.address: Optional[Address] = None
        """the last relayed address, if there was one"""
        self.on_state = on_state
        self._readers: List[_Reader] = []
        self._is_over, self._why = False, None  # type: bool, Optional[Callable[[], Exception]]

    def set(self, state: State) -> None:
        """The state has changed."""
        self.now = state
        if isinstance(state, Up):
            self.address = state.address
        for reader in self._readers:
            reader.put(state)
        if self.on_state is not None:
            asyncio.get_running_loop().call_soon(self.on_state, state)

    def end(self, why: Optional[Callable[[], Exception]]) -> None:
        """There is no further change: who waits for one gets this error, if there is one."""
        self._is_over, self._why = True, why
        for reader in self._readers:
            reader.wake()

    async def changes(self) -> AsyncIterator[State]:
        """The state now, if there is one, and each one that follows."""
        reader = _Reader(self.now)
        self._readers.append(reader)
        try:
            while True:
                while reader.states:
                    yield reader.states.popleft()
                if self._is_over:
                    break
                await reader.wait()
        finally:
            self._readers.remove(reader)
        if self._why is not None:
            raise self._why()


class _Reader:
    """The changes that one iterator has not taken yet."""

    def __init__(self, now: Optional[State]) -> None:
        self.states: Deque[State] = collections.deque([] if now is None else [now], maxlen=HISTORY)
        self._event = asyncio.Event()

    def put(self, state: State) -> None:
        self.states.append(state)
        self.wake()

    def wake(self) -> None:
        self._event.set()

    async def wait(self) -> None:
        await self._event.wait()
        self._event.clear()
