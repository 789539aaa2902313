"""Who waits for which request of a client."""
from __future__ import annotations

import asyncio
import copy
import enum
from typing import Callable, Dict, Optional

from .asked import Key, Record
from .counters import Counters
from .errors import YarrowdoorError
from .tasks import Tasks

__all__ = ["Made", "Requests", "settle"]

# So many requests wait to be sent at a time. Each is signed as it is made, so that few carry a nonce which is outdated when they
# leave, and a deletion waits for few (docs/REAL-SERVERS.md in the repository). Refreshes do not need it: they leave first. How many
# wait for an answer is not limited.
MAX_UNSENT = 8


class Made(enum.Enum):
    """What making a request came to."""

    UNSENT = "a packet will leave for it"
    ASKED_BEFORE = "another request has asked for the same, and the events of that one tell the outcome"
    GRANTED = "it is granted already"


class Requests(Record):
    """The requests of a client: who waits for them, and what the server has answered."""

    def __init__(self, counters: Optional[Counters] = None) -> None:
        super().__init__(counters)
        self._waiters: Dict[Key, asyncio.Future[None]] = {}
        self._unsent: Dict[Key, asyncio.Future[None]] = {}
        self._slots = asyncio.Semaphore(MAX_UNSENT)
        self.tasks = Tasks()

    async def ask(self, key: Key, make: Callable[[], Made]) -> None:
        """Makes a request, and waits until `settle` says how it went. Who asks for one that is under way waits for that one. Each
        who waits gets an error of its own."""
        waiter = self._waiters.get(key)
        if waiter is None or waiter.done():
            waiter = self._waiters[key] = asyncio.get_running_loop().create_future()
            self.tasks.spawn(self._make(key, waiter, make))
        try:
            await asyncio.shield(waiter)
        except YarrowdoorError as error:
            raise copy.copy(error) from error.__cause__

    async def _make(self, key: Key, waiter: asyncio.Future[None], make: Callable[[], Made]) -> None:
        try:
            async with self._slots:
                if waiter.done():
                    return
                self.forget(key)
                sent = self._unsent[key] = asyncio.get_running_loop().create_future()
                made = make()
                if made is Made.UNSENT:
                    await asyncio.wait([sent, waiter], return_when=asyncio.FIRST_COMPLETED)
            if made is Made.GRANTED:
                settle(waiter, None)
            await asyncio.wait([waiter])
        except Exception as error:
            settle(waiter, error)
        finally:
            self._unsent.pop(key, None)
            if self._waiters.get(key) is waiter:
                del self._waiters[key]
            if waiter.done() and not waiter.cancelled():
                waiter.exception()  # Nobody has to wait for it any more.

    def sent(self, packet: bytes, now: int = 0) -> Optional[Key]:
        """Records a packet that left, and returns the request that it makes, if it is one. Who waited for it to leave goes on."""
        key = super().sent(packet, now)
        leaves = self._unsent.pop(key, None) if key is not None else None
        if leaves is not None:
            settle(leaves, None)
        return key

    def settle(self, key: Key, error: Optional[Exception]) -> bool:
        """Tells who waits for a request how it went, and whether anyone did."""
        waiter = self._waiters.get(key)
        return waiter is not None and settle(waiter, error)

    def end(self, error: Callable[[], Exception]) -> None:
        """Nothing is answered any more: who waits gets this error."""
        for waiter in self._waiters.values():
            settle(waiter, error())


def settle(waiter: asyncio.Future[None], error: Optional[Exception]) -> bool:
    """Sets what someone waits for, unless it is set or cancelled already, and says whether it did."""
    if waiter.done():
        return False
    if error is None:
        waiter.set_result(None)
    else:
        waiter.set_exception(error)
    return True
