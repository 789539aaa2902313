"""Data of peers: it waits here to be taken, or goes to the receiver that the caller gave."""
from __future__ import annotations

import asyncio
import collections
import contextvars
from typing import Any, Callable, Deque, Optional, Tuple

from .address import Address
from .counters import Counters

__all__ = ["Inbox", "Receiver"]

Receiver = Callable[[bytes, Address], None]


class Taker(asyncio.Future[None]):
    """What the task waits for that takes data. It can go on at once, and not in the next round of the event loop."""

    def __init__(self) -> None:
        super().__init__()
        self._goes_on: Optional[Tuple[Callable[[Any], object], Optional[contextvars.Context]]] = None

    def add_done_callback(self, fn: Callable[[Any], object], *, context: Optional[contextvars.Context] = None) -> None:
        self._goes_on = fn, context

    def cancel(self, msg: Optional[Any] = None) -> bool:
        is_cancelled = super().cancel()
        if is_cancelled:
            self._go_on_soon()
        return is_cancelled

    def wake(self, at_once: bool) -> None:
        """Has the task go on: at once where that is wanted and no other task runs, else soon."""
        self.set_result(None)
        if at_once and self._goes_on is not None and asyncio.current_task() is None:
            fn, context = self._goes_on
            (context or contextvars.copy_context()).run(fn, self)
        else:
            self._go_on_soon()

    def _go_on_soon(self) -> None:
        if self._goes_on is not None:
            fn, context = self._goes_on
            self.get_loop().call_soon(fn, self, context=context)


class Inbox:
    """Data of peers that waits to be taken: at most `size` packets. A further one is dropped, and counted. With a receiver nothing
    waits. `ValueError` where `size` is under 1."""

    def __init__(self, size: int, receiver: Optional[Receiver]) -> None:
        if size < 1:
            raise ValueError(f"queue is at least 1, and not {size}")
        self.dropped = 0
        self.has_receiver = receiver is not None
        self._size = size
        self.packets: Deque[Tuple[bytes, Address]] = collections.deque()
        self._takers: Deque[Taker] = collections.deque()
        self._has_ended = False
        self.put: Receiver = self._keep
        """Takes data of a peer. It raises what the receiver does."""
        self.put_last: Receiver = self._keep_last
        """The same, for a caller that has nothing to do after it: a task that waits for data goes on meanwhile. A round of the
        event loop would take as long as all else that is done for a datagram."""
        if receiver is not None:
            self.put = self.put_last = receiver

    def _keep(self, data: bytes, peer: Address, at_once: bool = False) -> None:
        if len(self.packets) >= self._size:
            self.dropped += 1
        else:
            self.packets.append((data, peer))
            self._wake_taker(at_once)

    def _keep_last(self, data: bytes, peer: Address) -> None:
        self._keep(data, peer, at_once=True)

    def counting(self, counters: Counters, is_last: bool) -> Receiver:
        """What takes data of a peer, and counts it: `put_last` or `put`. What a receiver raises goes to the event loop's handler:
        it is not the client's."""
        put = self.put_last if is_last else self.put

        def counted(data: bytes, peer: Address) -> None:
            counters.packets_in += 1
            counters.bytes_in += len(data)
            try:
                put(data, peer)
            except Exception as error:
                context = {"message": f"the receiver of a TurnClient raised for data of {peer}", "exception": error}
                asyncio.get_running_loop().call_exception_handler(context)

        return counted

    def pop(self) -> Optional[Tuple[bytes, Address]]:
        """The next data, and its peer, or None where there is none yet."""
        return self.packets.popleft() if self.packets else None

    async def take(self) -> Optional[Tuple[bytes, Address]]:
        """The next data, and its peer; None when all is taken and the client has ended."""
        while not self.packets:
            if self._has_ended:
                return None
            taker = Taker()
            self._takers.append(taker)
            try:
                await taker
            except asyncio.CancelledError:
                if taker in self._takers:
                    self._takers.remove(taker)
                if self.packets:
                    self._wake_taker(at_once=False)  # another one, since this one takes nothing
                raise
        return self.packets.popleft()

    def end(self) -> None:
        """No more data comes: who waits for some learns it."""
        self._has_ended = True
        while self._wake_taker(at_once=False):
            pass

    def _wake_taker(self, at_once: bool) -> bool:
        """Wakes one that waits for data, and says whether there was one. One that was cancelled waits no more."""
        while self._takers:
            taker = self._takers.popleft()
            if not taker.done():
                taker.wake(at_once)
                return True
        return False
