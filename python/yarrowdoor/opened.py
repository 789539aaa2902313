"""What `TurnClient` and `Relay` share: `async with`, and taking what peers sent."""
from __future__ import annotations

from types import TracebackType
from typing import Any, AsyncIterator, NoReturn, Optional, Tuple, Type, TypeVar

from .address import Address
from .errors import Ended
from .inbox import Inbox

__all__ = ["Opened"]

_Self = TypeVar("_Self", bound="Opened")


class Opened:
    """A relayed address that is opened and closed, and data of peers that comes to it until then."""

    _inbox: Inbox

    async def open(self) -> None:
        """What entering does."""
        raise NotImplementedError

    async def close(self) -> None:
        """What leaving does."""
        raise NotImplementedError

    def _is_not_opened(self) -> bool:
        """Whether `open` was not called."""
        raise NotImplementedError

    def _has_failed(self) -> bool:
        """Whether it has ended by itself, or was not opened."""
        raise NotImplementedError

    def _ending(self) -> Ended:
        """Why a call is not made, as a new error for each."""
        raise NotImplementedError

    async def __aenter__(self: _Self) -> _Self:
        await self.open()
        return self

    async def __aexit__(self, kind: Optional[Type[BaseException]], error: Optional[BaseException],
                        trace: Optional[TracebackType]) -> None:
        await self.close()

    def __reduce_ex__(self, protocol: Any) -> NoReturn:
        raise TypeError(f"a {type(self).__name__} is not copied: it has a socket, and the relayed address is deleted with it")

    def __aiter__(self) -> AsyncIterator[Tuple[bytes, Address]]:
        return self

    async def __anext__(self) -> Tuple[bytes, Address]:
        """The next data of a peer. It ends with `close`; `Ended` if this has ended by itself, or was not opened;
        `RuntimeError` with `receiver=`, which takes all. A `Relay` goes on while it is down."""
        found = self._inbox.pop() or await self._take()
        if found is None:
            if self._has_failed():
                raise self._ending()
            raise StopAsyncIteration
        return found

    async def receive(self) -> Tuple[bytes, Address]:
        """The next data of a peer, and the peer. `Ended` if this has ended, or was not opened; `RuntimeError` with `receiver=`,
        which takes all."""
        found = self._inbox.pop() or await self._take()
        if found is None:
            raise self._ending()
        return found

    async def _take(self) -> Optional[Tuple[bytes, Address]]:
        if self._inbox.has_receiver:
            raise RuntimeError("the receiver takes all data: there is none to wait for")
        return None if self._is_not_opened() else await self._inbox.take()
