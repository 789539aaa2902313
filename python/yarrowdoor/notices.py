"""What a client reports by itself: what is lost, errors of its socket, and whether it is full."""
from __future__ import annotations

import asyncio
import collections
import dataclasses
from dataclasses import dataclass
from typing import Callable, Deque, Optional, TypeVar, Union

from .address import Address
from .counters import Counters
from .forwarding import Forwarded, Settable
from .inbox import Inbox

__all__ = ["Lost", "Notices", "Told"]

_Told = TypeVar("_Told")


@dataclass(frozen=True)
class Lost:
    """What a peer had, and has no longer."""

    what: str
    """`"permission"` or `"channel"`"""
    peer: Union[str, Address]
    """of a permission the IP address, of a channel the address with its port"""


class Notices:
    """The functions that the user has set, and what is kept for who asks later. What a function raises is not the client's."""

    def __init__(self) -> None:
        self.counters = Counters()
        self.unsent = 0
        self.lost: Deque[Lost] = collections.deque(maxlen=1024)
        self.on_lost: Optional[Callable[[Lost], None]] = None
        self.on_error: Optional[Callable[[Exception], None]] = None
        self.on_pause: Optional[Callable[[bool], None]] = None

    def tell_lost(self, lost: Lost) -> None:
        """Tells what a peer has lost."""
        self.lost.append(lost)
        _call_soon(self.on_lost, lost)

    def tell_error(self, error: Exception) -> None:
        """Tells an error of the socket that has not ended it."""
        _call_soon(self.on_error, error)

    def tell_pause(self, is_full: bool) -> None:
        """Tells at once that the socket is full, or no longer."""
        if self.on_pause is None:
            return
        try:
            self.on_pause(is_full)
        except Exception as error:
            context = {"message": "on_pause of a TurnClient raised", "exception": error}
            asyncio.get_running_loop().call_exception_handler(context)


def _call_soon(told: Optional[Callable[[_Told], None]], about: _Told) -> None:
    if told is not None:
        asyncio.get_running_loop().call_soon(told, about)


class Told:
    """What a user reads of these, and sets."""

    def __init__(self, inbox: Inbox, notices: Notices) -> None:
        self._inbox, self._notices = inbox, notices

    dropped = Forwarded[int]("_inbox", "How many packets of peers were dropped, since `queue` of them were waiting.")

    @property
    def unsent(self) -> int:
        """How many packets to peers were dropped, since the socket was full or refused them. Later losses are not counted."""
        return self._notices.unsent

    def _count_unsent(self) -> None:
        """Something over this has dropped a packet to a peer."""
        self._notices.unsent += 1

    def _count_dropped(self) -> None:
        """Something over this has dropped a packet of a peer."""
        self._inbox.dropped += 1

    @property
    def counters(self) -> Counters:
        """What was sent and has come since the client was made, as it is now: a copy, which does not change."""
        return dataclasses.replace(self._notices.counters, dropped=self.dropped, unsent=self.unsent)

    lost = Forwarded[Deque[Lost]](
        "_notices", "What peers have lost, the last 1,024 of it: the server does not renew it, or was restarted.")
    on_lost = Settable[Optional[Callable[[Lost], None]]](
        "_notices", "Called with each permission and channel that is lost, if it is set.")
    on_error = Settable[Optional[Callable[[Exception], None]]](
        "_notices", "Called with each error of the socket over UDP that does not end it, if it is set.")
    on_pause = Settable[Optional[Callable[[bool], None]]](
        "_notices", "Called with True when the socket is full, so that `sendto` drops data, and with False when it is no longer, "
        "if it is set.")
