"""What happens in a session, as lines of the log `yarrowdoor`, and as numbers. No password, key or data is in it."""
from __future__ import annotations

import logging
from typing import Callable, Optional, Union

from . import reasons
from .address import Address
from .asked import Asked, Key
from .counters import Counters
from .errors import Ended, Hint
from .link import Link
from .uri import TurnUri

__all__ = ["Journal", "Watcher"]

_log = logging.getLogger("yarrowdoor")
_log.addHandler(logging.NullHandler())  # Otherwise a warning goes to the terminal of a program without a log.
# What requests ask for, in the words of the log.
_NAMES = {reasons.CREATE_PERMISSION: "permission of", reasons.CHANNEL_BIND: "channel to", reasons.CONNECT: "connection to"}

# Is called with which request was answered, with which error code, and whether the client has taken the answer.
Watcher = Callable[[Key, Optional[int], bool], None]


class Journal:
    """The log of a session. Its lines begin with the relayed address, or with the server while there is none."""

    def __init__(self, server: TurnUri, link: Link, counters: Counters) -> None:
        self._server, self._prefix, self.counters = str(server), str(server), counters
        self.watcher: Optional[Watcher] = None
        """is called with each answer"""
        self.is_leaving = False
        """whether the relayed address is being deleted, which is a refresh too"""
        self._say(logging.INFO, "connected from %s to %s", link.local, link.remote)

    def allocated(self, address: Address, mapped: Optional[Address]) -> None:
        """There is a relayed address."""
        self._prefix = str(address)
        self._say(logging.INFO, "allocated by %s for %s", self._server, mapped or "an address that it does not say")

    def granted(self, key: Key) -> None:
        """There is a permission, or a channel."""
        self._say(logging.INFO, "granted: %s %s", _NAMES.get(key.method, "answer to"), key.about)

    def failed(self, key: Key, hint: Hint, was_granted: bool) -> None:
        """A permission or a channel is refused, or lost."""
        what, told = _NAMES.get(key.method, "answer to"), _told(hint)
        self._say(logging.WARNING, "%s: %s %s%s", "lost" if was_granted else "refused", what, key.about, told)

    def released(self, key: Key) -> None:
        """A permission or a channel has ended that was released."""
        self._say(logging.DEBUG, "ended: %s %s", _NAMES.get(key.method, "answer to"), key.about)

    def answered(self, key: Key, asked: Optional[Asked], message: reasons.Message, is_ignored: bool, now: int) -> None:
        """A response to a request has come, which the client has taken, or ignored."""
        if asked is not None and not asked.is_repeated and not is_ignored:
            self.counters.measure((now - asked.sent) / 1e9)
        if key.method == reasons.REFRESH and not is_ignored and message.error is None:
            self._say(logging.DEBUG, "deleted" if self.is_leaving else "refreshed")
        elif key.method in (reasons.ALLOCATE, reasons.REFRESH) and message.error is not None:
            is_new = is_ignored or not reasons.is_challenge(message.error[0])
            self._say(logging.WARNING if is_new else logging.DEBUG, "refused: %s%s", "allocation"
                      if key.method == reasons.ALLOCATE else "refresh", _told(message.error))
        if self.watcher is not None:
            self.watcher(key, message.error[0] if message.error is not None else None, is_ignored)

    def refreshed(self, key: Key) -> None:
        """A permission or a channel is renewed."""
        self._say(logging.DEBUG, "refreshed: %s %s", _NAMES.get(key.method, "answer to"), key.about)

    def wants_memory(self) -> None:
        """A memory allocation of the client has failed."""
        self._say(logging.WARNING, "there is no memory: what is due is tried again")

    def ended(self, why: Union[Ended, None]) -> None:
        """The client has ended."""
        self._say(logging.INFO if why is None else logging.WARNING, "ended: %s", why or "the client was closed")

    def _say(self, level: int, form: str, *values: object) -> None:
        if _log.isEnabledFor(level):
            _log.log(level, "%s: " + form, self._prefix, *values)


def _told(hint: Hint) -> str:
    return f" ({hint[0]} {hint[1]})".replace(" )", ")") if hint is not None else ""
