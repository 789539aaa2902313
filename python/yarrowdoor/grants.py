"""Permissions and channels: asked for, granted, and lost."""
from __future__ import annotations

import contextlib
from dataclasses import dataclass
from typing import AbstractSet, Callable, Dict, Set

from .address import Address
from .asked import About, Key, channel, failure, key_of, permission
from .client import Client
from .clock import Clock
from .errors import Hint, PermissionFailed, Refused
from .journal import Journal
from .notices import Lost, Notices
from .requests import Made, Requests

__all__ = ["Grants"]

# How long `send` asks for no permission after the server has refused one, in seconds: twice as long each time, up to the last.
FIRST_REST, LAST_REST = 5.0, 80.0
# So many refused peers are remembered.
MAX_RESTS = 4_096


@dataclass
class _Rest:
    seconds: float
    until: int
    hint: Hint


class Grants:
    """The permissions and channels of a client. `open_client` gives the client, or raises what says that it has ended."""

    def __init__(self, open_client: Callable[[], Client], drive: Callable[[], None], clock: Clock, requests: Requests,
                 notices: Notices, journal: Journal) -> None:
        self._journal = journal
        self._open_client, self._drive, self._clock = open_client, drive, clock
        self._requests, self._notices = requests, notices
        self._granted: Set[Key] = set()
        self._released: Set[Key] = set()
        self._rests: Dict[str, _Rest] = {}
        self.counted: Callable[[int], None] = lambda count: None
        """called with how many there are, when one more is granted"""

    async def permit(self, ip: str) -> None:
        """Asks for a permission, unless there is one, and waits for the answer. One that was released is kept again."""
        def make() -> Made:
            client = self._open_client()
            try:
                client.create_permission(ip, self._clock.now())
            except Refused as refusal:
                if refusal.reason != "already-exists":
                    raise
                return Made.GRANTED if client.have_permission(ip) else Made.ASKED_BEFORE
            self._drive()
            return Made.UNSENT

        self._keep_again(permission(ip))
        if not self._open_client().have_permission(ip):
            await self._requests.ask(permission(ip), make)

    def _keep_again(self, key: Key) -> None:
        if key in self._released and key.about is not None:
            with contextlib.suppress(Refused):
                self.set_kept(key.about, True)

    async def permit_to_send(self, ip: str) -> None:
        """The same, for data that is to be sent: a peer that was refused is not asked again for a while."""
        rest = self._rests.get(ip)
        if rest is not None and self._clock.now() < rest.until:
            why = f"no permission for {ip}: it failed less than {rest.seconds:.0f} s ago, and is not asked for again so soon"
            raise PermissionFailed(why, rest.hint)
        await self.permit(ip)

    async def bind(self, peer: Address) -> None:
        """Asks for a channel, and with it for a permission, and waits for the answer. Where they were released they are kept
        again."""
        def make() -> Made:
            try:
                self._open_client().bind_channel(peer, self._clock.now())
            except Refused as refusal:
                if refusal.reason != "already-exists" or channel(peer) not in self._granted:
                    raise  # It is also the reason where no channel number is left.
                return Made.GRANTED
            self._drive()
            return Made.UNSENT

        for key in (channel(peer), permission(peer.host)):
            self._keep_again(key)
        await self._requests.ask(channel(peer), make)
        if not self._open_client().have_permission(peer.host):
            await self.permit(peer.host)  # The channel is an older one, whose permission is gone: a refresh does not bring it back.

    def granted(self) -> AbstractSet[About]:
        """Whose permissions and channels there are."""
        return {it.about for it in self._granted if it.about is not None}

    def released(self) -> AbstractSet[About]:
        """Those of them that are not renewed any more."""
        return {it.about for it in self._released if it.about is not None}

    def answered(self, key: Key, is_granted: bool) -> None:
        """The server has answered a request, and the client has taken the answer."""
        if is_granted and key in self._granted:
            self._journal.refreshed(key)

    def set_kept(self, about: About, is_kept: bool) -> None:
        """Says whether the permission of an IP address, or the channel of a peer, is refreshed."""
        client, key = self._open_client(), key_of(about)
        if isinstance(about, str):
            client.set_permission_kept(about, is_kept)
        else:
            client.set_channel_kept(about, is_kept)
        if is_kept:
            self._released.discard(key)
            self._drive()  # Its refresh may be due.
        else:
            self._released.add(key)

    def created(self, key: Key) -> None:
        """The client reports that something is granted."""
        self._granted.add(key)
        self._journal.granted(key)
        self.counted(len(self._granted) - len(self._released))
        self._rests.pop(_host(key), None)
        self._requests.settle(key, None)

    def failed(self, key: Key) -> bool:
        """The client reports that something is refused, or lost. Says whether it is lost since the server did not answer."""
        hint, was_granted = self._requests.error_of(key), key in self._granted
        was_released = key in self._released
        if was_released:
            self._journal.released(key)
        else:
            self._journal.failed(key, hint, was_granted)
        self._granted.discard(key)
        self._released.discard(key)
        if isinstance(key.about, str) and not was_released:
            self._let_rest(key.about, hint)
        is_lost = was_granted and not was_released  # What was released was to end.
        if not self._requests.settle(key, failure(key, hint)) and is_lost and key.about is not None:
            self._notices.tell_lost(Lost("permission" if isinstance(key.about, str) else "channel", key.about))
        return is_lost and hint is None

    def _let_rest(self, ip: str, hint: Hint) -> None:
        before = self._rests.pop(ip, None)
        seconds = FIRST_REST if before is None else min(2 * before.seconds, LAST_REST)
        self._rests[ip] = _Rest(seconds, self._clock.now() + int(seconds * 1e9), hint)
        if len(self._rests) > MAX_RESTS:
            del self._rests[next(iter(self._rests))]


def _host(key: Key) -> str:
    return key.about if isinstance(key.about, str) else key.about.host if key.about is not None else ""
