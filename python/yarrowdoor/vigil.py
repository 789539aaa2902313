"""Whether a relayed address is still good: it is asked where something makes one doubt it."""
from __future__ import annotations

import asyncio
import contextlib
import errno
from typing import Optional, Set

from . import reasons
from .asked import Key
from .errors import Ended, WrongCredentials, because
from .link import Link
from .path import route_error
from .standing import UNKNOWN
from .tries import Watched

__all__ = ["UNSURE", "Vigil"]

# How often it is looked whether this host still has the address that its socket is bound to, in seconds.
LOOK = 1.0
# Between two questions there are this many seconds, and this many in a row without an answer are the end.
PAUSE, RUN = 1.0, 3
# How long a signed answer may still come after a second 401, in seconds.
GRACE = 1.0
# Errors of a request after which one cannot be sure of the relayed address: these, refused credentials, and no answer.
UNSURE = (*UNKNOWN, 401, None)


def has_address(link: Link) -> bool:
    """Whether this host still has the address of a link's socket."""
    error = route_error(link)
    return error is None or error.errno != errno.EADDRNOTAVAIL


class Vigil:
    """Watches a client that is open, until its relayed address is gone. Every `probe` seconds it checks the path, or never.

    A server that was restarted answers such a check as before, and drops data; others never answer one. So after an error of the
    socket, a refused renewal, or a check without an answer, it is asked by a signed request (`Standing`).
    """

    def __init__(self, client: Watched, probe: Optional[float]) -> None:
        self._client, self._every = client, probe
        self._gone: asyncio.Future[Exception] = asyncio.get_running_loop().create_future()
        self._checking: Optional[asyncio.Future[bool]] = None
        self._is_doubted = False
        self._refused = 0
        self._grace: Optional[asyncio.TimerHandle] = None
        client.watch(self._answered)

    async def until_gone(self) -> Exception:
        """Waits until the relayed address is gone, and says why."""
        watching: Set[asyncio.Future[Exception]] = {asyncio.ensure_future(it) for it in (self._closed(), self._moved())}
        probing = asyncio.ensure_future(self._probe(self._every)) if self._every is not None else None
        try:
            done, _ = await asyncio.wait({*watching, self._gone}, return_when=asyncio.FIRST_COMPLETED)
            return done.pop().result()
        finally:
            self._client.watch(None)
            if self._grace is not None:
                self._grace.cancel()
            for task in (*watching, self._checking, probing):
                if task is not None:
                    task.cancel()

    async def _closed(self) -> Exception:
        try:
            await self._client.wait_closed()
        except Ended as ended:
            return ended
        return Ended("the client was closed")

    async def _moved(self) -> Exception:
        """Waits until this host has another address. Not every socket reports that: a stream is silent then for half a minute."""
        try:
            link = self._client.link
        except Ended as ended:
            return ended  # It has ended already.
        while has_address(link):
            await asyncio.sleep(LOOK)
        return Ended(f"this host has the address {link.local.host} no longer")

    async def _probe(self, every: float) -> None:
        """Checks the path, up to the end of the client."""
        with contextlib.suppress(Ended):
            while True:
                await asyncio.sleep(every)
                seen = self._client.heard
                if not (await self._client.check()).is_answered and self._client.heard == seen:
                    await self.is_good()

    # Doubts

    def doubt(self) -> asyncio.Future[bool]:
        """Asks the server whether it still knows the relayed address. Gives whether it does."""
        self._is_doubted = True
        if self._checking is None or self._checking.done():
            self._checking = asyncio.ensure_future(self._check())
        return self._checking

    async def is_good(self) -> bool:
        """Whether the server still knows the relayed address. Not where the vigil ends meanwhile."""
        checking = self.doubt()
        await asyncio.wait([checking])
        return not checking.cancelled() and checking.result() and not self._client.closed

    async def _check(self) -> bool:
        while self._is_doubted:
            self._is_doubted = False
            found = await self._question()
            if found is not None:
                self._tell(found)
                return False
            await asyncio.sleep(PAUSE)  # Errors of a socket come by the hundred.
        return True

    async def _question(self) -> Optional[Exception]:
        """Why the relayed address is gone, or None where the server still knows it."""
        for _ in range(RUN):
            failed = await self._client.standing()
            if failed is None:
                return None
            if failed.code is not None:
                return because(Ended(f"the server no longer knows the relayed address: {failed}"), failed)
        return Ended(f"the server answers no signed request: {RUN} in a row")

    def _tell(self, why: Exception) -> None:
        if not self._gone.done():
            self._gone.set_result(why)

    # Refused credentials

    def _answered(self, key: Key, code: Optional[int], is_ignored: bool) -> None:
        """The server has answered. A 401 to a signed request cannot be signed, and is a hint: it counts if it is repeated, and
        nothing signed comes."""
        if code == 401 and is_ignored:
            self._refused += 1
            if self._refused == 1:
                self.doubt()
            elif self._grace is None:
                self._grace = asyncio.get_running_loop().call_later(GRACE, self._distrust)
        elif not is_ignored and (code is None or not reasons.is_challenge(code)):
            self._refused = 0
            if self._grace is not None:
                self._grace.cancel()
                self._grace = None
        if code in UNKNOWN:
            self.doubt()

    def _distrust(self) -> None:
        self._tell(WrongCredentials("the server takes user name and password no longer", (401, "")))
