"""A new client, tried until there is one: after which failures another try may succeed, and how long each takes."""
from __future__ import annotations

import asyncio
import logging
import ssl as tls
from typing import Any, Callable, List, Optional, Tuple, Type

from .asked import About
from .backoff import Backoff
from .counters import Counters
from .credentials import Credentials, CredentialsLike, asked, checked_pair
from .errors import AllocationFailed, Ended, LibraryError, PermissionFailed, WrongCredentials, because
from .journal import Watcher
from .lease import Lease
from .link import Link
from .session import Session
from .settings import Times
from .turn import TurnClient
from .within import within

__all__ = ["Failures", "HELD", "TIMES", "Tries", "Watched"]

_log = logging.getLogger("yarrowdoor")

# How long a request waits, and a try for the first sign of the server, and then for the relayed address, so that one that begins
# while the network is away is soon over, and one over a slow path is not given up. In seconds, a request is sent after 0, 0.5, 1,
# 1.5, 2 and 2.5, and fails after 3.
TIMES = Times(initial=500_000_000, longest=500_000_000, last=500_000_000, count=6)
TRY = 3.9
# So long a relay has to be up that the next try is made at once, and the waits begin anew, in seconds. One that breaks sooner is
# one more failure: a server may grant addresses that last for no time.
HELD = 60.0
# How long the function that has the credentials may take, in seconds.
ASKING = 30.0
# The least time between the end of a try and the next one, in seconds.
REST = 0.2
# Errors that stay as they are: a redirect that is not followed, a refusal of this user, and what the server cannot do (RFC 8656,
# section 19).
FINAL = (300, 403, 440, 442)
# So many of these in a row are the end. Nobody has to have signed the packet that says that credentials are wrong.
MAX_WRONG, MAX_QUOTA, QUOTA = 2, 3, 486
# The server still keeps an allocation of this port: another port is to be used (RFC 8656, section 7.5).
MISMATCH = 437
# What is wrong with the arguments, or the installation.
OUR_OWN: Tuple[Type[Exception], ...] = (ValueError, TypeError, LibraryError)


# Another value after each sign of a server.
Signs = Tuple[int, Tuple[int, int]]


class Watched(TurnClient):
    """A client of a relay that comes back."""

    def __init__(self, *args: Any, **settings: Any) -> None:
        super().__init__(*args, **settings)
        self._sessions: List[Session] = []

    def _session_over(self, link: Link) -> Session:
        self._sessions.append(super()._session_over(link))
        return self._sessions[-1]

    def kept(self) -> List[About]:
        """Whose permissions and channels are renewed."""
        session = self._phase
        return sorted(session.grants.granted() - session.grants.released(), key=str) if isinstance(session, Session) else []

    @property
    def link(self) -> Link:
        """The socket to the server. `Ended` if the client has ended."""
        return self._session().link

    @property
    def ssl(self) -> Optional[tls.SSLContext]:
        """The context of TLS, where that is used."""
        return self._server.ssl

    @property
    def lease(self) -> Optional[Lease]:
        """How long the server may keep the relayed address, if there was one."""
        return self._phase.lease if isinstance(self._phase, Session) else None

    async def standing(self) -> Optional[PermissionFailed]:
        """What `Standing.failure` gives. None where the client has ended."""
        try:
            return await self._session().path.standing.failure()
        except Ended:
            return None

    @property
    def heard(self) -> int:
        """How much has come from the server. `Ended` if the client has ended."""
        return self._session().count

    @property
    def signs(self) -> Signs:
        """What shows that a server is there, while the client is opened: what has come, and the signs of connections."""
        return sum(it.count for it in self._sessions), self._server.signs

    def watch(self, watcher: Optional[Watcher]) -> None:
        """Has each answer of the server reported."""
        if isinstance(self._phase, Session):
            self._phase.journal.watcher = watcher

    def count_in(self, counters: Counters) -> None:
        """Has its packets counted there. It was not opened yet."""
        self._notices.counters = counters


class Failures:
    """What has failed since the relay was up."""

    def __init__(self) -> None:
        self._wrong = self._quota = 0
        # Those of the allocations that were left.
        self._leases: List[Lease] = []

    def leaves(self, lease: Optional[Lease]) -> None:
        """A client is left, whose allocation the server may keep for a while."""
        self._leases = [it for it in (*self._leases, lease) if it is not None and it.is_running]

    def clear(self) -> None:
        """The relay is up."""
        self._wrong = self._quota = 0

    def is_final(self, error: Exception) -> bool:
        """Takes one more failure, and says whether no other try is made."""
        self._wrong = self._wrong + 1 if isinstance(error, WrongCredentials) else 0
        code = error.code if isinstance(error, AllocationFailed) else None
        self.leaves(None)
        # While the server may keep an allocation of this relay, that one may be what is one too many.
        self._quota = self._quota + 1 if code == QUOTA and not self._leases else 0
        return self._wrong >= MAX_WRONG or code in FINAL or self._quota >= MAX_QUOTA or isinstance(error, OUR_OWN)


class Tries:
    """Makes clients, and opens them."""

    def __init__(self, make: Callable[[Credentials, bool], Watched], source: CredentialsLike, backoff: Backoff) -> None:
        self._make, self._source, self._backoff = make, source, backoff
        self._waits = backoff.waits()
        # When the next try may begin, as a time of the event loop.
        self._due = 0.0
        # Whether the next try is from another port than the user has given.
        self._leaves_port = False
        self.failures = Failures()

    def renew(self) -> None:
        """The relay was up for `HELD` seconds."""
        self._due, self._waits = 0.0, self._backoff.waits()

    async def client(self, tell: Callable[[Exception], None], leave: Callable[[Watched], None]) -> Watched:
        """A client that is open. Raises what no other try would fix; it reports all else, and tries again. `leave` closes the
        clients that are not opened in time."""
        loop = asyncio.get_running_loop()
        while True:
            if self._due > loop.time():
                await asyncio.sleep(self._due - loop.time())
            self._due = loop.time() + next(self._waits)
            try:
                client, self._leaves_port = await self._try(leave), False
                return client
            except Exception as error:
                if self.failures.is_final(error):
                    raise
                tell(error.with_traceback(None))  # which names this frame: who clears what it names would end this loop
                self._leaves_port = isinstance(error, AllocationFailed) and error.code == MISMATCH
                self._due = max(self._due, loop.time() + REST)
                _log.warning("no relayed address: %s. The next try is in %.1f s", error, self._due - loop.time())

    async def _try(self, leave: Callable[[Watched], None]) -> Watched:
        client = self._make(await self._ask(), self._leaves_port)
        opening = asyncio.ensure_future(client.open())
        try:
            await self._opened(client, opening)
            opening.result()
            return client
        except BaseException:
            opening.add_done_callback(lambda it: it.cancelled() or it.exception())  # Nobody waits for it any more.
            leave(client)
            raise

    async def _opened(self, client: Watched, opening: asyncio.Future[None]) -> None:
        """Waits while the server shows within `TRY` seconds each that it is there."""
        loop = asyncio.get_running_loop()
        began, seen = loop.time(), None  # type: float, Optional[Signs]
        while not opening.done():
            if client.signs == seen:
                raise AllocationFailed(f"no relayed address from {client.uri} in {loop.time() - began:.1f} s")
            seen = client.signs
            await asyncio.wait([opening], timeout=TRY)

    async def _ask(self) -> Credentials:
        """The credentials. What their function raises is no error of ours: it may ask a server that is away, too. What it returns
        is: a `TypeError`, which is final."""
        try:
            found = await within(asked(self._source), ASKING)
        except Exception as error:
            why = f"{ASKING:.0f} s" if isinstance(error, asyncio.TimeoutError) else f"{type(error).__name__}: {error}"
            raise because(AllocationFailed(f"no credentials: {why}"), error)
        return checked_pair(found)
