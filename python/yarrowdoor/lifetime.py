"""From a client that was not opened to one that has ended: what `async with` does, and which call comes too early or too late."""
from __future__ import annotations

import asyncio
import warnings
from dataclasses import dataclass
from typing import Dict, Optional, Union

from .errors import AllocationFailed, Ended, because
from .inbox import Inbox
from .link import Link
from .opened import Opened
from .redirect import Redirects
from .servers import ALONE, NoneSucceeded, Server, first_of
from .session import Leaving, Over, Session

__all__ = ["Lifetime"]


@dataclass(frozen=True)
class NotOpened:
    """`open` was not called."""


@dataclass(frozen=True)
class Connecting:
    """`open` looks for a server that grants a relayed address."""

    task: asyncio.Future[None]


@dataclass(frozen=True)
class Failed:
    """There is no relayed address, and never will be."""

    why: Ended
    rest: Optional[asyncio.Future[None]]
    """what still gives back an allocation that the server may have granted"""


class Lifetime(Opened):
    """A client that is opened once, and closed. A `Session` does its work, from the time when there is a relayed address."""

    def __init__(self, server: Server, inbox: Inbox, redirects: int = 0, open_timeout: Optional[float] = None) -> None:
        self._open_timeout = open_timeout
        self._server, self._inbox, self._redirects = server, inbox, Redirects(redirects)
        self._phase: Union[NotOpened, Connecting, Failed, Session] = NotOpened()
        self._rest: Optional[asyncio.Future[None]] = None

    def _session_over(self, link: Link) -> Session:
        """A new session over this link."""
        raise NotImplementedError

    async def _prepare(self) -> None:
        """Gets what a session needs."""

    def __repr__(self) -> str:
        phase = self._phase
        words = {NotOpened: "not opened", Connecting: "connecting", Failed: "closed"}
        what = words[type(phase)] if not isinstance(phase, Session) else repr(phase)
        return f"<{type(self).__name__} of {self._server.uri}: {what}>"

    def __del__(self) -> None:
        session = getattr(self, "_phase", None)
        if isinstance(session, Session) and not isinstance(session.state, Over):
            session.abandon()
            warnings.warn(f"unclosed {type(self).__name__} at {session.address}: use `async with`, or `close`", ResourceWarning,
                          stacklevel=2, source=self)

    async def open(self) -> None:
        """Connects to the server, and waits for a relayed address, for up to `open_timeout` seconds: what entering does. It is
        called once.

        Where it is cancelled it gives back what the server may have granted, which takes up to two seconds.
        """
        if not isinstance(self._phase, NotOpened):
            raise RuntimeError("this client was opened before: make a new one")
        task = asyncio.ensure_future(self._connect())
        self._phase = Connecting(task)
        try:
            await asyncio.wait([task], timeout=self._open_timeout)
            if not task.done():
                await self._give_up(task)
                raise AllocationFailed(f"no relayed address from {self._server.uri} in {self._open_timeout} s")
        except asyncio.CancelledError:  # of who waits for this
            await self._give_up(task)
            raise
        finally:
            self._server.close_unused()
        if task.cancelled():
            if isinstance(self._phase, Failed):
                raise AllocationFailed("the client was closed")  # by `close`
            await self._give_up(task)
        task.result()

    async def _give_up(self, task: asyncio.Future[None]) -> None:
        """Ends what opens the client, unless `close` does, and gives back what it has got."""
        if not isinstance(self._phase, Failed):
            task.cancel()
        await asyncio.wait([task])
        if not task.cancelled():
            task.exception()
        if isinstance(self._phase, Session):  # It had just been opened.
            await self._phase.leave()
        elif isinstance(self._phase, Connecting):
            self._phase = Failed(Ended("the client was closed"), None)
            self._inbox.end()

    async def _connect(self) -> None:
        try:
            await self._prepare()
            session = await self._ready_session()
        except Exception as error:
            why = because(Ended(f"the client was not opened: {error}"), error.__cause__)
            self._phase = Failed(why, self._rest)
            self._inbox.end()
            raise
        self._phase = session
        inbox = self._inbox
        session.over.add_done_callback(lambda _: inbox.end())

    async def _ready_session(self) -> Session:
        """A session with a relayed address, of the server or of one that it names in its place."""
        while True:
            session = await self._first_session()
            try:
                await session.ready()
                return session
            except asyncio.CancelledError:
                await session.leave()
                raise
            except Exception as error:
                self._rest = asyncio.ensure_future(session.leave())
                other = self._redirects.next(self._server, error) if isinstance(error, AllocationFailed) else None
                if other is None:
                    raise
                self._server = other

    async def _first_session(self) -> Session:
        """A session with the first of the server's addresses that answers."""
        async def attempt(host: str) -> Session:
            link = await self._server.connect(host)
            session = self._session_over(link)
            try:
                if not link.is_stream:  # A stream has answered when it was connected.
                    await session.heard()
            except BaseException:
                await _discard(session)
                raise
            return session

        hosts = await self._server.addresses()
        try:
            return await first_of(hosts, attempt, _discard, ALONE if self._server.has_own_port else None)
        except NoneSucceeded as none:
            failures = none.failures
        raise self._unreachable(failures)

    def _unreachable(self, failures: Dict[str, Exception]) -> Exception:
        """What says of each address why it could not be used."""
        last = [*failures.values()][-1]
        uri = self._server.uri
        if [*failures] == [uri.host]:
            if not isinstance(last, OSError):
                return last
            return because(AllocationFailed(f"no connection to {uri}: {last}"), last)
        tried = "; ".join(f"{host}: {error}" for host, error in failures.items())
        return because(AllocationFailed(f"no connection to {uri}: {tried}"), last.__cause__ or last)

    async def close(self) -> None:
        """Deletes the relayed address, closes all sockets, and returns when the server has answered, or after two seconds. Where
        `open` is not done yet, it ends with an `AllocationFailed`."""
        phase = self._phase
        if isinstance(phase, Connecting):
            self.abort()
            await asyncio.wait([phase.task])
        elif isinstance(phase, Failed) and phase.rest is not None:
            await asyncio.wait([phase.rest])
        elif isinstance(phase, Session):
            await phase.leave()

    def abort(self) -> None:
        """Deletes the relayed address and closes all sockets, at once: one packet is sent, and no answer is waited for. Over UDP
        it is not sent again, so that the server may keep the address until it expires. For a program that cannot wait.

        If `open` is not done yet, it ends with an `AllocationFailed`, and what it was granted is deleted in the background, for up
        to two seconds. It does nothing if the client was not opened, or has ended."""
        phase = self._phase
        if isinstance(phase, Connecting):
            self._phase = Failed(Ended("the client was closed"), None)
            self._inbox.end()
            phase.task.cancel()
        elif isinstance(phase, Session):
            phase.abort()

    async def wait_closed(self) -> None:
        """Waits until the client has ended. Raises `Ended` if it ended by itself, or was not opened; its text says why."""
        if isinstance(self._phase, Connecting):
            await asyncio.wait([self._phase.task])
        if not isinstance(self._phase, Session):
            raise self._ending()
        await asyncio.wait([self._phase.over])
        if self._has_failed():
            raise self._ending()

    @property
    def closed(self) -> bool:
        """Whether the client has ended, by `close` or by itself, or could not be opened."""
        phase = self._phase
        return isinstance(phase, Failed) or isinstance(phase, Session) and isinstance(phase.state, Over)

    def _is_not_opened(self) -> bool:
        return isinstance(self._phase, NotOpened)

    def _has_failed(self) -> bool:
        state = self._phase.state if isinstance(self._phase, Session) else None
        return not isinstance(state, Over) or state.why is not None

    def _session(self) -> Session:
        """The session. `Ended` if the client has ended, is being closed, or was not opened."""
        phase = self._phase
        if not isinstance(phase, Session) or isinstance(phase.state, (Leaving, Over)):
            raise self._ending()
        return phase

    def _ending(self) -> Ended:
        phase = self._phase
        if isinstance(phase, Session):
            return phase.ending()
        if isinstance(phase, Failed):
            return because(Ended(*phase.why.args), phase.why.__cause__)
        return Ended("the client was not opened" if isinstance(phase, NotOpened) else "there is no relayed address yet")


async def _discard(session: Session) -> None:
    """Ends a session that is not used. The server may have granted an address to it already, which is given back."""
    await session.leave()
