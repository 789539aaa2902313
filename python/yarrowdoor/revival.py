"""One client after the other: what a `Relay` does when the one that it has ends."""
from __future__ import annotations

import asyncio
from typing import List, Optional, Set

from .address import Address
from .asked import About
from .errors import ChannelFailed, Ended, PermissionFailed, Refused, WrongCredentials, because
from .inbox import Inbox
from .notices import Lost, Notices
from .states import Down, State, States, Up
from .tasks import Tasks
from .tries import HELD, Tries, Watched
from .vigil import UNSURE, Vigil

__all__ = ["Revival"]


class Revival:
    """Has a client, and another one when it ends, until it is stopped, or no further one would do."""

    def __init__(self, tries: Tries, states: States, inbox: Inbox, notices: Notices, probe: Optional[float]) -> None:
        self._probe = probe
        self._tries, self._states, self._inbox, self._notices = tries, states, inbox, notices
        self.client: Optional[Watched] = None
        """the client that is up, if one is"""
        self.why: Optional[Exception] = None
        """what has ended it, if it has ended by itself"""
        self.is_over = False
        self.addresses: List[Address] = []
        """all addresses of the client that is up, or of the last one"""
        self._vigil: Optional[Vigil] = None
        # Whose permissions and channels the next client asks for.
        self._wanted: Set[About] = set()
        self._tasks = Tasks()
        self._running: Optional[asyncio.Future[None]] = None
        self._changed: Optional[asyncio.Event] = None

    # Until the end

    def start(self) -> None:
        """Begins. `RuntimeError` if it was begun, or stopped, before."""
        if self._running is not None or self.is_over:
            raise RuntimeError("this relay was opened before: make a new one")
        self._running = asyncio.ensure_future(self._run())

    async def stop(self) -> None:
        """Ends, and returns when the server has answered, or after two seconds."""
        if self._running is not None:
            self._running.cancel()
        await self.wait()
        self._end(None)

    def abort(self) -> None:
        """Ends at once."""
        if self.client is not None:
            self.client.abort()
        if self._running is not None:
            self._running.cancel()
        self._end(None)

    def abandon(self) -> None:
        """The user has lost the relay without closing it. It may be called in any thread."""
        if self._running is not None and not self._running.get_loop().is_closed():
            self._running.get_loop().call_soon_threadsafe(self._running.cancel)

    async def wait(self) -> None:
        """Waits for the end."""
        if self._running is not None:
            await asyncio.wait([self._running])

    async def _run(self) -> None:
        try:
            while True:
                client = await self._tries.client(self._down, self._leave)
                try:
                    reason = await self._serve(client)
                finally:
                    self._drop(client)
                if isinstance(reason, WrongCredentials):
                    self._tries.failures.is_final(reason)
                self._down(reason)
        except asyncio.CancelledError:
            self._end(None)
        except Exception as error:
            self._end(error.with_traceback(None))  # which names this frame: who clears what it names would end this call
        while self._tasks:
            await asyncio.wait([*self._tasks])

    async def _serve(self, client: Watched) -> Exception:
        """Has a client until it ends, and says why."""
        loop, since = asyncio.get_running_loop(), None  # type: asyncio.AbstractEventLoop, Optional[float]
        vigil = self._vigil = Vigil(client, self._probe)
        gone, restoring = asyncio.ensure_future(vigil.until_gone()), asyncio.ensure_future(self._restore(client, vigil))
        client.on_lost = lambda lost: self._lost(client, vigil, lost)
        client.on_error = lambda error: self._error(vigil, error)
        client.on_pause = self._notices.tell_pause
        try:
            await asyncio.wait([gone, restoring], return_when=asyncio.FIRST_COMPLETED)
            if not gone.done():
                restoring.result()
                self.client = client
                self._tries.failures.clear()
                since, self.addresses = loop.time(), client.addresses
                self._set(Up(client.address, self._states.address))
            return await gone
        finally:
            if since is not None and loop.time() - since >= HELD:
                self._tries.renew()
            for task in (gone, restoring):
                task.cancel()

    def _drop(self, client: Watched) -> None:
        self.client = self._vigil = None
        self._wanted.update(client.kept())
        self._tries.failures.leaves(client.lease)
        self._notices.unsent += client.unsent
        client.on_pause = None
        self._leave(client)

    def _leave(self, client: Watched) -> None:
        """Closes a client beside what goes on, since the server may not answer."""
        self._tasks.spawn(client.close())

    def _end(self, why: Optional[Exception]) -> None:
        if self.is_over:
            return
        self.is_over, self.why = True, why
        self._inbox.end()
        if why is not None:
            self._set(Down(why))
        self._states.end(self.ending if why is not None else None)
        self._wake()

    # States

    def _set(self, state: State) -> None:
        self._states.set(state)
        self._wake()

    def _wake(self) -> None:
        changed, self._changed = self._changed, None
        if changed is not None:
            changed.set()

    def _down(self, reason: Exception) -> None:
        if not isinstance(self._states.now, Down):
            self._set(Down(reason))

    def ending(self) -> Ended:
        """Why there is no client any more, as a new error for each call."""
        if self._running is None:
            return Ended("the relay was closed" if self.is_over else "the relay was not opened")
        if not self.is_over:
            return Ended("there is no relayed address yet")
        return because(Ended(f"the relay has ended: {self.why}"), self.why) if self.why else Ended("the relay was closed")

    def check(self) -> None:
        """`Ended` if no client will come any more."""
        if self.is_over or self._running is None:
            raise self.ending()

    @property
    def is_begun(self) -> bool:
        """Whether it was begun."""
        return self._running is not None

    def current(self) -> Watched:
        """The client that is up. `Ended` if none will come any more, and `Refused` (`not-granted`) if there is none yet."""
        self.check()
        if self.client is None:
            raise Refused("not-granted", detail="the relay is down")
        return self.client

    async def up(self) -> Watched:
        """Waits until it is up. `Ended` if it has ended."""
        while self.client is None or self.client.closed:
            self.check()
            if self.client is not None:
                await asyncio.sleep(0)  # It has just ended, and who watches it has not been called yet.
            else:
                self._changed = self._changed or asyncio.Event()
                await self._changed.wait()
        return self.client

    # Permissions and channels

    async def _restore(self, client: Watched, vigil: Vigil) -> None:
        """Asks for what the peers had at the last client. A channel brings a permission."""
        with_channel = {it.host for it in self._wanted if not isinstance(it, str)}
        for asked in (self._wanted - with_channel, self._wanted & with_channel):
            await asyncio.gather(*(self._regain(client, vigil, it) for it in sorted(asked, key=str)))

    async def _regain(self, client: Watched, vigil: Vigil, about: About) -> None:
        """Requests what a peer had before. What the server does not grant is reported as lost."""
        try:
            await (client.permit(about) if isinstance(about, str) else client.bind(about))
        except (ChannelFailed, PermissionFailed, Refused) as failed:
            if not isinstance(failed, Refused) and failed.code in UNSURE and not await vigil.is_good():
                return  # The next client asks again.
            self._notices.tell_lost(Lost("permission" if isinstance(about, str) else "channel", about))
        except Ended:
            return
        self._wanted.discard(about)

    async def is_good(self, client: Watched) -> bool:
        """Whether the server still knows the relayed address of this client."""
        return self._vigil is not None and client is self.client and await self._vigil.is_good()

    def _lost(self, client: Watched, vigil: Vigil, lost: Lost) -> None:
        self._wanted.add(lost.peer)
        self._tasks.spawn(self._regain(client, vigil, lost.peer))

    def _error(self, vigil: Vigil, error: Exception) -> None:
        vigil.doubt()
        self._notices.tell_error(error)
