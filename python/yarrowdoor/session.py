"""One client over one link: it transmits, takes what comes, reports the events, and sets the timer. Its state is one value."""
from __future__ import annotations

import asyncio
import functools
from typing import List, Optional, Sequence

from . import reasons
from .address import Address
from .answers import (
    AllocateTcpSocket, AllocationCreated, AllocationCreateFailed, ChannelCreated, ChannelCreateFailed, Event, Ignored, PeerData,
    PermissionCreated, PermissionCreateFailed, TcpClose, TcpConnected, WaitUntil,
)
from .asked import Key, channel, permission
from .client import Client
from .clock import Alarm, Clock
from .diagnosis import ALLOCATE, REFRESH, Diagnosis, refusal
from .errors import AllocationFailed, Ended, Refused, because
from .grants import Grants
from .idle import Idle
from .inbox import Inbox
from .journal import Journal
from .lease import Lease
from .link import Link, LinkUser
from .notices import Notices
from .path import Path
from .phases import Leaving, Open, Opening, Over, State, fail
from .requests import Requests, settle
from .servers import Server
from .streams import Streams

__all__ = ["Leaving", "Over", "Session"]

# How long a signed answer may still come after one that said, unsigned, why it fails, in seconds.
GRACE = 1.0
# After want of memory what is due is tried again so much later, in nanoseconds.
MEMORY_WAIT = 100_000_000
# How long the server's answer to a delete is waited for, in seconds.
DELETE_WAIT = 2.0
# How far the time of a client goes on that has to end at once, until its last request has left, in nanoseconds.
STEP, STEPS = 50_000_000, 100
# The part of that time in which streams are closed before.
CLOSING = 0.75


class Session(LinkUser):
    """A client over a link to the server, which asks for a relayed address at once."""

    def __init__(self, client: Client, link: Link, server: Server, relay: str, max_stale_nonces: int, clock: Clock, inbox: Inbox,
                 notices: Notices, families: Sequence[int] = (4,), idle: Optional[float] = None,
                 leave_wait: Optional[float] = None) -> None:
        self._leave_wait = leave_wait
        self._loop = asyncio.get_running_loop()
        self.client, self.link, self.server, self.clock, self.notices = client, link, server, clock, notices
        self.state: State = Opening(self._loop.create_future(), self._loop.create_future())
        self.over: asyncio.Future[None] = self._loop.create_future()
        """set when the client has ended"""
        self.address: Optional[Address] = None
        """the relayed address, or the last one"""
        self.addresses: List[Address] = []
        """all relayed addresses: one for each family that was asked for and granted"""
        self._refused_families, self._families = 0, len(families)
        self.mapped: Optional[Address] = None
        self.lease = Lease(clock)
        self.count = 0
        """how many packets, or pieces of the stream, have come"""
        self._has_streams = relay == "tcp"
        self.alarm = Alarm(clock, functools.partial(self.drive, is_wake_up=True))
        self._is_driving = False
        self.counters = notices.counters
        self.journal = Journal(server.uri, link, self.counters)
        self.requests = Requests(self.counters)
        self.diagnosis = Diagnosis(str(server.uri), max_stale_nonces, clock, self.requests)
        self.grants = Grants(self.usable_client, self.drive, clock, self.requests, notices, self.journal)
        self.idle = Idle(self.grants, clock, idle) if idle is not None else None
        put = inbox.counting(self.counters, is_last=not link.is_stream)  # After a datagram's data nothing is to be done.
        self._put = put if self.idle is None else self.idle.listening(put)
        self.streams = Streams(self)
        self.path = Path(self)
        link.user, link.has_slices = self, True
        self.drive()

    def __repr__(self) -> str:
        if isinstance(self.state, Over):
            return "closed" if self.state.why is None else f"ended, {self.state.why}"
        return "closing" if isinstance(self.state, Leaving) else f"open at {self.address}"

    # The link

    def received(self, data: bytes, link: Link) -> None:
        """Passes what arrived to the client: data goes to the inbox, and then what the client has to send is sent."""
        self.count += 1
        found = self.client.data_from(data, self.clock.now())
        if isinstance(found, tuple):
            piece, peer, start = found
            self._put(piece, peer)
            # A datagram, or a piece that is one ChannelData message, has nothing else in it. Data makes nothing due.
            if not link.is_stream or link.frames is not None and start == 4 and link.frames.is_one(data, len(piece)):
                return
        elif isinstance(found, PeerData):
            self._put(found.data, found.peer)
        self.hear(data, link, isinstance(found, Ignored))
        if link.is_stream:
            self.take_rest()
        self.drive()

    def take_rest(self) -> None:
        """Takes all data that the streams still have."""
        while True:
            more = self.open_client().poll_recv(self.clock.now())
            if more is None:
                return
            if self._has_streams:
                self.streams.feed(more.data, more.peer)
            else:
                self._put(more.data, more.peer)

    def hear(self, data: bytes, link: Link, is_ignored: bool) -> None:
        """Reads what the server's messages say, after the client has taken them, or ignored the first one."""
        self.diagnosis.begins()
        messages = [data] if not link.is_stream else link.frames.messages(data) if link.frames is not None else []
        for packet in messages:
            message = reasons.read(packet)
            if message is None or self.path.hears(message):
                continue
            self._hear(message, packet, is_ignored)
            if message.method == reasons.CONNECTION_BIND and message.error is None and not is_ignored:
                link.frames = None  # What comes from now on is the peer's.
                return

    def _hear(self, message: reasons.Message, packet: bytes, is_ignored: bool) -> None:
        key = self.requests.answered(message)
        if key is None:
            return
        self.diagnosis.hears(message, packet, is_ignored)
        self.journal.answered(key, self.requests.last(key), message, is_ignored, self.clock.now())
        self.grants.answered(key, message.error is None and not is_ignored)
        if key in (ALLOCATE, REFRESH) and message.error is None and not is_ignored:
            self._renewed(key)
        if isinstance(self.state, Opening):
            settle(self.state.heard, None)
        if key != ALLOCATE:
            return
        if message.error is not None and is_ignored:
            self._fail_soon(refusal(message.error))
        elif message.mapped is not None and not is_ignored:
            self.mapped = message.mapped

    def _renewed(self, key: Key) -> None:
        """The server has granted the relayed address, for a time that may be none."""
        asked = self.requests.last(key)
        if self.journal.is_leaving:
            self.lease.end()
        else:
            self.lease.renew(asked.lifetime if asked is not None else None)

    def refused(self, link: Link, error: Exception) -> None:
        """An error of a socket over UDP: while opening it fails the opening soon, later the path is checked."""
        if isinstance(self.state, Over):
            return
        self.diagnosis.socket_error = error
        self.notices.tell_error(error)
        if isinstance(self.state, Opening):
            self._fail_soon(because(AllocationFailed(f"no answer from {self.server.uri}: {error}"), error))
        else:
            self.path.refused(error)

    def ended(self, link: Link, error: Optional[Exception]) -> None:
        """The connection to the server is closed: what had arrived is taken, and the relayed address is gone."""
        if not isinstance(self.state, Over):
            self.client.recv(b"", self.clock.now())
            self.take_rest()
            self.breaks(f"the connection to the server has ended: {error or 'the server closed it'}", error)

    def paused(self, link: Link, is_full: bool) -> None:
        """Reports that the socket is full, or no longer is."""
        self.notices.tell_pause(is_full)

    def breaks(self, what: str, error: Optional[Exception]) -> None:
        """The connection has ended, or the path to the server is gone: nothing can be done any more."""
        if not isinstance(self.state, Over):
            self.diagnosis.breaks(what, error)
            self.client.protocol_error()
            self.drive()

    # The client

    def drive(self, is_wake_up: bool = False) -> None:
        """Does all that is due, and sets the timer for the next time."""
        if is_wake_up:
            self.diagnosis.begins()
        if self._is_driving:
            return
        self._is_driving = True
        try:
            self._do_all()
        except MemoryError:
            # The client is valid, and what was due stays due: without a timer nothing would be done any more.
            if not isinstance(self.state, Over):
                self.journal.wants_memory()
                self.alarm.set(self.clock.now() + MEMORY_WAIT)
        finally:
            self._is_driving = False

    def _do_all(self) -> None:
        while not isinstance(self.state, Over):
            now = self.clock.now()
            self._transmit(now)
            self._take_events()
            rest = self.client.poll(now)
            if isinstance(rest, WaitUntil):
                if rest.time > now:
                    return self.alarm.set(rest.time)
            elif isinstance(rest, AllocateTcpSocket):
                self.requests.tasks.spawn(self.streams.open(rest))
            elif isinstance(rest, TcpClose):
                self.streams.drop(rest.local)
            else:
                self._take_events()
                self.end(None if isinstance(self.state, Leaving) else self.diagnosis.ended())

    def _transmit(self, now: int) -> None:
        while not isinstance(self.state, Over) and (packet := self.client.poll_transmit(now)) is not None:
            self.requests.sent(packet.data, now)
            link = self.link if packet.local == self.link.local else self.streams.link_at(packet.local)
            if link is not None:
                link.send(packet.data)

    def _take_events(self) -> None:
        while not isinstance(self.state, Over) and (event := self.client.poll_event()) is not None:
            self._take_event(event)

    def _take_event(self, event: Event) -> None:
        if isinstance(event, AllocationCreated):
            self._allocated(event.address)
        elif isinstance(event, AllocationCreateFailed):
            self._refused_families += 1
            if isinstance(self.state, Opening) and self._refused_families == self._families:
                fail(self.state, self.diagnosis.no_address())
        elif isinstance(event, PermissionCreated):
            self.grants.created(permission(event.ip))
        elif isinstance(event, PermissionCreateFailed):
            self._lost(permission(event.ip))
        elif isinstance(event, ChannelCreated):
            self.grants.created(channel(event.peer))
        elif isinstance(event, ChannelCreateFailed):
            self._lost(channel(event.peer))
        elif isinstance(event, TcpConnected):
            self.streams.connected(event.peer)
        else:
            self.streams.failed(event.peer)

    def _allocated(self, address: Address) -> None:
        self.addresses.append(address)
        if isinstance(self.state, Leaving):
            self._delete()
        elif isinstance(self.state, Opening):
            before, self.address, self.state = self.state, address, Open(address)
            self.journal.allocated(address, self.mapped)
            settle(before.heard, None)
            settle(before.ready, None)

    def _lost(self, key: Key) -> None:
        if self.grants.failed(key) and self.link.is_stream:
            # TCP repeats what is lost, so the server does not read, or its answers do not come.
            self.breaks(f"the connection to the server has ended: no answer from {self.server.uri} to a refresh", None)

    async def heard(self) -> None:
        """Waits until the server has answered anything. `AllocationFailed` if it does not."""
        if isinstance(self.state, Opening):
            await self.state.heard

    async def ready(self) -> None:
        """Waits until there is a relayed address. `AllocationFailed` if there is none."""
        if isinstance(self.state, Opening):
            await self.state.ready
        elif isinstance(self.state, Over):
            raise self.diagnosis.no_address()

    # The end

    def _fail_soon(self, error: AllocationFailed) -> None:
        """Gives up the allocation, unless a signed answer comes soon."""
        if isinstance(self.state, Opening):
            self._loop.call_later(GRACE, fail, self.state, error)

    async def leave(self) -> None:
        """Gives the relayed address back to the server, and ends when it has answered, or after two seconds."""
        if isinstance(self.state, Opening) and self.requests.allocates < 2:
            self.end(None)  # No signed request has left, so that the server cannot have granted one.
        elif isinstance(self.state, (Opening, Open)):
            before, self.state = self.state, Leaving()
            if isinstance(before, Opening):
                fail(before, AllocationFailed("the client was closed"))
            elif (closing := self.streams.close()):
                self.requests.tasks.spawn(self._delete_after(closing))
            else:
                self._delete()
            self.drive()
        try:
            await asyncio.wait([self.over], timeout=self._patience())
        finally:
            self.abort()

    def abort(self) -> None:
        """Gives the relayed address back by a request that nothing waits for, and ends at once."""
        if isinstance(self.state, (Opening, Open)):
            before, self.state = self.state, Leaving()
            if isinstance(before, Opening):
                fail(before, AllocationFailed("the client was closed"))
        self._delete_now()
        self._transmit_delete()
        self.end(None)

    def _patience(self) -> float:
        """How long leaving may take, in seconds."""
        return DELETE_WAIT if self._leave_wait is None else self._leave_wait

    async def _delete_after(self, closing: List[asyncio.Future[None]]) -> None:
        """Deletes the relayed address when its streams are gone: a server ends those that there are with it."""
        await asyncio.wait(closing, timeout=CLOSING * self._patience())
        self._delete_now()

    def _delete_now(self) -> None:
        """Deletes the relayed address, unless it was done."""
        if isinstance(self.state, Leaving) and self.address is not None and not self.journal.is_leaving:
            self._delete()
            self.drive()

    def _transmit_delete(self) -> None:
        """Has the request to delete leave, which may wait for the pause after another one: no time is left for that. The client's
        own time goes on meanwhile, which is over anyway."""
        now = self.clock.now()
        for _ in range(STEPS):
            if not self.journal.is_leaving or self.requests.last(REFRESH) is not None or isinstance(self.state, Over):
                return
            now += STEP
            self._transmit(now)

    def _delete(self) -> None:
        self.journal.is_leaving = True
        self.requests.forget(REFRESH)  # What is sent from now on is that which deletes.
        try:
            self.client.delete(self.clock.now())
        except Refused:
            self.end(None)

    def abandon(self) -> None:
        """The user has lost the client without closing it. It may be called in any thread."""
        if not self._loop.is_closed():
            self._loop.call_soon_threadsafe(lambda: self.requests.tasks.spawn(self.leave()))

    def end(self, why: Optional[Ended]) -> None:
        """Closes all, with why it has ended by itself, or None where the user has closed it."""
        before = self.state
        if isinstance(before, Over):
            return
        self.state = Over(why)
        self.journal.ended(why)
        if self.idle is not None:
            self.idle.end()
        if isinstance(before, Opening):
            fail(before, AllocationFailed("the client was closed") if why is None else self.diagnosis.no_address())
        self.over.set_result(None)
        self.client.close()
        self.path.end()
        self.requests.end(self.ending)
        self.streams.end()
        self.alarm.cancel()
        self.link.ignore()
        self.link.close()
        if self.link.is_stream:
            self._loop.call_later(GRACE, self.link.abort)  # The server may have stopped reading.

    def open_client(self) -> Client:
        """The client. `Ended` if it has ended."""
        if isinstance(self.state, Over):
            raise self.ending()
        return self.client

    def usable_client(self) -> Client:
        """The client, for a call of the user. `Ended` if it has ended, or gives its relayed address back."""
        if isinstance(self.state, (Leaving, Over)):
            raise self.ending()
        return self.client

    def ending(self) -> Ended:
        """Why a call is not made any more, as a new error for each."""
        why = self.state.why if isinstance(self.state, Over) else None
        return Ended("the client was closed") if why is None else because(Ended(*why.args), why.__cause__)
