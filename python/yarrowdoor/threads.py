"""The client of asyncio for other threads than that of its event loop: they take data, and send it, without a wait for the loop."""
from __future__ import annotations

import asyncio
import collections
import contextlib
import dataclasses
import queue
import threading
import time
from typing import Any, Callable, Deque, Dict, List, Optional, Tuple

from .address import Address, AddressLike, checked_peer
from .client import Buffer
from .counters import Counters
from .errors import Ended
from .inbox import Inbox, Receiver
from .link import DatagramLink, Link
from .loop_thread import LoopThread, NotAnswered
from .mailbox import Mailbox
from .session import Session
from .turn import TurnClient, size_of
from .wire import writable

__all__ = ["ThreadClient", "ThreadInbox"]

# How long a socket that is full is waited for, in seconds.
FULL = 15.0
# So many messages wait for the event loop to write them to a connection.
MAX_OUTGOING = 64


class ThreadInbox(Inbox):
    """Data of peers that waits for threads to take it: at most `size` packets. With a receiver nothing waits."""

    def __init__(self, size: int, receiver: Optional[Receiver]) -> None:
        super().__init__(size, receiver)
        self._came = Mailbox[Tuple[bytes, Address]]()
        self.on_end: Callable[[], object] = lambda: None
        """called in the event loop, when no more data comes"""
        if receiver is None:
            self.put = self.put_last = self._add

    def _add(self, data: bytes, peer: Address) -> None:
        if len(self._came) >= self._size:
            self.dropped += 1
        else:
            self._came.put((data, peer))

    def end(self) -> None:
        """Nothing more comes: wakes up those that wait."""
        super().end()
        self._came.end()
        self.on_end()

    def take_in_thread(self, timeout: Optional[float]) -> Optional[Tuple[bytes, Address]]:
        """The next data, and its peer; None when all is taken and the client has ended. `TimeoutError` after that many seconds."""
        try:
            return self._came.get(timeout)
        except queue.Empty:
            raise TimeoutError(f"no data came in {timeout} s") from None


class Tally:
    """What each thread has sent. A thread counts for itself, since one of two that count in one place may be forgotten."""

    def __init__(self) -> None:
        self._counts: Dict[int, List[int]] = {}

    def _own(self) -> List[int]:
        thread = threading.get_ident()
        return self._counts.get(thread) or self._counts.setdefault(thread, [0, 0, 0])

    def sent(self, size: int) -> None:
        """Data of this many bytes has left."""
        own = self._own()
        own[0] += 1
        own[1] += size

    def unsent(self) -> None:
        """Data was dropped."""
        self._own()[2] += 1

    def sums(self) -> Tuple[int, int, int]:
        """How many packets have left, how many bytes, and how many packets have not."""
        counts = [*self._counts.values()]
        return sum(it[0] for it in counts), sum(it[1] for it in counts), sum(it[2] for it in counts)


class ThreadClient(TurnClient):
    """A client whose event loop is in a thread, for all threads."""

    def __init__(self, thread: LoopThread, *args: Any, queue: int, receiver: Optional[Receiver], **settings: Any) -> None:
        super().__init__(*args, queue=queue, receiver=receiver, **settings)
        self.thread = thread
        self.is_left = False
        """whether it was closed, or has no owner any more"""
        self.inbox = self._inbox = ThreadInbox(queue, receiver)
        self._tally = Tally()
        self._outgoing: Deque[bytes] = collections.deque()
        self._sender: Optional[Tuple[Session, Callable[[AddressLike, Buffer, int], bytes]]] = None

    async def live(self) -> None:
        """Waits until the client has ended, and its connection is closed."""
        over = asyncio.Event()
        self.inbox.on_end = over.set
        if not self.is_left:
            await over.wait()
        session = self._phase
        if isinstance(session, Session):
            await session.link.wait_closed()

    async def enter(self) -> None:
        """Opens the client, and closes it if that is no longer waited for."""
        await self.open()
        if self.is_left:
            await self.close()

    async def leave(self) -> None:
        """Closes the client, also one that was not opened. One that is being opened gives back what it is granted."""
        if self._is_not_opened():
            self.inbox.end()
        else:
            await self.close()

    def check_open(self) -> None:
        """`Ended` if the client was not opened, has ended, or was opened by the process that this one is a fork of."""
        if self.thread.is_forked or self.is_left:
            raise self.ending()
        self._session()

    def ending(self) -> Ended:
        """Why a call is not made, as a new error for each."""
        if self.thread.is_forked:
            return Ended("the client was opened before this process was forked: open another one here")
        return Ended("the client was closed") if self.is_left and not self.closed else self._ending()

    async def permit_to_send(self, ip: str) -> None:
        """Asks for the permission of a peer that is to be sent something, unless it was refused just now."""
        await self._session().grants.permit_to_send(ip)

    @property
    def has_failed(self) -> bool:
        """Whether the client has ended by itself."""
        return self._has_failed()

    @property
    def unsent(self) -> int:
        """How many packets to peers the socket did not take, from any thread."""
        return super().unsent + self._tally.sums()[2]

    @property
    def counters(self) -> Counters:
        """All counts, with what other threads have sent."""
        found, (packets, size, _) = super().counters, self._tally.sums()
        return dataclasses.replace(found, packets_out=found.packets_out + packets, bytes_out=found.bytes_out + size)

    def send_in_thread(self, data: Buffer, peer: AddressLike) -> None:
        """`sendto` in any thread. If the socket is full it waits for room."""
        session = self._phase
        if not isinstance(session, Session) or session.over.done() or self.thread.is_forked:
            raise self.ending()
        packet = self._packet(session, self._shared(session), data, peer)
        link = session.link
        is_sent = self._send_datagram(session, link, packet) if isinstance(link, DatagramLink) else self._send_message(link, packet)
        if not is_sent:
            if session.over.done():
                raise self.ending()
            return self._tally.unsent()
        self._tally.sent(size_of(data))
        if session.idle is not None:
            idle, where = session.idle, checked_peer(peer)
            self.thread.post(lambda: idle.use(where))

    def _shared(self, session: Session) -> Callable[[AddressLike, Buffer, int], bytes]:
        """What makes messages of the session's client in any thread."""
        sender = self._sender
        if sender is None or sender[0] is not session:
            try:
                sender = self._sender = session, session.client.shared()
            except ValueError:  # It was closed since its phase was read.
                raise self.ending() from None
        return sender[1]

    def _send_datagram(self, session: Session, link: DatagramLink, packet: bytes) -> bool:
        deadline = 0.0
        while True:
            try:
                link.socket.send(packet)
                return True
            except (BlockingIOError, InterruptedError):
                now = time.monotonic()
                deadline = deadline or now + FULL
                if self.thread.is_here or now >= deadline:
                    return False
                writable(link.socket, 0.05)
            except OSError as error:
                self._tell(session, link, error)
                return False

    def _tell(self, session: Session, link: Link, error: OSError) -> None:
        """Reports an error of the socket where the event loop's own sends report it."""
        if not session.over.done():
            with contextlib.suppress(NotAnswered):
                self.thread.do(lambda: link.user.refused(link, error))

    def _send_message(self, link: Link, packet: bytes) -> bool:
        """Has the event loop write a message to the connection, which is no other thread's."""
        if self.thread.is_here:
            return link.send_data(packet)
        try:
            if not link.writable.is_set():
                self.thread.call(link.writable.wait, FULL)
            if link.is_over:
                return False
            self._outgoing.append(packet)
            self.thread.post(lambda: self._write(link))
            if len(self._outgoing) >= MAX_OUTGOING:
                self.thread.do(lambda: None)  # which is after what was posted
        except NotAnswered:
            return False
        return True

    def _write(self, link: Link) -> None:
        while self._outgoing:
            link.send(self._outgoing.popleft())
