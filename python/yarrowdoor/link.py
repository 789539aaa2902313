"""One socket to the server: bytes out, bytes in, whether it is full, and how it ends."""
from __future__ import annotations

import asyncio
import collections
import contextlib
import os
import socket
import time
from typing import Any, Callable, Deque, Optional, cast

from .address import SocketAddress, of_socket
from .reasons import Frames
from .wire import notice_silence

__all__ = ["DatagramLink", "Link", "LinkUser", "StreamLink"]

# The longest datagram, in bytes, and how many are read before the event loop goes on.
MAX_DATAGRAM, BATCH = 65_535, 32
# After this many single datagrams another read looks for more: to find none costs as much as to read one.
ALONE = 8
# A longer piece of the connection to the server is taken in slices of this many bytes, and after this many seconds the event loop
# goes on in between: 256 KiB may be 65,536 messages.
SLICE, AT_ONCE = 8_192, 0.005
# So many messages of the client wait for a socket over UDP that is full. A further one is lost, as a network may lose it.
MAX_LATE = 64


class LinkUser:
    """What owns a link, and gets its reports."""

    def received(self, data: bytes, link: Link) -> None:
        """A datagram has come, or a piece of the stream."""

    def refused(self, link: Link, error: Exception) -> None:
        """An error of a datagram socket, which does not end it."""

    def ended(self, link: Link, error: Optional[Exception]) -> None:
        """A connection is closed: by this end, by the other one, or by an error."""

    def paused(self, link: Link, is_full: bool) -> None:
        """The socket is full, or no longer."""


class Link:
    """A socket to the server. Until it has a user what comes is dropped: the server sends nothing before it is asked."""

    is_stream = False
    has_slices = False
    """whether long pieces of a stream are taken in slices, between which the event loop goes on: then nobody else pauses it"""
    local: SocketAddress
    remote: SocketAddress

    def __init__(self) -> None:
        self.frames: Optional[Frames] = None
        self.is_over = False
        """Whether it was closed, here or there."""
        self.writable = asyncio.Event()
        self.writable.set()
        self._user = LinkUser()
        self._received: Callable[[bytes, Link], None] = self._user.received

    @property
    def user(self) -> LinkUser:
        """What gets the reports."""
        return self._user

    @user.setter
    def user(self, user: LinkUser) -> None:
        self._user, self._received = user, user.received

    def ignore(self) -> None:
        """What comes from now on is dropped."""
        self._received = LinkUser().received

    def pause_writing(self) -> None:
        """The socket is full."""
        self.writable.clear()
        self._user.paused(self, True)

    def resume_writing(self) -> None:
        """The socket is full no longer."""
        self.writable.set()
        self._user.paused(self, False)

    def send(self, data: bytes) -> None:
        """Sends a message of the client. One that is lost is retransmitted, or makes its request fail."""
        raise NotImplementedError

    def send_data(self, data: bytes) -> bool:
        """Sends data, or drops it where the socket is full or refuses it, and says whether it was sent."""
        raise NotImplementedError

    def close(self) -> None:
        """Closes the socket, over a stream when what was sent has left it. A second time it does nothing."""
        raise NotImplementedError

    def abort(self) -> None:
        """Closes the socket at once. What waits in it is dropped."""
        raise NotImplementedError

    async def wait_closed(self) -> None:
        """Waits until the socket that `close` closes is closed."""


class DatagramLink(Link):
    """A socket over UDP, which is connected to the server. It is read and written here, and not by a transport of the event loop:
    so several datagrams are read at a time, and no event loop closes it at an error, as uvloop does."""

    def __init__(self, sock: socket.socket) -> None:
        super().__init__()
        self.socket, self._loop = sock, asyncio.get_running_loop()
        self._number = sock.fileno()  # which the loop knows, also where another has closed the socket
        self.local, self.remote = of_socket(sock.getsockname()), of_socket(sock.getpeername())
        self._recv, self._send = sock.recv, sock.send
        self._late: Deque[bytes] = collections.deque()
        # How many datagrams are read before the event loop goes on, and how many came one by one since it was looked for more.
        self._batch, self._alone = 1, 0
        self._loop.add_reader(self._number, self._read)

    def _read(self) -> None:
        count = 0
        while count < self._batch:
            try:
                data = self._recv(MAX_DATAGRAM)
            except (BlockingIOError, InterruptedError):
                self._batch = max(1, count)
                if count == 0:
                    self._read_on()
                return
            except OSError as error:
                self._user.refused(self, error)
                self._read_on()
                return
            self._received(data, self)
            if self.is_over:
                return
            count += 1
        self._alone += 1
        if self._batch > 1 or self._alone >= ALONE:
            self._batch, self._alone = min(2 * self._batch, BATCH), 0

    def _read_on(self) -> None:
        """Registers the socket again. After an error of it uvloop reports once that there is something to read, and never again."""
        if not self.is_over:
            with contextlib.suppress(OSError):  # another has closed it
                self._loop.remove_reader(self._number)
                self._loop.add_reader(self._number, self._read)

    def send(self, data: bytes) -> None:
        """Sends a message of the client, when the socket has room. Of more than `MAX_LATE` that wait, the last are dropped."""
        if not self._late:
            self.send_data(data)
        elif len(self._late) < MAX_LATE:
            self._late.append(data)

    def send_data(self, data: bytes) -> bool:
        """Sends data unless messages wait or the socket refuses it, and returns whether it was sent."""
        if self.is_over or self._late:
            return False
        try:
            self._send(data)
        except (BlockingIOError, InterruptedError):
            self._late.append(data)
            self._loop.add_writer(self._number, self._send_late)
            self.pause_writing()
        except OSError as error:
            self._user.refused(self, error)
            return False
        return True

    def _send_late(self) -> None:
        """Sends what the socket did not take at first."""
        while self._late:
            data = self._late.popleft()
            try:
                self._send(data)
            except (BlockingIOError, InterruptedError):
                self._late.appendleft(data)
                return
            except OSError as error:
                self._user.refused(self, error)
        if not self.is_over:
            self._loop.remove_writer(self._number)
            self.resume_writing()

    def close(self) -> None:
        """Closes the socket at once."""
        if self.is_over:
            return
        self.is_over = True
        self._late.clear()
        self.writable.set()
        if not self._loop.is_closed():
            self._loop.remove_reader(self._number)
            self._loop.remove_writer(self._number)
        self.socket.close()

    def abort(self) -> None:
        """As `close`: no datagram waits to leave."""
        self.close()


class StreamLink(Link, asyncio.Protocol):
    """A connection over TCP or TLS. `frames` finds the messages in what comes, as long as it is read for them."""

    transport: Any
    is_stream = True

    def __init__(self) -> None:
        super().__init__()
        self.frames: Optional[Frames] = Frames()
        self._slices: Deque[bytes] = collections.deque()
        self._lost: asyncio.Future[None] = asyncio.get_running_loop().create_future()

    def connection_made(self, transport: Any) -> None:
        """The connection is open. One that was reset already is aborted."""
        self.transport = transport
        names = [transport.get_extra_info(it) for it in ("sockname", "peername")]
        if None in names:
            self.abort()  # The other end has reset the connection already.
            return
        self.local, self.remote = of_socket(names[0]), of_socket(names[1])
        _notice_silence(transport)

    def connection_lost(self, exc: Optional[Exception]) -> None:
        """The connection is closed. What had arrived is passed on before its user is informed."""
        last, self._slices = self._slices, collections.deque()
        for piece in last:
            self._received(piece, self)
        self.is_over = True
        self.writable.set()
        self._lost.set_result(None)
        self._user.ended(self, exc)

    def data_received(self, data: bytes) -> None:
        """Passes on a piece of the stream, a long one over TLS in slices."""
        if self._slices:  # Some event loops give more of a connection over TLS that is paused.
            self._slices.append(data)
        elif self.has_slices and len(data) > SLICE:
            self._slices.extend(data[place:place + SLICE] for place in range(0, len(data), SLICE))
            self.transport.pause_reading()
            self._take_slices()
        else:
            self._received(data, self)

    def _take_slices(self) -> None:
        deadline = time.monotonic() + AT_ONCE
        try:
            while self._slices:
                self._received(self._slices.popleft(), self)
                if time.monotonic() >= deadline:
                    break
        finally:
            if self._slices:
                asyncio.get_running_loop().call_soon(self._take_slices)
            elif not self.transport.is_closing():
                self.transport.resume_reading()

    def send(self, data: bytes) -> None:
        """Sends a message of the client; once the connection is closing it is dropped."""
        if not self.is_over and not self.transport.is_closing():
            self.transport.write(data)

    def send_data(self, data: bytes) -> bool:
        """Sends data, or drops it if the buffer is full or the connection closed, and returns whether it was sent."""
        if self.is_over or not self.writable.is_set():
            return False
        self.transport.write(data)
        return True

    def close(self) -> None:
        """Closes the connection when its buffer is empty."""
        self.is_over = True
        self.writable.set()
        # From Python 3.11 on a transport over TLS that is closed twice cannot be aborted any more.
        if not self.transport.is_closing():
            self.transport.close()

    def abort(self) -> None:
        """Closes the connection at once. What waits in its buffer is dropped."""
        self.is_over = True
        self.writable.set()
        self.transport.abort()

    async def wait_closed(self) -> None:
        """Waits until the connection is closed."""
        await asyncio.wait([self._lost])


def _notice_silence(transport: Any) -> None:
    """Has the system end a connection whose other end is silent, which takes it a quarter of an hour otherwise."""
    named = transport.get_extra_info("socket")
    if named is None:
        return
    # What asyncio and others give is not the socket itself: the options are those of the open file, whatever names it.
    with contextlib.suppress(OSError), socket.socket(fileno=os.dup(cast(int, named.fileno()))) as own:
        notice_silence(own)
