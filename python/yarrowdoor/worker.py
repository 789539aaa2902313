"""A client over a wire, without an event loop: it does what is due, and takes what comes."""
from __future__ import annotations

import contextlib
import errno
import math
import socket
import time
from typing import Any, Callable, Dict, Optional, Set

from . import reasons
from .address import Address
from .answers import (
    AllocateTcpSocket, AllocationCreated, AllocationCreateFailed, ChannelCreated, ChannelCreateFailed, Event, Ignored, PeerData,
    PermissionCreated, PermissionCreateFailed, TcpClose, WaitUntil,
)
from .asked import About, Record, key_of
from .client import Buffer, Client
from .clock import Clock
from .credentials import Text
from .diagnosis import ALLOCATE, Diagnosis
from .errors import Ended, Refused, because
from .wire import Wire

__all__ = ["Worker"]

# What one look at a socket takes of it, so that no sender keeps this program from all else.
MAX_TAKEN = 64
# How long the answer to a delete is waited for, in seconds.
DELETE_WAIT = 2.0
# The most bytes that a datagram over IPv4 carries, and coturn reads no longer message of a stream.
MAX_MESSAGE = 65_507


class Worker:
    """A client and its wire. `drive` has it work, in the thread that uses it."""

    def __init__(self, wire: Wire, server: str, user: Text, password: Text, **settings: Any) -> None:
        """Settings are those of `client.Client`. The wire is closed where there is no such client. `woken` is a socket that is to
        be read by `wakes`."""
        usual = {"keepalive": 15 * 10**9, "pause": 5 * 10**6, "refresh_ahead": 150 * 10**9, "max_stale_nonces": 256}
        named: Dict[str, Any] = {**usual, **settings}
        try:
            self.client = Client(wire.local, wire.remote, user, password, transport=wire.transport, **named)
            self.woken, self._waker = socket.socketpair()
        except BaseException:
            wire.close()
            raise
        self.wire, self.clock, self.record = wire, Clock(), Record()
        self.diagnosis = Diagnosis(server, named["max_stale_nonces"], self.clock, self.record)
        self.woken.setblocking(False)
        self._waker.setblocking(False)
        self.wakeup, self.leave_by = 0.0, math.inf
        """when there is something to do next, and when it ends at the latest, in seconds of `time.monotonic`"""
        self.judged = 0.0
        """when an unsigned error counts as the answer"""
        self.is_leaving = self._is_deleting = self.is_over = False
        self.why: Optional[Exception] = None
        """why it has ended by itself"""
        self.error: Optional[OSError] = None
        """the last error of the socket since the server answered"""
        self.address: Optional[Address] = None
        self.mapped: Optional[Address] = None
        """this client's own address, as the server saw it"""
        self.has_no_address = False
        """whether the client has given up the allocation"""
        self.asked: Set[About] = set()
        """permissions and channels that the client has asked for, and the server has not answered"""
        self.granted: Set[About] = set()
        """IP addresses with a permission, and peers with a channel"""
        self.failed: Set[About] = set()
        self.on_data: Callable[[bytes, Address], object] = lambda data, peer: None
        self._frames = reasons.Frames()

    # What is due

    def work(self) -> None:
        """Does all that is due now."""
        while not self.is_over and self._step():
            pass
        if time.monotonic() >= self.leave_by:
            self.end()

    def _step(self) -> bool:
        """Does something that is due, and says whether there may be more."""
        now = self.clock.now()
        while not self.is_over and (packet := self.client.poll_transmit(now)) is not None:
            self.sent(packet.data)
            self._write(packet.data)
        self._take_events()
        if self.is_leaving and not self._is_deleting and self._delete():
            return True
        rest = self.client.poll(now)
        if isinstance(rest, WaitUntil):
            if rest.time <= now:
                return True
            self.wakeup = min(time.monotonic() + self.clock.seconds(rest.time), self.leave_by)
            self.diagnosis.begins()
            return False
        if isinstance(rest, AllocateTcpSocket):
            self.client.allocated_tcp_socket(rest, None, now)  # A peer's connection, which is not wanted here.
        elif not isinstance(rest, TcpClose):
            self._take_events()
            self.end()
        return True

    def _delete(self) -> bool:
        """Gives the relayed address back, unless the server has yet to grant it."""
        last = self.record.last(ALLOCATE)
        if self.address is None and self.record.allocates > 1 and last is not None and last.error is None:
            return False
        self._is_deleting = True
        try:
            self.client.delete(self.clock.now())
        except Refused:
            self.end()
        return True

    def end(self) -> None:
        """Does nothing any more, and says why."""
        if not self.is_over:
            self.is_over = True
            self.why = self.diagnosis.ended() if self.address is not None else self.diagnosis.no_address()

    def wake(self) -> None:
        """Has `drive` look again at what it waits for, from any thread."""
        with contextlib.suppress(OSError):  # It is awake already, or has ended.
            self._waker.send(b"x")

    def wakes(self) -> None:
        """Takes what has woken it."""
        with contextlib.suppress(OSError):
            self.woken.recv(1024)

    def has_more(self) -> bool:
        """Whether TLS holds bytes of which `select` does not know."""
        return not self.is_over and self.wire.has_more()

    def take(self) -> None:
        """Takes what has come, some of it at a time, so that a flood keeps no other caller out."""
        for _ in range(MAX_TAKEN):
            if self.is_over or not self._take_next():
                return

    def _take_next(self) -> bool:
        """Takes what one read gives, and says whether there may be more."""
        try:
            data = self.wire.receive()
        except OSError as error:
            self._fails(error)
            return False
        if data is None:
            return False
        self._take(data)
        if not data and self.wire.is_stream:
            self._fails(ConnectionResetError(errno.ECONNRESET, "the server closed the connection"))
        return True

    def _take(self, data: bytes) -> None:
        answer = self.client.recv(data, self.clock.now())
        if isinstance(answer, PeerData):
            self.on_data(answer.data, answer.peer)
            if not self.wire.is_stream or answer.start == 4 and self._frames.is_one(data, len(answer.data)):
                return  # Nothing else is in it.
        for packet in self._frames.messages(data) if self.wire.is_stream else (data,):
            message = reasons.read(packet)
            if message is not None and message.is_response:
                self.heard(message, packet, isinstance(answer, Ignored))
        if self.wire.is_stream:
            for more in iter(lambda: self.client.poll_recv(self.clock.now()), None):
                self.on_data(more.data, more.peer)

    def _write(self, data: bytes) -> None:
        try:
            self.wire.send(data)
        except OSError as error:
            self._fails(error)

    def _fails(self, error: OSError) -> None:
        """The socket has an error. One over UDP does not end it: the network may come back."""
        self.error = self.diagnosis.socket_error = error
        self.refused(error)
        if self.wire.is_stream and not self.is_over:
            self.diagnosis.breaks(f"the connection to the server has ended: {error}", error)
            self.client.protocol_error()
            self.end()

    def _take_events(self) -> None:
        while (event := self.client.poll_event()) is not None:
            self.told(event)
            if isinstance(event, AllocationCreated):
                self.address = event.address
            elif isinstance(event, AllocationCreateFailed):
                self.has_no_address = True
            elif isinstance(event, (PermissionCreated, PermissionCreateFailed)):
                self._settles(event.ip, isinstance(event, PermissionCreated))
            elif isinstance(event, (ChannelCreated, ChannelCreateFailed)):
                self._settles(event.peer, isinstance(event, ChannelCreated))

    def _settles(self, about: About, is_granted: bool) -> None:
        self.asked.discard(about)
        (self.granted if is_granted else self.failed).add(about)
        (self.failed if is_granted else self.granted).discard(about)

    # What its user calls

    def ask(self, about: About) -> None:
        """Asks for the permission of an IP address, or the channel of a peer, unless it is there or asked for. `Ended`; `Refused`
        as the client does it."""
        self._check()
        if about in self.asked or about in self.granted:
            return
        self.failed.discard(about)
        self.record.forget(key_of(about))
        if self._request(about):
            self.asked.add(about)

    def _request(self, about: About) -> bool:
        """Makes a request, and says whether it is to be waited for."""
        if not isinstance(about, str):
            self.client.bind_channel(about, self.clock.now())
            return True
        try:
            self.client.create_permission(about, self.clock.now())
        except Refused as refusal:
            if refusal.reason != "already-exists":
                raise
            if self.client.have_permission(about):
                self.granted.add(about)
        return about not in self.granted

    def send(self, data: Buffer, peer: Address) -> None:
        """Sends data to a peer. `Ended`; `Refused` without a permission; `ValueError` for data that is too long for a message."""
        self._check()
        packet = self.client.data_to(peer, data, self.clock.now())
        if len(packet) > MAX_MESSAGE:
            raise ValueError(f"the message to {peer} has {len(packet)} bytes with its header, and at most {MAX_MESSAGE} fit")
        self._write(packet)

    def leave(self) -> None:
        """Has the relayed address given back, also one that the server is yet to grant, and all ended in two seconds."""
        self.leave_by, self.is_leaving = min(self.leave_by, time.monotonic() + DELETE_WAIT), True

    def close(self) -> None:
        """Closes the socket, and frees the client."""
        self.end()
        self.wire.close()
        self.client.close()
        self.woken.close()
        self._waker.close()

    def _check(self) -> None:
        """`Ended` if no call is made any more."""
        if self.is_leaving or self.is_over:
            raise self.ending()

    def ending(self) -> Ended:
        """Why no call is made any more, as a new error for each."""
        if self.is_leaving or self.why is None:
            return Ended("the client was closed")
        return because(Ended(*self.why.args), self.why.__cause__)

    # What happens, for those who are more than this

    def sent(self, packet: bytes) -> None:
        """A packet of the client leaves."""
        self.record.sent(packet, self.clock.now())

    def heard(self, message: reasons.Message, packet: bytes, is_ignored: bool) -> None:
        """The server has answered something, which the client has taken, or ignored."""
        self.diagnosis.begins()
        self.diagnosis.hears(message, packet, is_ignored)
        if self.record.answered(message) is not None:
            self.error = None
            if message.method == reasons.ALLOCATE:
                self.mapped = self.mapped if message.mapped is None or is_ignored else message.mapped

    def refused(self, error: OSError) -> None:
        """The socket has an error, which ends a stream."""

    def told(self, event: Event) -> None:
        """The client has reported an event."""
