"""A client of the library for C, as a handle, and its calls through `ctypes`.

A call is a request in, and an answer out, as `yarrowdoor.h` documents them; `client.py` gives them names and types. The calls keep
the interpreter's lock, since each takes microseconds.
"""
from __future__ import annotations

import ctypes
import struct
import sys
import threading
import weakref
from types import CodeType, FrameType
from typing import Callable, List, NoReturn, Optional, Protocol, Set, Tuple, Union, cast

from .errors import Busy
from .layout import (
    ANSWER, BAD_PAYLOAD, BAD_TIME, FOUND, LENGTHS, MAX_OVERHEAD, MAX_PACKET, NO_ADDRESS, PACKET, PEER_DATA, PEER_DATA_RANGE,
    PEER_PLACE, READ, RECV, REFUSED, REQUEST, SEND_HEAD, SEND_TO, SMALL_BUFFER, Answer, fail,
)

__all__ = ["Buffer", "Calls", "Handle", "Head", "Receive", "Send", "Share", "memory_of"]

Buffer = Union[bytes, bytearray, memoryview]
# The call RECV, of a time and bytes: kind, length, start and peer, of which the last three count where the kind is PEER_DATA_RANGE.
Receive = Callable[[int, Buffer], Tuple[int, int, int, bytes]]
# The call SEND_TO, of a time, a peer and data: the bytes to send, or None where `Handle.last` says why there are none.
Send = Callable[[int, bytes, Buffer], Optional[bytes]]
# The call SEND_HEAD, of a time, a peer and a length of data: what precedes the data and what follows it, or None as for SEND_TO.
Head = Callable[[int, bytes, int], Optional[Tuple[bytes, bytes]]]
# The call SEND_TO in any thread: the bytes to send, or the number of the error for which the client refuses it.
Share = Callable[[int, bytes, Buffer], Union[bytes, int]]


class Calls(Protocol):
    """The calls of the library that a client needs."""

    new: Callable[..., int]
    call: Callable[..., int]
    free: Callable[..., None]


class Room:
    """A buffer that the library writes to."""

    def __init__(self, size: int) -> None:
        data = bytearray(size)
        self.view, self.at, self.size = memoryview(data), memory_of(data), _passed(size)


class Handle:
    """A client of the library, owned: freed when nothing refers to it any more.

    It is used by one thread at a time. A second one gets `Busy`, and its call is not made, but for `sharing`. A call that an
    interrupt ends leaves the client to the next one. After `free` each call raises `ValueError`.
    """

    def __init__(self, library: Calls, settings: bytes, user: bytes, password: bytes, seed: bytes, guard: bytes = b"") -> None:
        """A new client. `settings` are packed (`SETTINGS`). `ValueError`, or `MemoryError`, where there is none."""
        place = ctypes.c_void_p()
        sizes = [ctypes.c_size_t(len(it)) for it in (user, password, seed)]
        error = library.new(settings, user, sizes[0], password, sizes[1], seed, sizes[2], ctypes.byref(place))
        if error:
            fail(error)
        # Who takes the client from here may call, and gives it back. One step of the interpreter takes it, in a third of the time
        # that a lock needs.
        self._client: object = ctypes.c_void_p.from_param(place.value)
        here: List[object] = [self._client]
        self._here = here
        self._take, self._give = here.pop, here.append
        self._is_shared = False
        self._library, self._call = library, library.call
        self._finalizer = weakref.finalize(self, library.free, place)
        # At exit a daemon thread may still be in a call. The system takes the memory back.
        self._finalizer.atexit = False
        self._is_free = False
        self._request, self._answer = bytearray(REQUEST.size), bytearray(ANSWER.size) + guard
        self._request_at, self._answer_at = memory_of(self._request), memory_of(self._answer)
        self._room = Room(MAX_PACKET)

    def free(self) -> None:
        """Frees the client, which sends nothing. A second time it does nothing. One that is shared is freed with its last owner."""
        if self._is_free:
            return
        self._begin()  # It is not given back.
        self._is_free = True
        if not self._is_shared:
            self._finalizer()

    def _begin(self) -> object:
        """Takes the client, which is given back after the call."""
        try:
            return self._take()
        except IndexError:
            return self._retake()

    def _retake(self) -> object:
        """Takes the client where a call that was interrupted has not given it back: an exception of a signal's handler, as that of
        Ctrl-C, may be raised between any two steps. `Busy` if another call is under way, and `ValueError` after `free`."""
        with _retaking:
            if self._is_free:
                raise ValueError("the client was closed")
            if not self._here and not self._is_in_call():
                self._here[:] = [self._client]
            try:
                found = self._take()
            except IndexError:
                raise Busy("another thread uses this client") from None
        return found

    def _is_in_call(self) -> bool:
        """Whether any thread has taken this client, and is in its call."""
        for newest in sys._current_frames().values():
            frame: Optional[FrameType] = newest
            is_taking = False
            while frame is not None:
                if frame.f_code is _RETAKE:
                    is_taking = "found" not in frame.f_locals
                elif frame.f_code is not _BEGIN:
                    if frame.f_code in _HOLDERS and not is_taking and frame.f_locals.get("self") is self:
                        return True
                    is_taking = False
                frame = frame.f_back
        return False

    def beyond_answer(self) -> bytes:
        """The bytes behind the answer, as `guard` set them: a call must not change them."""
        return bytes(self._answer[ANSWER.size:])

    def call(self, now: int, kind: int, id: int = 0, transport: int = 0, from_: bytes = NO_ADDRESS, to: bytes = NO_ADDRESS,
             peer: bytes = NO_ADDRESS, local: bytes = NO_ADDRESS) -> Tuple[Answer, bytes]:
        """Makes a call: its answer, and all bytes of it, also those that are read piece by piece.

        `Busy`, `ValueError` if it is no call, and `MemoryError`, after which the client is valid, and may have ended.
        """
        client = self._begin()
        try:
            kind = self._make(client, (now, kind, id, transport, 0, from_, to, peer, local))
            answer = Answer._make(ANSWER.unpack_from(self._answer))
            if kind in (PACKET, PEER_DATA):
                return answer, self._read_all(client, answer.len, answer.left)
            return answer, b""
        finally:
            self._give(client)

    def last(self) -> Tuple[Answer, bytes]:
        """The answer of the last call, and all bytes of it. Fields that its kind does not have may be those of an earlier one."""
        client = self._begin()
        try:
            answer = Answer._make(ANSWER.unpack_from(self._answer))
            return answer, self._read_all(client, answer.len, answer.left) if answer.kind == PEER_DATA else b""
        finally:
            self._give(client)

    def _make(self, client: object, request: Tuple[object, ...], data: bytes = b"", room: Optional[Room] = None) -> int:
        """Makes a call, and returns its kind, or raises. The answer is in `_answer`."""
        try:
            REQUEST.pack_into(self._request, 0, *request)
        except struct.error:
            raise ValueError(f"a time is from 0 to 2^62 nanoseconds, and an id has 32 bits: {request[0]}, {request[2]}") from None
        self._answer[: ANSWER.size] = _NO_ANSWER
        room = room or self._room
        found = self._call(client, self._request_at, data, _passed(len(data)), room.at, room.size, self._answer_at)
        if found <= SMALL_BUFFER:
            fail(found)
        return found

    def _read_all(self, client: object, size: int, left: int) -> bytes:
        """The bytes in the buffer, and those that did not fit into it."""
        pieces = [bytes(self._room.view[:size])]
        while left:
            self._make(client, (0, READ, 0, 0, 0, *_NOWHERE))
            size, left = LENGTHS.unpack_from(self._answer)
            pieces.append(bytes(self._room.view[:size]))
        return b"".join(pieces) if len(pieces) > 1 else pieces[0]

    # Each packet goes through one of these three, which have at hand what they need: to look it up takes longer. They do what
    # `_make` does by themselves, and set no answer to 0 before: of the fields only those are read that the kind has. An answer of
    # another kind than theirs is to be read by `last`.

    def receiving(self, transport: int, from_: bytes, to: bytes) -> Receive:
        """The call RECV for what comes over a transport from one address to another."""
        request = bytearray(REQUEST.pack(0, RECV, 0, transport, 0, from_, to, NO_ADDRESS, NO_ADDRESS))
        time, request_at = memoryview(request).cast("Q"), memory_of(request)
        take, give, call = self._take, self._give, self._call
        answer, answer_at, room_at, room_size = self._answer, self._answer_at, self._room.at, self._room.size

        def receive(now: int, data: Buffer) -> Tuple[int, int, int, bytes]:
            try:
                client = take()
            except IndexError:
                client = self._retake()
            try:
                time[0] = now
                given = data if type(data) is bytes else _copied(data)
                size = len(given)
                passed = _USUAL[size] if size < _MANY else _passed(size)
                kind = call(client, request_at, given, passed, room_at, room_size, answer_at)
                if kind == PEER_DATA_RANGE:
                    return _unpack_found(answer)
            except (TypeError, ValueError) as error:
                _fail_time(now, error)
            finally:
                give(client)
            if kind <= SMALL_BUFFER:
                fail(kind)
            return kind, 0, 0, NO_ADDRESS

        _HOLDERS.add(receive.__code__)
        return receive

    def sending(self, transport: int) -> Send:
        """The call SEND_TO for data that goes to peers over a transport."""
        request = bytearray(_send_request(transport))
        time, place, request_at = memoryview(request).cast("Q"), memoryview(request)[PEER_PLACE], memory_of(request)
        take, give, call = self._take, self._give, self._call
        room, room_at, room_size, answer_at = self._room.view, self._room.at, self._room.size, self._answer_at
        lengths, last_peer, last_size, last = memoryview(self._answer).cast("Q"), NO_ADDRESS, 0, room[:0]

        def send(now: int, peer: bytes, data: Buffer) -> Optional[bytes]:
            nonlocal last_peer, last_size, last
            try:
                client = take()
            except IndexError:
                client = self._retake()
            try:
                time[0] = now
                if peer is not last_peer:
                    place[:] = last_peer = peer
                given = data if type(data) is bytes else _copied(data)
                size = len(given)
                passed = _USUAL[size] if size < _MANY else _passed(size)
                kind = call(client, request_at, given, passed, room_at, room_size, answer_at)
                if kind == PACKET:
                    size = lengths[_LEN]
                    if size != last_size:
                        last, last_size = room[:size], size
                    return last.tobytes()
            except (TypeError, ValueError) as error:
                _fail_time(now, error)
            finally:
                give(client)
            if kind == SMALL_BUFFER:
                return self._send_long(now, transport, peer, data)
            return fail(kind) if kind < SMALL_BUFFER else None

        _HOLDERS.add(send.__code__)
        return send

    def heading(self, transport: int) -> Head:
        """The call SEND_HEAD for data that goes to peers over a transport. The library does not see the data."""
        request = bytearray(REQUEST.pack(0, SEND_HEAD, 0, transport, 0, *_NOWHERE))
        time, place, request_at = memoryview(request).cast("Q"), memoryview(request)[PEER_PLACE], memory_of(request)
        take, give, call = self._take, self._give, self._call
        room, room_at, room_size, answer_at = self._room.view, self._room.at, self._room.size, self._answer_at
        lengths = memoryview(self._answer).cast("Q")

        def head(now: int, peer: bytes, size: int) -> Optional[Tuple[bytes, bytes]]:
            if not 0 <= size < 1 << 63:
                raise ValueError(f"data has from 0 to 2^63 bytes: {size}")
            try:
                client = take()
            except IndexError:
                client = self._retake()
            try:
                time[0] = now
                place[:] = peer
                passed = _USUAL[size] if size < _MANY else _passed(size)
                kind = call(client, request_at, None, passed, room_at, room_size, answer_at)
                if kind == PACKET:
                    return room[:lengths[_LEN]].tobytes(), _PADDING[lengths[_START]]
            except (TypeError, ValueError) as error:
                _fail_time(now, error)
            finally:
                give(client)
            return fail(kind) if kind <= SMALL_BUFFER else None

        _HOLDERS.add(head.__code__)
        return head

    def sharing(self, transport: int) -> Share:
        """The call SEND_TO for any thread, also while another one is in a call, and for a signal's handler in the midst of one. The
        interpreter's lock, which a call of the library keeps, has one made after the other, and each has memory of its own.
        `ValueError` after `free`."""
        # First this, and then the look: `free`, in another thread or a handler, does it the other way round, so that either it
        # frees nothing or this is refused.
        self._is_shared = True
        if self._is_free:
            raise ValueError("the client was closed")
        rooms: List[_Envelope] = []

        def send(now: int, peer: bytes, data: Buffer) -> Union[bytes, int]:
            try:
                own = rooms.pop()
            except IndexError:
                own = _Envelope(transport)
            given = data if type(data) is bytes else _copied(data)
            size = len(given)
            if size > MAX_PACKET - MAX_OVERHEAD:
                fail(BAD_PAYLOAD)
            own.time[0], own.place[:] = now, peer
            kind = self._call(self._client, own.request_at, given, _passed(size), own.room.at, own.room.size, own.answer_at)
            if kind == PACKET:
                found: Union[bytes, int] = own.room.view[:own.lengths[_LEN]].tobytes()
            elif kind == REFUSED:
                found = Answer._make(ANSWER.unpack(own.answer)).error
            else:
                fail(kind)
            rooms.append(own)  # One that an interrupt keeps from here is forgotten.
            return found

        return send

    def _send_long(self, now: int, transport: int, peer: bytes, data: Buffer) -> Optional[bytes]:
        """The call SEND_TO for data that the buffer does not hold."""
        given, room = bytes(data), Room(memoryview(data).nbytes + MAX_OVERHEAD)
        client = self._begin()
        try:
            kind = self._make(client, (now, SEND_TO, 0, transport, 0, NO_ADDRESS, NO_ADDRESS, peer, NO_ADDRESS), given, room)
            return bytes(room.view[: LENGTHS.unpack_from(self._answer)[0]]) if kind == PACKET else None
        finally:
            self._give(client)


class _Envelope:
    """A request to send, its answer, and the buffer for the packet."""

    def __init__(self, transport: int) -> None:
        request, self.answer, self.room = bytearray(_send_request(transport)), bytearray(ANSWER.size), Room(MAX_PACKET)
        self.time, self.place = memoryview(request).cast("Q"), memoryview(request)[PEER_PLACE]
        self.request_at, self.answer_at = memory_of(request), memory_of(self.answer)
        self.lengths = memoryview(self.answer).cast("Q")


def _send_request(transport: int) -> bytes:
    return REQUEST.pack(0, SEND_TO, 0, transport, 0, *_NOWHERE)


# The functions that have the client while they are under way, and those that take it for them.
_HOLDERS: Set[CodeType] = {it.__code__ for it in (Handle.call, Handle.last, Handle._send_long, Handle.free)}
_BEGIN, _RETAKE = Handle._begin.__code__, Handle._retake.__code__
_retaking = threading.RLock()
_NO_ANSWER, _NOWHERE = bytes(ANSWER.size), (NO_ADDRESS,) * 4
_unpack_found = cast(Callable[[bytearray], Tuple[int, int, int, bytes]], FOUND.unpack_from)
# Where the length of what is in the buffer stands in an answer, in steps of eight bytes, and behind it of a head the padding.
_LEN, _START = 2, 3
_PADDING = [bytes(it) for it in range(4)]


def memory_of(buffer: bytearray) -> object:
    """The memory of a buffer, to be passed to the library. It keeps the buffer where it is."""
    return ctypes.byref((ctypes.c_char * len(buffer)).from_buffer(buffer))


def _passed(size: int) -> object:
    """A length, to be passed to the library."""
    return ctypes.c_size_t.from_param(size)


# Those of most packets are there already.
_MANY = 2_048
_USUAL = [_passed(it) for it in range(_MANY)]


def _copied(data: Buffer) -> bytes:
    """The caller's bytes. To have the library look at where they lie takes `ctypes` longer than this copy."""
    return memoryview(data).tobytes()


def _fail_time(now: int, error: Exception) -> NoReturn:
    """Raises that a time is none, where that was the error."""
    if not isinstance(now, int) or not 0 <= now < 1 << 64:
        fail(BAD_TIME)
    raise error
