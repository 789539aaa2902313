"""The library for C: where it is found, whether it is the one that is meant, and what it reads of messages."""
from __future__ import annotations

import ctypes
import functools
import mmap
import os
import pathlib
import re
from typing import Callable, Iterator, Optional, Union

from .errors import LibraryError
from .handle import Handle, memory_of
from .layout import (
    ADDRESS, CHANNEL_DATA, MESSAGE, MESSAGE_IS, NAME, NO_ADDRESS, PACKET, POLL, POLL_TRANSMIT, SETTINGS, TCP, UDP, WAIT_UNTIL, YES,
    Message,
)

__all__ = ["Library", "find", "load"]


class Library:
    """The library, loaded from a file, or by its name from where the system has its libraries.

    `LibraryError` if there is none, or if its version or its structs are others than those of this package.
    """

    def __init__(self, path: Union[str, os.PathLike[str], None] = None) -> None:
        self.path = os.fspath(path) if path is not None else NAME
        if path is not None:
            _check_version(self.path)
        try:
            loaded = ctypes.PyDLL(self.path)
            new, call, free = loaded.yarrowdoor_new, loaded.yarrowdoor_call, loaded.yarrowdoor_free
            self._read_message, self._read_attribute = loaded.yarrowdoor_read_message, loaded.yarrowdoor_read_attribute
        except (OSError, AttributeError) as error:
            why = f"the library for C is not loaded: {error}. A wheel has it; in the repository tools/build/library builds it"
            raise LibraryError(why) from None
        # No argtypes: values of ctypes are passed as they are, which takes half the time.
        new.restype = call.restype = self._read_message.restype = self._read_attribute.restype = ctypes.c_uint32
        free.restype = None
        self.new: Callable[..., int] = new
        self.call: Callable[..., int] = call
        self.free: Callable[..., None] = free
        # Calls that an older library has not.
        self._kept_grants = getattr(loaded, "yarrowdoor_kept_grants", None)
        self._longest_cadence = getattr(loaded, "yarrowdoor_longest_cadence", None)
        self.has_room = self.has_abandon = self._kept_grants is not None
        for export in (self._kept_grants, self._longest_cadence):
            if export is not None:
                export.restype = ctypes.c_uint64
        _check_layout(self)

    def kept_grants(self, load: bytes, pause: int, refresh_ahead: int) -> int:
        """The answer of `yarrowdoor_kept_grants`. `LibraryError` if the library is too old for it."""
        if self._kept_grants is None:
            raise LibraryError(f"{self.path} is older than this package: it has no yarrowdoor_kept_grants")
        return int(self._kept_grants(ctypes.c_char_p(load), ctypes.c_uint64(pause), ctypes.c_uint64(refresh_ahead)))

    def longest_cadence(self, load: bytes, count: int, refresh_ahead: int) -> int:
        """The answer of `yarrowdoor_longest_cadence`. `LibraryError` if the library is too old for it."""
        if self._longest_cadence is None:
            raise LibraryError(f"{self.path} is older than this package: it has no yarrowdoor_longest_cadence")
        return int(self._longest_cadence(ctypes.c_char_p(load), ctypes.c_uint64(count), ctypes.c_uint64(refresh_ahead)))

    def read_message(self, data: bytes) -> Message:
        """What these bytes are, as a datagram. It is not verified."""
        return self._frame(UDP, ctypes.c_char_p(data), len(data))

    def read_frames(self, data: bytes) -> Iterator[Message]:
        """The frames that a stream begins with. After one that is no frame, or is not whole, there is none."""
        view = ctypes.create_string_buffer(data, len(data))
        place, kind = 0, MESSAGE_IS
        while place < len(data) and kind in (MESSAGE_IS, CHANNEL_DATA):
            found = self._frame(TCP, ctypes.c_void_p(ctypes.addressof(view) + place), len(data) - place)
            place, kind = place + found.len, found.kind
            yield found

    def _frame(self, transport: int, at: Union[ctypes.c_char_p, ctypes.c_void_p], size: int) -> Message:
        found = bytearray(MESSAGE.size)
        self._read_message(ctypes.c_uint32(transport), at, ctypes.c_size_t(size), memory_of(found))
        return Message._make(MESSAGE.unpack(found))

    def read_attribute(self, data: bytes, name: int) -> Optional[bytes]:
        """The value of the first attribute of this type that counts in the message that these bytes begin with, or None."""
        start, size = ctypes.c_size_t(), ctypes.c_size_t()
        sizes = ctypes.byref(start), ctypes.byref(size)
        if self._read_attribute(data, ctypes.c_size_t(len(data)), ctypes.c_uint16(name), *sizes) != YES:
            return None
        return data[start.value:start.value + size.value]


def find() -> Optional[str]:
    """The file of the library: `YARROWDOOR_LIB`, or the one in this package. None: the system's is to be tried."""
    named = os.environ.get("YARROWDOOR_LIB")
    if named:
        return named
    own = pathlib.Path(__file__).with_name(NAME)
    return str(own) if own.exists() else None


@functools.lru_cache(maxsize=None)
def load() -> Library:
    """The library that `find` names, loaded once. `LibraryError` if it cannot be used."""
    return Library(find())


def _check_version(path: str) -> None:
    """Refuses a file whose own name (its soname) is that of another version."""
    try:
        with open(path, "rb") as file, mmap.mmap(file.fileno(), 0, access=mmap.ACCESS_READ) as data:
            found = re.search(rb"\0(libyarrowdoor\.so\.\d+)\0", data)
            name = found[1].decode() if found else "no library of this name"
    except (OSError, ValueError) as error:
        raise LibraryError(f"{path}: {error}") from None
    if name != NAME:
        raise LibraryError(f"{path} is {name}, and this package is for {NAME}")


def _check_layout(library: Library) -> None:
    """Refuses a library that reads or writes other structs: makes a client, and looks for what it was given in its answers."""
    local = ADDRESS.pack(bytes(range(1, 17)), 0x01020304, 0x05060708, 0x090A, 6, 0)
    remote = ADDRESS.pack(bytes(range(17, 33)), 0x11121314, 0x15161718, 0x191A, 6, 0)
    settings = SETTINGS.pack(1_000_000_000, 5_000_000_000, 3_000_000_000, 4, 1, 0, 0, 4, 0, 1, 0, 0, 0, 0, local, remote, 0, 0, 0)
    guard = b"\xa5" * 64
    handle = Handle(library, settings, b"u", b"p", bytes(32), guard)
    (packet, data), (wait, _) = handle.call(0, POLL_TRANSMIT), handle.call(7, POLL)
    holds = packet[:3] == (PACKET, 0, 0) and packet.len == len(data) and packet[6:13] == (0,) * 7
    holds = holds and data[:2] == b"\0\3" and packet[13:] == (local, remote, NO_ADDRESS)
    holds = holds and wait[:3] == (WAIT_UNTIL, 0, 1_000_000_000) and handle.beyond_answer() == guard
    handle.free()
    if not holds:
        raise LibraryError(f"{library.path} has other structs than those that this package knows")
