"""When a data connection may be closed: a server drops what it has not passed on when its client closes one."""
from __future__ import annotations

import asyncio
import contextlib
import fcntl
import os
import socket
import struct
import sys
import termios

from .link import StreamLink

__all__ = ["LINGER", "linger"]

# How long a data connection stays open after its last byte has left, in seconds: nobody can know what the peer has received.
LINGER = 1.0
# How often it is looked whether all bytes have left, in seconds.
LOOK = 0.02
# Where the milliseconds since data was sent last stand in Linux's `struct tcp_info`.
LAST_DATA_SENT, INFO_SIZE = 44, 48


async def linger(link: StreamLink) -> None:
    """Waits until `LINGER` seconds have passed since the last byte of a connection has left, or the connection is over."""
    while not link.is_over and _waiting(link):
        await asyncio.sleep(LOOK)
    if not link.is_over:
        await asyncio.sleep(max(0.0, LINGER - _since_last(link)))


def _waiting(link: StreamLink) -> int:
    """How many bytes wait: in this program, or in the system for the server to confirm them."""
    size = int(link.transport.get_write_buffer_size())
    named = link.transport.get_extra_info("socket")
    with contextlib.suppress(OSError):
        if not size and named is not None:
            size = struct.unpack("i", fcntl.ioctl(named.fileno(), termios.TIOCOUTQ, bytes(4)))[0]
    return size


def _since_last(link: StreamLink) -> float:
    """How long ago something was sent last, in seconds; 0 where the system does not say it."""
    named = link.transport.get_extra_info("socket")
    if named is not None and sys.platform == "linux":
        with contextlib.suppress(OSError), socket.socket(fileno=os.dup(named.fileno())) as own:
            info = own.getsockopt(socket.IPPROTO_TCP, socket.TCP_INFO, INFO_SIZE)
            return float(struct.unpack_from("I", info, LAST_DATA_SENT)[0]) / 1000
    return 0.0
