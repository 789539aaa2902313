"""A stream of the event loop as a socket, for threads."""
from __future__ import annotations

import asyncio
import contextlib
import socket
from typing import Set, Tuple

from .address import Address
from .errors import YarrowdoorError
from .streams import Pair

__all__ = ["piped"]

# So many bytes are passed on at a time.
PIECE = 65_536

_passing: Set[asyncio.Future[None]] = set()


async def piped(pair: Pair) -> Tuple[socket.socket, Address]:
    """A socket whose other end is passed on to a stream and back, and the peer of the stream. The end of either ends both."""
    reader, writer = pair
    given, own = socket.socketpair()
    try:
        own.setblocking(False)
        own_reader, own_writer = await asyncio.open_connection(sock=own)
    except BaseException:
        writer.close()
        given.close()
        own.close()
        raise
    for task in (asyncio.ensure_future(_pass(reader, own_writer)), asyncio.ensure_future(_pass(own_reader, writer))):
        _passing.add(task)
        task.add_done_callback(_passing.discard)
    return given, writer.get_extra_info("peername")


async def _pass(reader: asyncio.StreamReader, writer: asyncio.StreamWriter) -> None:
    """Passes on what comes, until it ends."""
    try:
        with contextlib.suppress(OSError, YarrowdoorError):
            while data := await reader.read(PIECE):
                writer.write(data)
                await writer.drain()
    finally:
        writer.close()
