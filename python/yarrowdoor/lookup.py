"""The addresses of names, each asked for in a thread of its own, and once at a time: name servers may be silent for many seconds,
and the threads of the event loop are the program's."""
from __future__ import annotations

import asyncio
import contextlib
import copy
import socket
import threading
import weakref
from typing import Any, Dict, MutableMapping, Sequence, Tuple

__all__ = ["look_up"]

# What `socket.getaddrinfo` gives.
Found = Sequence[Tuple[Any, ...]]
# A name, a port, the type of the socket, and the family.
Asked = Tuple[str, int, int, int]

_running: MutableMapping[asyncio.AbstractEventLoop, Dict[Asked, asyncio.Future[Found]]] = weakref.WeakKeyDictionary()


async def look_up(host: str, port: int, *, type: int, family: int = 0) -> Found:
    """What `socket.getaddrinfo` gives for a name, or an address. `OSError` and `UnicodeError` as that one.

    An event loop that looks names up in another way than asyncio's own is asked.
    """
    with contextlib.suppress(OSError, UnicodeError):
        return socket.getaddrinfo(host, port, family, type, flags=socket.AI_NUMERICHOST)
    loop = asyncio.get_running_loop()
    running, asked = _running.setdefault(loop, {}), (host, port, type, family)
    found = running.get(asked)
    if found is None:
        found = running[asked] = _begin(loop, asked)
        found.add_done_callback(lambda it: (running.pop(asked, None), it.cancelled() or it.exception()))
    try:
        return await asyncio.shield(found)
    except (OSError, UnicodeError) as error:
        raise copy.copy(error) from None  # Each who waits has one of its own.


def _begin(loop: asyncio.AbstractEventLoop, asked: Asked) -> asyncio.Future[Found]:
    host, port, kind, family = asked
    if "getaddrinfo" in getattr(loop, "__dict__", {}) or getattr(type(loop), "getaddrinfo") is not _USUAL:
        return asyncio.ensure_future(loop.getaddrinfo(host, port, type=kind, family=family))
    found: asyncio.Future[Found] = loop.create_future()
    # A daemon, so that the interpreter does not wait for a name server at its end.
    threading.Thread(target=_ask, args=(loop, found, asked), name=f"yarrowdoor: {host}", daemon=True).start()
    return found


_USUAL = asyncio.BaseEventLoop.getaddrinfo


def _ask(loop: asyncio.AbstractEventLoop, found: asyncio.Future[Found], asked: Asked) -> None:
    host, port, kind, family = asked
    try:
        addresses = socket.getaddrinfo(host, port, family, kind)
    except Exception as error:
        _tell(loop, found, found.set_exception, error)
    else:
        _tell(loop, found, found.set_result, addresses)


def _tell(loop: asyncio.AbstractEventLoop, found: asyncio.Future[Found], call: Any, value: Any) -> None:
    with contextlib.suppress(RuntimeError):  # The loop may be closed by now.
        loop.call_soon_threadsafe(lambda: found.done() or call(value))
