"""The ways to a server, what can be at them, and the addresses of a name."""
from __future__ import annotations

import enum
import queue
import socket
import ssl as tls
import threading
from concurrent.futures import Future, ThreadPoolExecutor, wait
from dataclasses import dataclass
from typing import Callable, Dict, List, Optional, Sequence, Tuple, Union

from ..address import Address
from ..mailbox import Mailbox
from ..servers import interleaved
from .certificate import Certificate
from .icmp import Rejection

__all__ = ["Door", "Heard", "Knocking", "NOT_OF_SERVER", "Verdict", "Way", "lookup"]


class Verdict(enum.Enum):
    """What is at an address."""

    ANSWERS = "a server of STUN or TURN answers"
    LATE = "the answer comes too late"
    ELSEWHERE = "the answer comes from another address"
    REFUSED = "nothing listens"
    SILENT = "no answer"
    MUTE = "the connection is accepted, and nothing answers on it"
    CLOSED = "the connection is accepted, and closed"
    STRANGE = "something else answers"
    REJECTED = "rejected"
    UNREACHABLE = "there is no way to it"
    FORBIDDEN_HERE = "rejected by this host's own rules"
    CERTIFICATE = "the certificate is refused"
    HANDSHAKE = "TLS fails"
    NO_TLS = "something answers that speaks no TLS"


# What says nothing of the server.
NOT_OF_SERVER = (Verdict.UNREACHABLE, Verdict.FORBIDDEN_HERE)


@dataclass(frozen=True)
class Door:
    """A way to a server: UDP, TCP or TLS at a port."""

    transport: str
    """`"udp"`, `"tcp"` or `"tls"`"""
    port: int
    name: str
    """the server's name, for its certificate"""
    context: Optional[tls.SSLContext] = None


@dataclass(frozen=True)
class Way:
    """How the server is reached: an address, and a door at it."""

    host: str
    door: Door


@dataclass(frozen=True)
class Heard:
    """What an address answered."""

    verdict: Verdict
    host: str
    seconds: float
    mapped: Optional[Address] = None
    """this host's own address as the server saw it"""
    error: Optional[Exception] = None
    certificate: Optional[Certificate] = None
    rejection: Optional[Rejection] = None
    other: str = ""
    """what else was seen: the address that answers, the first bytes of an answer, or `"plain"` and `"tls"` for what the port is"""
    has_binding: bool = True
    """whether a Binding request was answered, and not by an error"""


def lookup(host: str, port: int, family: Optional[int], seconds: float) -> List[str]:
    """The IP addresses of a name, of one family if it is given, IPv6 and IPv4 by turns. `socket.gaierror` where there is none, and
    `TimeoutError` if there was no answer in time."""
    kind = {None: socket.AF_UNSPEC, 4: socket.AF_INET, 6: socket.AF_INET6}[family]
    answers = Mailbox[Union[List[str], OSError, UnicodeError]]()

    def ask() -> None:
        try:
            answers.put([_scoped(it[4]) for it in socket.getaddrinfo(host, port, kind, socket.SOCK_STREAM)])
        except (OSError, UnicodeError) as error:
            answers.put(error)

    # The system may take half a minute, which nothing can end, so this thread is not waited for.
    threading.Thread(target=ask, daemon=True).start()
    try:
        answer = answers.get(seconds)
    except queue.Empty:
        raise TimeoutError(f"no answer to the question for {host} in {seconds:g} s") from None
    if isinstance(answer, list):
        return interleaved(answer)
    assert answer is not None
    raise answer


def _scoped(where: Tuple[object, ...]) -> str:
    """The IP address of a socket's address, with its scope, if it has one."""
    return f"{where[0]}%{where[3]}" if len(where) == 4 and where[3] and "%" not in str(where[0]) else str(where[0])


class Knocking:
    """Asks at all doors of all addresses at the same time, by what is given a door and an address. It ends with its `with`."""

    def __init__(self, doors: Sequence[Door], hosts: Sequence[str], ask: Callable[[Door, str], Heard]) -> None:
        self._pool = ThreadPoolExecutor(max(1, min(32, len(doors) * len(hosts))))
        self._asked: Dict[str, List[Future[Heard]]] = {
            door.transport: [self._pool.submit(ask, door, it) for it in hosts] for door in doors}

    def __enter__(self) -> Knocking:
        return self

    def __exit__(self, *how: object) -> None:
        self._pool.shutdown()

    def heard(self, transport: str) -> List[Heard]:
        """What the door of this transport answered, by address, once all addresses have."""
        return [it.result() for it in self._asked[transport]]

    def is_heard(self, transport: str, seconds: float) -> bool:
        """Whether all answers at the door of this transport are here, or come within this many seconds."""
        return not wait(self._asked[transport], seconds).not_done

    def is_done(self) -> bool:
        """Whether all doors have answered."""
        return all(it.done() for asked in self._asked.values() for it in asked)

    def when_heard(self, do: Callable[[], None]) -> None:
        """Has something done, by another thread, whenever something was received."""
        for asked in self._asked.values():
            for it in asked:
                it.add_done_callback(lambda _: do())
