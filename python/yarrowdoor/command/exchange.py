"""A client over a wire to the server: it does what is due, and keeps what the server has said to each request."""
from __future__ import annotations

import contextlib
import logging
import math
import os
import socket
import struct
import time
from dataclasses import dataclass, field
from typing import Dict, List, Optional

from .. import reasons
from ..address import Address
from ..answers import Event
from ..client import Times
from ..redirect import TRY_ALTERNATE, alternate_of
from ..wire import Wire
from ..worker import Worker
from .challenge import Challenge
from .credentials import Credentials

__all__ = ["Exchange", "PATIENT", "Said"]

log = logging.getLogger("yarrowdoor.command")

_METHODS = {
    reasons.BINDING: "BINDING", reasons.ALLOCATE: "ALLOCATE", reasons.REFRESH: "REFRESH",
    reasons.CREATE_PERMISSION: "CREATE_PERMISSION", reasons.CHANNEL_BIND: "CHANNEL_BIND",
}
# Requests are sent again after 0.25, 0.75, 1.75 s and each second from then on: who waits for an answer sets the limit.
PATIENT = Times(initial=250_000_000, longest=1_000_000_000, last=60_000_000_000, count=60)
# How long a signed answer may still come after an error that is unsigned, in seconds: anyone may have sent that.
GRACE = 0.4
# An answer that takes so much longer than others, in seconds, is one to a request that was sent again, after 0.25 s or later.
_AGAIN = 0.2
# A nonce that was given so long ago, in seconds, is of the server that answers, and good, but where several servers answer.
_EARLY = 0.4
# Where the system says how many packets of a stream it has sent again: of its structure `tcp_info` the field
# tcpi_total_retrans (linux/tcp.h).
_TOTAL_RETRANS = 100


@dataclass(frozen=True)
class Said:
    """What the server has answered to a request."""

    code: int
    """the number of an error response, or 0 for a success, and for an error without a number"""
    phrase: str
    is_signed: bool
    """whether the client took it; an error that it ignores may be anyone's"""
    at: float
    alternate: Optional[Address] = None
    """the other server that is named, of an error 300"""

    def __str__(self) -> str:
        return f"{self.code or ''} {self.phrase}".strip() or "an error without a code"


@dataclass
class _Request:
    method: int
    sent: float
    host: str = ""
    """of the peer that it is about, if it is about one"""
    answers: List[Said] = field(default_factory=list)
    is_late: bool = False
    """whether the answer came so late that a packet must have been lost"""


class Exchange(Worker):
    """A client and its wire. Without credentials it ends when the server has asked for some. Times are seconds of
    `time.monotonic`."""

    def __init__(self, wire: Wire, credentials: Optional[Credentials], relay: str = "udp", family: int = 4,
                 times: Optional[Times] = PATIENT) -> None:
        named = credentials or Credentials("check", "check")
        super().__init__(wire, str(wire.remote), named.user, named.password, allocation=relay, families=(family,), times=times)
        self.relay, self.family, self._can_sign = relay, family, credentials is not None
        self.begun = time.monotonic()
        self.lifetime: Optional[int] = None
        """of the relayed address at first, in seconds"""
        self.challenge: Optional[Challenge] = None
        self.stale = 0
        """how often the server has said that the nonce is stale (438)"""
        self.shortest = math.inf
        """how long the answer took that came soonest, in seconds"""
        self.stale_early = 0
        """how often it has said so of a nonce that it had just given"""
        self._nonce_since = 0.0
        self._requests: Dict[bytes, _Request] = {}

    # What the server has said

    def last(self, method: int, host: str = "") -> Optional[_Request]:
        """The last request of this method, and about this peer's IP address if it is given."""
        found = [it for it in self._requests.values() if it.method == method and host in ("", it.host)]
        return found[-1] if found else None

    def answer_to(self, method: int, host: str = "") -> Optional[Said]:
        """What the server has answered to the last request of a method, unless that is a challenge, which the client answers."""
        request = self.last(method, host)
        return request.answers[-1] if request is not None and request.answers else None

    def is_unheard(self) -> bool:
        """Whether nothing at all has come back."""
        return self.challenge is None and not any(it.answers for it in self._requests.values())

    def count_late(self) -> int:
        """How many answers came so late that a packet must have been lost, and of a stream how many packets were sent again."""
        return sum(it.is_late for it in self._requests.values()) + self.count_resent()

    def count_resent(self) -> int:
        """How many packets of a stream the system has sent again, and none over UDP."""
        return _resent(self.wire) if self.wire.is_stream else 0

    def error_of(self, method: int) -> Optional[Said]:
        """The same, where it is an error with a code."""
        said = self.answer_to(method)
        return said if said is not None and said.code else None

    def round_trip(self, method: int) -> float:
        """How long the last answered request of a method waited for its answer, in seconds."""
        found = [it for it in self._requests.values() if it.method == method and it.answers]
        return found[-1].answers[0].at - found[-1].sent if found else 0.0

    def is_refused(self, method: int, host: str = "") -> bool:
        """Whether an error has answered the last request of a method, and nothing signed has come soon after an unsigned one."""
        said = self.answer_to(method, host)
        return said is not None and said.code > 0 and (said.is_signed or time.monotonic() >= said.at + GRACE)

    # What happens

    def heard(self, message: reasons.Message, packet: bytes, is_ignored: bool) -> None:
        """Counts and logs the response to a request: how long it took, and stale nonces."""
        super().heard(message, packet, is_ignored)
        request, now = self._requests.get(message.transaction), time.monotonic()
        if request is None:
            return
        code, phrase = message.error or (0, "")
        told = f"{code} {phrase}" if code else "a success"
        log.info("%s: %s answered by %s", self.wire.local, _METHODS.get(request.method, request.method), told)
        self.stale += code == 438
        self.stale_early += code == 438 and now - self._nonce_since < _EARLY
        self._nonce_since = now if code in (401, 438) and not is_ignored else self._nonce_since
        self._times(request, now)
        if self.challenge is None and code == 401 and not is_ignored:
            self.challenge = Challenge.of(packet)
            self.is_over = not self._can_sign
            return  # which is no refusal: the client asks again, and signs.
        if code == 438 and not is_ignored:
            return
        alternate = alternate_of(packet) if code == TRY_ALTERNATE else None
        request.answers.append(Said(code, phrase, not is_ignored, now, alternate))
        self.judged = now + GRACE if code and is_ignored else self.judged
        if request.method == reasons.ALLOCATE and not code and not is_ignored:
            self.lifetime = _seconds(reasons.attribute(packet, reasons.LIFETIME))

    def sent(self, packet: bytes) -> None:
        """Remembers a request that was sent for the first time, and logs it."""
        super().sent(packet)
        message = reasons.read(packet)
        if message is not None and message.is_request and message.transaction not in self._requests:
            value = reasons.attribute(packet, reasons.XOR_PEER_ADDRESS)
            peer = reasons.xored(value, message.transaction) if value is not None else None
            self._requests[message.transaction] = _Request(message.method, time.monotonic(), peer.host if peer is not None else "")
            log.info("%s: %s sent, %d bytes", self.wire.local, _METHODS.get(message.method, message.method), len(packet))

    def _times(self, request: _Request, now: float) -> None:
        """Looks how long an answer took: one that is much longer than the shortest came of a request that was sent again."""
        took = now - request.sent
        self.shortest = min(self.shortest, took)
        request.is_late = request.is_late or took > 1.5 * self.shortest + _AGAIN

    def refused(self, error: OSError) -> None:
        """Logs an error of the socket."""
        log.info("%s: %s", self.wire.local, error)

    def told(self, event: Event) -> None:
        """Logs an event of the client."""
        log.info("%s: %s", self.wire.local, event)


def _resent(wire: Wire) -> int:
    """How many packets of a stream the system has sent again, or 0 where it does not say."""
    with contextlib.suppress(OSError, AttributeError, struct.error), socket.socket(fileno=os.dup(wire.fileno())) as sock:
        info = sock.getsockopt(socket.IPPROTO_TCP, socket.TCP_INFO, 256)
        return int(struct.unpack_from("=I", info, _TOTAL_RETRANS)[0])
    return 0


def _seconds(value: Optional[bytes]) -> Optional[int]:
    return int.from_bytes(value, "big") if value is not None and len(value) == 4 else None
