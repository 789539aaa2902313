"""Relayed addresses, one after the other at a rate, until there are enough, or one is refused."""
from __future__ import annotations

import errno
import time
from dataclasses import dataclass
from typing import Dict, List, Optional, Set, Tuple

from .. import reasons
from ..address import Address
from ..asked import About
from ..errors import Ended, Refused
from . import advice
from .driver import open_exchange
from .exchange import Exchange
from .files import about_files, is_no_file
from .fleet import Fleet
from .pair import Server
from .percentiles import percentiles, shown
from .reach import Way
from .relays import facts_of, is_judged, is_settled, refused_step
from .steps import Facts, Outcome, Step
from .traffic import send_back

__all__ = ["Ramp"]

# A server that has answered before is waited for this many times as long as for its first answer.
_PATIENCE = 2.0
# So many addresses are given back at a time, so that no burst of requests is lost, and each lot is
# waited for so long, in seconds.
_LOT, _LEAVING = 64, 1.0
# So many local ports may be taken before there is any relayed address.
_RETRIES = 10


@dataclass(frozen=True)
class _Stop:
    """What has stopped a ramp."""

    why: str
    """for machines: `"refused"`, `"silent"`, `"gone"`, `"files"` or `"sockets"`"""
    outcome: Outcome
    said: str
    advice: str
    facts: Facts


class Ramp:
    """Relayed addresses, each two of which may send to one another, or all to a peer. It ends with
    its `with`."""

    def __init__(self, server: Server, way: Way, peer: Optional[Address],
                 has_channel: bool) -> None:
        self.fleet = Fleet(self._changed)
        self.held: List[Exchange] = []
        """those with a relayed address, in the order in which they were granted"""
        self.lost: Set[int] = set()
        """the identities of those whose server has gone, or which have ended"""
        self.pairs: List[Tuple[Exchange, Address]] = []
        """who sends, and where to"""
        self._server, self._way, self._peer, self._has_channel = server, way, peer, has_channel
        self._patience = _PATIENCE * server.seconds
        self._pending: Dict[int, Exchange] = {}
        self._times: List[float] = []
        self._asks: List[Tuple[Exchange, About]] = []
        self._stop: Optional[_Stop] = None
        self._has_refused, self._again = False, 0
        self._begun = self._last = time.monotonic()

    def __enter__(self) -> Ramp:
        return self

    def __exit__(self, *how: object) -> None:
        self.fleet.__exit__()

    @property
    def is_gone(self) -> bool:
        """Whether the server has gone, which ends all that it has granted."""
        return self._has_refused or 0 < len(self.held) == len(self.lost)

    def climb(self, most: int, rate: float) -> Step:
        """Requests this many relayed addresses, at this rate a second, until one is refused."""
        self._begun = time.monotonic()
        while self._stop is None and self._asked < most:
            due = self._begun + self._asked / rate
            while self._asked < most and not self.fleet.drive(self._is_stopped, due):
                self._open()
                due = self._begun + self._asked / rate
            until = time.monotonic() + self._patience
            self.fleet.drive(lambda: not self._pending or self._is_silent(), until)
            self._is_stopped()
        return self._judged(most)

    @property
    def _asked(self) -> int:
        """How many were asked for, of which those from one local port after another count once."""
        return len(self.fleet.all) - self._again

    def _open(self) -> None:
        server = self._server
        try:
            exchange = open_exchange(self._way, server.credentials, server.tap, server.seconds)
        except OSError as error:
            self._stop = _no_socket(error, self._way)
            return
        self._pending[id(exchange)] = exchange
        self.fleet.add(exchange)

    def _changed(self, exchange: Exchange) -> None:
        """An exchange has done what was due."""
        if id(exchange) in self._pending and is_settled(exchange):
            del self._pending[id(exchange)]
            if exchange.address is not None:
                self._granted(exchange)
            elif self._is_taken(exchange):
                self._again += 1
            else:
                self._stop = self._stop or self._refused(exchange)
        if isinstance(exchange.error, ConnectionRefusedError) and not self._has_refused:
            self._has_refused, self._stop = True, self._stop or _gone(self._way)
        if exchange.is_over and exchange.address is not None and not exchange.is_leaving:
            self.lost.add(id(exchange))

    def _is_taken(self, exchange: Exchange) -> bool:
        """Whether the server has something of this local port, and another one is to be tried."""
        said = exchange.error_of(reasons.ALLOCATE)
        if said is None or said.code not in advice.TAKEN:
            return False
        return self._again < _RETRIES + len(self.held)

    def _granted(self, exchange: Exchange) -> None:
        self._last = time.monotonic()
        self._times.append(self._last - exchange.begun)
        self.held.append(exchange)
        if self._peer is not None:
            self._join(exchange, self._peer)
        elif len(self.held) % 2 == 0:
            sender = self.held[-2]
            assert sender.address is not None and exchange.address is not None, "both are granted"
            send_back(exchange)
            self._join(exchange, sender.address)
            self._join(sender, exchange.address)

    def _join(self, exchange: Exchange, peer: Address) -> None:
        """Asks for what an exchange needs to send to a peer."""
        if self._peer is not None or exchange is self.held[-2]:
            self.pairs.append((exchange, peer))
        about = self._about(peer)
        try:
            exchange.ask(about)
        except (Ended, Refused):
            return
        self._asks.append((exchange, about))
        self.fleet.work(exchange)

    def _about(self, peer: Address) -> About:
        """What an exchange needs to send to a peer."""
        return peer if self._has_channel else peer.host

    def _refused(self, exchange: Exchange) -> _Stop:
        step = refused_step(exchange, self._server.credentials, time.monotonic() - exchange.begun)
        said = exchange.error_of(reasons.ALLOCATE)
        # A limit is what a ramp looks for, unless not even one address is below it.
        is_limit = said is not None and said.code in advice.QUOTAS and bool(self.held)
        outcome = Outcome.NOTE if is_limit else Outcome.FAILED
        return _Stop("refused", outcome, step.said, step.advice, facts_of(said))

    def _is_silent(self) -> bool:
        """Whether the oldest request has waited too long."""
        oldest = next(iter(self._pending.values()), None)
        return oldest is not None and time.monotonic() - oldest.begun > self._patience

    def _is_stopped(self) -> bool:
        if self._stop is None and self._is_silent():
            self._stop = _silent(self._patience)
        return self._stop is not None

    def _judged(self, most: int) -> Step:
        """The step of the ramp."""
        spent = max(self._last - self._begun, 1e-9)
        count, stop = len(self.held), self._stop
        said = "none"
        if count:
            said = f"{count:,} at {count / spent:,.0f} a second, {shown(self._times)}"
        facts: Facts = {"asked": most, "granted": count, "again": self._again,
                        "seconds": round(spent, 6) if count else 0.0, **percentiles(self._times)}
        if stop is None:
            return Step("ramp", Outcome.OK, said, spent, "", {**facts, "stopped": "asked"})
        return Step("ramp", stop.outcome, f"{said}; then {stop.said}", spent, stop.advice,
                    {**facts, "stopped": stop.why, **stop.facts})

    def join(self) -> Optional[Step]:
        """Waits until all that are held may send, and gives a step where some may not."""
        method = reasons.CHANNEL_BIND if self._has_channel else reasons.CREATE_PERMISSION
        waiting = self._asks

        def is_done() -> bool:
            while waiting and is_judged(waiting[-1][0], method, waiting[-1][1]):
                done.append(waiting.pop())
            return not waiting

        done: List[Tuple[Exchange, About]] = []
        self.fleet.drive(is_done, time.monotonic() + self._patience)
        refused = [it for it in [*done, *waiting] if it[1] not in it[0].granted]
        self.pairs = [it for it in self.pairs if self._about(it[1]) in it[0].granted]
        if not refused:
            return None
        exchange, about = refused[0]
        host = about if isinstance(about, str) else about.host
        said = exchange.answer_to(method, host)
        told = f"{len(refused)} are not granted: {said or 'no answer'}"
        about_peer = advice.about_peer if self._peer is None else advice.about_outside_peer
        advised = about_peer(host, said)
        return Step("permission", Outcome.FAILED, told, 0.0, advised, facts_of(said))

    def give_back(self) -> Step:
        """Gives all back, also what is yet to be granted."""
        begun, left = time.monotonic(), [it for it in self.fleet.all if not it.is_over]
        while left:
            lot, left = left[:_LOT], left[_LOT:]
            if not self._leave(lot) and left:
                self._leave(left)  # The server has gone: none of them is waited for by itself.
                left = []
        held = [it for it in self.fleet.all if it.address is not None]
        back = sum(_is_deleted(it, begun) for it in held)
        spent = time.monotonic() - begun
        facts: Facts = {"held": len(held), "given_back": back}
        said = f"{back:,} of {len(held):,}"
        if back == len(held):
            return Step("given-back", Outcome.OK, said, spent, "", facts)
        lifetime = max((it.lifetime or 0 for it in held), default=0)
        return Step("given-back", Outcome.FAILED, said, spent,
                    "The server has not answered for the others: it has gone, or loses requests. "
                    f"They end by themselves within {lifetime} s if it still has them.", facts)

    def _leave(self, lot: List[Exchange]) -> bool:
        """Gives some back, and says whether the server has answered any of it."""
        for it in lot:
            it.leave()
            self.fleet.work(it)
        left = [*lot]

        def is_over() -> bool:
            while left and left[-1].is_over:
                left.pop()
            return not left

        self.fleet.drive(is_over, time.monotonic() + _LEAVING)
        return len(left) < len(lot)


def _is_deleted(exchange: Exchange, since: float) -> bool:
    """Whether the server has confirmed that an allocation is deleted, or knows none (437)."""
    request = exchange.last(reasons.REFRESH)
    if request is None or request.sent < since:
        return False
    return any(it.code in (0, 437) for it in request.answers)


def _silent(waited: float) -> _Stop:
    return _Stop("silent", Outcome.FAILED, f"no answer within {waited:g} s",
                 "The server answers no more: it has more to do than it can, its queue of packets "
                 "is full, or it, or a firewall before it, limits new clients in silence. Ask for "
                 "less (--rate), and see its log.", {})


def _gone(way: Way) -> _Stop:
    said = f"nothing listens at {way.host} port {way.door.port} any more"
    return _Stop("gone", Outcome.FAILED, said, "The server ended in the middle: see its log.", {})


def _no_socket(error: OSError, way: Way) -> _Stop:
    """Why there is no further socket: a limit of this host, or the server takes no connection."""
    if is_no_file(error):
        return _Stop("files", Outcome.UNTRIED, about_files(),
                     "That is a limit of this host: raise it (ulimit -n), or ask for fewer "
                     "(--allocations).", {})
    if error.errno in (errno.EADDRNOTAVAIL, errno.EAGAIN, errno.ENOBUFS, errno.ENOMEM):
        said = f"this host has no further socket ({error.strerror})"
        return _Stop("sockets", Outcome.UNTRIED, said,
                     "Its ports or its memory are used up: ask for fewer (--allocations), or use "
                     "several hosts.", {})
    if isinstance(error, ConnectionRefusedError):
        return _gone(way)
    return _Stop("gone", Outcome.FAILED, f"no further connection: {error}",
                 "The server answered before, and takes no further connection: see its log, and "
                 "its limits of connections.", {})
