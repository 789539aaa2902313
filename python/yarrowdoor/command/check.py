"""`yarrowdoor check`: tries one thing after the other, and says of each whether it works."""
from __future__ import annotations

import contextlib
import socket
import ssl as tls
from concurrent.futures import Future, ThreadPoolExecutor
from dataclasses import dataclass, replace
from typing import Generator, Iterator, List, Optional, Sequence

from .. import reasons
from ..address import Address
from ..driver import drive
from ..errors import Ended, Refused
from ..uri import TurnUri
from ..wire import Tap
from . import advice
from .ahead import Ahead
from .credentials import Credentials
from .doors import Doors, find_addresses
from .driver import leave_all, open_exchange
from .exchange import Exchange
from .extras import balancer_step, blamed_on_balancer, flows_step, limit_step, nonce_step, quota_step, server_step, streams_step
from .files import more_files
from .joining import Joining, Limits
from .matrix import matrix_steps
from .output import Output
from .outside import hosts_outside
from .reach import Way
from .relays import NO_SUCH_FAMILY, allocate, allocation_step, challenge_step, family_step
from .security import security_steps
from .steps import Facts, Outcome, Step

__all__ = ["Plan", "check"]

_CLOSED = "The server answered before, and takes no further connection: see its log, and its limits of connections."
_SLOW = ("The server answered before, and a further connection was not made in time: packets are lost on the way, or the server "
         "accepts no more of them.")
_GONE = "The server answered before, and went in the middle of this check: it has ended or was started again, see its log."


@dataclass(frozen=True)
class Plan:
    """What is to be checked."""

    uri: TurnUri
    credentials: Optional[Credentials]
    context: Optional[tls.SSLContext] = None
    family: Optional[int] = None
    """of the server's addresses, or either"""
    seconds: float = 1.5
    """the longest wait for an answer"""
    nonce: float = 0.0
    """how long a nonce is watched, in seconds"""
    quota: int = 0
    """how many relayed addresses are asked for"""
    peer: Optional[Address] = None
    """who sends back what it is sent from the relayed address, in place of this host"""
    has_security: bool = False
    """whether it is tried which networks clients reach through the server"""
    max_loss: float = 1.0
    """of how many packets of a hundred it is too many to be lost at each crossing between here and the server"""
    is_all: bool = False
    """whether all transports of all addresses are tried, with relayed addresses of both families"""


def check(plan: Plan, output: Output, tap: Tap) -> None:
    """Does all steps, as far as they can be done, and reports each to the output."""
    step, hosts = find_addresses(plan.uri, plan.family, plan.seconds)
    output.add(step)
    if not hosts:
        return
    with Doors(plan.uri, hosts, plan.context, plan.seconds, tap, plan.is_all) as doors:
        with contextlib.closing(_Relaying(plan, doors, output, tap).steps()) as steps:
            for step in steps:
                output.add(step)


class _Relaying:
    """The steps of the doors, and those from the challenge on, over one way to the server."""

    def __init__(self, plan: Plan, doors: Doors, output: Output, tap: Tap) -> None:
        self._plan, self._doors, self._output, self._tap = plan, doors, output, tap
        self._way: Optional[Way] = None
        self._seconds, self._family = plan.seconds, 4
        self._all: List[Exchange] = []
        self._beside: List[Exchange] = []
        """what works while packets are sent"""
        self._pool = ThreadPoolExecutor(1)
        self._streams: Optional[Future[Exchange]] = None
        """the exchange for a TCP allocation, which another thread connects, until it is taken"""

    def steps(self) -> Generator[Step, None, None]:
        """All steps, until the server is gone. What it has granted is given back at the end, also where this is interrupted."""
        try:
            for step in self._tried():
                gone = self._why_gone()
                # What a step found while the server went says nothing of its settings.
                shown = blamed_on_balancer(step, self._all)
                yield shown if gone is None or step.outcome is Outcome.OK else replace(shown, advice="")
                if gone is not None:
                    yield Step("connection", Outcome.FAILED, gone, 0.0, _GONE)
                    return
        except (Ended, OSError, Refused) as error:
            gone = str(error) if isinstance(error, ConnectionRefusedError) else self._why_gone()
            advised = _GONE if gone else _SLOW if isinstance(error, (TimeoutError, socket.timeout)) else _CLOSED
            yield Step("connection", Outcome.FAILED, gone or str(error), 0.0, advised)
        finally:
            self._pool.shutdown()
            with contextlib.suppress(OSError):
                self._connected()
            leave_all(self._all)

    def _why_gone(self) -> Optional[str]:
        """Why the server no longer answers, or None where nothing says so."""
        for it in self._all:
            if isinstance(it.error, ConnectionRefusedError):
                return f"nothing listens at {it.wire.remote} any more"
            if it.is_over and it.address is not None:
                return str(it.ending())
        return None

    def _open(self, relay: str = "udp", family: int = 4, way: Optional[Way] = None) -> Exchange:
        way = way or self._way
        assert way is not None, "nothing is opened without a way"
        made = open_exchange(way, self._plan.credentials, self._tap, self._seconds, relay, family)
        self._all.append(made)
        return made

    def _tried(self) -> Iterator[Step]:
        """The doors, while two relayed addresses are asked for already, and what is granted."""
        begun = self._begun_ahead()
        if self._way is None:
            yield from self._doors.steps()
            return
        failure: Optional[OSError] = None
        try:
            first, second = begun or (self._open(), self._open())
            self._doors.knocking.when_heard(first.wake)
            self._begin(first, second)
        except OSError as error:
            failure = error
        yield from self._doors.steps()
        if failure is not None:
            raise failure
        yield from self._granting(first, second)
        if self._plan.is_all and self._plan.credentials is not None:
            yield from matrix_steps(self._doors.all, self._doors.heard(), self._open_for, self._seconds)

    def _begun_ahead(self) -> Sequence[Exchange]:
        """Finds the way to the server: two exchanges that have gone it already, or none. What went another way is given back."""
        ahead = Ahead(self._doors, self._open_at)
        self._all = ahead.all  # What is interrupted is given back too.
        ahead.work()
        self._way = self._doors.way()
        taken = ahead.taken(self._way)
        if not taken:
            leave_all(self._all)
            self._all = []
        return taken

    def _begin(self, first: Exchange, second: Exchange) -> None:
        """Has both work until all doors are judged, also at what can be asked for by then."""
        is_done, both = self._doors.knocking.is_done, (first, second)
        drive(both, lambda: is_done() or all(it.address is not None for it in both), self._seconds)
        if first.address is not None and second.address is not None:
            first.ask(second.address.host)
            second.ask(first.address.host)
            for host in hosts_outside(first, first.address) if self._plan.peer is None else ():
                for it in both:
                    it.ask(host)
        drive(both, is_done, self._seconds)

    def _granting(self, first: Exchange, second: Exchange) -> Iterator[Step]:
        credentials = self._plan.credentials
        step = challenge_step(first, self._seconds, [second])
        yield step
        if step.outcome is not Outcome.OK:
            return
        if credentials is None:
            yield Step("allocation", Outcome.UNTRIED, "is not tried", 0.0, "There are no credentials: name a user by --user NAME.")
            return
        first = self._settled(first, [second])
        second = self._settled(second, [first]) if first.address is not None else second
        own = allocation_step(first, credentials, self._seconds, [second])
        if own.facts.get("code") in advice.QUOTAS and allocate(second, self._seconds, [first]):
            # The server has room for one, and the second was sooner.
            first, second = second, first
            own = allocation_step(first, credentials, self._seconds)
        if own.facts.get("code") == NO_SUCH_FAMILY:
            yield family_step(first, 4, self._seconds)
            self._family, first, second = 6, self._open(family=6), self._open(family=6)
            own = allocation_step(first, credentials, self._seconds, [second])
        yield own
        if first.address is not None:
            yield from self._mapped(first)
            yield from self._granted(first, first.address, second, own, credentials)

    def _settled(self, exchange: Exchange, others: Sequence[Exchange]) -> Exchange:
        """Waits for a relayed address, and asks once more from another local port where the server has something of this one."""
        allocate(exchange, self._seconds, others)
        said = exchange.error_of(reasons.ALLOCATE)
        if said is None or said.code not in advice.TAKEN:
            return exchange
        fresh = self._open(family=exchange.family)
        allocate(fresh, self._seconds, others)
        return fresh

    def _mapped(self, first: Exchange) -> Iterator[Step]:
        """This host's address as the server sees it, where there is something to say of it."""
        if first.mapped is None:
            return
        local, server = (str(it[0]) for it in (first.wire.local, first.wire.remote))
        wrong = advice.about_mapped(first.mapped.host, local, server, first.wire.is_stream)
        if wrong:
            outcome = Outcome.NOTE if first.wire.is_stream else Outcome.FAILED
            facts: Facts = {"mapped": str(first.mapped), "local": local}
            yield Step("mapped", outcome, f"{first.mapped}, from {local}", 0.0, wrong, facts)

    def _granted(self, first: Exchange, address: Address, second: Exchange, own: Step, credentials: Credentials) -> Iterator[Step]:
        """What comes after a relayed address."""
        step = allocation_step(second, credentials, self._seconds)
        if second.address is None:
            yield step  # The first one was granted, so that this one meets a quota.
        six = self._open(family=6) if self._family == 4 else None
        self._begin_streams()
        plan = self._plan
        limits = Limits(self._seconds, plan.max_loss, own.outcome is not Outcome.FAILED)
        with contextlib.ExitStack() as stack:
            self._beside += [] if six is None else [six]
            joining = Joining(first, address, second, limits, self._output, self._beside)
            yield from joining.steps(plan.peer, stack)
        if six is not None:
            yield family_step(six, 6, self._seconds)
            yield from limit_step(six, credentials, second)
        streams = self._connected()
        if streams is not None:
            yield streams_step(streams, self._seconds)
        yield from self._other_servers(credentials)
        yield from (it for it in (balancer_step(self._all), flows_step(self._all)) if it is not None)
        if plan.has_security:
            yield from security_steps([first, six], self._seconds)
        yield from self._asked_for(first)

    def _open_at(self, way: Way) -> Exchange:
        return self._open_for(way, self._family)

    def _open_for(self, way: Way, family: int) -> Exchange:
        return open_exchange(way, self._plan.credentials, self._tap, self._seconds, "udp", family)

    def _begin_streams(self) -> None:
        """Connects over TCP or TLS, where the server is reached so, for a TCP allocation."""
        way = self._doors.stream_way()
        if way is not None:
            words = (way, self._plan.credentials, self._tap, self._seconds, "tcp", self._family)
            self._streams = self._pool.submit(open_exchange, *words)
            self._streams.add_done_callback(self._drive_beside)

    def _drive_beside(self, made: Future[Exchange]) -> None:
        """Has what was connected work beside the packets."""
        if made.exception() is None:
            self._beside.append(made.result())

    def _connected(self) -> Optional[Exchange]:
        """What was connected so, once. `OSError` where there is no connection."""
        made, self._streams = self._streams, None
        if made is None:
            return None
        self._all.append(made.result())
        return self._all[-1]

    def _other_servers(self, credentials: Credentials) -> Iterator[Step]:
        """A relayed address at each further address of the name."""
        ways = self._doors.other_ways(self._way) if self._way is not None else []
        opened = [(way, self._open(family=self._family, way=way)) for way in ways]
        for number, (way, exchange) in enumerate(opened, 2):
            others = [it for _, it in opened if it is not exchange]
            yield server_step(number, way.host, allocation_step(exchange, credentials, self._seconds, others))

    def _asked_for(self, first: Exchange) -> Iterator[Step]:
        """What the options name."""
        plan = self._plan
        if plan.nonce:
            yield nonce_step(first, plan.nonce, self._output.bar("nonce", int(plan.nonce)))
        if plan.quota:
            held = sum(it.address is not None and not it.is_over for it in self._all)
            with more_files():
                step = quota_step(self._make_alone, plan.quota, held, self._seconds, self._output.bar("quota", plan.quota))
            yield step

    def _make_alone(self) -> Exchange:
        assert self._way is not None, "nothing is opened without a way"
        return open_exchange(self._way, self._plan.credentials, self._tap, self._seconds, family=self._family)
