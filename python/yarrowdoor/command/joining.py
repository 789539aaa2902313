"""Packets through relayed addresses: between two of them, and to a peer outside of the server."""
from __future__ import annotations

import contextlib
import itertools
from dataclasses import dataclass, replace
from typing import Callable, Iterator, List, Optional, Sequence, Tuple

from .. import reasons
from ..address import Address
from ..asked import About
from ..driver import drive
from ..errors import Ended, Refused
from .exchange import Exchange
from .output import Output
from .outside import Outside, hosts_of_peer, is_own_host, peer_step, untried_step
from .relays import grant_step, is_judged, permission_step
from .steps import Outcome, Step
from .traffic import FAR, LAST_WAIT, Flight, Trip, echo_step, first_sizes, measure, payload_step, send_back

__all__ = ["Joining", "Limits"]

# The packets of an echo: how many, their bytes, and the pause between two, in seconds.
COUNT, SIZE, PAUSE = 100, 160, 0.002
# This many packets show whether anything comes back.
_FEW = 10
# The longest payload that is tried over UDP, in bytes. Over TCP a longer one than this may end a server (pion ends at 1,600).
MOST, MOST_OF_STREAM = 65_468, 1_500
# The error of a peer that the server does not permit (RFC 8656, section 19).
_FORBIDDEN = 403
# The longest wait for a packet of an unusual size, in seconds.
_LONGEST = 5.0


@dataclass(frozen=True)
class Limits:
    """How long is waited, and how much may be lost."""

    seconds: float
    max_loss: float
    is_likely: bool
    """whether packets are likely to come: through an address that is known to be wrong they are not, and are waited for less"""


class Joining:
    """The steps from the permission on, with two relayed addresses, or with one where the second was refused."""

    def __init__(self, first: Exchange, address: Address, second: Exchange, limits: Limits, output: Output,
                 beside: Sequence[Exchange]) -> None:
        self._first, self._address, self._second, self._beside = first, address, second, beside
        self._limits, self._output = limits, output
        self._outside: Optional[Outside] = None
        self._why_untried: Optional[Step] = None

    def steps(self, peer: Optional[Address], stack: contextlib.ExitStack) -> Iterator[Step]:
        """All of them."""
        if peer is None:
            self._prepare(stack)
        step = self._permit()
        is_outside = self._is_outside_permitted()
        if self._outside is not None and is_outside:
            self._outside.begin()
        is_joined = step is not None and step.outcome is Outcome.OK
        if step is not None:
            yield self._denied(step) if step.facts.get("code") == _FORBIDDEN and is_outside else step
        trip = self._pair() if is_joined else None
        if self._outside is not None and is_outside and self._second.address is not None and \
                any(it in self._second.granted for it in self._outside.hosts):
            self._outside.send_further(self._second, self._second.address)
        messages = self._messages(trip) if trip is not None else None
        if messages is not None:
            yield messages
        outside = self._judge_outside(is_outside) if peer is None else peer_step(self._first, peer, self._limits.seconds)
        yield outside
        if trip is None and self._outside is not None and self._outside.seen is not None and outside.outcome is Outcome.OK:
            trip = Trip(self._first, self._outside.seen, [self._first], self._files(), self._beside)
            messages = self._messages(trip)
            yield messages
        if trip is not None and messages is not None:
            yield from self._channels(trip, messages)

    def _prepare(self, stack: contextlib.ExitStack) -> None:
        """Makes the peer outside, or says why there is none."""
        hosts = hosts_of_peer(self._first, self._address)
        if is_own_host(str(self._first.wire.remote[0]), self._address.host):
            self._why_untried = untried_step("this host is the server's", "Whether peers on other hosts are reached, through "
                                                                          "firewalls "
                                             "and NATs, is seen from another host only: run this check there too, or name a peer "
                                             "that "
                                             "sends back what it is sent (--peer).")
        elif not hosts:
            self._why_untried = untried_step(f"this host has no way to {self._address.host}", "Run this check on a host that has "
                                             "addresses of that family, or name a peer (--peer).")
        else:
            self._outside = stack.enter_context(Outside(self._first, self._address, hosts))

    def _permit(self) -> Optional[Step]:
        """Asks for the permissions of the pair, and of the peer outside."""
        hosts = [] if self._outside is None else self._outside.hosts
        own = [self._first] if self._second.address is None else [self._first, self._second]
        asks: List[Tuple[Exchange, About]] = [(exchange, it) for it in hosts for exchange in own]
        if self._second.address is not None:
            pair, addresses = (self._first, self._second), (self._second.address, self._address)
            step = permission_step(pair, addresses, self._limits.seconds, asks)
        else:
            step = None
            for exchange, about in asks:
                exchange.ask(about)
        working = [*own, *self._beside]
        drive(working, lambda: all(is_judged(it, reasons.CREATE_PERMISSION, about) for it, about in asks), self._limits.seconds)
        return step

    def _is_outside_permitted(self) -> bool:
        return self._outside is not None and any(it in self._first.granted for it in self._outside.hosts)

    def _denied(self, step: Step) -> Step:
        """The server lets this host be a peer, and not its own address: many are set up so."""
        told = (f"The server refuses its own relayed address {self._address.host} as a peer, and not this host: two of its "
                f"clients that "
                f"both relay are not joined. Where that is not wished, permit it (coturn: allowed-peer-ip={self._address.host}). "
                f"What "
                "follows goes by this host.")
        return replace(step, outcome=Outcome.NOTE, advice=told)

    def _pair(self) -> Trip:
        assert self._second.address is not None, "the two are joined"
        send_back(self._second)
        if self._first.round_trip(reasons.ALLOCATE) > FAR:
            self._bind_after(COUNT, self._second.address)
        return Trip(self._first, self._second.address, (self._first, self._second), self._files(), self._beside)

    def _bind_after(self, count: int, peer: Address) -> None:
        """Has the channels asked for when the second one has sent this many packets back: the last ones are then on their way as
        messages, and a server that is far away answers when they come, instead of a round trip later."""
        back, left = self._second.on_data, itertools.count(1)

        def count_back(data: bytes, source: Address) -> None:
            back(data, source)
            if next(left) == count:
                with contextlib.suppress(Ended, Refused):
                    self._second.ask(self._address)
                    self._first.ask(peer)

        self._second.on_data = count_back

    def _by_channel_only(self, trip: Trip) -> Iterator[Step]:
        """Where no message comes back: what it means that packets do by a channel, if any does."""
        found = measure(trip, _FEW, SIZE, PAUSE, lambda number: None, LAST_WAIT / 2)
        if found.times:
            yield Step("indications", Outcome.FAILED, f"by a channel {found}", 0.0,
                       "Channels pass, and messages do not: a firewall on the way that looks into TURN, or the server, drops Send "
                       "or Data indications (RFC 8656, section 11), and not what `messages` and `outside` name.", found.facts())

    def _files(self) -> List[Tuple[int, Callable[[], None]]]:
        return [] if self._outside is None else [(self._outside.fileno(), self._outside.read)]

    def _messages(self, trip: Trip) -> Step:
        # Through an address that is known to be wrong nothing is likely to come: that is waited for less.
        wait = LAST_WAIT if self._limits.is_likely else LAST_WAIT / 4
        return echo_step(trip, "messages", self._flight(), self._output.bar("messages", COUNT), wait)[0]

    def _flight(self) -> Flight:
        return Flight(COUNT, SIZE, PAUSE, self._limits.max_loss)

    def _judge_outside(self, is_permitted: bool) -> Step:
        if self._outside is None:
            assert self._why_untried is not None, "there is a peer outside, or it is known why not"
            return self._why_untried
        if not is_permitted:
            said = self._first.answer_to(reasons.CREATE_PERMISSION, self._outside.host)
            return untried_step(f"the server refuses this host ({self._outside.host}) as a peer: {said or 'no answer'}",
                                "It forbids this host's network, as it should where that is the server's own and has private "
                                "addresses. Run this check from elsewhere, or name a peer (--peer).", said)
        own = [self._first] if self._second.address is None else [self._first, self._second]
        return self._outside.finish([*own, *self._beside])

    def _channels(self, trip: Trip, messages: Step) -> Iterator[Step]:
        """The same by channels, and the longest payload."""
        first, second = self._first, self._second
        if first in trip.all and second in trip.all:
            step = grant_step((first, second), (trip.peer, self._address), self._limits.seconds)
        else:
            step = grant_step((first,), (trip.peer,), self._limits.seconds)
        yield step
        if messages.facts.get("received") == 0:
            if step.outcome is Outcome.OK and not messages.facts.get("is_limited"):
                yield from self._by_channel_only(trip)
            return
        most = MOST_OF_STREAM if first.wire.is_stream else MOST
        passed = None
        if step.outcome is Outcome.OK:
            probes = first_sizes(most) if messages.outcome is not Outcome.FAILED else []
            step, passed = echo_step(trip, "channels", self._flight(), self._output.bar("channels", COUNT), LAST_WAIT, probes)
            yield step
            if step.facts.get("received") == 0:
                return  # Longer ones by the channel would not come back either.
        if messages.outcome is not Outcome.FAILED:
            times = [it for it in map(messages.facts.get, ("least", "most")) if isinstance(it, float)]
            pause = min(0.1 + sum(times), _LONGEST) if times else LAST_WAIT
            yield payload_step(trip, most, pause, passed)
