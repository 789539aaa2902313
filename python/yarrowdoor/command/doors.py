"""The first steps of a check: the addresses of the name, and UDP, TCP and TLS at the server's ports."""
from __future__ import annotations

import functools
import socket
import ssl as tls
import time
from typing import Dict, List, Optional, Tuple

from ..uri import TurnUri
from ..wire import Tap
from . import causes
from .knock import knock
from .reach import NOT_OF_SERVER, Door, Heard, Knocking, Verdict, Way, lookup
from .steps import Facts, Outcome, Step

__all__ = ["Doors", "find_addresses", "try_doors"]

_TLS_PORT, _PORT = 5349, 3478
# A certificate that ends within this many days is reported.
_SOON = 14


def find_addresses(uri: TurnUri, family: Optional[int], seconds: float) -> Tuple[Step, List[str]]:
    """The step of the name, and the addresses to be tried."""
    begun = time.monotonic()

    def step(outcome: Outcome, said: str, advice: str = "") -> Step:
        return Step("name", outcome, said, time.monotonic() - begun, advice)

    try:
        hosts = lookup(uri.host, uri.port, family, seconds)
    except socket.gaierror as error:
        if error.errno == socket.EAI_AGAIN:
            return step(Outcome.UNTRIED, str(error.strerror), "No name server answers here: look at this host's network first."), []
        kind = f"IPv{family} address" if family else "address"
        advice = (f"The name {uri.host} has no {kind}: check its spelling, and that it has a record A or AAAA. SRV and NAPTR "
                  "records (RFC 5928) are not asked, so a domain that has only these needs the server's own name here.")
        return step(Outcome.FAILED, str(error.strerror), advice), []
    except (TimeoutError, UnicodeError) as error:
        return step(Outcome.UNTRIED, str(error), "The system does not answer for this name: look at this host's name servers, or "
                                                 "wait longer (--timeout)."), []
    said = f"{', '.join(hosts)} (SRV records are not asked)" if hosts != [uri.host] else f"{uri.host} is an address"
    facts: Facts = {"addresses": list(hosts)}
    return Step("name", Outcome.OK, said, time.monotonic() - begun, "", facts), hosts


class Doors:
    """The doors of a server, asked at all its addresses at the same time. It ends with its `with`."""

    def __init__(self, uri: TurnUri, hosts: List[str], context: Optional[tls.SSLContext], seconds: float, tap: Tap,
                 is_all: bool = False) -> None:
        """With `is_all` those of all transports, also where the URI does not name them."""
        self.wanted = "tls" if uri.secure else uri.transport
        self.all = _all_doors(uri, context) if is_all else _doors(uri, context)
        self._hosts = hosts
        self.knocking = Knocking(self.all, hosts, functools.partial(knock, seconds=seconds, tap=tap))

    def __enter__(self) -> Doors:
        return self

    def __exit__(self, *how: object) -> None:
        self.knocking.__exit__()

    def way(self) -> Optional[Way]:
        """The way that the rest of the check takes: that of the URI, or for `turn` over UDP, where that is closed, another one."""
        others = {"udp": ("tcp", "tls"), "tcp": ("tls",), "tls": ()}[self.wanted]
        found = (self._first(it) for it in (self.wanted, *others))
        return next((it for it in found if it is not None), None)

    def likely_way(self) -> Optional[Way]:
        """The way of a URI of UDP, where the server answers at its first address; none of other URIs. It waits for nothing."""
        door = next((it for it in self.all if it.transport == self.wanted == "udp"), None)
        return Way(self._hosts[0], door) if door is not None else None

    def is_way_known(self, seconds: float = 0.0) -> bool:
        """Whether all answers at the door of the URI are here, or come within this many seconds."""
        return self.knocking.is_heard(self.wanted, seconds)

    def stream_way(self) -> Optional[Way]:
        """A way over TCP or TLS, if there is one."""
        names = (self.wanted, "tcp", "tls") if self.wanted != "udp" else ("tcp", "tls")
        return next((it for it in map(self._first, names) if it is not None), None)

    def other_ways(self, way: Way) -> List[Way]:
        """The same door at the other addresses that answer."""
        heard = self.knocking.heard(way.door.transport)
        return [Way(it.host, way.door) for it in heard if it.verdict is Verdict.ANSWERS and it.host != way.host]

    def heard(self) -> Dict[str, List[Heard]]:
        """What each door answered, by its transport, once all have."""
        return {it.transport: self.knocking.heard(it.transport) for it in self.all}

    def steps(self) -> List[Step]:
        """The steps of all doors, once all have answered."""
        heard = self.heard()
        ways = {it.transport: self._first(it.transport) for it in self.all}
        return [_judged(it, heard, it.transport == self.wanted, ways) for it in self.all]

    def _first(self, transport: str) -> Optional[Way]:
        door = next((it for it in self.all if it.transport == transport), None)
        heard = self.knocking.heard(transport) if door is not None else []
        answering = [it.host for it in heard if it.verdict is Verdict.ANSWERS]
        return Way(answering[0], door) if door is not None and answering else None


def try_doors(uri: TurnUri, hosts: List[str], context: Optional[tls.SSLContext], seconds: float, tap: Tap) -> \
        Tuple[List[Step], Optional[Way]]:
    """The steps of UDP, TCP and TLS, and the way that the rest takes."""
    with Doors(uri, hosts, context, seconds, tap) as doors:
        return doors.steps(), doors.way()


def _doors(uri: TurnUri, context: Optional[tls.SSLContext]) -> List[Door]:
    """The doors of a server: of `turns` that of TLS, and of `turn` the others, with the usual one of TLS if its port is usual."""
    secure = context or tls.create_default_context()
    if uri.secure:
        return [Door("tls", uri.port, uri.host, secure)]
    doors = [Door("udp", uri.port, uri.host), Door("tcp", uri.port, uri.host)]
    return [*doors, Door("tls", _TLS_PORT, uri.host, secure)] if uri.port == _PORT else doors


def _all_doors(uri: TurnUri, context: Optional[tls.SSLContext]) -> List[Door]:
    """The doors of all transports: at the usual ports, where the URI has one of them, and else at its own."""
    is_usual, secure = uri.port in (_PORT, _TLS_PORT), context or tls.create_default_context()
    plain, of_tls = (_PORT, _TLS_PORT) if is_usual else (uri.port, uri.port)
    return [Door("udp", plain, uri.host), Door("tcp", plain, uri.host), Door("tls", of_tls, uri.host, secure)]


def _judged(door: Door, heard: Dict[str, List[Heard]], is_wanted: bool, ways: Dict[str, Optional[Way]]) -> Step:
    """The step of a door."""
    own = heard[door.transport]
    best = next((it for it in own if it.verdict is Verdict.ANSWERS), own[0])
    facts: Facts = {"port": door.port, "answering": [it.host for it in own if it.verdict is Verdict.ANSWERS],
                    "verdict": best.verdict.name.lower()}
    if best.mapped is not None:
        facts["mapped"] = str(best.mapped)
    if best.certificate is not None:
        facts.update(names=list(best.certificate.names), ends=best.certificate.end, days=best.certificate.days_left)
    if best.verdict is Verdict.ANSWERS:
        return _open(door, own, best, is_wanted, facts)
    said = f"port {door.port}: {causes.shown(best, door.name)}"
    if not is_wanted:
        # If nothing answers, that is what has to be fixed.
        advice = causes.about_unwanted(door, best) if any(ways.values()) else ""
        return Step(door.transport, Outcome.NOTE, said, best.seconds, advice, facts)
    outcome = Outcome.UNTRIED if all(it.verdict in NOT_OF_SERVER for it in own) else Outcome.FAILED
    return Step(door.transport, outcome, said, best.seconds, causes.about_closed(door, best, ways, heard), facts)


def _open(door: Door, own: List[Heard], best: Heard, is_wanted: bool, facts: Facts) -> Step:
    """The step of a door that answers, maybe not at each address, and maybe with something to know."""
    rest = [it for it in own if it.verdict is not Verdict.ANSWERS]
    known = [causes.about_other(it) for it in rest]
    if not best.has_binding:
        known.append("It answers no Binding request (RFC 8489), so that clients which only ask for their own address get none "
                     "(coturn: no-stun, or secure-stun).")
    if best.certificate is not None and best.certificate.days_left < _SOON:
        known.append(f"The certificate ends in {best.certificate.days_left:.0f} days, on {best.certificate.end}: renew it, and let "
                     "the server read it again.")
    is_dead = is_wanted and any(it.verdict not in NOT_OF_SERVER for it in rest)
    outcome = Outcome.FAILED if is_dead else Outcome.NOTE if known else Outcome.OK
    where = f" at {best.host}" if rest else ""
    return Step(door.transport, outcome, f"port {door.port} answers{where}{_seen(best)}", best.seconds, " ".join(known), facts)


def _seen(heard: Heard) -> str:
    said = f", and sees this host at {heard.mapped}" if heard.mapped is not None else ""
    if heard.certificate is not None:
        said += f"; certificate for {', '.join(heard.certificate.names)} until {heard.certificate.end}"
    return said
