"""The steps from the server's challenge to two relayed addresses that are joined: what is granted, and why not."""
from __future__ import annotations

import ipaddress
import time
from typing import List, Optional, Sequence, Tuple

from .. import reasons
from ..address import Address
from ..asked import About
from ..driver import drive
from ..errors import Ended, Refused
from . import advice
from .credentials import Credentials
from .exchange import Exchange, Said
from .steps import Facts, Outcome, Step

__all__ = [
    "NO_SUCH_FAMILY", "allocate", "allocation_step", "challenge_step", "facts_of", "family_step", "grant_step", "is_judged",
    "is_settled", "permission_step", "refused_step",
]

# The error of a server that has no relayed addresses of a family (RFC 8656, section 19).
NO_SUCH_FAMILY = 440
# How many times as long as a first answer those of a server are waited for that has answered before.
_PATIENCE = 2.0


def challenge_step(exchange: Exchange, seconds: float, others: Sequence[Exchange] = ()) -> Step:
    """Asks for a relayed address, and looks at how the server asks for credentials."""
    drive([exchange, *others], lambda: exchange.challenge is not None or exchange.is_over, seconds)
    found, said = exchange.challenge, exchange.error_of(reasons.ALLOCATE)
    spent = exchange.round_trip(reasons.ALLOCATE) or time.monotonic() - exchange.begun
    if found is not None and not found.realm:
        return Step("challenge", Outcome.FAILED, "the realm is empty", spent,
                    "The server asks for credentials of a realm without a name, so that clients can make no key (RFC 8489, section "
                    "9.2): give it one (coturn: realm=).")
    if found is not None:
        algorithms = " and ".join(found.algorithms) or "MD5"
        facts: Facts = {"realm": found.realm, "algorithms": list(found.algorithms) or ["MD5"], "user_hash": found.takes_user_hash,
                        "software": found.software}
        named = f", {found.software}" if found.software else ""
        hidden = "may be hidden" if found.takes_user_hash else "are not hidden"
        told = f"realm {found.realm!r}, keys by {algorithms}, user names {hidden}{named}"
        return Step("challenge", Outcome.OK, told, spent, "", facts)
    request = exchange.last(reasons.ALLOCATE)
    if said is not None:
        refusal = advice.about_refusal(said, Credentials("", ""), "")
        return Step("challenge", Outcome.FAILED, f"refused: {said}", spent, refusal, facts_of(said))
    if request is not None and request.answers:
        return Step("challenge", Outcome.FAILED, "an address is granted to anyone", spent,
                    "The server asks for no credentials, so anyone may send through it, and this client accepts no unsigned "
                    "answer. Let it ask for them (coturn: lt-cred-mech, and not no-auth).")
    return Step("challenge", Outcome.FAILED, "no answer to ALLOCATE", spent,
                "The server answers STUN, and not TURN: it tells clients their address, and relays nothing (coturn: remove "
                "stun-only). Or a firewall on the way lets only STUN through.")


def is_settled(exchange: Exchange) -> bool:
    """Whether it is known if there is a relayed address."""
    return exchange.address is not None or exchange.has_no_address or exchange.is_over or exchange.is_refused(reasons.ALLOCATE)


def allocate(exchange: Exchange, seconds: float, others: Sequence[Exchange] = ()) -> bool:
    """Waits for a relayed address, and says whether there is one. Others work meanwhile."""
    # A server that has answered before is there: an answer that is lost is waited for a little longer.
    drive([exchange, *others], lambda: is_settled(exchange), _PATIENCE * seconds)
    return exchange.address is not None


def allocation_step(exchange: Exchange, credentials: Credentials, seconds: float, others: Sequence[Exchange] = ()) -> Step:
    """Waits for a relayed address, and judges it."""
    begun = time.monotonic()
    is_there = allocate(exchange, seconds, others)
    spent = exchange.round_trip(reasons.ALLOCATE) if is_there else time.monotonic() - begun
    if exchange.address is None:
        return refused_step(exchange, credentials, spent)
    relayed, mapped = exchange.address, exchange.mapped
    facts: Facts = {"relayed": str(relayed), "mapped": str(mapped) if mapped else None, "lifetime": exchange.lifetime}
    said = f"{relayed}, for {exchange.lifetime} s{f', sees this host at {mapped}' if mapped else ''}"
    server = str(exchange.wire.remote[0])
    wrong = advice.about_address(relayed.host, server)
    is_near = advice.same_network(relayed.host, server) and not ipaddress.ip_address(relayed.host).is_unspecified
    outcome = Outcome.OK if not wrong else Outcome.NOTE if is_near else Outcome.FAILED
    return Step("allocation", outcome, said, spent, wrong, facts)


def refused_step(exchange: Exchange, credentials: Credentials, spent: float) -> Step:
    """Why there is no relayed address."""
    realm = exchange.challenge.realm if exchange.challenge is not None else ""
    said = exchange.error_of(reasons.ALLOCATE)
    if said is not None:
        return Step("allocation", Outcome.FAILED, f"refused: {said}", spent, advice.about_refusal(said, credentials, realm),
                    facts_of(said))
    if exchange.error is not None:
        return Step("allocation", Outcome.FAILED, str(exchange.error), spent, "The connection to the server broke: see its log, "
                    "or a firewall on the way that looks into what passes ended it.")
    told = advice.about_silence(exchange.is_unheard(), exchange.count_late() > 0, exchange.stale, spent)
    found = "no answer" if exchange.is_unheard() else "no answer to the signed request"
    if exchange.stale > 1:
        found = f"refused {exchange.stale} times: 438 (stale nonce)"
    return Step("allocation", Outcome.FAILED, found, spent, told, {"code": 438 if exchange.stale > 1 else None})


def facts_of(said: Optional[Said]) -> Facts:
    """What machines read of a refusal."""
    return {"code": said.code or None if said is not None else None, "phrase": said.phrase if said is not None else None}


def family_step(exchange: Exchange, family: int, seconds: float) -> Step:
    """Whether there is a relayed address of the other family."""
    begun, name = time.monotonic(), f"ipv{family}"
    allocate(exchange, seconds)
    spent = time.monotonic() - begun
    if exchange.address is not None:
        facts: Facts = {"relayed": str(exchange.address)}
        return Step(name, Outcome.OK, f"{exchange.address}, for {exchange.lifetime} s", spent, "", facts)
    said = exchange.answer_to(reasons.ALLOCATE)
    return Step(name, Outcome.NOTE, f"no IPv{family} relayed address", spent, advice.about_family(family, said), facts_of(said))


def permission_step(exchanges: Sequence[Exchange], addresses: Sequence[Address], seconds: float,
                    others: Sequence[Tuple[Exchange, About]] = ()) -> Step:
    """Lets the relayed addresses send to each other. Others are asked for too, and are not waited for."""
    asks: List[Tuple[Exchange, About]] = [(it, address.host) for it, address in zip(exchanges, addresses)]
    failed, spent = _grants(reasons.CREATE_PERMISSION, asks, seconds, others)
    if failed is None:
        return Step("permission", Outcome.OK, f"for {addresses[0].host}", spent)
    said = failed[0].answer_to(reasons.CREATE_PERMISSION, host_of(failed[1]))
    told = f"refused: {said}" if said is not None else "no answer"
    return Step("permission", Outcome.FAILED, told, spent, advice.about_peer(addresses[0].host, said), facts_of(said))


def grant_step(exchanges: Sequence[Exchange], addresses: Sequence[Address], seconds: float) -> Step:
    """Binds the relayed addresses to channels of each other."""
    failed, spent = _grants(reasons.CHANNEL_BIND, [*zip(exchanges, addresses)], seconds)
    if failed is None:
        # Where they were asked for before, the answers may be here.
        spent = max(it.round_trip(reasons.CHANNEL_BIND) for it in exchanges)
        return Step("channel", Outcome.OK, f"to {addresses[0]}", spent)
    said = failed[0].answer_to(reasons.CHANNEL_BIND, host_of(failed[1]))
    told = f"refused: {said}" if said is not None else "no answer"
    why = "see its log" if said is not None else "see its log, or a firewall on the way that looks into TURN drops the request"
    return Step("channel", Outcome.FAILED, told, spent, f"The server grants permissions, and no channels: {why}. Data goes by "
                "messages of 36 bytes of header then, in place of 4.", facts_of(said))


def host_of(about: About) -> str:
    """The IP address of a peer."""
    return about if isinstance(about, str) else about.host


def _grants(method: int, asks: Sequence[Tuple[Exchange, About]], seconds: float, others: Sequence[Tuple[Exchange, About]] = ()) -> \
        Tuple[Optional[Tuple[Exchange, About]], float]:
    """Asks each exchange's server for a grant: which was refused first, and how long it took."""
    begun = time.monotonic()
    for exchange, about in [*asks, *others]:
        try:
            exchange.ask(about)
        except (Ended, Refused):
            return (exchange, about), 0.0

    def is_done() -> bool:
        return all(is_judged(it, method, about) for it, about in asks)

    drive([*{id(it): it for it, _ in [*asks, *others]}.values()], is_done, _PATIENCE * seconds)
    refused = [(it, about) for it, about in asks if about not in it.granted]
    return (refused[0] if refused else None), time.monotonic() - begun


def is_judged(exchange: Exchange, method: int, about: About) -> bool:
    """Whether a request for a permission, or a channel, has had its answer."""
    return (about in exchange.granted or about in exchange.failed or exchange.is_over
            or exchange.is_refused(method, host_of(about)))
