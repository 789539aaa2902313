"""What a check does besides, or where it is asked for: TCP allocations, how long a nonce lives, how many addresses a user gets."""
from __future__ import annotations

import ipaddress
import os
import time
from dataclasses import replace
from typing import Callable, Iterator, List, Optional, Sequence

from .. import reasons
from ..driver import drive
from ..errors import Ended, Refused
from . import advice
from .credentials import Credentials
from .driver import leave_all
from .exchange import Exchange
from .files import about_files, is_no_file
from .relays import allocate, facts_of
from .steps import Facts, Outcome, Step

__all__ = [
    "balancer_step", "blamed_on_balancer", "flows_step", "limit_step", "nonce_step", "quota_step", "server_step", "streams_step",
]

# Addresses that no host has (RFC 5737): a permission for one lets no host send.
_NOBODY = ipaddress.ip_network("192.0.2.0/24")
# How often a nonce is tried, in seconds: not more often than that, and each address once.
_LEAST_PAUSE = 1.0
# So many nonces that were stale as soon as they were given are not of one server.
_EARLY = 1
# What fails where each of several servers knows a part of what this client was granted.
_OF_BALANCER = ("allocation-2", "permission", "messages", "outside", "indications", "channel", "channels", "payload", "flows")


def streams_step(exchange: Exchange, seconds: float) -> Step:
    """Whether the server gives a relayed address for streams (RFC 6062)."""
    begun = time.monotonic()
    allocate(exchange, seconds)
    spent = time.monotonic() - begun
    if exchange.address is not None:
        facts = {"relayed": str(exchange.address)}
        return Step("streams", Outcome.OK, f"{exchange.address} over TCP, for {exchange.lifetime} s", spent, "", {**facts})
    return Step("streams", Outcome.NOTE, "no relayed address for TCP", spent,
                advice.about_streams(exchange.error_of(reasons.ALLOCATE)), facts_of(exchange.error_of(reasons.ALLOCATE)))


def limit_step(third: Exchange, credentials: Credentials, second: Exchange) -> Iterator[Step]:
    """What it means that a third address at one time meets a limit, where a second one met none."""
    said = third.error_of(reasons.ALLOCATE)
    if said is not None and said.code in advice.QUOTAS and second.address is not None:
        yield Step("limit", Outcome.FAILED, f"the third relayed address at one time is refused: {said}", 0.0,
                   advice.about_refusal(said, credentials, ""), facts_of(said))


def server_step(number: int, host: str, step: Step) -> Step:
    """The step of a further address of the name, made of that of its relayed address."""
    told = f"At {host}: {step.advice} Clients get to this address or to another one, as it happens." \
        if step.outcome is Outcome.FAILED else step.advice
    return replace(step, name=f"server-{number}", said=f"{host}: {step.said}", advice=told, facts={**step.facts, "address": host})


def balancer_step(exchanges: Sequence[Exchange]) -> Optional[Step]:
    """What it means that nonces are stale which were just given; None where there are hardly any."""
    early = sum(it.stale_early for it in exchanges)
    if early < _EARLY:
        return None
    return Step("balancer", Outcome.FAILED, f"{early} nonces were stale (438) that had just been given", 0.0,
                "Several servers answer at one address, and share neither nonces nor what they grant: the balancer before them "
                "sends packets of one client to one server or another. Let it keep each client's address and port at one server.",
                {"stale": early})


def blamed_on_balancer(step: Step, exchanges: Sequence[Exchange]) -> Step:
    """A step that has failed since a balancer sends packets to several servers, as what follows from that, and any other one as it
    is."""
    is_of_it = step.outcome is Outcome.FAILED and step.name in _OF_BALANCER and balancer_step(exchanges) is not None
    return replace(step, outcome=Outcome.NOTE, advice="That follows from what `balancer` says.") if is_of_it else step


def flows_step(exchanges: Sequence[Exchange]) -> Optional[Step]:
    """What it means that nothing at all has come back to some local ports, where others are answered; None where all are."""
    silent = [it for it in exchanges if it.is_unheard()]
    if not silent:
        return None
    late, stale = sum(it.count_late() for it in exchanges), max(it.stale for it in exchanges)
    told = advice.about_silence(True, late > 0, stale, max(time.monotonic() - it.begun for it in silent))
    facts: Facts = {"flows": len(exchanges), "silent": len(silent)}
    return Step("flows", Outcome.FAILED, f"{len(silent)} of {len(exchanges)} local ports were not answered", 0.0, told, facts)


def nonce_step(exchange: Exchange, longest: float, told: Callable[[int], None]) -> Step:
    """How long the server takes one nonce: requests a permission now and then, for up to this many seconds, until it is stale."""
    begun, before = time.monotonic(), exchange.stale
    pause = max(_LEAST_PAUSE, longest / 250)
    for number, nobody in enumerate(_NOBODY.hosts()):
        passed = time.monotonic() - begun
        if passed >= longest or exchange.stale > before or exchange.is_over:
            break
        try:
            exchange.ask(str(nobody))
        except (Ended, Refused):
            break
        drive([exchange], lambda: exchange.stale > before, min(pause, longest - passed))
        told(number + 1)
    spent = time.monotonic() - begun
    if exchange.stale > before:
        age = time.monotonic() - exchange.begun
        said = f"stale after {age:.0f} s: then each client asks once more"
        return Step("nonce", Outcome.OK, said, spent, "", {"seconds": round(age, 1)})
    return Step("nonce", Outcome.OK, f"still good after {spent:.0f} s", spent, "", {"seconds": None})


def quota_step(make: Callable[[], Exchange], most: int, held: int, seconds: float, told: Callable[[int], None]) -> Step:
    """How many relayed addresses the user gets at one time, up to `most`, where `held` are there already. All are given back."""
    begun, made = time.monotonic(), []  # type: float, List[Exchange]
    spare = os.open(os.devnull, os.O_RDONLY)  # Where this host opens no more files, its place serves to give all back.
    try:
        while held + len(made) < most:
            made.append(make())
            if not allocate(made[-1], seconds):
                return _refused(made[-1], held + len(made) - 1, time.monotonic() - begun)
            told(held + len(made))
    except OSError as error:
        spent = time.monotonic() - begun
        found, facts = f"{held + len(made)} addresses", {"granted": held + len(made)}  # type: str, Facts
        if is_no_file(error):
            advised = "That is a limit of this host: raise it (ulimit -n), or ask for fewer (--quota)."
            return Step("quota", Outcome.UNTRIED, f"{found}; {about_files()}", spent, advised, facts)
        return Step("quota", Outcome.UNTRIED, f"{found}, then {error}", spent, "This host opens no more sockets.", facts)
    finally:
        os.close(spare)
        leave_all(made)
    spent = time.monotonic() - begun
    said = f"{most} addresses at one time, and no limit was met"
    return Step("quota", Outcome.OK, said, spent, "", {"granted": most, "limit": False})


def _refused(exchange: Exchange, granted: int, spent: float) -> Step:
    said = exchange.error_of(reasons.ALLOCATE)
    if said is not None and said.code in advice.QUOTAS:
        whose = "of this user (coturn: user-quota=)" if said.code == 486 else "of the server (coturn: total-quota=, max-port=)"
        told = f"{granted} addresses at one time; the next one is refused: {said.code} {said.phrase}"
        limit = f"That is a limit {whose}: each call takes one address or two for each party."
        return Step("quota", Outcome.OK, told, spent, limit, {"granted": granted, "limit": True, **facts_of(said)})
    told = f"{said.code} {said.phrase}".strip() if said is not None else "no answer"
    advised = "The server refuses a further address for another reason than a quota: see its log."
    facts: Facts = {"granted": granted, **facts_of(said)}
    return Step("quota", Outcome.FAILED, f"{granted} addresses at one time; then {told}", spent, advised, facts)
