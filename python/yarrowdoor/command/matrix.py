"""`yarrowdoor check --all`: relayed addresses by UDP, TCP and TLS, at each address of the name."""
from __future__ import annotations

import time
from concurrent.futures import Future, ThreadPoolExecutor
from dataclasses import dataclass
from typing import Callable, Dict, Iterator, List, Optional, Sequence, Tuple

from .. import reasons
from ..driver import drive
from . import advice, causes
from .driver import leave_all
from .exchange import Exchange
from .reach import NOT_OF_SERVER, Door, Heard, Verdict, Way
from .relays import is_settled
from .steps import Facts, Outcome, Step

__all__ = ["matrix_steps"]

_FAMILIES = (4, 6)
_PATIENCE = 2.0

# Makes an exchange over a way, for a relayed address of a family.
Opener = Callable[[Way, int], Exchange]


@dataclass(frozen=True)
class _Cell:
    """What a family gives by a transport at an address."""

    transport: str
    host: str
    family: int
    word: str
    """in the table"""
    is_given: bool
    is_known: bool = True
    """whether it says something of the server: not where a limit was met, or there is no way"""
    code: Optional[int] = None


def matrix_steps(doors: Sequence[Door], heard: Dict[str, List[Heard]], make: Opener,
                 seconds: float) -> Iterator[Step]:
    """A step for each transport of each address, and one that compares the addresses."""
    cells: List[_Cell] = []
    for number, found_there in enumerate(zip(*(heard[it.transport] for it in doors)), 1):
        asked = [*zip(doors, found_there)]
        begun, row = time.monotonic(), _row(asked, make, seconds)
        for door, found in asked:
            own = [it for it in row if it.transport == door.transport]
            cells += own
            yield _way_step(number, door, found, own, time.monotonic() - begun)
    yield _compared(cells, [it.transport for it in doors])


def _row(asked: Sequence[Tuple[Door, Heard]], make: Opener, seconds: float) -> List[_Cell]:
    """The cells of an address, whose allocations are asked for side by side, and given back."""
    answering = [(door, it, family) for door, it in asked if it.verdict is Verdict.ANSWERS
                 for family in _FAMILIES]
    made: List[Future[Exchange]] = []
    try:
        with ThreadPoolExecutor(max(1, len(answering))) as pool:
            for door, heard, family in answering:
                made.append(pool.submit(make, Way(heard.host, door), family))
        opened = [it.result() for it in made if it.exception() is None]
        drive(opened, lambda: all(map(is_settled, opened)), _PATIENCE * seconds)
        known: Dict[int, List[_Cell]] = {id(door): [] for door, _ in asked}
        for future, (door, heard, family) in zip(made, answering):
            exchange = None if future.exception() else future.result()
            known[id(door)].append(_cell(door, heard.host, family, exchange))
        return [cell for door, heard in asked for cell in known[id(door)] or _closed(door, heard)]
    finally:
        leave_all([it.result() for it in made if it.exception() is None])


def _cell(door: Door, host: str, family: int, exchange: Optional[Exchange]) -> _Cell:
    if exchange is None:
        return _Cell(door.transport, host, family, "no connection", False)
    if exchange.address is not None:
        is_of_family = (":" in exchange.address.host) == (family == 6)
        return _Cell(door.transport, host, family, f"IPv{family}", is_of_family)
    said = exchange.error_of(reasons.ALLOCATE)
    if said is None:
        return _Cell(door.transport, host, family, "no answer", False)
    is_known = said.code not in advice.QUOTAS
    return _Cell(door.transport, host, family, str(said.code), False, is_known, said.code)


def _closed(door: Door, heard: Heard) -> List[_Cell]:
    """The cells of a way that does not answer."""
    is_known = heard.verdict not in NOT_OF_SERVER
    word = "closed" if is_known else "no way"
    return [_Cell(door.transport, heard.host, it, word, False, is_known) for it in _FAMILIES]


def _way_step(number: int, door: Door, heard: Heard, cells: Sequence[_Cell], spent: float) -> Step:
    """The step of a transport at an address."""
    name, where = f"all-{number}-{door.transport}", f"{heard.host} port {door.port}"
    facts: Facts = {"address": heard.host, "transport": door.transport, "port": door.port,
                    "verdict": heard.verdict.name.lower()}
    for it in cells:
        facts.update({f"ipv{it.family}": it.is_given, f"ipv{it.family}_code": it.code})
    if heard.verdict is not Verdict.ANSWERS:
        said = f"{where}: {causes.shown(heard, door.name)}"
        return Step(name, Outcome.NOTE, said, spent, "", facts)
    said = ", ".join(it.word if it.is_given else f"no IPv{it.family} ({_why(it)})" for it in cells)
    is_any = any(it.is_given for it in cells)
    codes = [it.code for it in cells if it.code is not None]
    facts["code"] = None if is_any or not codes else codes[0]
    return Step(name, Outcome.OK if is_any else Outcome.NOTE, f"{where}: {said}", spent, "", facts)


def _why(cell: _Cell) -> str:
    return "of the other family" if cell.word.startswith("IPv") else cell.word


def _compared(cells: Sequence[_Cell], transports: Sequence[str]) -> Step:
    """Clients get to any of the addresses: what one gives and another does not is a fault."""
    hosts = [*dict.fromkeys(it.host for it in cells)]
    lacking: List[str] = []
    for transport in transports:
        for family in _FAMILIES:
            column = [it for it in cells
                      if it.is_known and it.transport == transport and it.family == family]
            given = [it.host for it in column if it.is_given]
            others = [it.host for it in column if not it.is_given]
            if given and others:
                lacking.append(f"{', '.join(others)} over {transport.upper()} (IPv{family})")
    rows = [[host, *(_word(cells, host, it) for it in transports)] for host in hosts]
    table = [["", *transports], *rows]
    facts: Facts = {"addresses": hosts, "lacking": lacking}
    count = sum(it.is_given for it in cells)
    said = f"{count} of {len(cells)} ways give a relayed address"
    if lacking:
        told = (f"The addresses of one name differ: {'; '.join(lacking)} give no relayed address, "
                "where others do. Clients get to any of them, as it happens: set them up alike, or "
                "take those out of the name.")
        return Step("matrix", Outcome.FAILED, said, 0.0, told, facts, table)
    if count or any(it.code in advice.QUOTAS for it in cells):
        return Step("matrix", Outcome.OK if count else Outcome.NOTE, said, 0.0, "", facts, table)
    return Step("matrix", Outcome.FAILED, said, 0.0,
                "No transport of any address gives a relayed address: see the steps before.", facts,
                table)


def _word(cells: Sequence[_Cell], host: str, transport: str) -> str:
    """What stands in the table."""
    own = [it for it in cells if (it.host, it.transport) == (host, transport)]
    given = [f"IPv{it.family}" for it in own if it.is_given]
    return ", ".join(given) if given else own[0].word if own else "-"
