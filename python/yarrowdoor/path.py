"""Whether the path to the server still carries: it is asked by Binding requests, the system is asked for a route, and errors of the
socket are counted."""
from __future__ import annotations

import asyncio
import os
import socket
from typing import TYPE_CHECKING, Any, Dict, NamedTuple, Optional, Set

from . import reasons
from .address import Address
from .link import Link
from .phases import Open
from .standing import Standing

if TYPE_CHECKING:
    from .session import Session

__all__ = ["Check", "Path"]

# How long an answer to a Binding request is waited for, after each time that it was sent, in seconds (RFC 8489, section 6.2.1).
WAITS = (0.5, 1.0, 2.0)
# This many checks in a row without an answer end the relay, and this many errors in a row, each a second after the last one.
RUN = 3
PAUSE = 1.0
# How often the system is asked for a route to a server over TCP, in seconds.
ROUTE_PAUSE = 15.0


class Check(NamedTuple):
    """What came of a check of the path to the server."""

    is_answered: bool
    """whether the server has answered. One that answers no Binding request, as coturn with `--no-stun`, never does"""
    mapped: Optional[Address]
    """this client's own address as the server sees it now, if it says that. If it is another one than before, a NAT has
    forgotten the client, and the relayed address is lost (RFC 8656, section 3.2): the client asks the server for it, and ends"""


def route_error(link: Link) -> Optional[OSError]:
    """Why the system would send nothing from this end of a link to the other one, or None. Nothing is sent."""
    try:
        asked = socket.socket(socket.AF_INET6 if ":" in link.remote.host else socket.AF_INET, socket.SOCK_DGRAM)
    except OSError:
        return None  # which is not about the route: too many files are open
    with asked:
        try:
            asked.bind((link.local.host, 0, *link.local[2:]))
            asked.connect(link.remote)
        except OSError as error:
            return error
    return None


class Path:
    """The path to the server of a session."""

    def __init__(self, session: Session) -> None:
        self._session = session
        self.standing = Standing(session)
        self._checks: Dict[bytes, asyncio.Future[Optional[Address]]] = {}
        # The mapped address of the last check, and what asks for the relayed address.
        self._mapped: Optional[Address] = None
        self._asking: Optional[asyncio.Future[bool]] = None
        self._errors = 0
        self._suspicion: Optional[asyncio.Future[None]] = None
        self._probing: Optional[asyncio.Future[None]] = None
        self._watching = asyncio.ensure_future(self._watch_route()) if session.link.is_stream else None

    async def check(self) -> Check:
        """Asks the server whether it answers. `Ended` if the client has ended."""
        session, transaction = self._session, os.urandom(12)
        answer = self._checks[transaction] = asyncio.get_running_loop().create_future()
        try:
            for wait in WAITS if not session.link.is_stream else (sum(WAITS),):
                session.open_client()
                session.link.send(reasons.binding_request(transaction))
                seconds = session.clock.real(wait)
                await asyncio.wait([answer, session.over], timeout=seconds, return_when=asyncio.FIRST_COMPLETED)
                if answer.done():
                    return Check(True, answer.result())
            session.open_client()
            return Check(False, None)
        finally:
            del self._checks[transaction]

    def hears(self, message: reasons.Message) -> bool:
        """Whether a message of the server is the answer to a check, which then has it."""
        answer = self._checks.get(message.transaction) if message.is_response else None
        if answer is None or message.method != reasons.BINDING:
            return False
        if not answer.done():
            answer.set_result(message.mapped)
            self._compare(message.mapped)
        return True

    def _compare(self, mapped: Optional[Address]) -> None:
        """Asks for the relayed address where the mapped one has changed. Nobody has to have signed that."""
        before = self._mapped or self._session.mapped
        self._mapped = mapped or self._mapped
        if None not in (before, mapped) and mapped != before:
            self.ask()

    def ask(self) -> asyncio.Future[bool]:
        """Asks the server whether it still knows the relayed address; if it does not, the session ends. Gives whether it has
        answered."""
        if self._asking is None or self._asking.done():
            self._asking = asyncio.ensure_future(self._ask())
        return self._asking

    async def _ask(self) -> bool:
        failed = await self.standing.failure()
        if failed is not None and failed.code is not None and isinstance(self._session.state, Open):
            self._session.breaks(f"the server no longer knows the relayed address: {failed}", failed)
        return failed is None

    async def _answers(self) -> bool:
        """Whether the server answers a signed request, as fast as a check. One may answer no check."""
        asking, session = self.ask(), self._session
        either: Set[asyncio.Future[Any]] = {asking, session.over}
        await asyncio.wait(either, timeout=session.clock.real(sum(WAITS)), return_when=asyncio.FIRST_COMPLETED)
        return asking.done() and asking.result()

    def probe(self, every: float) -> None:
        """Checks the path by itself, at an interval. The relay ends when `RUN` checks in a row have no answer, nor have
        signed requests."""
        self._probing = asyncio.ensure_future(self._probe(every))

    async def _probe(self, every: float) -> None:
        session, loop, unanswered = self._session, asyncio.get_running_loop(), 0
        due = loop.time()
        while unanswered < RUN:
            due = max(due + session.clock.real(every), loop.time())
            await asyncio.sleep(due - loop.time())
            seen = session.count
            is_answered = (await self.check()).is_answered or session.count != seen or await self._answers()
            unanswered = 0 if is_answered else unanswered + 1
        why = f"no answer from {session.server.uri} to {RUN} checks in a row"
        session.breaks(f"the connection to the server has ended: {why}", None)

    async def _watch_route(self) -> None:
        """The system refuses a datagram without a route at once, but keeps what a connection sends, and waits. So it is asked.
        Where it had no route while the connection was made, what it says means nothing."""
        session, refusals = self._session, 0
        error = route_error(session.link)
        if error is not None:
            return
        while refusals < RUN:
            await asyncio.sleep(session.clock.real(PAUSE if refusals else ROUTE_PAUSE))
            error = route_error(session.link)
            refusals = 0 if error is None else refusals + 1
        session.breaks(f"the connection to the server has ended: {error}", error)

    def refused(self, error: Exception) -> None:
        """The socket has reported an error. One may pass; several in a row, with nothing from the server between, end the relay."""
        self._errors += 1
        if self._suspicion is None or self._suspicion.done():
            self._suspicion = asyncio.ensure_future(self._suspect(error))

    async def _suspect(self, error: Exception) -> None:
        session = self._session
        for _ in range(RUN):
            seen, errors = session.count, self._errors
            session.link.send(reasons.binding_request(os.urandom(12)))
            await asyncio.sleep(session.clock.real(PAUSE))
            if session.count != seen or self._errors == errors:
                return
        session.breaks(f"the connection to the server has ended: {error}", error)

    def end(self) -> None:
        """Nothing is checked any more."""
        for task in (self._probing, self._suspicion, self._watching, self._asking):
            if task is not None:
                task.cancel()
