"""`yarrowdoor relay`: a local UDP port whose packets reach a peer from the relayed address, and back."""
from __future__ import annotations

import contextlib
import socket
from typing import List, Optional, TextIO, Tuple

from ..address import Address, of_socket
from ..driver import drive
from ..errors import Ended, Refused
from .driver import leave_all
from .exchange import Exchange
from .pair import CannotRelay, Server, find_way, open_relay
from .relays import grant_step, permission_step
from .steps import Outcome, Step

__all__ = ["relay"]

# What is read of the local port at a time, so that neither side keeps the other from being read.
_MAX_TAKEN = 64
_MOST = 65_535
# Between two looks at whether the server still grants, in seconds.
_LOOK = 5.0


def relay(server: Server, listen: Address, peer: Address, out: TextIO) -> int:
    """Carries packets until the user ends it, with status 0, or the server does, which raises `CannotRelay`."""
    opened: List[Exchange] = []
    with contextlib.closing(_listening(listen)) as local:
        try:
            own = open_relay(server, find_way(server), opened, 6 if ":" in peer.host else 4, None)
            for step in (permission_step((opened[0],), (peer,), server.seconds), grant_step((opened[0],), (peer,), server.seconds)):
                if step.outcome is not Outcome.OK:
                    raise CannotRelay(step)
            print(f"packets to {of_socket(local.getsockname())} leave from {own} to {peer}, and back", file=out, flush=True)
            with contextlib.suppress(KeyboardInterrupt):
                _carry(opened[0], local, peer)
            return 0
        finally:
            leave_all(opened)


def _listening(listen: Address) -> socket.socket:
    """The local port. `OSError` where it is taken."""
    local = socket.socket(socket.AF_INET6 if ":" in listen.host else socket.AF_INET, socket.SOCK_DGRAM)
    try:
        local.setblocking(False)
        local.bind(tuple(listen))
        return local
    except BaseException:
        local.close()
        raise


def _carry(exchange: Exchange, local: socket.socket, peer: Address) -> None:
    """Packets of a program on this host go to the peer, and those of the peer to the program that has sent last."""
    program: Optional[Tuple[str, int]] = None

    def from_peer(data: bytes, source: Address) -> None:
        if source == peer and program is not None:
            with contextlib.suppress(OSError):  # The program is gone, or its buffer is full: the packet is lost.
                local.sendto(data, program)

    def from_program() -> None:
        nonlocal program
        for _ in range(_MAX_TAKEN):
            try:
                data, program = local.recvfrom(_MOST)
            except BlockingIOError:
                return
            except OSError:
                continue  # The program before is gone, says the system.
            with contextlib.suppress(Ended, Refused, ValueError):  # What is too long for a message is lost.
                exchange.send(data, peer)

    exchange.on_data = from_peer
    while not _is_lost(exchange, peer):
        drive([exchange], lambda: _is_lost(exchange, peer), _LOOK, [(local.fileno(), from_program)])
    why = exchange.error or "the server renews it no longer: it was restarted, or cannot be reached"
    raise CannotRelay(Step("relay", Outcome.FAILED, f"the relayed address is gone: {why}", 0.0, "Start this again."))


def _is_lost(exchange: Exchange, peer: Address) -> bool:
    """Whether the relayed address, or the peer's permission, has ended."""
    return exchange.is_over or peer.host in exchange.failed
