"""Whether a server still knows a relayed address: it is asked for a permission that is of no use."""
from __future__ import annotations

import itertools
from typing import TYPE_CHECKING, Optional

from .errors import PermissionFailed, YarrowdoorError

if TYPE_CHECKING:
    from .session import Session

__all__ = ["Standing", "UNKNOWN"]

# What a server answers that does not know the relayed address: 437, and coturn 400 (docs/REAL-SERVERS.md), and 441 where it was
# restarted with another realm.
UNKNOWN = (400, 437, 441)
# Addresses that no host has (RFC 5737, RFC 3849). A permission for one of them permits no host.
NOWHERE = {4: "192.0.2.{}", 6: "2001:db8::{:x}"}
NUMBERS = range(1, 255)


class Standing:
    """Asks by a signed request: a server that was restarted, or a NAT before it with another mapping, answers checks of the path as
    before. Only a server that knows the relayed address grants or denies a permission."""

    def __init__(self, session: Session) -> None:
        self._session, self._numbers = session, itertools.cycle(NUMBERS)

    async def failure(self) -> Optional[PermissionFailed]:
        """Why the server does not know the relayed address: with a `code` of `UNKNOWN`, or with None where it has not answered.
        None where it knows it, and where the client has ended meanwhile."""
        grants = self._session.grants
        try:
            ip = self._unused()
            await grants.permit(ip)
            grants.set_kept(ip, False)
        except PermissionFailed as failed:
            # With another code it is denied, or the server has no room, but there is an allocation.
            return failed if failed.code is None or failed.code in UNKNOWN else None
        except (YarrowdoorError, MemoryError):
            pass
        return None

    def _unused(self) -> str:
        """An address that has no permission, which would not be asked for."""
        session = self._session
        family = 6 if session.address is not None and ":" in session.address.host else 4
        client = session.open_client()
        for _ in NUMBERS:
            ip = NOWHERE[family].format(next(self._numbers))
            if not client.have_permission(ip):
                break
        return ip
