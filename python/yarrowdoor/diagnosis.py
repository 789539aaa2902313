"""Why a client has ended, or has no relayed address: what was received from the server, in words."""
from __future__ import annotations

from typing import Optional

from . import reasons
from .address import Address
from .asked import Key, Record
from .clock import Clock
from .errors import AllocationFailed, Ended, Hint, WrongCredentials, because
from .redirect import TRY_ALTERNATE, alternate_of
from .standing import UNKNOWN

__all__ = ["Diagnosis"]

ALLOCATE, REFRESH = Key(reasons.ALLOCATE, None), Key(reasons.REFRESH, None)
# A refresh that grants less has no effect (RFC 8656, section 7.2), in seconds.
MIN_LIFETIME = 600


class Diagnosis:
    """What was received from a server, and what it means."""

    def __init__(self, server: str, max_stale_nonces: int, clock: Clock, requests: Record) -> None:
        self._server, self._max_stale_nonces = server, max_stale_nonces
        self._clock, self._requests = clock, requests
        self._heard = clock.now()
        self._error_now: Hint = None
        self._alternate: Optional[Address] = None
        self.socket_error: Optional[Exception] = None
        """The last error of the socket since the server answered, or the one that has ended it."""
        self.broken = ""
        """What has ended the connection, or the path, in words."""

    def hears(self, message: reasons.Message, packet: bytes, is_ignored: bool) -> None:
        """The server has answered a request of the client, which has taken the answer or ignored it."""
        key = self._requests.answered(message)
        asked = self._requests.last(key) if key is not None else None
        if asked is None:
            return
        self._heard, self.socket_error = self._clock.now(), None
        if message.error is not None:
            self._error_now = message.error
            self._alternate = alternate_of(packet) if message.error[0] == TRY_ALTERNATE else None
            if is_ignored or not reasons.is_challenge(message.error[0]):  # Else the client asks again: nothing has failed.
                asked.error = message.error
        elif not is_ignored:
            asked.is_granted, asked.error = True, None
            lifetime = reasons.attribute(packet, reasons.LIFETIME)
            asked.lifetime = int.from_bytes(lifetime, "big") if lifetime is not None and len(lifetime) == 4 else None

    def begins(self) -> None:
        """A new packet, or a wake-up: no error response is being handled."""
        self._error_now = None

    def breaks(self, what: str, error: Optional[Exception]) -> None:
        """The connection has ended, or the path is gone."""
        if not self.broken:
            self.broken, self.socket_error = what, error

    def ended(self) -> Ended:
        """Why the client has ended by itself."""
        return because(Ended(self._why()), self.socket_error)

    def no_address(self) -> AllocationFailed:
        """Why there is no relayed address."""
        hint = self._requests.error_of(ALLOCATE)
        if self.broken:
            return because(AllocationFailed(self.broken, hint), self.socket_error)
        if hint is not None:
            error = refusal(hint)
            error.alternate = self._alternate
            return error
        if self._error_now is not None:
            return AllocationFailed(self._why())
        waited = (self._clock.now() - self._heard) / 1e9
        why = f": {self.socket_error}" if self.socket_error else ""
        return because(AllocationFailed(f"no answer from {self._server} in {waited:.1f} s{why}"), self.socket_error)

    def _why(self) -> str:
        if self.broken:
            return self.broken
        if self._error_now is not None and reasons.is_challenge(self._error_now[0]):
            return (f"the server has challenged over max_stale_nonces={self._max_stale_nonces} requests in a row "
                    f"({self._error_now[0]})")
        refresh = self._requests.last(REFRESH)
        if refresh is not None and refresh.error is not None:
            code, phrase = refresh.error
            told = f"({code} {phrase})".replace(" )", ")")
            if code in UNKNOWN:
                return f"the server does not renew the relayed address {told}: it no longer knows it, as after a restart"
            return f"the server does not renew the relayed address {told}"
        if refresh is not None and refresh.is_granted and refresh.lifetime is not None and refresh.lifetime < MIN_LIFETIME:
            return (f"the server renews the relayed address for {refresh.lifetime} s only: a refresh for less than {MIN_LIFETIME}"
                    " s has no effect (RFC 8656, section 7.2)")
        why = f": {self.socket_error}" if self.socket_error else ""
        return f"the connection to the server has ended: no answer from {self._server} to a refresh{why}"


def refusal(hint: Hint) -> AllocationFailed:
    """The failure of an allocation by an error response."""
    if hint is not None and reasons.is_about_credentials(hint[0]):
        return WrongCredentials("user name or password are wrong", hint)
    return AllocationFailed("the server refuses", hint)
