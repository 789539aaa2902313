"""The errors of the package, by name. All of them are a `YarrowdoorError`."""
from __future__ import annotations

from typing import Optional, Tuple, TypeVar

__all__ = [
    "AllocationFailed", "Busy", "ChannelFailed", "ConnectFailed", "Ended", "LibraryError", "PermissionFailed", "Refused",
    "WrongCredentials", "YarrowdoorError",
]

Hint = Optional[Tuple[int, str]]


class YarrowdoorError(Exception):
    """What all errors of the package are."""


class LibraryError(YarrowdoorError, ImportError):
    """The library for C is not found, or is another version than this package is for."""


class Busy(YarrowdoorError, RuntimeError):
    """A client is used by two threads at once. The call of the second one was not made."""


class Refused(YarrowdoorError):
    """The client refuses a call, and is as it was (but that `no-allocation` for an allocation past its expiry marks it: it is not
    used again).

    `reason` is one of `already-exists` (it is active, or requested already), `no-allocation`, `no-permission` (the peer has
    none), `no-socket` (there is no data connection to the peer), `not-granted` (`release` and `keep`: the peer has no such
    permission or channel) and `expired` (the peer had a channel, and may have another only after `until`, a time of the client
    in nanoseconds; RFC 8656, section 12). The text is the reason, and what else there is to say of it.
    """

    def __init__(self, reason: str, until: int = 0, detail: str = "") -> None:
        super().__init__(f"{reason}: {detail}" if detail else reason)
        self.reason = reason
        self.until = until


class _Hinted(YarrowdoorError):
    """An error of the server. `code` and `phrase` are what an error response said, if one was seen.

    Nobody has to have signed that response, so it is a hint: anyone who knows the addresses can send such a packet.
    """

    def __init__(self, message: str, hint: Hint = None) -> None:
        self.code: Optional[int] = hint[0] if hint else None
        """The number of the error response (RFC 8656, section 19; RFC 8489, section 14.8), or None where none was seen."""
        self.phrase: str = hint[1] if hint else ""
        """The server's words for it, for people to read, without characters that cannot be printed. They may be empty."""
        super().__init__(f"{message} ({self.code} {self.phrase})".replace(" )", ")") if hint else message)


class AllocationFailed(_Hinted):
    """The server gives no relayed address, cannot be reached, or does not answer.

    `code` is the number of an error response, or None where none was seen, and `phrase` its words. They are a hint.
    """

    alternate: Optional[Tuple[str, int]] = None
    """the address of another server, if the error response is 300 and has one (RFC 8489, section 10). It is a hint too"""


class WrongCredentials(AllocationFailed):
    """The server gives no relayed address, and a packet said that user name or password are wrong.

    `code` is 401, or 400 with some servers, and `phrase` the packet's words. They are a hint.
    """


class PermissionFailed(_Hinted):
    """The server does not let the peer's IP address send (RFC 8656, section 9), or did not answer.

    `code` is the number of an error response, or None where none was seen, and `phrase` its words. They are a hint.
    """


class ChannelFailed(_Hinted):
    """The server gives the peer no channel (RFC 8656, section 12), or did not answer.

    `code` is the number of an error response, or None where none was seen, and `phrase` its words. They are a hint.
    """


class ConnectFailed(_Hinted):
    """There is no connection to the peer over TCP (RFC 6062, section 4.3).

    `code` is the number of an error response, or None where none was seen, and `phrase` its words. They are a hint.
    """


class Ended(YarrowdoorError):
    """The client has ended, or was not opened. The text says why, and `__cause__` is the error of the socket, if there was one.

    The relayed address is gone. Make a new client, from another local port.
    """


_Error = TypeVar("_Error", bound=Exception)


def because(error: _Error, cause: Optional[BaseException]) -> _Error:
    """An error with its cause, as `raise .. from` makes it."""
    error.__cause__ = cause
    return error
