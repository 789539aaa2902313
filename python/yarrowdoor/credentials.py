"""User names and passwords: as a value, or asked for when they are needed; and those that expire, which a shared secret makes."""
from __future__ import annotations

import base64
import hashlib
import hmac
import inspect
import time
from typing import Awaitable, Callable, NamedTuple, Optional, Tuple, TypeVar, Union

from .settings import credential

__all__ = ["Credentials", "CredentialsLike", "Text", "ask", "asked", "check_source", "checked_pair", "one_source",
           "rest_credentials"]

Text = Union[str, bytes]
_Source = TypeVar("_Source")


class Credentials(NamedTuple):
    """A user name and its password. It prints without the password."""

    user: Text
    password: Text

    def __repr__(self) -> str:
        return f"Credentials(user={self.user!r}, password=..)"


CredentialsLike = Union[Tuple[Text, Text], Callable[[], Union[Tuple[Text, Text], Awaitable[Tuple[Text, Text]]]]]


def rest_credentials(secret: Text, user: str = "", ttl: float = 86_400) -> Credentials:
    """Credentials that a server takes for `ttl` seconds from now on, if it shares a secret with who makes them: those of "A REST
    API for access to TURN services", and of coturn's `use-auth-secret`.

    The user name is `EXPIRY:USER`, with the expiry in seconds since 1970, and the password the Base64 of its HMAC-SHA-1. The clocks
    of both sides have to agree. `ValueError` where `ttl` is not above 0, or `user` has a colon.
    """
    if not ttl > 0:
        raise ValueError(f"ttl is a number of seconds above 0, and not {ttl!r}")
    if ":" in user:
        raise ValueError(f"a colon ends the expiry, so that the user has none: {user!r}")
    name = f"{int(time.time() + ttl)}:{user}" if user else f"{int(time.time() + ttl)}"
    digest = hmac.new(credential("secret", secret), name.encode(), hashlib.sha1).digest()
    return Credentials(name, base64.b64encode(digest).decode())


def check_source(source: object) -> None:
    """`TypeError` if this is neither a pair of texts nor a function without arguments."""
    if not callable(source):
        checked_pair(source)
        return
    try:
        inspect.signature(source).bind()
    except ValueError:
        pass  # A function that is not written in Python may not say what its arguments are.
    except TypeError as error:
        raise TypeError(f"credentials is called without arguments: {error}") from None


def checked_pair(found: object) -> Credentials:
    """User and password, as a source has given them. `TypeError` if it is no pair of texts."""
    if not isinstance(found, tuple) or len(found) != 2:
        raise TypeError("credentials is a user and a password, or a function, async or not, that returns them")
    for name, value in zip(("user", "password"), found):
        credential(name, value)
    return Credentials(*found)


def one_source(user: Optional[Text], password: Optional[Text], credentials: Optional[_Source]) -> Union[Tuple[Text, Text], _Source]:
    """The credentials of a call that takes them as two arguments, or as one. `TypeError` if it has neither, or both."""
    if credentials is not None:
        if user is not None or password is not None:
            raise TypeError("either user and password, or credentials=")
        check_source(credentials)
        return credentials
    if user is None or password is None:
        raise TypeError("user and password are missing, or credentials=")
    check_source((user, password))
    return user, password


async def asked(source: CredentialsLike) -> object:
    """What a source gives, which is called where it is a function, async or not. What that raises is passed on."""
    found = source() if callable(source) else source
    return await found if inspect.isawaitable(found) else found


async def ask(source: CredentialsLike) -> Credentials:
    """The credentials of a source. `TypeError` if it gives something else."""
    return checked_pair(await asked(source))
