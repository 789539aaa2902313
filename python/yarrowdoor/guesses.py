"""Arguments that one may guess from other packages: a clear error says what to write here."""
from __future__ import annotations

import functools
import inspect
from typing import Any, Callable, TypeVar, cast

__all__ = ["explained"]

_Function = TypeVar("_Function", bound=Callable[..., None])

_HINTS = {
    "username": "user name and password are `user` and `password`, or both as `credentials`",
    "host": "the server is a URI, as \"turn:turn.example.org:3478?transport=tcp\"",
    "port": "the port of the server stands in the URI, as in \"turn:turn.example.org:3478\"",
    "timeout": "opening takes up to `open_timeout` seconds, and a request as long as `times` says",
    "ssl_context": "the context for turns: URIs is `ssl`",
}


def explained(function: _Function) -> _Function:
    """The same function, whose `TypeError` for one of these arguments says what to write in its place."""
    hints = {name: hint for name, hint in _HINTS.items() if name not in inspect.signature(function).parameters}

    @functools.wraps(function)
    def called(*args: Any, **given: Any) -> None:
        for name in given:
            if name in hints:
                raise TypeError(f"there is no argument {name!r}: {hints[name]}")
        function(*args, **given)

    return cast(_Function, called)
