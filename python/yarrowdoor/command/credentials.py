"""User and password: by the environment, by a file, or asked on the terminal, and never on the command line, which others see.

Credentials of a shared secret (coturn: `use-auth-secret`) are made here: the user is `EXPIRY:NAME`, and the password the Base64 of
its HMAC-SHA-1 under the secret (draft-uberti-behave-turn-rest-00, section 2.2).
"""
from __future__ import annotations

import base64
import getpass
import hashlib
import hmac
import os
import re
import sys
import time
from dataclasses import dataclass, field
from typing import Callable, Optional

__all__ = ["Credentials", "NoCredentials", "rest_expiry", "resolve", "source"]

USER, PASSWORD, SECRET = "YARROWDOOR_USER", "YARROWDOOR_PASSWORD", "YARROWDOOR_SECRET"
# Credentials that are made here are good for so long, in seconds.
LIFETIME = 3600


class NoCredentials(Exception):
    """There is no user or no password, and the text says how to give them."""


@dataclass(frozen=True)
class Credentials:
    """A user, and a password that is not shown."""

    user: str
    password: str = field(repr=False)


def resolve(user: Optional[str], password_file: Optional[str], secret_file: Optional[str],
            asks_secret: bool = False) -> Optional[Credentials]:
    """The credentials that options and environment give, or None where they name no user and no secret. With `asks_secret` the
    secret is asked on the terminal. `NoCredentials` where something is missing, or a file cannot be read."""
    return source(user, password_file, secret_file, asks_secret)()


def source(user: Optional[str], password_file: Optional[str], secret_file: Optional[str],
           asks_secret: bool = False) -> Callable[[], Optional[Credentials]]:
    """The same for a program that lasts: reads and asks once, and gives credentials whenever it is called. Those of a shared
    secret are good for an hour from then on."""
    user = user or os.environ.get(USER)
    secret = _read(secret_file) if secret_file else _ask("Shared secret: ", "secret") if asks_secret else os.environ.get(SECRET)
    if secret and not password_file:
        named, known = user or "yarrowdoor", secret
        return lambda: _of_secret(named, known)
    password = _read(password_file) if password_file else os.environ.get(PASSWORD)
    if password == "":
        raise NoCredentials(f"{PASSWORD} is set and empty, and no password is: was a secret not mounted, or a variable not set?")
    if user is None:
        if password is not None:
            raise NoCredentials(f"there is a password and no user: add --user NAME, or set {USER}")
        return lambda: None
    if password is None:
        password = _ask(f"Password of {user}: ", f"password for {user}")
    made = Credentials(user, password)
    return lambda: made


def rest_expiry(user: str) -> Optional[int]:
    """Until when a user of a shared secret is good, in seconds since 1970, or None where it is no such user."""
    found = re.fullmatch(r"(\d{9,11})(:.*)?", user, re.DOTALL)
    return int(found[1]) if found else None


def _of_secret(user: str, secret: str) -> Credentials:
    """Credentials under a secret. A user with an expiry of its own keeps it."""
    named = user if rest_expiry(user) is not None else f"{int(time.time()) + LIFETIME}:{user}"
    digest = hmac.new(secret.encode(), named.encode(), hashlib.sha1).digest()
    return Credentials(named, base64.b64encode(digest).decode())


def _read(path: str) -> str:
    """The first line of a file."""
    try:
        with open(path, encoding="utf-8") as file:
            line = file.readline().rstrip("\r\n")
    except (OSError, UnicodeDecodeError) as error:
        raise NoCredentials(f"{path} cannot be read: {error}") from None
    if not line:
        raise NoCredentials(f"the first line of {path} is empty, and should be the password or the secret")
    return line


def _ask(prompt: str, what: str) -> str:
    if not sys.stdin.isatty():
        raise NoCredentials(f"there is no {what}, and no terminal to ask for it: set {PASSWORD}, or name a file by --password-file "
                            f"(for a server with a shared secret {SECRET}, or --secret-file)")
    return getpass.getpass(prompt)
