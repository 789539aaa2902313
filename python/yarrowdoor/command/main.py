"""The entry of the command: options in, exit status out."""
from __future__ import annotations

import argparse
import contextlib
import json
import logging
import os
import signal
import ssl as tls
import sys
from dataclasses import replace
from typing import Callable, Iterator, List, Optional

from ..errors import Ended, LibraryError, Refused, YarrowdoorError
from ..library import load as load_library
from ..wire import Tap
from .arguments import parser
from .bench import bench
from .capture import Capture, CaptureError
from .check import Plan, check
from .credentials import Credentials, NoCredentials, source
from .echo import echo
from .load import Wanted, load
from .output import JSON_VERSION, JsonOutput, Output, TextOutput
from .pair import CannotRelay, Server
from .relay import relay
from .steps import status_of

__all__ = ["main"]

_FAILS, _CANNOT, _INTERRUPTED = 1, 2, 130


def main(words: Optional[List[str]] = None) -> int:
    """Runs the command with these words, by default those of the process, and gives its exit status."""
    options = parser().parse_args(words)
    if options.verbose:
        logging.basicConfig(stream=sys.stderr, level=logging.INFO, format="%(relativeCreated)8.1f ms  %(message)s")
    with contextlib.suppress(ValueError):  # In another thread than the first one there are no signals.
        signal.signal(signal.SIGTERM, signal.default_int_handler)  # so that what the server has granted is given back
    try:
        load_library()
        credentials = source(options.user, options.password_file, options.secret_file, options.ask_secret)
        context = _context(options.ca)
        with _tap(options.pcap) as tap:
            return _run(options, credentials, context, tap)
    except BrokenPipeError:
        _discard_output()
        return _FAILS
    except (CaptureError, LibraryError, NoCredentials, OSError, ValueError) as error:
        return _tell(options, str(error), _CANNOT)
    except CannotRelay as error:
        return _tell(options, str(error), status_of([error.step]))
    except (Ended, Refused) as refusal:
        return _tell(options, f"the server no longer lets packets through ({refusal})", _FAILS)
    except KeyboardInterrupt:
        return _INTERRUPTED


def _told(options: argparse.Namespace, work: Callable[[Output], None]) -> int:
    """Does work that adds steps to an output, and gives the exit status. What was found before an error, or an interrupt, is
    printed too."""
    output = JsonOutput(sys.stdout, str(options.uri)) if options.json else TextOutput(sys.stdout)
    try:
        work(output)
    except KeyboardInterrupt:
        return output.fail("interrupted", _INTERRUPTED) if options.json else _INTERRUPTED
    except (CaptureError, LibraryError, OSError, ValueError, YarrowdoorError) as error:
        if isinstance(error, BrokenPipeError):
            raise  # Nobody reads the output any more.
        return output.fail(str(error), _CANNOT)
    return output.end()


def _run(options: argparse.Namespace, credentials: Callable[[], Optional[Credentials]], context: Optional[tls.SSLContext],
         tap: Tap) -> int:
    if options.command in ("check", "probe"):
        plan = Plan(options.uri, credentials(), context, options.family, options.timeout, peer=options.peer,
                    has_security=options.security, max_loss=options.max_loss, is_all=options.all)
        if options.command == "check":
            plan = replace(plan, nonce=options.nonce, quota=options.quota)
            return _told(options, lambda output: check(plan, output, tap))
        from .probe import Probing, probe, probe_once  # The server of HTTP takes long to import, which a check does without.
        probing = Probing(plan, credentials, tap, options.json, sys.stdout)
        return probe_once(probing) if options.once else probe(probing, options.every, options.listen)
    named = credentials()
    if named is None:
        raise NoCredentials("there are no credentials: name a user by --user NAME")
    server = Server(options.uri, named, context, options.family, options.timeout, tap)
    if options.command == "relay":
        return relay(server, options.listen, options.peer, sys.stdout)
    if options.command == "load":
        wanted = Wanted(options.allocations, options.rate, options.packets, options.hold, options.size, options.channel,
                        options.max_loss, options.peer)
        return _told(options, lambda output: load(server, wanted, output))
    if options.command == "echo":
        return echo(server, options.peer, options.count, options.size, options.pause, options.channel, options.json, sys.stdout,
                    sys.stderr)
    return bench(server, options.peer, options.seconds, options.size, options.rate, options.channel, options.json, sys.stdout,
                 sys.stderr)


def _context(authority: Optional[str]) -> Optional[tls.SSLContext]:
    """The context of TLS. `ValueError` where the authority is no certificate, and `OSError` where it cannot be read."""
    if authority is None:
        return None
    try:
        return tls.create_default_context(cafile=authority)
    except tls.SSLError as error:
        raise ValueError(f"{authority} has no certificate in PEM: {error.reason}") from None
    except OSError as error:
        raise ValueError(f"{authority}: {error.strerror}") from None


@contextlib.contextmanager
def _tap(path: Optional[str]) -> Iterator[Tap]:
    if path is None:
        yield Tap()
        return
    with open(path, "wb", buffering=0) as file, Capture(file) as capture:
        yield capture


def _tell(options: argparse.Namespace, why: str, status: int) -> int:
    if options.json:
        print(json.dumps({"version": JSON_VERSION, "uri": str(options.uri), "status": status, "error": why, "steps": []}))
    else:
        print(f"yarrowdoor: {why}", file=sys.stderr)
    return status


def _discard_output() -> None:
    """Nobody reads the output any more: what is left of it goes nowhere, also at the interpreter's end."""
    os.dup2(os.open(os.devnull, os.O_WRONLY), sys.stdout.fileno())
