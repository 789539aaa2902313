"""`yarrowdoor probe`: the steps of a check, again and again, as metrics for Prometheus."""
from __future__ import annotations

import contextlib
import time
from dataclasses import dataclass, replace
from typing import Callable, Optional, TextIO

from ..address import Address
from ..errors import LibraryError, YarrowdoorError
from ..wire import Tap
from .capture import CaptureError
from .check import Plan, check
from .credentials import Credentials
from .metrics import Probed, metrics_of, no_probes, render
from .output import JsonOutput, Output
from .scrape import Page
from .steps import Outcome

__all__ = ["Probing", "probe", "probe_once"]

# Between the end of a check and the beginning of the next one, in seconds.
_LEAST_PAUSE = 1.0
_CANNOT, _INTERRUPTED = 2, 130


@dataclass(frozen=True)
class Probing:
    """What is checked, and as whom: credentials of a shared secret expire, and are made anew for
    each check."""

    plan: Plan
    credentials: Callable[[], Optional[Credentials]]
    tap: Tap
    is_json: bool
    out: TextIO

    def check(self, count: int) -> Probed:
        """The check of this number. An error ends it, and not those that come after it."""
        output = JsonOutput(self.out, str(self.plan.uri)) if self.is_json else Output(self.out)
        begun = time.monotonic()
        try:
            check(replace(self.plan, credentials=self.credentials()), output, self.tap)
            status = output.end()
        except KeyboardInterrupt:
            if self.is_json:
                output.fail("interrupted", _INTERRUPTED)
            raise
        except (CaptureError, LibraryError, OSError, ValueError, YarrowdoorError) as error:
            if isinstance(error, BrokenPipeError):
                raise  # Nobody reads the output any more.
            status = output.fail(str(error), _CANNOT)
        spent = time.monotonic() - begun
        return Probed(str(self.plan.uri), status, output.steps, spent, time.time(), count)


def probe_once(probing: Probing) -> int:
    """Makes one check, prints its metrics or its object of JSON, and gives the check's status."""
    probed = probing.check(1)
    if not probing.is_json:
        print(render(metrics_of(probed)), end="", file=probing.out, flush=True)
    return probed.status


def probe(probing: Probing, every: float, listen: Address) -> int:
    """Checks every this many seconds, and serves the metrics, until the user ends it, with status 0.
    `OSError` where the port is taken. A line is printed where other steps fail than before, or an
    object of JSON for each check."""
    before, count = "", 0
    with contextlib.suppress(KeyboardInterrupt), Page(listen) as page:
        page.show(render([no_probes()]))
        _say(probing, f"metrics at {page.url}, a check each {every:g} s")
        while True:
            begun, count = time.monotonic(), count + 1
            probed = probing.check(count)
            page.show(render(metrics_of(probed)))
            found = _summary(probed)
            if found != before:
                _say(probing, f"{_shown(probed.ended)} {found}")
            before = found
            time.sleep(max(_LEAST_PAUSE, begun + every - time.monotonic()))
    return 0


def _say(probing: Probing, line: str) -> None:
    if not probing.is_json:
        print(line, file=probing.out, flush=True)


def _shown(seconds: float) -> str:
    return time.strftime("%Y-%m-%dT%H:%M:%SZ", time.gmtime(seconds))


def _summary(probed: Probed) -> str:
    """What a check has found, in a line."""
    wrong = [it.name for it in probed.steps if it.outcome in (Outcome.FAILED, Outcome.UNTRIED)]
    said = {0: "all is well", 1: "fails"}.get(probed.status, "cannot be tried")
    return f"{said}: {', '.join(wrong)}" if wrong else said
