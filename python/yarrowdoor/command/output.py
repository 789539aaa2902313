"""What is printed: a line for each step, in colour on a terminal, or one object of JSON; and a bar while something lasts."""
from __future__ import annotations

import itertools
import json
import os
import sys
import textwrap
from dataclasses import replace
from typing import List, Optional, Sequence, TextIO

from .steps import Outcome, Step, status_of

__all__ = ["Bar", "JSON_VERSION", "JsonOutput", "Output", "TextOutput"]

_COLOURS = {Outcome.OK: "32", Outcome.NOTE: "33", Outcome.FAILED: "31", Outcome.UNTRIED: "35"}
_BAR = 30
# Of the object of JSON. It grows when a member goes, or means something else, and not with new members.
JSON_VERSION = 1


class Bar:
    """How far something is, only on a terminal. It is gone when it is done."""

    def __init__(self, file: TextIO, is_shown: bool, what: str, count: int) -> None:
        self._file, self._what, self._count = file, what, max(1, count)
        self._is_shown = is_shown and file.isatty()

    def __call__(self, done: int) -> None:
        """So much is done."""
        if self._is_shown:
            full = _BAR * min(done, self._count) // self._count
            self._file.write(f"\r{self._what:<11} [{'#' * full}{' ' * (_BAR - full)}] {done}/{self._count}")
            self.end() if done >= self._count else self._file.flush()

    def end(self) -> None:
        """Takes the bar away."""
        if self._is_shown:
            self._file.write(f"\r{' ' * (_BAR + 30)}\r")
            self._file.flush()


class Output:
    """Takes the steps as they come."""

    def __init__(self, file: TextIO) -> None:
        self._file, self.steps = file, []  # type: TextIO, List[Step]

    def add(self, step: Step) -> None:
        """A step is done. Each has a name of its own: a second one of the same name is `NAME-2`."""
        taken = {it.name for it in self.steps}
        others = (f"{step.name}-{number}" for number in itertools.count(2))
        name = step.name if step.name not in taken else next(it for it in others if it not in taken)
        self.steps.append(replace(step, name=name))

    def end(self) -> int:
        """Nothing more comes: gives the exit status."""
        return status_of(self.steps)

    def fail(self, why: str, status: int) -> int:
        """The check has ended before its end: gives the exit status."""
        print(f"yarrowdoor: {why}", file=sys.stderr)
        return status

    def bar(self, what: str, count: int) -> Bar:
        """Shows how far something is."""
        return Bar(sys.stderr, False, what, count)


class TextOutput(Output):
    """A line for each step, and indented below it what is to be done."""

    def __init__(self, file: TextIO) -> None:
        super().__init__(file)
        self._is_terminal = file.isatty()
        self._bar: Optional[Bar] = None
        self._has_colour = self._is_terminal and "NO_COLOR" not in os.environ and os.environ.get("TERM") != "dumb"

    def add(self, step: Step) -> None:
        """Prints the line of a step, and what is to be done below it."""
        super().add(step)
        step = self.steps[-1]
        if self._bar is not None:
            self._bar.end()  # Where what it shows has ended early, it is still there.
            self._bar = None
        word = f"{step.outcome.value:<7}"
        if self._has_colour:
            word = f"\033[{_COLOURS[step.outcome]}m{word}\033[0m"
        print(f"{step.name:<11} {word} {step.seconds * 1e3:7.0f} ms  {step.said}", file=self._file)
        for line in _lines(step.table):
            print(f"{'':12}{line}", file=self._file)
        if step.advice:
            print(textwrap.fill(step.advice, 110, initial_indent=" " * 12, subsequent_indent=" " * 12, break_long_words=False,
                                break_on_hyphens=False), file=self._file)
        self._file.flush()

    def end(self) -> int:
        """Prints what fails or cannot be tried, and returns the exit status."""
        failed = [it.name for it in self.steps if it.outcome is Outcome.FAILED]
        status = super().end()
        if failed:
            print(f"\nfails: {', '.join(failed)}", file=self._file)
        else:
            untried = [it.name for it in self.steps if it.outcome is Outcome.UNTRIED]
            print("\nall is well" if status == 0 else f"\ncannot be tried from here: {', '.join(untried)}", file=self._file)
        return status

    def bar(self, what: str, count: int) -> Bar:
        """Shows how far something is, if this is a terminal."""
        self._bar = Bar(sys.stderr, self._is_terminal, what, count)
        return self._bar


def _lines(table: Sequence[Sequence[str]]) -> List[str]:
    """The lines of a table, whose columns are as wide as they need to be."""
    widths = [max(map(len, it)) for it in zip(*table)]
    return ["  ".join(f"{word:<{width}}" for word, width in zip(row, widths)).rstrip() for row in table]


class JsonOutput(Output):
    """One object, when all is done: `version`, `status`, and `steps` with `name`, `outcome`, `seconds`, `said`, `advice` and
    `facts`. Where the check has ended before its end there is an `error` too, beside the steps that were done."""

    def __init__(self, file: TextIO, uri: str) -> None:
        super().__init__(file)
        self._uri = uri

    def end(self) -> int:
        """Prints the object, and returns the exit status."""
        return self._print(super().end())

    def fail(self, why: str, status: int) -> int:
        """Prints the object with the steps so far and the error, and returns the exit status."""
        return self._print(status, error=why)

    def _print(self, status: int, **more: str) -> int:
        steps = [{"name": it.name, "outcome": it.outcome.value, "seconds": round(it.seconds, 6), "said": it.said,
                  "advice": it.advice, "facts": it.facts} for it in self.steps]
        found = {"version": JSON_VERSION, "uri": self._uri, "status": status, **more, "steps": steps}
        print(json.dumps(found, indent=2), file=self._file, flush=True)
        return status
