"""Interrupts a call before a step of the interpreter, as a signal may do it: by an exception, or by a handler that returns."""
import itertools
import sys
from typing import Any, Callable, Collection

from yarrowdoor import YarrowdoorError

__all__ = ["Interrupted", "interrupt", "interrupted"]


class Interrupted(Exception):
    """What a signal's handler raises."""


def interrupt(call: Callable[[], object], step: int, files: Collection[str], handler: Callable[[], object]) -> bool:
    """Makes a call, with a handler before the step with this number of those in some files, and says whether the call has so many.
    What the call raises counts as its end, but an `Interrupted` is passed on."""
    count, before, has_run = itertools.count(), sys.gettrace(), False

    def trace(frame: Any, event: str, arg: object) -> Any:
        nonlocal has_run
        if frame.f_code.co_filename not in files or has_run:
            return None
        frame.f_trace_opcodes = True
        if event == "opcode" and next(count) == step:
            has_run = True
            handler()
        return trace

    try:
        sys._getframe().f_trace_opcodes = True  # else Python 3.12 traces none
        sys.settrace(trace)
        call()
    except (YarrowdoorError, TimeoutError):
        pass
    finally:
        sys.settrace(before)
    return has_run


def interrupted(call: Callable[[], object], step: int, files: Collection[str]) -> bool:
    """Makes a call that an exception ends before a step, and says whether it has so many."""
    def fail() -> None:
        raise Interrupted

    try:
        return interrupt(call, step, files, fail)
    except Interrupted:
        return True
