"""`tried`: a request is retransmitted as often as configured, each time once it has waited, and then given up.

The times are the default ones (RFC 8489, section 6.2.1): seven copies over UDP, 0.5 s after the first, then twice as long after
each, and 8 s after the last; over TCP one copy, and 39.5 s. Where requests are timed from their calls, the first copy of a queued
one may leave behind others: so it is looked at the first ALLOCATE, which is never queued, and how often the others leave. A `poll`
that has the caller poll again, though nothing is left to take, has given one up: so there are no more of these in a row than
requests.
"""
from collections import defaultdict

from . import stun
from .facts import TIMEOUT, walk

COPIES, FIRST, LAST = 7, 500_000_000, 8_000_000_000


class First:
    """The first ALLOCATE: when its copies were given, and whether a response may have come or the client ended."""

    def __init__(self, run):
        self.run, self.id, self.times, self.is_over = run, None, [], False

    def call(self, call, step):
        self.is_over |= call.name == "error" or bool(step.inputs)
        if step.sent is not None and step.sent.kind == stun.REQUEST:
            self.id = self.id or step.sent.id
            if step.sent.id == self.id:
                self.times.append(call.time)

    def end(self):
        """When it is given up, once its copies are given, or None."""
        if not self.times:
            return None
        if self.run.transport == "tcp":
            return self.times[0] + TIMEOUT
        return self.times[-1] + LAST if len(self.times) >= COPIES else None

    def early(self):
        """The copy that was given last, if that was before its wait was over. Times may go back."""
        count = len(self.times) - 1
        if count < 1 or self.run.transport == "tcp" or self.times != sorted(self.times):
            return None
        return count if self.times[-1] < self.times[-2] + FIRST * 2 ** (count - 1) else None


class Again:
    """How many polls in a row had the caller poll again, at times at which there was neither an event nor a packet to take."""

    def __init__(self):
        self.count, self.time, self.polls, self.taken = 0, None, 0, set()

    def call(self, call):
        is_again = call.name == "poll" and call.answer[0] == "wait" and call.wait() is None
        is_none = call.name in ("event", "transmit") and call.answer == ["none"]
        if call.is_look:
            return
        if not (is_again or is_none):
            self.count, self.time = 0, None
            return
        if call.time != self.time:
            self.time, self.polls, self.taken = call.time, 0, set()
        self.polls += is_again
        self.taken |= {call.name} if is_none else set()
        if len(self.taken) == 2:
            self.count, self.polls = self.count + self.polls, 0


def faults(runs):
    run = runs[0]
    first, again, counts = First(run), Again(), defaultdict(int)
    most = (COPIES if run.transport == "udp" else 1) + (0 if run.timed_from_send else 1)
    for call, facts in walk(run):
        step = facts.take(call)
        was = len(first.times)
        first.call(call, step)
        if len(first.times) > was and not first.is_over and first.early() is not None:
            yield call, f"copy {first.early() + 1} of the first request is given before its wait is over"
        if step.sent is not None and step.sent.kind == stun.REQUEST:
            counts[step.sent.id] += 1
            if counts[step.sent.id] > most:
                yield call, f"copy {counts[step.sent.id]} of a request is given"
        again.call(call)
        if again.count > len(counts):
            yield call, f"{again.count} polls in a row have the caller poll again, and give nothing up"
        if call.name != "poll" or first.is_over:
            continue
        end = first.end()
        if call.answer == ["closed"] and first.times and (end is None or call.time < end):
            yield call, f"the first request is given up after {len(first.times)} copies"
        elif call.answer != ["closed"] and end is not None and call.time >= end:
            yield call, "the first request is not given up, whose last wait is over"
        first.is_over |= call.answer == ["closed"]
