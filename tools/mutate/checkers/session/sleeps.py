"""`sleeps`: a session sleeps through nothing.

A check ends at most 3.5 s after its call (RFC 8489, section 6.2.1: it leaves at 0, 0.5 and 1.5 s), and until then nobody is told to
wait longer.
"""
from .seen import event_of

LASTS = 3_500_000_000


class Checks:
    """When the checks began of which no result was told, and what the last poll said."""

    def __init__(self):
        self.begun, self.polled, self.until = {}, None, None

    def take(self, call):
        event = event_of(call)
        if call.name == "check" and call.answer[0] == "ticket":
            self.begun.setdefault(int(call.answer[1]), call.time)
            self.polled = self.until = None
        elif call.name == "poll":
            self.polled, self.until = call.time, int(call.answer[1]) if call.answer[0] == "wait" else None
        elif event and event[0] == "checked":
            self.begun.pop(int(event[1]), None)
        elif event and event[0] == "over":
            self.begun.clear()


def faults(runs):
    checks = Checks()
    for call in runs[0].calls:
        checks.take(call)
        if call.name != "event" or event_of(call) or checks.polled is None:
            continue
        for number, time in checks.begun.items():
            if checks.polled >= time + LASTS:
                yield call, f"check {number} has not ended"
            elif checks.until is not None and checks.until > max(time + LASTS, checks.polled):
                yield call, f"the wait is until {checks.until}, and check {number} ends at {time + LASTS}"
