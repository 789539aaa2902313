"""`outcomes`: each request has one outcome.

It is told once, with what was requested. A permission that a signed success grants is told before the events of that call end; a
request that is silent has its outcome once nothing is due at or after the end of its waits, counted from when it left, anew after
each challenge; and each has one before the session is over.
"""
from .. import stun
from ..facts import TIMEOUT
from .seen import ASKS, event_of, key_asked, keys_of, walk


class Waits:
    """When the requests for permissions left, and what was granted since the events were taken."""

    def __init__(self):
        self.left, self.granted, self.polled, self.ticket = {}, set(), None, 0

    def take(self, call, step, is_first):
        message = step.sent
        if message is not None and message.kind == stun.REQUEST and message.integrity and is_first:
            self.left.update(dict.fromkeys(keys_of(message), call.time))
        for request, _message, _one in step.challenges:
            for key in keys_of(request.message):
                self.left.pop(key, None)
        for request, message in step.replies:
            is_taken = call.answer[0] == "handled" and call.words[1] == "udp"
            if request.message.method == stun.CREATE_PERMISSION and message.kind == stun.SUCCESS and is_taken:
                self.granted.update(keys_of(request.message))
        if call.name == "poll":
            self.polled = call.time if call.wait() is not None else None

        if call.name in ASKS and call.answer[0] == "ticket" and int(call.answer[1]) > self.ticket:
            # it may not have left yet
            self.ticket = int(call.answer[1])
            self.left.pop(key_asked(call), None)

    def overdue(self, key):
        return key.startswith("permission") and key in self.left and self.polled >= self.left[key] + TIMEOUT


def faults(runs):
    told, waits, ids, is_over = set(), Waits(), set(), False
    for call, step, _facts, tickets in walk(runs[0]):
        waits.take(call, step, step.sent is not None and step.sent.id not in ids)
        if step.sent is not None:
            ids.add(step.sent.id)
        event = event_of(call)
        if event and event[0] == "outcome":
            number = int(event[1])
            if number in told or tickets.keys.get(number) != " ".join(event[2:4]):
                yield call, f"the outcome of ticket {number} was told before, or is of something else"
            told.add(number)
        if event and event[0] == "over":
            is_over = True
            for key in tickets.waiting:
                yield call, f"{key} has no outcome though the session is over"
        if call.name == "event" and not event:
            for key in sorted(tickets.waiting):
                if key in waits.granted:
                    yield call, f"{key} was granted, and its request has no outcome"
                elif not is_over and waits.polled is not None and waits.overdue(key):
                    yield call, f"the waits of {key} are over, and its request has no outcome"
            waits.granted.clear()
