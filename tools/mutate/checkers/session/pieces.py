"""`pieces`: each frame of a piece of a stream is received by itself, in order (RFC 8656, section 12.5).

Once no data is left to take, and no event, each permission that a signed success of the piece grants has been told to who
requested it, whatever stood before it in the piece.
"""
from .. import stun
from ..facts import TIMEOUT
from .seen import event_of, keys_of, walk


class Stream:
    """What was granted by the pieces that came, and is still to be told."""

    def __init__(self):
        self.granted, self.challenged, self.is_drained = set(), set(), True

    def take(self, call, step, waiting):
        if call.name == "recv":
            self.is_drained = False
        elif call.name == "poll_recv":
            self.is_drained = call.answer == ["none"]
        self.challenged.update(request.message.id for request, _message, _one in step.challenges)
        for request, message in step.replies:
            is_open = call.time < request.time + TIMEOUT and request.message.id not in self.challenged
            if is_open and request.message.method == stun.CREATE_PERMISSION and message.kind == stun.SUCCESS:
                self.granted.update(key for key in keys_of(request.message) if key in waiting)


def faults(runs):
    run, stream, ended = runs[0], Stream(), False
    if run.transport != "tcp":
        return
    for call, step, _facts, tickets in walk(run):
        stream.take(call, step, tickets.waiting)
        event = event_of(call)
        ended = ended or bool(event and event[0] in ("over", "ending")) or call.name == "leave"
        if call.name == "event" and not event and stream.is_drained:
            for key in sorted(stream.granted & set(tickets.waiting)):
                if not ended:
                    yield call, f"a piece granted {key}, and its request has no outcome"
            stream.granted.clear()
