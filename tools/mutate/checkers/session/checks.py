"""`checks`: a check is answered by a response to one of its own requests.

A check that the server answered tells its address. One is answered only if a response to a Binding request or to a permission that
nobody signed came, which left no earlier than the check that runs; of the requests of the client none answers it.
"""
from .. import stun
from .seen import event_of, walk

BINDING = 1


def is_own(message):
    """Whether a request is the path's: a Binding request, or one for a permission that is not signed."""
    is_bare = message.method == stun.CREATE_PERMISSION and not message.integrity
    return message.kind == stun.REQUEST and (message.method == BINDING or is_bare)


def faults(runs):
    left, answered, begun = {}, [], {}
    for call, step, _facts, _tickets in walk(runs[0]):
        if step.sent is not None and is_own(step.sent):
            left.setdefault(step.sent.id, call.time)
        for one in step.inputs:
            if one.message is not None and one.message.is_response() and one.message.id in left:
                answered.append(call.time)
        if call.name == "check" and call.answer[0] == "ticket":
            begun.setdefault(int(call.answer[1]), call.time)
        event = event_of(call)
        if event and event[0] == "checked":
            if event[2] == "yes" and not any(time >= begun[int(event[1])] for time in answered):
                yield call, f"check {event[1]} was answered, and no response to its requests came since"
            begun.pop(int(event[1]), None)
