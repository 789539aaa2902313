"""`queued`: at most eight requests of the caller are queued in the client, and have not left.

So what the client makes again, since the server has challenged it, leaves behind at most eight requests for what was not requested
before.
"""
from .. import stun
from .seen import keys_of, walk

MOST = 8


def purpose(message):
    return message.method, tuple(keys_of(message))


def faults(runs):
    left, behind, last = set(), {}, {}
    for call, step, _facts, tickets in walk(runs[0]):
        message = step.sent
        if message is not None and message.kind == stun.REQUEST and message.integrity and message.method != stun.CONNECTION_BIND:
            this = purpose(message)
            behind.pop(this, None)
            for waiting, others in behind.items():
                if this not in left and any(key in tickets.waiting for key in this[1]):
                    others.add(this)
                if len(others) > MOST:
                    yield call, f"{len(others)} requests leave for the first time, and {waiting} was challenged before"
            left.add(this)
            last[this] = message.id
        for request, _message, _one in step.challenges:
            this = purpose(request.message)
            if last.get(this) == request.message.id and call.answer[0] == "handled":
                behind.setdefault(this, set())
