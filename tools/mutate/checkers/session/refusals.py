"""`refusals`: a request is refused only by an error response that the client took, which is signed.

The response is to a request for the same, or for the permission of its peer, which a channel requests too, and has the same code.
"""
from .. import stun
from .seen import event_of, ip_of, keys_of, walk


def faults(runs):
    codes = set()
    for call, step, facts, _tickets in walk(runs[0]):
        for request, message in step.replies:
            if message.kind == stun.ERROR:
                code = str(message.code() or "none")
                codes.update((key, code) for key in bound(request.message, facts))
                if request.message.method in (stun.CREATE_PERMISSION, stun.CHANNEL_BIND):
                    codes.update((ip_of(key), code) for key in keys_of(request.message))
        event = event_of(call)
        if event and event[0] == "outcome" and event[4] == "refused":
            key = " ".join(event[2:4])
            if not {(key, event[5]), (ip_of(key), event[5])} & codes:
                yield call, f"{key} was refused with {event[5]}, which no signed response to its requests says"
            if event[6] != "taken":
                yield call, f"{key} was refused by a response that the client did not take"


def bound(message, facts):
    """What a request is for: that of a data connection's binding is for the peer of any that was asked for."""
    if message.method == stun.CONNECTION_BIND:
        return [key for it in facts.requests.values() if it.message.method == stun.CONNECT for key in keys_of(it.message)]
    return keys_of(message)
