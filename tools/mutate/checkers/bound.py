"""`bound`: a data connection is bound by the signed success to the CONNECTION_BIND that was sent over it for its peer.

That it is bound is read off the packets of `send`, the data that is delivered over it and the event `connected` (RFC 6062,
section 4.3).
"""
from .facts import walk
from .lines import address_in


def used(call, run):
    """The local address and the peer of a data connection that serves in this call."""
    if call.name == "send" and call.words[1] == "tcp" and call.answer[0] == "send":
        return address_in(call.answer[2]), address_in(call.words[2])
    if call.name == "recv" and call.answer[0] == "data" and address_in(call.words[3]) != run.local:
        return address_in(call.words[3]), address_in(call.answer[2])
    return None


def faults(runs):
    run = runs[0]
    for call, facts in walk(run):
        step = facts.take(call)
        connection = used(call, run)
        if connection and step.before.bound.get(connection[0]) != connection[1]:
            yield call, f"the connection from {connection[0]} serves {connection[1]} without its success"
        if call.name == "event" and call.answer[0] == "connected" and address_in(call.answer[1]) not in facts.bound.values():
            yield call, f"{call.answer[1]} is told as connected without a success"
