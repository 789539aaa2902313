"""`once`: no cause is told twice.

Of each requested address family one event tells that it was allocated or that it failed. A permission or a channel is told as
created at most once for each accepted request that found none, and as failed at most once. A data connection is told as bound or
as failed at most once for each accepted `connect`, and for each attempt of the server (RFC 6062, section 4.4).
"""
from collections import Counter

from . import stun
from .facts import walk
from .lines import address_in, ip_in

KINDS = {"permitted": "permission", "permit-failed": "permission", "bound": "channel", "bind-failed": "channel"}


def told(call):
    """What is counted, and what allows it: of a data connection both events are one answer, and so they are of a family."""
    name, about = call.answer[0], call.answer[-1]
    if name == "allocated":
        return ("family", str(address_in(about)[0].version)), None
    if name == "allocate-failed":
        return ("family", about), None
    if name in ("connected", "connect-failed"):
        return ("connection", address_in(about)), ("connection", address_in(about))
    one = ip_in(about) if KINDS[name] == "permission" else address_in(about)
    return (name, one), (KINDS[name], one)


def requested(call, listed):
    """What an accepted request may be answered for. A binding requests a permission where none is listed."""
    if call.answer != ["ok"]:
        return []
    if call.name == "permit":
        return [("permission", ip_in(call.words[2]))]
    if call.name == "bind":
        peer = address_in(call.words[2])
        return [("channel", peer)] + ([("permission", peer[0])] if peer[0] not in listed else [])
    return [("connection", address_in(call.words[1]))] if call.name == "connect" else []


def attempted(step):
    """The peers of the attempts that came."""
    attempts = [one.message for one in step.inputs if one.message is not None and one.message.method == stun.CONNECTION_ATTEMPT]
    return [("connection", message.addresses(stun.PEER)[0]) for message in attempts if message.addresses(stun.PEER)]


def faults(runs):
    events, causes, listed = Counter(), Counter(), set()
    for call, facts in walk(runs[0]):
        step = facts.take(call)
        if call.name == "relayed":
            listed = set()
        elif call.name == "permissions":
            listed |= {ip_in(word) for word in call.answer[2:]}
        causes.update(requested(call, listed) + attempted(step))
        if call.name == "event" and call.answer != ["none"]:
            event, cause = told(call)
            events[event] += 1
            if events[event] > (1 if cause is None else causes[cause]):
                yield call, f"the event {' '.join(call.answer)} tells again what was told"
