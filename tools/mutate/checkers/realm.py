"""`realm`: realm and algorithm are those of the first challenge that was answered, and are held from then on.

They are read off the requests: the first that is signed names them, and each later one has the same REALM and is signed by the
same algorithm (RFC 8489, section 9.2.5).
"""
from . import stun
from .facts import walk


def faults(runs):
    first, challenged = None, set()
    for call, facts in walk(runs[0]):
        step = facts.take(call)
        challenged |= {message.first(stun.REALM) for _, message, _ in step.challenges}
        if step.sent is None or step.sent.kind != stun.REQUEST:
            continue
        terms = step.sent.first(stun.REALM), step.sent.integrity[0] if step.sent.integrity else None
        if first is None and terms == (None, None):
            continue
        if first is None:
            first = terms
            if first[0] not in challenged:
                yield call, "the realm is that of no challenge"
        elif terms != first:
            is_again = facts.requests[step.sent.id].time != call.time
            if not (terms == (None, None) and is_again):
                yield call, f"a request is signed under {terms}, and the first was under {first}"
