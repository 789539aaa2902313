"""`counted`: a signed reply is accepted once: then its request is no longer outstanding, and a second reply changes nothing.

A request that was answered is not retransmitted, and a copy of the reply is none of the client's (RFC 8489, sections 6.2.1 and
6.3.1). Once it may still be sent: the packet of a request waits in the queue while its retransmissions overtake it. Copies are
looked at once there is an allocation: before, a client takes note of a late reply, and does nothing by it.
"""
from collections import Counter

from .facts import walk


def faults(runs):
    is_allocated, accepted, again = False, set(), Counter()
    for call, facts in walk(runs[0]):
        step = facts.take(call)
        if call.name == "relayed":
            is_allocated = call.answer != ["list", "0"]
        if step.sent is not None:
            again[step.sent.id] += step.sent.id in accepted
            if again[step.sent.id] > 1:
                yield call, "a request is sent again and again that a signed reply had answered"
        if call.answer == ["handled"]:
            # a client that has ended ignores all, and one that has given the request up ignores its reply
            accepted |= {request.message.id for request, _ in step.replies}
        if is_allocated and step.copies and call.answer == ["handled"]:
            yield call, "a second signed reply to one request is accepted"
