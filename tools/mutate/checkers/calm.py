"""`calm`: data of peers, in and out, makes nothing due before the time that the last `poll` told.

Between a `poll` that had the caller wait and that time only data is sent, and what is received is data or an ICMP report of a
peer; over TCP it came over a bound data connection (RFC 8656, sections 11 and 12; RFC 6062, section 4.3).
"""
from .facts import walk


def is_traffic(call, step, run):
    """Whether the call sends data, receives that of a peer, or looks."""
    if call.name != "recv":
        return call.is_look or call.name == "send"
    return call.answer[0] in ("data", "icmp") and (run.transport == "udp" or all(one.mode == "bound" for one in step.inputs))


def work_in(call):
    """What the caller is told to do, or is given."""
    if call.name == "poll":
        return None if call.wait() is not None else " ".join(call.answer)
    return call.answer[0] if call.name in ("transmit", "event") and call.answer != ["none"] else None


def faults(runs):
    run, since, until = runs[0], None, None
    for call, facts in walk(run):
        step = facts.take(call)
        work = work_in(call)
        if until is not None and since <= call.time < until and work is not None:
            yield call, f"it answers {work}, and nothing was to be due before {until}"
        if call.name == "poll":
            since, until = call.time, call.wait()
        elif until is not None and not is_traffic(call, step, run) and (call.name not in ("transmit", "event") or work is not None):
            until = None
