"""`alarm`: between a `poll` that had the caller wait and that time nothing is to be sent, nothing expires and no event comes.

Only calls that change nothing lie between. An allocation that is marked as expired is not listed, and not looked at here.
"""
from .facts import walk
from .lines import address_in, ip_in


def early(call, facts, until):
    """What expires before the time until which nothing was to be due."""
    if call.name == "relayed":
        return [word for word in call.answer[3::2] if facts.relayed.get(address_in(word), until) < until]
    if call.name == "permissions":
        return [word for word in call.answer[2:] if facts.permitted.get(ip_in(word), until) < until]
    return []


def faults(runs):
    until = None
    for call, facts in walk(runs[0]):
        facts.take(call)
        if call.name == "poll":
            until = call.wait()
            continue
        if until is None:
            continue
        if call.name in ("transmit", "event"):
            if call.time < until and call.answer != ["none"]:
                yield call, f"it answers {call.answer[0]}, and nothing was to be due before {until}"
                until = None
        elif call.is_look:
            for word in early(call, facts, until):
                yield call, f"{word} expires before {until}, until which nothing was to be due"
        elif call.name != "send":
            until = None
