"""`rests`: what was refused, or had no response in time, rests for 5 s if it is requested for data, and after each further such
outcome in a row twice as long, up to 80 s.

A grant ends the row. Judged are permissions of IP addresses for which nothing else is requested, since they would rest with that.
"""
from .seen import ASKS, event_of, ip_of, key_asked

FIRST, LAST = 5_000_000_000, 80_000_000_000


def faults(runs):
    refused, others = {}, set()
    for call in runs[0].calls:
        if call.name in ASKS and call.words[0] != "send" and call.words[1] != "permission":
            others.add(ip_of(key_asked(call)))
        event = event_of(call)
        if event and event[0] == "outcome":
            key, outcome = " ".join(event[2:4]), event[4]
            if outcome in ("refused", "timed-out"):
                count, _ = refused.get(key, (0, 0))
                refused[key] = count + 1, call.time
            elif outcome == "granted":
                refused.pop(key, None)
        if call.name in ASKS and call.answer[0] == "resting" and ip_of(key_asked(call)) not in others:
            key = key_asked(call)
            if key not in refused:
                yield call, f"{key} rests, though it was not refused"
                continue
            count, time = refused[key]
            wait = min(FIRST << min(count - 1, 10), LAST)
            if int(call.answer[1]) != time + wait:
                yield call, f"{key} rests until {call.answer[1]}, and not until {time + wait}: {count} refusals in a row"
