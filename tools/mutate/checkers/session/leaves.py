"""`leaves`: leaving is over within its time, a setting.

From the call on nobody is told to wait longer, and a poll at that time or later says that the session is closed. Whoever has left
once, or is told that it is ending, leaves by that time too.
"""
from .seen import event_of


def faults(runs):
    run, until = runs[0], None
    wait = run.settings[3]
    for call in run.calls:
        if call.name == "poll" and until is not None and call.answer[0] != "closed":
            if call.time >= until:
                yield call, f"leaving was to be over at {until}"
            elif call.answer[0] == "wait" and int(call.answer[1]) > until:
                yield call, f"the wait is until {call.answer[1]}, and leaving is over at {until}"
        event = event_of(call)
        if until is None and (call.name == "leave" and call.answer == ["ok"] or event and event[0] == "ending"):
            until = call.time + wait
