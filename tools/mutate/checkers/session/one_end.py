"""`one_end`: the end has one cause, which is told to each later call.

`over` is the last event and comes once, with the cause of `ending` if that came before it; and whoever asks in between or
afterwards is answered with it. A session that is left ends as closed, unless it was ending before.
"""
from .seen import ASKS, event_of


def cause_in(call):
    """The cause that an answer tells, or none: whoever leaves has closed the session."""
    event = event_of(call)
    if call.name == "leave":
        return ["closed"]
    if event and event[0] in ("ending", "over"):
        return event[1:]
    return call.answer[1:] if call.name in (*ASKS, "check") and call.answer[0] == "ended" else None


def faults(runs):
    told, names = None, set()
    for call in runs[0].calls:
        event, cause = event_of(call), cause_in(call)
        if event and "over" in names:
            yield call, f"the event {' '.join(event)} comes behind `over`"
        if event and event[0] in ("ending", "over"):
            if event[0] in names:
                yield call, f"the event {event[0]} comes again"
            names.add(event[0])
        if cause is not None and told is not None and cause != told and call.name != "leave":
            yield call, f"it ends by {' '.join(cause)}, and told {' '.join(told)}"
        told = cause if told is None else told
