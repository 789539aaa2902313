"""`let_go`: a grant that the caller let go expires, and one that is kept is lost.

What is granted is kept until it is let go. A request keeps it again.
"""
from .seen import ASKS, event_of, key_asked


def faults(runs):
    released = set()
    for call in runs[0].calls:
        event = event_of(call)
        if call.name in ASKS and call.answer[0] != "send":
            released.discard(key_asked(call))
        elif call.name in ("keep", "release") and call.answer == ["ok"]:
            key = " ".join(call.words[1:3])
            released.add(key) if call.name == "release" else released.discard(key)
        elif event and event[0] in ("lost", "expired"):
            key = " ".join(event[1:3])
            if (event[0] == "expired") != (key in released):
                yield call, f"{key} was {'let go' if key in released else 'kept'}, and the event is {event[0]}"
            released.discard(key)
