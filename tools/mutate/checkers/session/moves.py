"""`moves`: another mapped address is told as a move, and the same one is none.

The address is that of the allocation's response, of a check, or of the last move.
"""
from .seen import event_of


def faults(runs):
    mapped = "-"
    for call in runs[0].calls:
        event = event_of(call)
        if event and event[0] == "moved":
            if event[1] == mapped:
                yield call, f"{mapped} is told as a move, and was its address before"
            mapped = event[1]
        elif event and event[0] == "up":
            mapped = event[2]
