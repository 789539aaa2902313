"""`shared`: what is requested has one ticket at a time.

Whoever requests what is requested already gets the ticket of that request, until its outcome. Another ticket is a new number.
"""
from .seen import ASKS, Tickets, key_asked


def faults(runs):
    tickets, highest = Tickets(), 0
    for call in runs[0].calls:
        if call.name in ASKS and call.answer[0] == "ticket":
            number, waiting = int(call.answer[1]), tickets.waiting.get(key_asked(call))
            if waiting is not None and number != waiting:
                yield call, f"{key_asked(call)} waits by ticket {waiting}, and has ticket {number} too"
            if waiting is None and number <= highest:
                yield call, f"ticket {number} was given before"
            highest = max(highest, number)
        tickets.take(call)
