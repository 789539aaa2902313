"""Checkers of runs, a module for each clause: `faults(runs)` yields each call that breaks the clause, and how.

They are written from what the clauses say (docs/GUARANTEES.md) and from the RFCs, and know no code of the client. `runs` are
the runs that one seed printed: over TCP the second has the streams of the first in other pieces.
"""

CLAUSES = [
    "granted", "numbers", "bound", "offers", "given", "heard", "delivered", "counted", "challenges", "realm", "cuts", "order",
    "sent", "leaves", "sends", "lasts", "calm", "alarm", "ends", "events", "once", "processed", "paced", "tried",
]  # fmt: skip
