"""Checkers of runs of sessions, a module for each promise: as those of clients, they know no code of the session.

They are written from what a session promises (crates/turn_session/src/lib.rt, crates/turn_session_lines/src/lib.rt) and from the
RFCs.
"""

CLAUSES = [
    "causes", "checks", "connects", "let_go", "leaves", "moves", "one_end", "outcomes", "pieces", "queued", "refusals", "rests",
    "shared", "sleeps",
]  # fmt: skip
