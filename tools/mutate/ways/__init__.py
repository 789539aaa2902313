"""How edits are judged: refused by a prover, seen by a test, or seen by the checker of a clause."""
