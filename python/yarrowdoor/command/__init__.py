"""The command `yarrowdoor`, also `python -m yarrowdoor`: what a TURN server does, and what is wrong with it, in sentences.

    yarrowdoor check turn:turn.example.org --user alice

It has its own sockets, and the client without I/O (`client.Client`) over them, so that it sees each message. `check` tries one
thing after the other, and `echo`, `bench` and `relay` use what it has found to work.
"""
