"""The tests of the package. With `YARROWDOOR_LOOP=uvloop` they run in the event loop of uvloop."""
import os

if os.environ.get("YARROWDOOR_LOOP") == "uvloop":
    import uvloop

    uvloop.install()
