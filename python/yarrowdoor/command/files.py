"""How many files this host lets the program open. An allocation takes three."""
from __future__ import annotations

import contextlib
import errno
import resource
from typing import Iterator

__all__ = ["about_files", "is_no_file", "more_files"]


@contextlib.contextmanager
def more_files() -> Iterator[None]:
    """Lets this program open as many files as its host allows."""
    soft, hard = resource.getrlimit(resource.RLIMIT_NOFILE)
    with contextlib.suppress(OSError, ValueError):
        resource.setrlimit(resource.RLIMIT_NOFILE, (hard, hard))
    try:
        yield
    finally:
        with contextlib.suppress(OSError, ValueError):
            resource.setrlimit(resource.RLIMIT_NOFILE, (soft, hard))


def is_no_file(error: OSError) -> bool:
    """Whether this host opens no further file."""
    return error.errno in (errno.EMFILE, errno.ENFILE)


def about_files() -> str:
    """The limit of this host."""
    return f"this host lets this program open {resource.getrlimit(resource.RLIMIT_NOFILE)[0]:,} files"
