"""Runs of sessions, which are drawn call by call from the answers to the calls before.

`rt try` gives a program its whole input at once, so the program that it has built is copied, while it answers a long input, and
then answers line by line.
"""
import contextlib
import pathlib
import shutil
import subprocess
import tempfile
import time
from typing import Iterable, Iterator, Tuple

from drawn.caller import run_lines
from ways.edit import BadEdit

CRATE = "crates/turn_session_live"
HEAD = f"session udp 192.168.0.1:1000 10.0.0.2:2000 udp 4 sha1 auto 75736572 70617373 {'0' * 64}\n"
CALL, ANSWER = "0 event\n", "none\n"
# So many calls last until the program is copied, and so many steps and seconds may it take.
CALLS, STEPS, SECONDS = 400_000, "1000000000000", "600"


def answers(program: pathlib.Path) -> bool:
    """Whether this is the whole program, which answers a call."""
    try:
        said = subprocess.check_output([str(program)], input=HEAD + CALL, stderr=subprocess.DEVNULL, text=True, timeout=60)
    except (OSError, subprocess.SubprocessError):
        return False
    return said == ANSWER


def copied(folder: pathlib.Path, to: pathlib.Path) -> bool:
    """Whether a program has been built below this folder, and is copied."""
    for made in folder.rglob("program"):
        with contextlib.suppress(OSError):
            shutil.copy(made, to)
            if answers(to):
                return True
    return False


@contextlib.contextmanager
def built(room: pathlib.Path) -> Iterator[pathlib.Path]:
    """The program of this copy of the repository, built unproved, up to the end of the block."""
    with tempfile.TemporaryDirectory(prefix="session-program-") as folder:
        cases, made, program = [pathlib.Path(folder, it) for it in ("cases", "made", "turn_session_live")]
        cases.mkdir()
        made.mkdir()
        (cases / "0").write_text(HEAD + CALL * CALLS, encoding="utf-8")
        words = ["env", f"TMPDIR={made}", "rt", "try", "--steps", STEPS, "--seconds", SECONDS, "--cases", str(cases)]
        said = pathlib.Path(folder, "said")
        with said.open("wb") as out, subprocess.Popen(words, cwd=room / CRATE, stdout=out, stderr=out) as ran:
            while ran.poll() is None and not copied(made, program):
                time.sleep(0.5)
            ran.terminate()
        if not answers(program):
            lines = said.read_text(encoding="utf-8", errors="replace").split("\n")
            raise BadEdit(f"it does not compile: {next((it for it in lines if 'error' in it), lines[-1])[:300]}")
        yield program


def texts(program: pathlib.Path, seeds: Iterable[int], is_right: bool) -> Iterator[Tuple[int, str]]:
    """Yields each seed and the lines of its run, which comes to its end if the program is right."""
    for seed in seeds:
        text, stopped = run_lines(program, seed)
        if stopped and is_right:
            raise BadEdit(f"run {seed} stopped: {stopped}")
        yield seed, text
