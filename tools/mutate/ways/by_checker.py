"""Shows that the checker of a clause sees the wrong machines that are meant for it, in the lines of drawn runs.

A wrong machine is an edit of a definition in specs/, which is there for the reader and is not proved, and the same of the code.
turn_hostile is built with it, unproved, by `rt try`; of sessions it is turn_session_live, whose runs are drawn by
tools/mutate/drawn. The machine as it stands has to pass all checkers, over the programs that `rt ci` left if they are there; a
wrong one has to be seen, and not to be by a checker that accepts all.
"""
import concurrent.futures
import contextlib
import importlib
import pathlib
import subprocess
import tempfile
from typing import Any, Dict, Generator, Iterable, Iterator, List, Optional, Tuple

import checkers
import checkers.session
from checkers.lines import runs_in
from ways import session_runs
from ways.edit import TOP, BadEdit, Edit, put
from ways.rooms import files_here

MACHINES = "tools/mutate/machines"
RIGHT = "right"
# What the clauses of sessions begin with.
SESSION = "session."
PROGRAM = TOP / "crates/turn_hostile/out/turn_hostile"
SESSIONS = TOP / session_runs.CRATE / "out/turn_session_live"
# A run that is made unproved may take long where other work is under way.
SECONDS = "600"
# The runs of this seed and greater ones have requests that are timed from their first copies.
FIRST_TIMED_FROM_SEND = 1_000

# A seed, and the lines of its run.
Text = Tuple[int, str]
Texts = Generator[Text, None, None]


def clauses() -> List[str]:
    return [*checkers.CLAUSES, *[f"{SESSION}{it}" for it in checkers.session.CLAUSES]]


class Right(Edit):
    """The machine as it stands, of clients or of sessions, which changes nothing."""

    def __init__(self, of: str) -> None:
        self.path = self.home = self.seen = self.unseen = self.fault = ""
        self.promise, self.label, self.pairs = of, f"{RIGHT} {of.rstrip('.')}".rstrip(), []


def is_of_sessions(machine: Edit) -> bool:
    return machine.promise.startswith(SESSION)


def machines() -> List[Edit]:
    """All wrong machines. Each edits a definition in specs/ and code in src/."""
    found = []
    for path in sorted((TOP / MACHINES).glob("*.edit")):
        edit = Edit(f"{MACHINES}/{path.name}", ".")
        kinds = {file.split("/")[2] for file, _, _ in edit.pairs}
        if not edit.fault and kinds != {"specs", "src"}:
            edit.fault = "it has to edit a definition in specs/ and code in src/"
        elif not edit.fault and edit.promise not in clauses():
            edit.fault = f"its line 'promise:' names no clause with a checker: {edit.promise}"
        found.append(edit)
    return found


class Accepts:
    """A checker without its test."""

    @staticmethod
    def faults(_runs: Any) -> Iterator[Any]:
        return iter(())


def copied(room: pathlib.Path) -> None:
    for file in files_here():
        if file.startswith("crates"):
            (room / file).parent.mkdir(parents=True, exist_ok=True)
            (room / file).write_bytes((TOP / file).read_bytes())
            (room / file).chmod((TOP / file).stat().st_mode)
    subprocess.run(["git", "init", "-q", str(room)], check=True)


def printed_by(program: pathlib.Path, seeds: Iterable[int]) -> Texts:
    """Yields each seed and the lines of its run, as a program prints them that is there."""
    for seed in seeds:
        yield seed, subprocess.run([str(program), "lines", str(seed)], stdout=subprocess.PIPE, check=True, text=True).stdout


def parts_of(lines: Iterable[str]) -> Iterator[Text]:
    """Yields the seed and the text of each part that begins with a line `== SEED`."""
    seed: Optional[int] = None
    text: List[str] = []
    for line in lines:
        if not line.startswith("== "):
            text.append(line)
            continue
        if seed is not None:
            yield seed, "".join(text)
        seed, text = int(line[3:]), []
    if seed is not None:
        yield seed, "".join(text)


def printed(room: pathlib.Path, seeds: List[int]) -> Texts:
    """Yields each seed and the lines of its run as soon as that has ended, as the program prints them that is built unproved. It
    is ended with this generator, so that nothing runs which nobody reads."""
    with tempfile.TemporaryDirectory(prefix="machine-cases-") as cases, tempfile.TemporaryFile("w+", errors="replace") as said:
        for seed in seeds:
            # The cases are run in the order of their names.
            pathlib.Path(cases, f"{seed:09}").write_bytes(b"")
            pathlib.Path(cases, f"{seed:09}.args").write_text(f"lines\n{seed}\n", encoding="utf-8")
        words = ["rt", "try", "--seconds", SECONDS, "--cases", cases]
        count = 0
        with subprocess.Popen(words, cwd=room / "crates/turn_hostile", stdout=subprocess.PIPE, stderr=said, text=True,
                              errors="replace") as ran:
            try:
                for count, it in enumerate(parts_of(ran.stdout or ()), 1):
                    yield it
                ran.wait()
            finally:
                ran.terminate()
        said.seek(0)
        lines = said.read().split("\n")
        if not any(it.startswith("cases=") for it in lines):
            raise BadEdit(f"it does not compile: {next((it for it in lines if 'error' in it), lines[-1])}")
        if count != len(seeds):
            raise BadEdit(f"only {count} of {len(seeds)} runs ended")


def first_fault(checker: Any, seed: int, runs: Any) -> Optional[str]:
    """What the checker sees first in the runs of a seed, or None."""
    for call, what in checker.faults(runs):
        return f"run {seed}, call {call.number}, at {call.time}: {what}"
    return None


def judge(machine: Edit, modules: Dict[str, Any], texts: Iterable[Text]) -> Tuple[bool, str, Optional[Text]]:
    """Whether these runs are as they have to be, what to print, and the last text that was read: the right machine has no fault,
    and a wrong one is seen by the checker of its clause. No text is read after a fault."""
    is_right = isinstance(machine, Right)
    judged = [it for it in modules if it.startswith(SESSION) == is_of_sessions(machine)]
    count, last = 0, None
    for seed, text in texts:
        count, last, runs = count + 1, (seed, text), runs_in(text)
        if not runs:
            raise BadEdit(f"run {seed} has no lines")
        for clause in judged if is_right else [machine.promise]:
            fault = first_fault(modules[clause], seed, runs)
            if fault and is_right:
                return False, f"NOT RIGHT for the checker of {clause}: {fault}", last
            if fault:
                return True, f"seen by the checker of {clause}: {fault}", last
    if is_right:
        return True, f"all checkers pass {count} runs", last
    return False, f"NOT SEEN by the checker of {machine.promise} in {count} runs", last


def seeds_for(machine: Edit, runs: int) -> List[int]:
    """The seeds of so many runs, of such as can show what the machine does wrong: of both kinds for the right machine."""
    timed = list(range(FIRST_TIMED_FROM_SEND, FIRST_TIMED_FROM_SEND + runs))
    if is_of_sessions(machine):
        return list(range(runs))
    if isinstance(machine, Right):
        return [*range(runs), *timed]
    return timed if machine.promise == "paced" else list(range(runs))


def tried(machine: Edit, modules: Dict[str, Any], runs: int) -> Tuple[bool, str, Optional[Text]]:
    seeds = seeds_for(machine, runs)
    if isinstance(machine, Right) and is_of_sessions(machine) and SESSIONS.exists():
        return judge(machine, modules, session_runs.texts(SESSIONS, seeds, True))
    if isinstance(machine, Right) and not is_of_sessions(machine) and PROGRAM.exists():
        return judge(machine, modules, printed_by(PROGRAM, seeds))
    with tempfile.TemporaryDirectory(prefix="machine-") as folder:
        room = pathlib.Path(folder)
        copied(room)
        if not isinstance(machine, Right):
            put(room, machine.texts(room)[1])
        if is_of_sessions(machine):
            with session_runs.built(room) as program:
                return judge(machine, modules, session_runs.texts(program, seeds, isinstance(machine, Right)))
        with contextlib.closing(printed(room, seeds)) as texts:
            return judge(machine, modules, texts)


def verdict(machine: Edit, modules: Dict[str, Any], runs: int) -> Tuple[bool, str]:
    """Whether the machine is as it has to be, and what to print. It must not count as seen where its checker accepts all."""
    try:
        is_well, said, last = tried(machine, modules, runs)
        if is_well and last is not None and not isinstance(machine, Right):
            if judge(machine, {**modules, machine.promise: Accepts}, [last])[0]:
                return False, f"SEEN WITHOUT A TEST: the checker of {machine.promise} was replaced by one that accepts all"
    except BadEdit as error:
        return False, f"BAD EDIT: {error}"
    return is_well, said


def try_all(edits: List[Edit], right: bool, jobs: int, runs: int, without: List[str]) -> Iterator[Tuple[Edit, bool, str]]:
    """Tries the machines, each on two processors and in up to 3 GB of memory, and yields what came of each as it ends."""
    modules: Dict[str, Any] = {it: importlib.import_module(f"checkers.{it}") for it in clauses()}
    modules.update(dict.fromkeys(without, Accepts))
    with concurrent.futures.ThreadPoolExecutor(jobs) as pool:
        begun = {pool.submit(verdict, it, modules, runs): it for it in [Right(""), Right(SESSION)] * right + edits}
        for it in concurrent.futures.as_completed(begun):
            yield begun[it], *it.result()
