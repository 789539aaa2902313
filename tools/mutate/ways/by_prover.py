"""Has provers refuse edits: Rattle's by the contract of the function that is changed, and Frama-C those of the header.

A refusal only because a proof file names what the edit took away does not count. Edits of different functions are tried in one
check, since each function is judged by itself.
"""
import os
import pathlib
import re
import shutil
import subprocess
import tempfile
from typing import Dict, Iterator, List, Optional, Set, Tuple

from ways.edit import TOP, BadEdit, Edit, put
from ways.functions import GONE, Check, Function, function_at
from ways.rooms import Rooms, applied, files_here, rooms, run

# An edit, whether it is refused as it has to be, and what to print.
Tried = Iterator[Tuple[Edit, bool, str]]
# Whether an edit is refused, and why, or None where a check does not tell.
Verdict = Optional[Tuple[bool, str]]
HELPERS = re.compile(r"^(?:YARROWDOOR_INLINE|static inline) [^;{]*?\b(\w+)\([^;{]*\)\n\{", re.M)


class Changed:
    """An edit with the functions in which it stands: None for what stands in none."""

    def __init__(self, edit: Edit) -> None:
        self.edit = edit
        before, _ = edit.texts(TOP)
        self.functions: Set[Optional[Function]] = set()
        for file, old, _ in edit.pairs:
            # A pair that stands on what an earlier one made is in that one's function.
            if before[file].count(old) == 1:
                inside = file.removeprefix(f"{edit.home}/")
                self.functions.add(function_at(inside, before[file], before[file].index(old)))


def judge(check: Check, changed: Changed, is_alone: bool) -> Verdict:
    """What a check says of an edit that was applied in it, alone or beside others."""
    if not check.is_judged:
        first = next((it for it in check.lines if "error" in it), check.lines[0] if check.lines else "")
        return (False, f"BAD EDIT: it did not reach the prover: {first[:200]}") if is_alone else None
    if None in changed.functions and not is_alone:
        return None
    own: Dict[str, str] = {}
    notes: List[str] = []
    for function in changed.functions:
        if function is not None:
            own.update(check.own(function))
            notes += check.notes(function)
    refused = [it for it in own.values() if it == "not proved" or it.startswith("no proof: expected") or "did not prove" in it]
    if refused:
        return reason(check, notes, refused)
    if not is_alone:
        return None
    if check.is_proved:
        return False, "NOT REFUSED: the crate is still proved with this edit"
    every = r"(\./)?proofs/\S+:\d+:\d+: error|note: src/\S+:\d+:\d+: it is not proved"
    return reason(check, [it for it in check.lines if re.match(every, it)],
                  [f"{key}: {said}" for key, said in check.said.items() if said != "proved"])


def reason(check: Check, notes: List[str], refused: List[str]) -> Tuple[bool, str]:
    bad = next((it for it in check.lines if re.match(r"(\./)?(src|specs)/\S+?: error", it)), "")
    if bad:
        return False, f"BAD EDIT: the prover cannot read it: {bad[:200]}"
    others = [it for it in notes if not GONE.match(it)]
    if notes and not others:
        return False, f"REFUSED BY A NAME that an answer lacks, which says little of the contract: {notes[0][:200]}"
    return True, f"refused: {(others or refused or [''])[0][:160]}"


class Kept:
    """A copy of the repository with what earlier checks of a crate kept."""

    def __init__(self, name: str, jobs: int, folder: str) -> None:
        self.name, self.jobs, self.room = name, jobs, pathlib.Path(folder)
        for file in files_here():
            (self.room / file).parent.mkdir(parents=True, exist_ok=True)
            shutil.copy2(TOP / file, self.room / file)
        for crate in os.listdir(TOP / "crates"):
            for part in ["rlib"] + ["incremental"] * (crate == name):
                kept, to = TOP / "crates" / crate / "out" / part, self.room / "crates" / crate / "out"
                if kept.is_dir() and to.parent.is_dir():
                    to.mkdir(parents=True, exist_ok=True)
                    subprocess.run(["cp", "-a", "--reflink=auto", str(kept), f"{to}/"], check=True)
        subprocess.run(["git", "init", "-q", folder], check=True)

    def check(self, some: List[Changed]) -> Tuple[Check, List[Changed]]:
        """Checks the crate with these edits, and returns what was said, and those that could be applied beside the others."""
        before: Dict[str, str] = {}
        done: List[Changed] = []
        for it in some:
            try:
                own, after = it.edit.texts(self.room)
            except BadEdit:
                continue
            before = {**own, **before}
            put(self.room, after)
            done.append(it)
        words = ["rt", "check", "--jobs", str(self.jobs)]
        found = subprocess.run(words, cwd=self.room / "crates" / self.name, stdin=subprocess.DEVNULL, stdout=subprocess.PIPE,
                               stderr=subprocess.STDOUT, check=False)
        put(self.room, before)
        if found.returncode < 0 or found.returncode > 128:
            raise SystemExit(f"try-edits: rt check was ended by a signal ({found.returncode}), so nothing more is told")
        return Check(self.name, found.stdout.decode(errors="replace").rstrip("\n"), found.returncode), done


def rounds_of(some: List[Changed]) -> List[List[Changed]]:
    """The edits in lists of which no two touch one function; what is in no function is alone."""
    rounds: List[List[Changed]] = []
    for edit in some:
        for row in rounds:
            if None not in edit.functions and not any(None in it.functions or it.functions & edit.functions for it in row):
                row.append(edit)
                break
        else:
            rounds.append([edit])
    return rounds


def try_crate(kept: Kept, waiting: List[Changed]) -> Tried:
    parts = 1
    while waiting:
        undecided = []
        for row in rounds_of(waiting):
            # What calls a function that is refused is not judged beside it: such a list is parted the next time.
            for these in [row[it::parts] for it in range(min(parts, len(row)))]:
                check, done = kept.check(these)
                for it in these:
                    verdict = judge(check, it, len(these) == 1) if it in done else None
                    if verdict is None:
                        undecided.append(it)
                    else:
                        yield it.edit, verdict[0], verdict[1]
        parts = parts * 2 if len(undecided) < len(waiting) else len(undecided)
        waiting = undecided


def try_rattle(edits: List[Edit], jobs: int) -> Tried:
    good = []
    for edit in edits:
        try:
            good.append(Changed(edit))
        except BadEdit as error:
            yield edit, False, f"BAD EDIT: {error}"
    for home in dict.fromkeys(it.edit.home for it in good):
        name = pathlib.PurePath(home).name
        with tempfile.TemporaryDirectory(prefix="edits-") as folder:
            kept = Kept(name, jobs, folder)
            if not kept.check([])[0].is_proved:
                raise SystemExit(f"try-edits: {name} is not proved without any edit")
            yield from try_crate(kept, [it for it in good if it.edit.home == home])


def refused_by_frama_c(room: pathlib.Path, edit: Edit) -> Tuple[bool, str]:
    """Tries a wrong header: of what calls the library, only the function that it changes is proved again."""
    try:
        before, _ = edit.texts(room)
        file, old, _ = edit.pairs[0]
        if not file.endswith("yarrowdoor.h"):
            return True, "unseen: Frama-C proves the header alone"
        names = HELPERS.findall(before[file][:before[file].index(old)])
        with applied(edit, room):
            found = run(room, ["tools/check/prove-header", "--only", names[-1] if names else "none"])
    except BadEdit as error:
        return False, f"BAD EDIT: {error}"
    said = re.search(r"^prove-header: FAILED: (.*)$", found.said, re.M)
    if found.status == 1 and said:
        return True, f"refused: {said[1]}"
    return False, f"NOT REFUSED: {found.said.strip()[-200:]}"


def try_header(copies: Rooms, edits: List[Edit]) -> Tried:
    for edit, tried in [(it, copies.start(refused_by_frama_c, it)) for it in edits]:
        is_refused, said = tried.result()
        yield edit, is_refused, said


def try_all(found: Dict[str, List[Edit]], jobs: int) -> Tried:
    """Tries the edits of the languages that have a prover."""
    yield from try_rattle(found.get("rattle", []), jobs)
    if found.get("header"):
        with rooms(jobs) as copies:
            yield from try_header(copies, found["header"])
