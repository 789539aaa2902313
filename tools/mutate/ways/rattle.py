"""Tests of the crates, unproved: those of a crate, a program's example, and the transcripts."""
import pathlib
import re
from typing import Dict, List, Optional

from ways.by_test import PASSED, Result
from ways.edit import TOP, BadEdit, Edit
from ways.rooms import Ran, run

# A test that is not proved may take minutes where other work is under way.
SECONDS = "900"
# The transcripts stand among the crates with tests, as one above the programs that answer them; so do those of sessions.
TRANSCRIPTS = "transcripts"
SESSIONS = "transcripts/session"
ANSWERED_BY = {TRANSCRIPTS: ["turn_replay", "turn_live"], SESSIONS: ["turn_session_live"]}
DOES_NOT_COMPILE = Result(False, False, "it does not compile")


def graph() -> Dict[str, List[str]]:
    """The crates that each crate of crates.txt stands on, by name."""
    below = {}
    for line in (TOP / "crates.txt").read_text(encoding="utf-8").splitlines():
        head, colon, rest = line.partition(":")
        if colon and not line.startswith("#"):
            below[head.split()[0]] = rest.split()
    return {name: [it for it in names if it in below] for name, names in below.items()}


def has_tests(name: str) -> bool:
    return any("#[test]" in it.read_text(encoding="utf-8") for it in (TOP / "crates" / name / "src").rglob("*") if it.is_file())


def is_program(name: str) -> bool:
    """Whether the crate is a program with an example."""
    return (TOP / "crates" / name / "src/main.rt").is_file() and (TOP / "crates" / name / "stdin").is_file()


def kind_of(test: str) -> str:
    """The folder of a transcript whose programs answer it, or nothing if the test is none."""
    if test.startswith(f"{SESSIONS}/"):
        return SESSIONS
    return test if test == SESSIONS else TRANSCRIPTS if test.split("/")[0] == TRANSCRIPTS else ""


def files_of(test: str) -> List[str]:
    """The transcript, or all of a kind."""
    if test not in ANSWERED_BY:
        return [test]
    every = [str(it.relative_to(TOP)) for it in sorted((TOP / TRANSCRIPTS).glob("*/*.txt")) if it.parent.name != "states"]
    return [it for it in every if kind_of(it) == test]


def failed(names: List[str]) -> Result:
    return Result(False, True, names[0]) if names else PASSED


class Rattle:
    """What may see an edit of a crate: the crates with tests that stand on it, and the transcripts."""

    def __init__(self) -> None:
        self.below = graph()
        self.tested = [it for it in self.below if has_tests(it) or is_program(it)]
        for folder, programs in ANSWERED_BY.items():
            if (TOP / folder).is_dir():
                self.below[folder] = programs
                self.tested.append(folder)

    def closure(self, name: str) -> "set[str]":
        """All that the crate stands on, and itself."""
        found: "set[str]" = set()
        waiting = [name]
        while waiting:
            at = waiting.pop()
            if at not in found:
                found.add(at)
                waiting += self.below[at]
        return found

    def above(self, name: str) -> List[str]:
        """The crates with tests that stand on the crate: those that name it first, and of these the one that stands on least."""
        found = [it for it in self.tested if name in self.closure(it)]
        return sorted(found, key=lambda it: (it != name and name not in self.below[it], len(self.closure(it))))

    def named(self, edit: Edit) -> List[str]:
        """The test that its file names, or all that may see it."""
        found = self.above(pathlib.PurePath(edit.home).name)
        if not edit.seen:
            return found
        is_transcript = kind_of(edit.seen) in found and (TOP / edit.seen).is_file()
        if is_transcript or edit.seen in found:
            return [edit.seen]
        raise BadEdit(f"its file names {edit.seen}, which is no transcript and has no tests above its crate")

    def together(self, tests: List[str]) -> List[List[str]]:
        """All transcripts run at once, since that compiles the programs once, and each crate by itself."""
        rows = [sorted(it for it in tests if kind_of(it) == kind) for kind in ANSWERED_BY]
        return [[it] for it in tests if not kind_of(it)] + [row for row in rows if row]

    def run(self, room: pathlib.Path, test: str, edit: Optional[Edit]) -> Result:
        if kind_of(test):
            found = failed_transcripts(room, [test])
            return DOES_NOT_COMPILE if found is None else failed(found)
        return example(room, test) if is_program(test) else tests_of(room, test)

    def run_all(self, room: pathlib.Path, tests: List[str]) -> Dict[str, Result]:
        if not kind_of(tests[0]):
            return {it: self.run(room, it, None) for it in tests}
        found = failed_transcripts(room, tests)
        if found is None:
            return dict.fromkeys(tests, DOES_NOT_COMPILE)
        return {it: failed([it] if it in found or kind_of(it) in found else []) for it in tests}


def ran(room: pathlib.Path, words: List[str], given: bytes = b"") -> Ran:
    found = run(room, words, given)
    if found.status is None or found.status < 0:
        raise OSError(f"{' '.join(words)} was ended by a signal, so nothing is told")
    return found


def failed_transcripts(room: pathlib.Path, tests: List[str]) -> Optional[List[str]]:
    """Which of these transcripts fail, which are of one kind; its name where that is not told, and None where a program does not
    compile."""
    found = ran(room, ["tools/check/transcripts", "--try", *[file for it in tests for file in files_of(it)]])
    if not re.search(r"^cases=\d", found.said, re.M):
        return None
    listed = re.findall(r"^(transcripts/\S+): (?!.*output=expected)", found.said, re.M)
    return listed or [kind_of(tests[0])] * (found.status != 0)


def tests_of(room: pathlib.Path, name: str) -> Result:
    """What comes of the tests of a crate. Where one fails, it is the one that was begun and did not end well."""
    found = ran(room / "crates" / name, ["rt", "try", "--test", "--seconds", SECONDS])
    if not re.search(r"^tests: \d", found.said, re.M):
        return DOES_NOT_COMPILE
    listed = re.findall(r"^test (\S+) \.\.\. (?!ok)", found.said, re.M)
    return failed([f"{name}: {listed[0] if listed else 'its tests'}"] * (found.status != 0))


def example(room: pathlib.Path, name: str) -> Result:
    """What comes of a program's example, also with each of its reads and writes cut short and failing."""
    folder = room / "crates" / name
    given = (folder / "stdin").read_bytes()
    found = ran(folder, ["rt", "try"], given)
    if "run=none" in found.said:
        return DOES_NOT_COMPILE
    if found.out != (folder / "stdout").read_bytes():
        return failed([f"{name}: its example"])
    for flag in ("--short-io", "--fail-io"):
        if ran(folder, ["rt", "try", flag, "1.."], given).status:
            return failed([f"{name}: its example, {flag}"])
    return PASSED
