"""Shows that edits are wrong: a test passes without each, and fails with it."""
import pathlib
from concurrent.futures import Future
from typing import Dict, Iterator, List, NamedTuple, Protocol, Tuple

from ways.edit import BadEdit, Edit
from ways.rooms import Rooms, applied


class Result(NamedTuple):
    """What came of a test. One that did not come to a verdict, since it does not compile for one, is neither passed nor failed."""

    is_passed: bool
    is_failed: bool
    said: str


PASSED = Result(True, False, "passed")


class Tests(Protocol):
    """The tests of one language."""

    def named(self, edit: Edit) -> List[str]:
        """What may see the edit, nearest first: the test that its file names, or all that may. Raises BadEdit if there is none."""

    def together(self, tests: List[str]) -> List[List[str]]:
        """The tests in lists, each of which is run at once if no edit is applied."""

    def run(self, room: pathlib.Path, test: str, edit: "Edit | None") -> Result:
        """Runs a test in a copy to which this edit is applied, or none."""

    def run_all(self, room: pathlib.Path, tests: List[str]) -> Dict[str, Result]:
        """Runs the tests of one of these lists in a copy without any edit."""


class OneByOne:
    """Tests that are run one by one."""

    def together(self, tests: List[str]) -> List[List[str]]:
        return [[it] for it in tests]

    def run_all(self, room: pathlib.Path, tests: List[str]) -> Dict[str, Result]:
        return {it: self.run(room, it, None) for it in tests}

    def run(self, room: pathlib.Path, test: str, edit: "Edit | None") -> Result:
        raise NotImplementedError


class Verdict(NamedTuple):
    """Whether an edit is as it has to be, what to print, and the test that saw it."""

    is_well: bool
    said: str
    seer: str = ""


def try_edit(room: pathlib.Path, edit: Edit, tests: Tests) -> Verdict:
    """Runs what may see the edit, up to the first test that fails."""
    try:
        with applied(edit, room):
            if edit.unseen:
                return Verdict(True, f"unseen: {edit.unseen}")
            for test in tests.named(edit):
                result = tests.run(room, test, edit)
                if result.is_failed:
                    return Verdict(True, f"seen by {result.said}", test)
                if not result.is_passed:
                    return Verdict(False, f"BAD EDIT: {test} tells nothing of it: {result.said}")
    except (OSError, BadEdit) as error:
        return Verdict(False, f"BAD EDIT: {error}")
    return Verdict(False, f"NOT SEEN: {edit.seen or 'every test'} passes with it, and its file does not say why")


def without(room: pathlib.Path, tests: Tests, some: List[str]) -> Dict[str, Result]:
    """Runs tests without any edit. Those that fail, as on a busy machine they may, are run once more."""
    found = tests.run_all(room, some)
    again = [it for it in some if not found[it].is_passed]
    return {**found, **tests.run_all(room, again)} if again else found


def try_all(rooms: Rooms, edits: List[Edit], tests: Tests) -> Iterator[Tuple[Edit, bool, str]]:
    """Tries the edits side by side, and yields in their order what came of each."""
    named = list(dict.fromkeys(it.seen for it in edits if it.seen and not it.fault))
    rows = {test: row for row in tests.together(named) for test in row}
    unedited: Dict[str, "Future[Dict[str, Result]]"] = {}

    def start_without(test: str) -> None:
        if test not in unedited:
            row = rows.get(test, [test])
            unedited.update(dict.fromkeys(row, rooms.start(without, tests, row)))

    tries = []
    for edit in edits:
        if edit.seen and not edit.fault:
            start_without(edit.seen)
        tries.append(rooms.start(try_edit, edit, tests))
    for edit, tried in zip(edits, tries):
        verdict = tried.result()
        if verdict.seer:
            start_without(verdict.seer)
            bare = unedited[verdict.seer].result()[verdict.seer]
            if not bare.is_passed:
                verdict = Verdict(False, f"NOT SEEN: {verdict.seer} does not pass without any edit: {bare.said}")
        yield edit, verdict.is_well, verdict.said
