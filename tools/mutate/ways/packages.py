"""Tests of the header and of the packages, over the library in dist/, or in the folder YARROWDOOR_DIST."""
import os
import pathlib
import re
import sys
from typing import List, Optional

from ways.by_test import PASSED, OneByOne, Result
from ways.edit import TOP, BadEdit, Edit
from ways.rooms import run

DIST = pathlib.Path(os.environ.get("YARROWDOOR_DIST") or TOP / "dist").resolve()
SHARED, C_TESTS = "bench/shared", "include/tests"
UNITTEST = ("-m", "unittest")


def verdict(is_passed: bool, is_failed: bool, said: str) -> Result:
    return PASSED if is_passed else Result(False, is_failed, said)


def check_there(found: bool, edit: Edit) -> None:
    if not found:
        raise BadEdit(f"its file names {edit.seen or 'nothing'}, which is no test of {edit.home}")


class Header(OneByOne):
    """Programs in C over the header: one fails by its status, or as it is aborted."""

    def named(self, edit: Edit) -> List[str]:
        check_there(edit.seen.startswith(f"{C_TESTS}/") and edit.seen.endswith(".c") and (TOP / edit.seen).is_file(), edit)
        return [edit.seen]

    def run(self, room: pathlib.Path, test: str, edit: Optional[Edit]) -> Result:
        library = [f"{DIST}/libyarrowdoor.a"]
        if test.endswith("/secrets.c"):
            library = self.erasing(room)
        words = ["cc", "-std=c99", "-I", "include", "-I", SHARED, test, f"{SHARED}/sha1.c", *library, "-o", "library-test"]
        built = run(room, words)
        if built.status != 0:
            return Result(False, False, f"it does not compile: {built.said.strip()[-200:]}")
        status = run(room, ["./library-test"], seconds=600).status
        return verdict(status == 0, status != 0, test)

    @staticmethod
    def erasing(room: pathlib.Path) -> List[str]:
        """The library with the file erase.c of this copy: its own functions of that file are made weak."""
        run(room, ["ar", "x", f"{DIST}/libyarrowdoor.a", "yarrowdoor.o"])
        for change in ("--globalize-symbol=erasing_*", "--weaken-symbol=erasing_*"):
            run(room, ["objcopy", "--wildcard", change, "yarrowdoor.o"])
        run(room, ["cc", "-std=c99", "-O2", "-c", "include/erase.c", "-o", "erase.o"])
        return ["erase.o", "yarrowdoor.o", "-Wl,--wrap=malloc,--wrap=realloc,--wrap=free"]


class Rust(OneByOne):
    """Tests of the package for Rust: `rust/tests/FILE.rs::TEST`."""

    def named(self, edit: Edit) -> List[str]:
        file, _, test = edit.seen.partition("::")
        is_there = re.fullmatch(r"rust/tests/\w+\.rs", file) and (TOP / file).is_file()
        check_there(bool(is_there) and f"fn {test}(" in (TOP / file).read_text(encoding="utf-8"), edit)
        return [edit.seen]

    def run(self, room: pathlib.Path, test: str, edit: Optional[Edit]) -> Result:
        file, _, name = test.partition("::")
        how = ["--offline", "--jobs", "1", "--target-dir", "rust/target", "--manifest-path", "rust/Cargo.toml"]
        words = ["cargo", "test", *how, "--test", pathlib.PurePath(file).stem, "--", "--exact", name]
        found = run(room, words, env={"YARROWDOOR_DIST": str(DIST)})
        began = re.search(r"^running 1 test$", found.said, re.M) is not None
        return verdict(began and found.status == 0, began and found.status != 0, test if began else "it does not compile")


def has_method(folder: pathlib.Path, name: str) -> bool:
    """Whether the folder has this test of unittest: `MODULE.CLASS.TEST`."""
    found = re.fullmatch(r"(\w+)\.(\w+)\.(\w+)", name)
    file = folder / f"{found[1]}.py" if found else folder
    pattern = rf"(?s)\nclass {found[2]}\(.*\n    (async )?def {found[3]}\(self\)" if found else ""
    return file.is_file() and re.search(pattern, file.read_text(encoding="utf-8")) is not None


class Python(OneByOne):
    """Tests of the package for Python: `tests.MODULE.CLASS.TEST`."""

    def named(self, edit: Edit) -> List[str]:
        check_there(edit.seen.startswith("tests.") and has_method(TOP / "python/tests", edit.seen[len("tests."):]), edit)
        return [edit.seen]

    def run(self, room: pathlib.Path, test: str, edit: Optional[Edit]) -> Result:
        env = {"YARROWDOOR_LIB": os.environ.get("YARROWDOOR_LIB") or f"{DIST}/libyarrowdoor.so.0", "PYTHONPATH": ""}
        found = run(room / "python", [sys.executable, "-B", *UNITTEST, test], env=env, seconds=600)
        # What a test leaves behind may be printed after its summary.
        summary = [it for it in found.said.splitlines() if re.match(r"(OK|FAILED)( \(|$)", it)][-1:] or ["no summary"]
        return verdict((found.status, summary) == (0, ["OK"]), summary[0].startswith("FAILED"), f"{test}: {summary[0]}")


class JavaScript(OneByOne):
    """Tests of the package for JavaScript: `test/FILE.js::NAME`. Where an edit changes js/wasm, the modules are linked again."""

    def __init__(self) -> None:
        self.wasm = pathlib.Path(os.environ.get("YARROWDOOR_WASM") or DIST / "wasm")

    def named(self, edit: Edit) -> List[str]:
        file, _, name = edit.seen.partition("::")
        path = TOP / "js" / file
        is_there = file.startswith("test/") and path.is_file()
        check_there(is_there and any(it.fullmatch(name) for it in self.names_in(path.read_text(encoding="utf-8"))), edit)
        return [edit.seen]

    @staticmethod
    def names_in(text: str) -> List["re.Pattern[str]"]:
        """What names of tests match, as the text of a test has them: anything stands for what is computed in one."""
        found = re.findall(r"""\btest\(\s*(?:"([^"\n]*)"|`([^`\n]*)`)""", text)
        pieces = [re.split(r"\$\{[^}]*\}", plain or computed) for plain, computed in found]
        return [re.compile(".+".join(map(re.escape, it))) for it in pieces]

    def run(self, room: pathlib.Path, test: str, edit: Optional[Edit]) -> Result:
        file, _, name = test.partition("::")
        wasm = self.wasm
        if edit is not None and any(it.startswith("js/wasm/") for it, _, _ in edit.pairs):
            wasm = self.linked(room)
        pattern = re.sub(r"[.*+?^${}()|\[\]\\/]", r"\\\g<0>", name)
        words = ["node", "--test", f"--test-name-pattern={pattern}", file]
        found = run(room / "js", words, env={"YARROWDOOR_WASM": str(wasm)}, seconds=120)
        count = re.search(r"^# pass (\d+)$", found.said, re.M)
        return verdict(found.status == 0 and count is not None and int(count[1]) > 0, found.status != 0,
                       test if found.status != 0 else f"{test}: no test has run")

    def linked(self, room: pathlib.Path) -> pathlib.Path:
        wasm = room / "dist/wasm"
        wasm.mkdir(parents=True, exist_ok=True)
        for file in self.wasm.iterdir():
            (wasm / file.name).write_bytes(file.read_bytes())
        found = run(room, ["tools/build/library-wasm", "--link"], env={"YARROWDOOR_WASM": str(wasm)})
        if found.status != 0:
            raise OSError(f"the modules are not linked: {found.said.strip()[-200:]}")
        return wasm


class Page(OneByOne):
    """Tests of the page, as tools/check/test-web takes them. One fails by an assertion."""

    def named(self, edit: Edit) -> List[str]:
        check_there(has_method(TOP / "web/test", edit.seen), edit)
        return [edit.seen]

    def run(self, room: pathlib.Path, test: str, edit: Optional[Edit]) -> Result:
        env = {"YARROWDOOR_WASM": os.environ.get("YARROWDOOR_WASM") or str(DIST / "wasm")}
        found = run(room, ["tools/check/test-web", test], env=env)
        said = re.findall(r"^AssertionError.*", found.said, re.M)
        passed = found.status == 0 and re.search(r"^Ran [1-9]", found.said, re.M) is not None
        return verdict(passed, found.status == 1 and bool(said), f"{test}: {said[0][:160] if said else found.said.strip()[-200:]}")
