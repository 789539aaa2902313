"""An edit: a file that takes something out of the sources, or puts a fault in, and says what has to see that."""
import pathlib
from typing import Dict, List, Tuple

TOP = pathlib.Path(__file__).resolve().parents[3]
WORDS = ("promise", "what", "seen", "unseen", "file", "old", "new")
# The texts of files before a change, or after it, by their paths from the top.
Texts = Dict[str, str]


class BadEdit(Exception):
    """Why an edit cannot be tried."""


class Edit:
    """What the lines of an edit say. Its files are named from its home: a crate, a package, or the top."""

    def __init__(self, path: str, home: str) -> None:
        self.path, self.home, self.label = path, home, path.removeprefix("crates/").removesuffix(".edit")
        self.promise = self.what = self.seen = self.unseen = ""
        self.pairs: List[Tuple[str, str, str]] = []
        self.fault = ""
        try:
            self._read()
        except BadEdit as error:
            self.fault = str(error)

    @property
    def name(self) -> str:
        return pathlib.PurePath(self.path).stem

    def _read(self) -> None:
        file, old = "", None
        for line in (TOP / self.path).read_text(encoding="utf-8").split("\n"):
            word, _, text = line.partition(": ") if ": " in line else (line.removesuffix(":"), "", "")
            if not line:
                continue
            if word not in WORDS:
                raise BadEdit(f"a line begins with none of {', '.join(WORDS)}: {line[:60]!r}")
            if word == "file":
                file = str(pathlib.PurePosixPath(self.home, text.strip()))
            elif word == "old":
                old = text
            elif word == "new":
                if not file or not old:
                    raise BadEdit("a 'new:' line has no 'file:' and 'old:' line before it")
                self.pairs.append((file, old, text))
                old = None
            elif getattr(self, word):
                raise BadEdit(f"it has two lines '{word}:'")
            else:
                setattr(self, word, text.strip())
        if not self.pairs or old is not None:
            raise BadEdit("its 'old:' and 'new:' lines are no pairs")
        if self.seen and self.unseen:
            raise BadEdit("it has both a 'seen:' and an 'unseen:' line")

    def texts(self, room: pathlib.Path) -> Tuple[Texts, Texts]:
        """The files that it changes, before and after. Each `old` text stands once in its file, or in what an earlier pair made."""
        if self.fault:
            raise BadEdit(self.fault)
        before: Texts = {}
        after: Texts = {}
        for file, old, new in self.pairs:
            if file not in after:
                try:
                    before[file] = after[file] = (room / file).read_text(encoding="utf-8")
                except OSError as error:
                    raise BadEdit(f"there is no file {file}") from error
            count = after[file].count(old)
            if count != 1:
                raise BadEdit(f"an 'old:' text is in {file} {count} times, and not once")
            after[file] = after[file].replace(old, new)
        if before == after:
            raise BadEdit("it changes nothing")
        return before, after


def put(room: pathlib.Path, texts: Texts) -> None:
    for file, text in texts.items():
        (room / file).write_text(text, encoding="utf-8")
