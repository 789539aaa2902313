"""Functions in sources of Rattle, and in what a proof or a check says of them."""
import re
from typing import Dict, List, NamedTuple, Optional

FUNCTION = re.compile(r"^( *)(?:pub(?:\([^)]*\))? +)?(?:const +)?fn +(\w+)")
IMPL = re.compile(r"^impl\b(?:<.*?>)? (?:.* for )?(?:\w+::)*(\w+)")
# What a proof file says of a name that the edit took away.
GONE = re.compile(r"^(\./)?proofs/.*(has no field|is not in scope|has no `|was not admitted)")
# A line that does not go on with the one before.
BEGINS = re.compile(r"(\./)?(proofs|src|specs)/\S+:\d|(note|error|warning|fn|logic)\b")


class Function(NamedTuple):
    """A function: its file, its type or nothing, its name, and its first and last line, counted from 1."""

    file: str
    kind: str
    name: str
    first: int
    last: int


def function_at(file: str, text: str, place: int) -> Optional[Function]:
    """The function around this place, or None outside of all."""
    lines = text.split("\n")
    at = text.count("\n", 0, place)
    for first in range(at, -1, -1):
        found = FUNCTION.match(lines[first])
        if not found:
            continue
        end = found[1] + "}"
        last = next((it for it in range(first, len(lines)) if lines[it] == end), len(lines))
        within = next((it for it in map(IMPL.match, lines[first::-1]) if it), None) if found[1] else None
        return Function(file, within[1] if within else "", found[2], first + 1, last + 1) if at <= last else None
    return None


def module_of(file: str) -> List[str]:
    parts = file.removeprefix("src/").removesuffix(".rt").removesuffix(".rs").split("/")
    return [it for it in parts if it not in ("lib", "main", "mod")]


class Check:
    """What one check of a crate said of each function."""

    def __init__(self, name: str, out: str, status: int) -> None:
        self.name, self.lines = name, out.split("\n")
        self.is_judged = any(it.startswith("logic=") for it in self.lines)
        self.is_proved = status == 0 and self.is_judged
        self.said: Dict[str, str] = {}
        for line in self.lines:
            found = re.match(r"fn (\S+): (.*)", line)
            if found:
                self.said[found[1]] = found[2]

    def own(self, function: Function) -> Dict[str, str]:
        """What is said of the function and of the closures in it, by name. A method stands at its type, wherever that is."""
        at = rf"(\w+::)*?(fn::)?\w*{function.kind}\w*" if function.kind else "::".join(module_of(function.file)) + "(::fn)?"
        pattern = re.compile(rf"{self.name}::{at}::{function.name}(::.*)?$".replace("::::", "::").replace(":::", "::"))
        return {key: said for key, said in self.said.items() if pattern.match(key)}

    def notes(self, function: Function) -> List[str]:
        """The errors in proofs of the function, and the notes at its lines."""
        at = rf"(\w+/)*?(fn/)?\w*{function.kind}\w*/" if function.kind else "/".join([*module_of(function.file), "(fn/)?"])
        inside = re.compile(rf"(\./)?proofs/{at}{function.name}/\S*?:\d+:\d+: error")
        found = []
        for number, line in enumerate(self.lines):
            if inside.match(line):
                # A sentence may be broken anywhere, and the next line ends it.
                more = self.lines[number + 1].strip() if number + 1 < len(self.lines) else ""
                found.append(line if BEGINS.match(more) else f"{line} {more}".rstrip())
            note = re.match(rf"note: {re.escape(function.file)}:(\d+):", line)
            if note and function.first <= int(note[1]) <= function.last:
                found.append(line)
        return found
