"""The wrong bodies of a crate: edits of its functions that their contracts have to refuse."""


class BadEdit(Exception):
    """Why an edit cannot stand on the page."""


class Edit:
    """An edit of must-fail/: the promise that it breaks, the clauses of `replay` that say so, and the functions that it changes."""

    def __init__(self, root, file, crate, promised):
        self.name, self.file = file.stem, str(file.relative_to(root))
        lines = file.read_text(encoding="utf-8").split("\n")
        word, _, said = lines[0].partition(": ")
        if word != "promise" or not said.strip():
            raise BadEdit(f"{self.file}: its first line is not 'promise: ..'")
        self.clauses, self.promise = self.parted(said.strip(), promised)
        self.functions = self.changed(lines, crate)

    def parted(self, said, promised):
        """The clauses of `replay` before the first colon, and the sentence behind it; none where other words stand there."""
        head, colon, rest = said.partition(": ")
        names = head.split(", ") if colon else []
        known = [it for it in names if it in promised]
        if known and known != names:
            raise BadEdit(f"{self.file}: not all of '{head}' are clauses of replay")
        return (names, rest) if known else ([], said)

    def changed(self, lines, crate):
        """The functions in which its texts stand. What an earlier pair has made stands in that one's function."""
        found, file = [], ""
        for line in lines:
            if line.startswith("file: "):
                file = f"crates/{crate.name}/{line[6:].strip()}"
            if not line.startswith("old: "):
                continue
            text = next((it.text for it in crate.modules if it.file == file), None)
            if text is None:
                raise BadEdit(f"{self.file}: there is no file {file}")
            if text.count(line[5:]) != 1:
                continue
            at = text.count("\n", 0, text.index(line[5:]))
            within = [it for it in crate.functions() if it.file == file and it.first <= at <= it.last]
            found += [it for it in within[-1:] if it not in found]
        return found


def edits_of(root, crate, promised):
    """The edits of a crate's must-fail/, by their names."""
    files = sorted((root / "crates" / crate.name / "must-fail").glob("*.edit"))
    return [Edit(root, file, crate, promised) for file in files]


def plants_of(root, crate, promised):
    """How many edits a crate's plants/ has, and those of them that show a clause of `replay`."""
    files = sorted((root / "crates" / crate.name / "plants").glob("*.edit"))
    shown = [it for it in files if it.read_text(encoding="utf-8").startswith("promise: ")]
    return len(files), [Edit(root, it, crate, promised) for it in shown]


def machine_counts(root):
    """How many wrong machines each clause of `replay` has."""
    counts = {}
    for file in sorted((root / "tools" / "mutate" / "machines").glob("*.edit")):
        for line in file.read_text(encoding="utf-8").split("\n"):
            if line.startswith("promise: "):
                counts[line[9:].strip()] = counts.get(line[9:].strip(), 0) + 1
    return counts
