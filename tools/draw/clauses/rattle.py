"""What a crate's source says: its functions with their contracts, and its types with what they keep."""
import re
from dataclasses import dataclass, field

FUNCTION = re.compile(r'^( *)(pub(?:\([^)]*\))? )?(?:const |unsafe |extern "C" )*fn (\w+)')
TYPE = re.compile(r"^pub (?:struct|enum|trait|type) (\w+)")
BLOCK = re.compile(r"^(?:pub )?(?:unsafe )?(impl|trait)\b(?:<(?:[^<>]|<[^<>]*>)*>)? (?:(\S.*) for )?(?:\w+::)*(\w+)")
USE = re.compile(r"^pub use ([^;]+);", re.M)
MODULE = re.compile(r"^(pub(?:\([^)]*\))? )?mod (\w+);", re.M)
CLAUSE = re.compile(r"^\s*(requires|ensures)\*?(?: (\w+))? \{")
KEPT = re.compile(r"^    ghost invariant = \{(.*?)\};$", re.M | re.S)


@dataclass
class Clause:
    """One fact of a contract."""

    is_premise: bool
    name: str
    text: str


@dataclass
class Function:
    """A function with its contract: its first line, the one that ends its contract, and its last. `owner` is the type or the
    trait that it belongs to, and `trait` the one by which a type has it."""

    name: str
    owner: str
    trait: str
    is_public: bool
    first: int
    end: int
    last: int
    doc: str
    clauses: list = field(default_factory=list)
    file: str = ""
    path: str = ""


@dataclass
class Type:
    """A type with the text of its invariant, if it has one."""

    name: str
    doc: str
    kept: str = ""
    file: str = ""
    path: str = ""


@dataclass
class Meeting:
    """A trait whose contracts a type meets by values of its own."""

    trait: str
    name: str


def sentence(doc):
    """The first sentence of a comment, on one line, with the names that it links to."""
    doc = re.split(r"\n\s*\n", doc.strip())[0]
    doc = re.sub(r"\s+", " ", doc)
    doc = re.sub(r"\[(`[^`]+`)\](?:\([^)]*\))?", r"\1", doc)
    found = re.match(r"(.*?[^.][.!?])(?= [A-Z`(]|$)", doc)
    return found.group(1) if found else doc.rstrip(":")


def doc_before(lines, at):
    """The doc comment that ends above this line."""
    doc = []
    while at > 0 and lines[at - 1].strip():
        at -= 1
        line = lines[at].strip()
        if line.startswith("///"):
            doc.insert(0, line[3:].strip())
        elif line.endswith(("{", "}", ";")) and not line.startswith("//"):
            break
    return "\n".join(doc)


def closing(text, start):
    """Where the brace closes that opens before this place."""
    depth = 1
    for at in range(start, len(text)):
        depth += (text[at] == "{") - (text[at] == "}")
        if not depth:
            return at
    return len(text)


def clauses_in(lines):
    """The clauses of a contract, whose lines begin with its function."""
    found, at = [], 1
    while at < len(lines):
        head = CLAUSE.match(lines[at])
        if head:
            text = "\n".join(lines[at:])
            inner = text[head.end() : closing(text, head.end())]
            found.append(Clause(head[1] == "requires", head[2] or "", re.sub(r"\s+", " ", inner).strip()))
        at += 1
    return found


def head_end(lines, at, indent):
    """The first line of a function's body, or the one that ends a method without one."""
    depth = 0
    for end in range(at, len(lines)):
        line = lines[end]
        if not depth and (line in (f"{indent}{{", f"{indent}{{}}") or line.endswith((" {", " {}")) and not CLAUSE.match(line)):
            return end
        depth += 0 if line.lstrip().startswith("//") else line.count("{") - line.count("}")
        if not depth and line.endswith(";"):
            return end
    return len(lines) - 1


def functions_in(lines):
    """The functions of a file, and the impl or trait block of each. A method without a doc comment has that of its block."""
    block, block_doc, found = None, "", []
    for at, line in enumerate(lines):
        if line == "}":
            block = None
        if BLOCK.match(line):
            block, block_doc = BLOCK.match(line), doc_before(lines, at)
        head = FUNCTION.match(line)
        if not head or len(head[1]) > 4:
            continue
        end = head_end(lines, at, head[1])
        is_bodiless = lines[end].endswith((";", "{}"))
        last = end if is_bodiless else next((it for it in range(end, len(lines)) if lines[it] == f"{head[1]}}}"), end)
        owner, trait = (block[3], re.sub("<.*", "", block[2] or "")) if head[1] and block else ("", "")
        doc = doc_before(lines, at) or (block_doc if trait else "")
        is_public = head[2] == "pub " or bool(head[1] and block and block[1] == "trait" and block[0].startswith("pub"))
        found.append(Function(head[3], owner, trait, is_public, at, end, last, doc, clauses_in(lines[at : end + 1])))
    return found


def types_in(text, lines):
    """The public types of a file, with the invariants that their models state."""
    kept = {}
    for head in re.finditer(r"^impl\b.* Model for (?:\w+::)*(\w+).*$", text, re.M):
        end = text.find("\n}\n", head.end())
        found = KEPT.search(text, head.end(), end if end > 0 else len(text))
        if found:
            kept[head.group(1)] = re.sub(r"\s+", " ", found.group(1)).strip()
    heads = [(at, TYPE.match(line)) for at, line in enumerate(lines)]
    return [Type(head[1], doc_before(lines, at), kept.get(head[1], "")) for at, head in heads if head]


def meetings_in(text):
    """The traits that types meet, if their contracts speak of a value that the type names. `From` says nothing but that value."""
    for part in re.split(r"^(?=impl\b)", text, flags=re.M)[1:]:
        head = BLOCK.match(part)
        trait = re.sub("<.*", "", head[2] or "") if head else ""
        if trait not in ("", "Model", "From") and re.search(r"^    ghost (?!use\b|laws\b)\w+", part[: part.find("\n}")], re.M):
            yield Meeting(trait, head[3])


class Module:
    """A file of a crate, and the modules below it."""

    def __init__(self, path, folder, root):
        self.file = str(path.relative_to(root))
        self.text = path.read_text(encoding="utf-8")
        lines = self.text.split("\n")
        self.functions, self.types = functions_in(lines), types_in(self.text, lines)
        self.meetings = list(meetings_in(self.text))
        self.below = {}
        for is_public, name in MODULE.findall(self.text):
            file = folder / f"{name}.rt"
            if file.is_file():
                self.below[name] = (is_public == "pub ", Module(file, folder / name, root))
        for it in self.functions + self.types:
            it.file = self.file

    def used(self):
        """The paths of its `pub use` items."""
        return [names for tree in USE.findall(self.text) for names in leaves(tree)]

    def all(self):
        """This module and all below it."""
        yield self
        for _, module in self.below.values():
            yield from module.all()


def leaves(tree):
    """The paths of a `use`, as lists of names."""
    tree = tree.strip()
    head, brace, rest = tree.partition("{")
    if not brace:
        return [tree.split(" as ")[0].split("::")]
    before = [it for it in head.split("::") if it]
    parts, depth, start, rest = [], 0, 0, rest[: rest.rindex("}")]
    for at, sign in enumerate(rest + ","):
        depth += (sign == "{") - (sign == "}")
        if sign == "," and not depth:
            parts.append(rest[start:at])
            start = at + 1
    return [before + names for part in parts if part.strip() for names in leaves(part)]


class Crate:
    """A crate: what its root says of it, and all functions and types, each with the path by which a user names it."""

    def __init__(self, root, name):
        self.name, folder = name, root / "crates" / name / "src"
        file = next(it for it in (folder / "lib.rt", folder / "main.rt") if it.is_file())
        self.is_program = file.name == "main.rt"
        self.root = Module(file, folder, root)
        self.doc = "\n".join(re.findall(r"^//! ?(.*)$", self.root.text, re.M))
        self.paths = {}
        self.walk(self.root, [])
        self.modules = list(self.root.all())
        for module in self.modules:
            for it in module.types + module.functions:
                it.path = self.path_of(module, it)

    def note(self, item, path):
        """Keeps the shortest path of an item, not by a prelude if there is another."""
        known = self.paths.get(id(item))
        if known is None or ("prelude" in path, len(path), path) < ("prelude" in known, len(known), known):
            self.paths[id(item)] = path

    def walk(self, module, path):
        """Notes what a user reaches at this path."""
        for it in module.types + [it for it in module.functions if not it.owner]:
            self.note(it, path + [it.name])
        for name, (is_public, below) in module.below.items():
            if is_public or self.is_program:
                self.walk(below, path + [name])
        for names in module.used():
            for it in self.found(module, names):
                self.note(it, path + [it.name])

    def found(self, module, names):
        """The items that a path leads to from a module, also by the `pub use` of another one."""
        if names[0] == "crate":
            module, names = self.root, names[1:]
        for name in names[:-1]:
            if name not in module.below:
                return []
            module = module.below[name][1]
        own = [it for it in module.types + module.functions if it.name == names[-1] and not getattr(it, "owner", "")]
        others = [it for it in module.used() if it[-1] == names[-1] and it != names]
        return own or [it for other in others for it in self.found(module, other)]

    def path_of(self, module, item):
        """The path by which a user names an item, or the reader of the source one that is private."""
        owner = getattr(item, "owner", "")
        if owner:
            kind = next((it for it in self.types(owner) if id(it) in self.paths), None)
            return "::".join(self.paths[id(kind)] + [item.name]) if kind else f"{owner}::{item.name}"
        if id(item) in self.paths:
            return "::".join(self.paths[id(item)])
        return item.name

    def types(self, name=None):
        return [it for module in self.root.all() for it in module.types if name in (None, it.name)]

    def functions(self):
        return [it for module in self.modules for it in module.functions]

    def is_reached(self, function):
        """Whether a user of the crate can call the function."""
        if function.owner:
            return any(id(it) in self.paths for it in self.types(function.owner))
        return id(function) in self.paths


def crates(root):
    """The names of crates.txt, in its order."""
    text = (root / "crates.txt").read_text(encoding="utf-8")
    return re.findall(r"^([a-z]\w*)[^#:\n]*:", text, re.M)
