"""The page: a table of each crate's functions, and of the wrong bodies that show what their contracts say."""
import re

from edits import BadEdit, edits_of, machine_counts, plants_of
from rattle import Crate, crates, sentence

# crates that test others: their functions have contracts for the sake of a proof, and promise nothing
TESTS = re.compile(r"tests_\w+|\w+_tests|turn_(scenarios|guide|refusals|hostile|hostile_net)")

# the clauses of `replay` that every wrong body breaks
ALWAYS = ("replies", "client")

# what stands around the definition that a clause of `replay` is about
AROUND = {"AfterEach", "InEachPart", "initial", "state_of"}

# a clause without a name is shown up to this length, and a longer one by the definitions that it names
SHORT = 60

HEAD = """# Promises

What is proved of each function, and the wrong bodies that show it. `tools/draw/promises --page` makes this page from the contracts,
the first sentences of doc comments, and the lines `promise` of edits. `docs/GUARANTEES.md` has the promises of whole runs, and says
what the others mean together, and what they do not say.

Each row has a function by the path by which its caller names it, with a link to its file. A caller that meets the clauses under
*requires* has those under *ensures*, for all inputs. They are shown by name. `answer` is about what a call returns and `after`
about the state that it leaves, `step` and `state` about both; `err` and `no_memory` are about the state after an error or a failed
memory allocation, and `free` tells when no memory is allocated. A clause without a name is shown as it is written, or, if it is
long, by the definitions in `specs/` that it names. A function whose body is empty is a law: its clauses hold of all values.

Besides, every call returns, whatever bytes are passed in: no index, sum or cast goes wrong. The same holds for functions that are
not listed: they are private, or have nothing to say beyond their type.

A wrong body is an edit of a function, which the contract of that function has to refuse. The gate tries those of `must-fail/`,
which are listed, and `tools/mutate/try-edits --by prover` those of `plants/`, which are counted.

The crates: {crates}.
"""


def cell(text):
    """The text of a table's cell."""
    return text.replace("|", "\\|")


def code(text):
    return f"`{cell(text)}`"


def link(text, file):
    return f"[{code(text)}](../{file})"


def row(*cells):
    return f"| {' | '.join(cells)} |"


def table(heads, rows):
    """The lines of a table, or none without rows."""
    return [row(*heads), "|" + "---|" * len(heads), *rows, ""] if rows else []


def imported(text):
    """The definitions of the repository that a file's clauses may name, with the file of each."""
    found = {}
    for crate, file, names in re.findall(r"^ghost use Rattle\.(turn_\w+)\.specs\.(\w+)\.\{([^}]*)\};", text, re.M):
        found.update({name.strip(): f"crates/{crate}/specs/{file}.antt" for name in names.split(",")})
    return found


def named_in(text, definitions):
    """The definitions that a clause names, in its order, without the types of its variables."""
    words = re.findall(r"[A-Za-z_][\w-]*", re.sub(r": [\w ]+\)", ")", text))
    return list(dict.fromkeys(it for it in words if it in definitions))


def told(clauses, is_premise, definitions):
    """How a cell tells the premises of a contract, or what it ensures."""
    said = []
    for it in clauses:
        names = named_in(it.text, definitions)
        if it.is_premise != is_premise:
            continue
        if it.name or len(it.text) <= SHORT or not names:
            said.append(code(it.name or it.text))
        else:
            said.append(f"by {', '.join(map(code, names[:3]))}")
    return ", ".join(said)


def is_listed(crate, function):
    """Whether the function has a row: a caller reaches it, or it is a law. A method of a trait has one where it says more of a
    type than the trait does."""
    if function.trait:
        return crate.is_reached(function) and any(it.name for it in function.clauses)
    is_law = function.last == function.end
    return function.is_public and bool(function.clauses) and (crate.is_reached(function) or is_law)


def function_rows(crate):
    """The rows of the crate's functions."""
    for module in crate.modules:
        names = imported(module.text)
        for it in filter(lambda it: is_listed(crate, it), module.functions):
            said = cell(sentence(it.doc)) or f"As {code(it.trait)} says."
            yield row(link(it.path, it.file), said, told(it.clauses, True, names), told(it.clauses, False, names))


def kept_rows(crate):
    """The rows of the types that keep an invariant."""
    for it in crate.types():
        if it.kept and id(it) in crate.paths:
            yield row(link(it.path, it.file), cell(sentence(it.doc)), code(it.kept))


def meetings(crate):
    """Which types meet the contracts of which traits: those of the crate, and those of other crates that it imports."""
    types = {it.name: it.path for it in crate.types() if id(it) in crate.paths}
    found = {}
    for module in crate.modules:
        imported = set(re.findall(r"\w+", " ".join(re.findall(r"^use (?!crate|std)[^;]+;", module.text, re.M))))
        for it in [it for it in module.meetings if it.name in types or (it.trait in types and it.name in imported)]:
            found.setdefault(it.trait, []).append(code(types.get(it.name, it.name)))
    return [f"- {code(trait)}: {', '.join(dict.fromkeys(names))}" for trait, names in sorted(found.items())]


def edit_row(crate, edit):
    """The row of a wrong body, with the functions whose contracts refuse it."""
    places = []
    for it in edit.functions:
        text = next(module.text for module in crate.modules if module.file == it.file)
        places.append(f"{link(it.path, it.file)}: {told(it.clauses, False, imported(text))}")
    clauses = f" ({', '.join(map(code, edit.clauses))} of `replay`)" if edit.clauses else ""
    return row(link(edit.name, edit.file), cell(edit.promise) + clauses, "; ".join(places) or "a constant")


def plants_line(count, edits):
    """How many wrong bodies are counted only."""
    more = "more " if edits else ""
    return [f"`plants/` has {count} {more}wrong {'body' if count == 1 else 'bodies'}.", ""] if count else []


def section(crate, edits, plants):
    """The lines of a crate."""
    lines = [f"## {code(crate.name)}", "", sentence(crate.doc), ""]
    lines += table(("function", "what it does", "requires", "ensures"), list(function_rows(crate)))
    kept = table(("type", "what it is", "invariant"), list(kept_rows(crate)))
    lines += ["Each value of these types keeps its invariant:", "", *kept] if kept else []
    met = meetings(crate)
    lines += ["These types meet the contracts of a trait:", "", *met, ""] if met else []
    lines += table(("wrong body", "promise", "refused by"), [edit_row(crate, it) for it in edits])
    return lines + plants_line(plants, edits)


def replay_in(made):
    """The function `replay`, and the text of its file."""
    for module in [module for crate in made for module in crate.modules]:
        for it in module.functions:
            if it.path == "replay":
                return it, module.text
    raise LookupError("there is no function replay")


def run_rows(root, made, edits):
    """The rows of the clauses of `replay`."""
    replay, text = replay_in(made)
    definitions, machines = imported(text), machine_counts(root)
    for it in [it for it in replay.clauses if not it.is_premise]:
        name = next(name for name in named_in(it.text, definitions) if name not in AROUND)
        shown = [link(edit.name, edit.file) for edit in edits if it.name in edit.clauses]
        if not shown and it.name not in ALWAYS:
            raise BadEdit(f"no edit shows the clause {it.name} of replay")
        yield row(code(it.name), link(name, definitions[name]), ", ".join(shown), str(machines.get(it.name, "")))


def shown_edits(root, made):
    """The edits of each crate's must-fail/, its plants with their count, and all of these that show a promise."""
    replay, _ = replay_in(made)
    promised = [it.name for it in replay.clauses if not it.is_premise]
    edits, plants = [edits_of(root, it, promised) for it in made], [plants_of(root, it, promised) for it in made]
    return edits, plants, [it for some in edits for it in some] + [it for _, some in plants for it in some]


def promising(root):
    """The crates that promise something, and the names of the others."""
    names = crates(root)
    return [Crate(root, it) for it in names if not TESTS.fullmatch(it)], [it for it in names if TESTS.fullmatch(it)]


def clauses(root):
    """The table of the clauses of `replay`."""
    made, _ = promising(root)
    _, _, shown = shown_edits(root, made)
    heads = ("clause", "definition", "wrong bodies", "wrong machines")
    return "\n".join(table(heads, list(run_rows(root, made, shown))))


def page(root):
    """The whole page."""
    made, others = promising(root)
    edits, plants, shown = shown_edits(root, made)
    list(run_rows(root, made, shown))
    lines = [HEAD.format(crates=", ".join(f"[{it.name}](#{it.name})" for it in made))]
    for crate, some, (count, _) in zip(made, edits, plants):
        lines += section(crate, some, count)
    return "\n".join(lines) + f"\nThe other crates test these, and promise nothing: {', '.join(map(code, others))}.\n"
