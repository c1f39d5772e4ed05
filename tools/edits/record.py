"""The table of docs/EDITS.md: for each pair the goal that stays open, and the sum of the sources that it was tried on."""
import hashlib
import re
from typing import NamedTuple

from rt_texts import without_comments

BEGIN = "<!-- the pairs, by `tools/each-edit --write` -->"
END = "<!-- the end of the pairs -->"
HEAD = "| Pair | Goal that stays open | Sum |\n|---|---|---|\n"
ROW = re.compile(r"(?m)^\| `(\w+)` \| `(.+)` \| `([0-9a-f]+)` \|$")
# A module that only tests have.
OF_TESTS = re.compile(r"#\[cfg\(test\)\]\s*(?:pub(?:\([^)]*\))?\s+)?mod\s+(\w+)\s*;")
# The derives of a type. `Debug` prints, and no clause speaks of it.
DERIVES = re.compile(r"#\[derive\(([^)]*)\)\]\s*")
# An import of definitions or lemmas: its words, and what it names of one module or of some. Its names count in a sum, and not the crate and
# the module that have them.
IMPORT = re.compile(r"(?m)^[ \t]*((?:\w+ )*use) Rattle\.(?:[^\s;{]*\.\{([^}]*)\}|([^\s;{]+(?: as \w+)?));?$")
# The last word of a path, with the type before it where the word is that of any type's variants.
NAME = re.compile(r"(?:\w+\.)?TheVariants\b.*|[^.]+$")
# The same in an attribute of code, and a list of a crate's modules.
USING = re.compile(r"\b\w+::(?:proofs|specs)::(?:\w+::)*")
MODULE = re.compile(r"(?m)^(?:pub )?mod \w+$")
# The files in a function's own folder that answer its goals. The folder of a cycle of calls begins with `+`.
ANSWERS = ("Answers.antt", "Invariants.antt", "Proof.antt")
DIGITS = 12


class RecordError(Exception):
    """A document that has no place for the table."""


class Row(NamedTuple):
    """What is known of a pair: its goal, and the sum of what it was tried on."""

    goal: str
    sum: str


def sources(crate):
    """The files that a sum is made of, by path: the code without its tests, the specifications and the proofs."""
    texts = {str(it.relative_to(crate)): it.read_text() for part in ("src", "specs", "proofs") for it in (crate / part).rglob("*.*t")}
    code = [text for path, text in texts.items() if path.startswith("src/")]
    tests = {"tests", *(it[1] for text in code for it in OF_TESTS.finditer(text))}
    return {path: text for path, text in sorted(texts.items()) if not tests & set(path.removesuffix(".rt").split("/")[1:])}


def without_debug(text):
    """The text without derives of `Debug`."""
    kept = lambda it: ", ".join(name for name in re.findall(r"[\w:]+", it[1]) if name != "Debug")
    return DERIVES.sub(lambda it: f"#[derive({kept(it)})]\n" if kept(it) else "", text)


def imported(text):
    """What the imports of definitions and lemmas in a text name, each name behind the words of its import."""
    found = ((it[1], name.strip()) for it in IMPORT.finditer(text) for name in (it[2] or it[3]).split(","))
    return sorted({f"{words} {NAME.search(name)[0]}" for words, name in found if name})


def meant(path, text):
    """What counts of a file: the names that it imports, then its lines, without comments, `Debug` and modules of tests. The path counts
    for code alone, as definitions and proofs may move."""
    is_code = path.endswith(".rt")
    said = MODULE.sub("", USING.sub("", OF_TESTS.sub("", without_debug(without_comments(text, not is_code)))))
    return "\n".join([path] * is_code + imported(said) + [it for it in IMPORT.sub("", said).splitlines() if it])


def own_texts(crate):
    """What counts of a crate's own sources, each text with its path, in an order of their own."""
    found = ((text, path) for path, it in sources(crate).items() if (text := meant(path, it)))
    return [(path, text) for text, path in sorted(found)]


def is_of_another(path, goal):
    """Whether a file has answers of another function than the one in which the goal stays open: those are no part of its proof."""
    of, name = path.split("/")[-2:]
    return name in ANSWERS and goal is not None and not of.startswith("+") and of != goal.split(": ")[1]


def sum_of(texts, pair, goal=None):
    """The sum of a pair: of what counts of its crate's sources where the pair leaves this goal open, and of the pair's own text."""
    found = hashlib.sha256()
    for path, text in texts:
        if not is_of_another(path, goal):
            found.update(f"{text}\n".encode())
    found.update(pair.text().encode())
    return found.hexdigest()[:DIGITS]


def split(document):
    """What stands before the table, the table, and what stands behind it."""
    before, begin, rest = document.partition(BEGIN)
    table, end, behind = rest.partition(END)
    if not begin or not end:
        raise RecordError(f"the table's place, from {BEGIN} to {END}, is not there")
    return before + begin, table, end + behind


def read_table(document):
    """The rows of the table, by crate and pair."""
    parts = re.split(r"(?m)^### (\w+)\n", split(document)[1])
    return {name: {it[1]: Row(it[2], it[3]) for it in ROW.finditer(text)} for name, text in zip(parts[1::2], parts[2::2])}


def with_table(document, table):
    """The document with this table in place of its own."""
    before, _, behind = split(document)
    sections = [f"\n### {name}\n\n{HEAD}{rows_of(rows)}" for name, rows in sorted(table.items()) if rows]
    return f"{before}\n{''.join(sections)}\n{behind}"


def rows_of(rows):
    """The lines of a crate's rows."""
    return "".join(f"| `{name}` | `{row.goal}` | `{row.sum}` |\n" for name, row in rows.items())


def renewed(rows, pairs, tried, texts):
    """The rows of a crate's pairs, in the order of its file, once some were tried on these texts: without those that left no goal open."""
    goals = tried.goals if tried else {}
    missed = {it.name for it in tried.missed} if tried else set()
    new = {it.name: Row(goals[it.name], sum_of(texts, it, goals[it.name])) for it in pairs if it.name in goals}
    kept = {name: row for name, row in rows.items() if name not in missed} | new
    return {it.name: kept[it.name] for it in pairs if it.name in kept}
