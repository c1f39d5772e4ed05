"""The pairs of a crate: how its files of must-fail edits are read, and the changes that each pair makes."""
import re
from typing import NamedTuple

from rt_texts import functions_of

# The pair that the gate applies, the other pairs of the crate, and the folder in which no other file stands.
FOLDER, APPLIED, OTHERS = "must-fail", "gate.edit", "pairs.md"
# The pairs of a document stand between these lines.
FENCED = re.compile(r"(?ms)^```text\n(.*?)^```$")
NAME = re.compile(r"(?m)^# *(.*)\n")


class EditError(Exception):
    """A file of edits that cannot be used, and why."""


class Change(NamedTuple):
    """A change of a file: one text in place of another, which stands there once."""

    file: str
    old: str
    new: str


class Pair(NamedTuple):
    """A pair: its name, and its changes, which make one wrong change together."""

    name: str
    changes: tuple

    def text(self):
        """The pair as a file of its own."""
        lines = [f"file: {it.file}\nold: {it.old}\nnew: {it.new}\n" for it in self.changes]
        return "".join([f"# {self.name}\n", *lines])


def read_pairs(crate):
    """The pairs of the crate in this folder, the one that the gate applies before the others; none where it has no edits."""
    folder = crate / FOLDER
    for it in sorted(folder.iterdir()) if folder.is_dir() else []:
        if it.name not in (APPLIED, OTHERS):
            raise EditError(f"{crate.name}/{FOLDER}/{it.name}: pairs stand in {APPLIED} and {OTHERS}")
    applied, others = list(pairs_of(text_of(folder / APPLIED))), text_of(folder / OTHERS)
    if any(changes_of(FENCED.sub("", others))):
        raise EditError(f"{crate.name}: a change of {OTHERS} stands outside of its block ```text")
    pairs = applied + [pair for text in FENCED.findall(others) for pair in pairs_of(text)]
    if pairs and len(applied) != 1:
        raise EditError(f"{crate.name}: {APPLIED} has {len(applied)} pairs, and not one")
    for it in pairs:
        if sum(it.name == other.name for other in pairs) > 1:
            raise EditError(f"{crate.name}: two pairs are named {it.name}")
        if edited(it, {}, crate) is None:
            raise EditError(f"{crate.name}: {it.name} cannot be made: an `old:` text does not stand there once")
    return pairs


def text_of(file):
    """The text of a file, empty where there is none."""
    return file.read_text() if file.is_file() else ""


def pairs_of(text):
    """The pairs of a file of edits."""
    before, *parts = NAME.split(text)
    if any(changes_of(before)):
        raise EditError("a change stands before the first line `# its_name`")
    for name, lines in zip(parts[::2], parts[1::2]):
        if not re.fullmatch(r"\w+", name.strip()):
            raise EditError(f"the name of a pair is one word: {name}")
        changes = tuple(changes_of(lines))
        if not changes:
            raise EditError(f"{name} has no lines `old:` and `new:`")
        yield Pair(name.strip(), changes)


def changes_of(text):
    """The changes that the lines of a pair make."""
    file = old = ""
    for line in text.splitlines():
        if line.startswith("file: "):
            file = line.removeprefix("file: ").strip()
        elif line.startswith("old: "):
            old = line.removeprefix("old: ")
        elif line.startswith("new:"):
            yield Change(file, old, line.removeprefix("new:").removeprefix(" "))


def edited(pair, texts, crate):
    """The texts with the changes of a pair, or None where these cannot be made."""
    texts = dict(texts)
    return texts if all(make(it, texts, crate) is not None for it in pair.changes) else None


def make(change, texts, crate):
    """Makes a change in the texts, and gives the text before it; None where the old text does not stand there once."""
    path = crate / change.file
    before = texts.get(change.file) or text_of(path)
    if not change.old or before.count(change.old) != 1:
        return None
    texts[change.file] = before.replace(change.old, change.new)
    return before


def functions_changed(pair, crate):
    """The functions whose bodies a pair changes; none where it changes something else too, or cannot be applied."""
    texts, functions = {}, set()
    for change in pair.changes:
        before = make(change, texts, crate)
        at = before.index(change.old) if before else 0
        last = at + len(change.old) - 1
        found = [it for it, body in functions_of(change.file, before or "") if at in body and last in body]
        if not found or not change.file.startswith("src/"):
            return frozenset()
        functions.update(found)
    return frozenset(functions)
