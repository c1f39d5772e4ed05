"""Texts of a crate: the functions of a file of Rattle, and each text without its comments."""
import re
from typing import NamedTuple

# What is no code: comments, texts and characters. (A lifetime is no character.)
NO_CODE = re.compile(r"""//[^\n]*|/\*.*?\*/|b?"(?:\\.|[^"\\])*"|b?'(?:\\[^'\n]+|[^'\\\n])'""", re.S)
# The same of a specification or a proof, where a prime may end a name.
NO_PROOF = re.compile(r'--[^\n]*|\{-.*?-\}|"(?:\\.|[^"\\])*"', re.S)
# Where a function begins.
HEAD = re.compile(r"\bfn\s+(\w+)")
# What stands before the brace of a clause, and not of a body.
CLAUSE = re.compile(r"(?:\b(?:requires|ensures)\*?(?:\s+\S+)?|\bghost\s+\S+\s*:)\s*\Z")


class Function(NamedTuple):
    """A function: its file, its name, and its lines, from the first of what is said of it."""

    file: str
    name: str
    first: int
    last: int

    def has_line(self, file, line):
        """Whether the line of this file is one of the function's."""
        return file == self.file and self.first <= line <= self.last

    def has_proof(self, path):
        """Whether the function's proof, or that of a closure in it, stands in this folder of proofs/."""
        module = self.file.removesuffix(".rt").split("/")[1:]
        if module[-1] in ("lib", "main", "mod"):
            module.pop()
        parts = path.split("/")
        # (a method's stands below its type's name, and a closure's in `fn`, below its function's)
        rest = [it for it in parts[len(module) :] if it != "fn" and not it[0].isupper()]
        return parts[: len(module)] == module and rest[:1] == [self.name]


def without_comments(text, is_proof):
    """The lines of a text that say something, without comments and without blank space at their ends."""
    comment = ("--", "{-") if is_proof else ("//", "/*")
    kept = (NO_PROOF if is_proof else NO_CODE).sub(lambda it: "" if it[0].startswith(comment) else it[0], text)
    return "\n".join(line.rstrip() for line in kept.splitlines() if line.strip())


def functions_of(file, text):
    """The functions of a text that stand in no other one, without those that a macro writes, and where the body of each is."""
    code = code_alone(text)
    lines, at = text.split("\n"), 0
    while found := HEAD.search(code, at):
        start, end = body_of(code, found.end())
        at = end
        if start == end or re.search(r"\bconst\s+\Z", code[: found.start()]):
            continue
        first = text.count("\n", 0, found.start())
        while first and lines[first - 1].strip() and lines[first - 1].rstrip()[-1] not in "{};":
            first -= 1
        yield Function(file, found[1], first + 1, text.count("\n", 0, end) + 1), range(start, end)


def code_alone(text):
    """The text with spaces in place of what is no code, and of what a macro writes."""
    code = NO_CODE.sub(lambda it: blank(it[0]), text)
    for macro in reversed(list(re.finditer(r"\bmacro_rules!\s*\w+\s*(?=\{)", code))):
        end = end_of_group(code, macro.end())
        code = code[: macro.start()] + blank(code[macro.start() : end]) + code[end:]
    return code


def blank(text):
    """As many spaces, with the ends of lines where they were."""
    return re.sub(r"[^\n]", " ", text)


def end_of_group(code, at):
    """Where the group ends whose bracket stands at this place."""
    depth = 0
    for at in range(at, len(code)):
        depth += (code[at] in "([{") - (code[at] in ")]}")
        if not depth:
            return at + 1
    return len(code)


def body_of(code, at):
    """The body of the function whose name ends here, or nothing where it has none."""
    start = at
    while at < len(code) and code[at] != ";":
        if code[at] in "([{":
            end = end_of_group(code, at)
            if code[at] == "{" and not CLAUSE.search(code[start:at]):
                return at, end
            at = end - 1
        at += 1
    return at, at
