"""What a check of a crate says: which goals it leaves open, and which functions wait for another one's proof."""
import re

from rt_texts import functions_of

# A goal that is left open, with its name; an error in an answer; and one in a function's own proof.
OPEN = re.compile(r"(?m)^note: (?:\./)?(src/\S+?\.rt):(\d+):\d+: it is not proved [^\n]*?(?:\(`([^`\n]+)`\)|$)")
ANSWER = re.compile(r"(?m)^(?:\./)?(proofs/\S+/Answers\.antt):(\d+):\d+: error: ([^\n]*)")
ERROR = re.compile(r"(?m)^(?:\./)?(proofs/(\S+)/(?!Answers\.antt)[A-Z]\w*\.antt):\d+:\d+: error: ([^\n]*)")
# An error in any proof that is no answer: a function's own, or a lemma.
PROOF = re.compile(r"(?m)^(?:\./)?(proofs/(?!\S*/Answers\.antt)\S+\.antt):\d+:\d+: error: ([^\n]*)")
# An error that may come from elsewhere: a proof cites what is not proved itself.
CITES = re.compile(r"was not admitted|\.Met\b")
# A function whose proof waits for that of another one.
WAITS = re.compile(r"(?m)^fn \w+::(\S+): (?:not proved|no proof)\b.*\bit (?:calls|waits) ")
# A text that was not read, so that nothing was tried.
UNREAD = re.compile(r"(?m)^(?:\./)?(?:src|specs)/\S+:\d+:\d+: error|\berror\[[\w-]+\]")


def is_read(status, said):
    """Whether the check that ended with this status read the texts, and proved or refused them."""
    is_told = "\nlogic=not-proved" in said or "\nonly=" in said
    return status == 0 or status == 1 and is_told and not UNREAD.search(said)


def goal_of(function, said):
    """The goal of this function that a check leaves open, or the error in its own proof; None where there is neither."""
    for it in OPEN.finditer(said):
        if function.has_line(it[1], int(it[2])):
            return named_goal(it[1], [function], it[3])
    for it in ERROR.finditer(said):
        if function.has_proof(it[2]) and not CITES.search(it[3]):
            return named_error(it[1], it[3])
    return None


def any_goal(said, texts):
    """The first goal that a check of these texts leaves open, or the first error in a proof that is no answer; None where
    there is neither."""
    for it in OPEN.finditer(said):
        functions = [function for function, _ in functions_of(it[1], texts(it[1])) if function.has_line(it[1], int(it[2]))]
        return named_goal(it[1], functions, it[3])
    for it in PROOF.finditer(said):
        if not CITES.search(it[2]):
            return named_error(it[1], it[2])
    return None


def named_goal(file, functions, goal):
    """A goal by its file, the first of the functions whose goal it is, and its own name, where there are any."""
    return ": ".join([file, *[it.name for it in functions[:1]], *[it for it in [goal] if it]])


def named_error(file, message):
    """The file of a proof that is in error, and the name that the error is told of."""
    name = re.match(r"`([^`]+)`: ", message)
    return f"{file}: {name[1]}" if name else file


def waits(function, said):
    """Whether the function has no proof because one that it calls has none."""
    return any(function.has_proof(it[1].replace("::", "/")) for it in WAITS.finditer(said))


def answers_in_error(functions, said):
    """The lines of the answers in error, by file, each with what is said of it: those of these functions, or all where
    `functions` is None."""
    lines = {}
    for it in ANSWER.finditer(said):
        proof = it[1].removeprefix("proofs/").removesuffix("/Answers.antt")
        if functions is None or any(function.has_proof(proof) for function in functions):
            lines.setdefault(it[1], {})[int(it[2])] = it[3]
    return lines


def without_answers(text, errors):
    """The text of a file of answers without the answers that stand at the lines in error, numbered from 1, and without the
    names that its imports do not find any more."""
    parts = re.split(r"(?m)^(?=pub |-- )", text)
    kept, line = [], 1
    for part in parts:
        ends = line + part.count("\n")
        own = {it - line: message for it, message in errors.items() if line <= it < ends}
        if not own:
            kept.append(part)
        elif not part.startswith("pub "):
            lines = part.split("\n")
            kept.append("\n".join(without_names(it, own[at]) if at in own else it for at, it in enumerate(lines)))
        line = ends
    return "".join(kept)


def without_names(line, message):
    """The line of an import without the names that it does not find; blank where none is left."""
    names = set(re.findall(r"`([^`]+)`", message.partition("has no ")[2]))
    found = re.fullmatch(r"(use \S+\.)\{(.*)\}", line)
    left = [it for it in found[2].split(", ") if it not in names] if found else []
    return f"{found[1]}{{{', '.join(left)}}}" if left else ""
