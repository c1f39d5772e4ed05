"""The checks of a crate's copy, in which its pairs are tried, each by itself."""
import os
import re
import resource
import shutil
import subprocess
import tempfile
from pathlib import Path
from typing import NamedTuple

from answers import OPEN, any_goal, answers_in_error, goal_of, is_read, waits, without_answers
from pairs import FOLDER, edited, functions_changed

ROOT = Path(__file__).resolve().parents[2]
CHECK = ["rt", "check", "--jobs", "1"]
# What a check says of a function.
FUNCTION = re.compile(r"(?m)^fn ([^\s:]+(?:::[^\s:]+)*): ")
# How often a check is made again without the answers that were in error.
MOST_AGAIN = 4
# How many pairs share a check, since what a check needs in memory grows with the functions that it cannot prove.
MOST_TOGETHER = 10


class OutOfMinutes(Exception):
    """No check is begun any more, since the minutes are used up."""


class Minutes:
    """The processor minutes that the checks of this process may take; without an end where `most` is None."""

    def __init__(self, most=None):
        self.most = most
        self.before = self.taken_by_all()

    @staticmethod
    def taken_by_all():
        """The processor minutes of all processes that ended below this one."""
        of = resource.getrusage(resource.RUSAGE_CHILDREN)
        return (of.ru_utime + of.ru_stime) / 60

    def taken(self):
        """The processor minutes taken so far."""
        return self.taken_by_all() - self.before

    def look(self):
        """Raises OutOfMinutes where no check is to be begun any more."""
        if self.most is not None and self.taken() >= self.most:
            raise OutOfMinutes


class Tried(NamedTuple):
    """What came of a crate's pairs: the goal that each leaves open, by name; the pairs that leave none, and those that
    no check came to; what is said of them; and how many checks it took."""

    goals: dict
    missed: list
    left: list
    said: list
    checks: int


def crates_of(root):
    """The crates of a repository, and those that each stands on."""
    heads = (line.split(":", 1) for line in (root / "crates.txt").read_text().splitlines() if ":" in line)
    return {head.split()[0]: below.split() for head, below in heads}


def crates_below(name, crates):
    """The crates of this repository that `name` stands on."""
    found, ahead = set(), [name]
    while ahead:
        for below in crates.get(ahead.pop(), []):
            if below in crates and below not in found:
                found.add(below)
                ahead.append(below)
    return found


def copy(room, name, crates):
    """Copies what a check of the crate reads, with the libraries below it that are built."""
    shutil.copy2(ROOT / "crates.txt", room)
    shutil.copy2(ROOT / "HANDLES", room)
    for crate in crates:
        shutil.copytree(ROOT / "crates" / crate, room / "crates" / crate, ignore=shutil.ignore_patterns(FOLDER, "out"))
    for crate in [name, *crates_below(name, crates)]:
        kept = ROOT / "crates" / crate / "out" / ("incremental" if crate == name else "rlib")
        if kept.is_dir():
            link(kept, room / "crates" / crate / "out" / kept.name)


def link(folder, to):
    """Copies a folder of kept work: what was proved by links where these can be made, since a check replaces such a file
    and changes none."""

    def give(one, other):
        try:
            if one.endswith(".oantt"):
                return os.link(one, other)
        except OSError:
            pass
        return shutil.copy2(one, other)

    shutil.copytree(folder, to, copy_function=give)


def run(words, folder):
    """Runs a command in the folder, and gives its status and what it said."""
    ran = subprocess.run(words, cwd=folder, text=True, errors="replace", stdout=subprocess.PIPE, stderr=subprocess.STDOUT)
    return ran.returncode, ran.stdout


def changed(pairs):
    """The functions that these pairs change."""
    return [function for _, functions in pairs for function in sorted(functions)]


class Rounds:
    """The checks of a crate's copy: what stands in the folder `seed` is what the crate's own check kept. `keep` is called with
    the goals found so far behind each round."""

    def __init__(self, room, name, minutes, keep):
        self.crate, self.minutes, self.keep = room / "crates" / name, minutes, keep
        self.kept, self.seed = self.crate / "out" / "incremental", room / "seed"
        self.goals, self.checks = {}, 1
        minutes.look()
        self.status, self.said = run(CHECK, self.crate)
        if self.kept.is_dir():
            link(self.kept, self.seed)

    def only(self, functions):
        """The words by which a check is of these functions alone; none where one of them was not told in the first check."""
        told = [it for it in FUNCTION.findall(self.said) if "+" not in it]
        paths = [[it for it in told if function.has_proof("/".join(it.split("::")[1:]))] for function in functions]
        return [f"--only={it}" for of_one in paths for it in of_one] if all(paths) else []

    def check(self, texts, functions=()):
        """Checks the crate with these texts in place of its own, or these functions alone with what they call, and gives what
        the check says where it read them."""
        self.minutes.look()
        own = {file: (self.crate / file).read_text() for file in texts}
        for file, text in texts.items():
            (self.crate / file).write_text(text)
        self.checks += 1
        status, said = run([*CHECK, *self.only(functions)], self.crate)
        for file, text in own.items():
            (self.crate / file).write_text(text)
        shutil.rmtree(self.kept, ignore_errors=True)
        if self.seed.is_dir():
            link(self.seed, self.kept)
        return said if is_read(status, said) else None

    def try_all(self, pairs):
        """Tries these pairs, those that change bodies together, and what is not refused there alone."""
        with_functions = [(it, functions_changed(it, self.crate)) for it in pairs]
        self.try_together([it for it in with_functions if it[1]])
        for pair in pairs:
            if pair.name not in self.goals:
                self.try_alone(pair)
                self.keep(self.goals)

    def together(self, pairs):
        """The pairs that share the next check, at most MOST_TOGETHER, and their texts: no two change functions of one name in
        one file."""
        taken, names, texts = [], set(), {}
        for pair, functions in pairs:
            if len(taken) == MOST_TOGETHER:
                break
            own = {(it.file, it.name) for it in functions}
            done = None if own & names else edited(pair, texts, self.crate)
            if done:
                taken.append((pair, functions))
                names |= own
                texts = done
        return taken, texts

    def try_together(self, pairs):
        """Tries these pairs in rounds, each with the functions that it changes."""
        tried, ahead = set(), list(pairs)
        while ahead:
            of_round, texts = self.together(ahead)
            before, waiting = len(self.goals), self.round(of_round, texts)
            self.keep(self.goals)
            names = {pair.name for pair, _ in of_round}
            if len(self.goals) == before and names <= tried:
                break
            tried |= names
            ahead = [it for it in ahead if it[0].name not in names] + [it for it in of_round if it[0].name in waiting]

    def round(self, pairs, texts):
        """Tries the pairs of one round, and gives those that wait for the proof of a function that another one broke.
        Where the texts cannot be read, each half of the round is tried."""
        said = self.check(texts, changed(pairs))
        if said is None:
            half = len(pairs) // 2
            return set().union(*[self.round(*self.together(it)) for it in (pairs[:half], pairs[half:]) if half])
        answers = {}
        for again in range(MOST_AGAIN + 1):
            self.tell_goals(pairs, said)
            pairs = [it for it in pairs if it[0].name not in self.goals]
            lines = answers_in_error(changed(pairs), said)
            if not lines or again == MOST_AGAIN:
                break
            self.take_out(lines, answers)
            said = self.check({**self.together(pairs)[1], **answers}, changed(pairs)) or ""
        return {pair.name for pair, functions in pairs if any(waits(it, said) for it in functions)}

    def tell_goals(self, pairs, said):
        """Keeps of each pair the goal that a check leaves open in a function that it changes."""
        for pair, functions in pairs:
            goal = next(filter(None, (goal_of(it, said) for it in functions)), None)
            if goal:
                self.goals[pair.name] = goal

    def try_alone(self, pair):
        """Tries this pair by a check of its own, in which any goal may stay open, made again without the answers in error."""
        texts = edited(pair, {}, self.crate)
        said = self.check(texts) if texts else None
        for _ in range(MOST_AGAIN):
            lines = answers_in_error(None, said or "")
            if not lines or OPEN.search(said):
                break
            self.take_out(lines, texts)
            said = self.check(texts)
        goal = said and any_goal(said, lambda file: texts.get(file) or (self.crate / file).read_text())
        if goal:
            self.goals[pair.name] = goal

    def take_out(self, lines, texts):
        """Takes the answers at these lines, by file, out of the texts."""
        for file, at in lines.items():
            texts[file] = without_answers(texts.get(file) or (self.crate / file).read_text(), at)


def ask_the_gate(room, name, pairs):
    """Tries each of these pairs of the crate as the gate does, and gives what is said of them: each is told, since none
    leaves a goal open."""
    edits = room / "crates" / name / FOLDER
    edits.mkdir()
    for pair in pairs:
        (edits / f"{pair.name}.edit").write_text(pair.text())
    said = run(["rt", "must-fail", name], room)[1]
    refused = set(re.findall(rf"(?m)^(?:rt: )?must-fail {name}/(\S+)\.edit: refused", said))
    told = [it for it in said.splitlines() if ": refused, as it must be" not in it]
    for pair in pairs:
        if pair.name in refused:
            told.append(f"{name}/{pair.name}: refused, but no goal stays open: see what `rt must-fail` refuses it for")
        else:
            told.append(f"{name}/{pair.name}: NOT REFUSED by itself")
    return told


def try_pairs(name, pairs, crates, minutes, keep):
    """Tries each of these pairs of the crate by itself, within the minutes. `keep` is called with the goals found so far, so that
    a call that is ended has not tried them in vain."""
    try:
        minutes.look()
        with tempfile.TemporaryDirectory(prefix="each-edit-") as folder:
            copy(Path(folder), name, crates)
            return tried_in(Path(folder), name, pairs, minutes, keep)
    except OutOfMinutes:
        return Tried({}, [], pairs, [], 0)


def tried_in(room, name, pairs, minutes, keep):
    """Tries each of these pairs in the copy that stands in this folder."""
    rounds = Rounds(room, name, minutes, keep)
    if rounds.status != 0:
        said = [*rounds.said.splitlines()[-20:], f"{name} is not proved as it stands"]
        return Tried({}, [], pairs, said, 1)
    try:
        rounds.try_all(pairs)
    except OutOfMinutes:
        return Tried(rounds.goals, [], [it for it in pairs if it.name not in rounds.goals], [], rounds.checks)
    missed = [it for it in pairs if it.name not in rounds.goals]
    return Tried(rounds.goals, missed, [], ask_the_gate(room, name, missed) if missed else [], rounds.checks)
