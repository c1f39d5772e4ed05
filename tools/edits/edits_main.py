"""Tries every pair of the must-fail edits by itself, and keeps the table of docs/EDITS.md, which says what all of it means.

    tools/each-edit [--write] CRATE|CRATE/PAIR..
    tools/each-edit [--write] [--minutes N] --changed

The first form tries the pairs that it names. It prints the goal that each leaves open; with --write it writes the goals
into the table, with the sums of what they were tried on.

The second form is the gate's. It tries the pairs whose sums differ from the table's, and those with no row. It begins no
check after N processor minutes; without --minutes, half a minute for each of these pairs. It says where a pair has no row,
or a row no pair, and where the table is to be written anew. Pairs that it did not come to count as not tried.

Both work on a copy of the repository, and begin with what `rt check` has kept. With RT_JOBS=N, N crates are tried side by
side; where there are fewer, the many pairs of one are tried in several copies. Rows are written behind each round of pairs, so that
a call that is ended loses one round. Status: 0 where each pair is refused; 1 where one is not, or was not tried, or where
the second form finds a row or a pair alone; 2 for a wrong call.
"""
import argparse
import fcntl
import os
import sys
from concurrent.futures import ThreadPoolExecutor, as_completed
from functools import partial

from pairs import EditError, read_pairs
from record import RecordError, own_texts, read_table, renewed, sum_of, with_table
from rounds import ROOT, Minutes, Tried, crates_of, try_pairs

DOCUMENT = ROOT / "docs" / "EDITS.md"
# The processor minutes that the gate gives to each pair that it tries anew.
MINUTES_A_PAIR = 0.5
# How many pairs are worth a copy of their own, which checks the crate once more.
LEAST_APART = 20


class WrongCall(Exception):
    """A call that names what is not there."""


def wanted(words, pairs):
    """The pairs that the words name, by crate."""
    chosen = {}
    for word in words:
        name, _, pair = word.partition("/")
        found = [it for it in pairs.get(name, []) if pair in ("", it.name)]
        if not found:
            raise WrongCall(f"{word}: there is no such crate with pairs, or no such pair")
        chosen[name] = [it for it in pairs[name] if it in found or it in chosen.get(name, [])]
    return chosen


def is_recorded(row, pair, texts):
    """Whether a row is of the pair as it stands, tried on these texts."""
    return row is not None and row.sum == sum_of(texts, pair, row.goal)


def differing(pairs, texts, table):
    """The pairs whose sums differ from the table's, and those that have no row, by crate."""
    chosen = {}
    for name, of_crate in pairs.items():
        rows = table.get(name, {})
        found = [it for it in of_crate if not is_recorded(rows.get(it.name), it, texts[name])]
        if found:
            chosen[name] = found
    return chosen


def without_row(pairs, table):
    """What is said of crates with pairs that have no row."""
    for name in sorted(pairs):
        lacking = [it.name for it in pairs[name] if it.name not in table.get(name, {})]
        if lacking:
            yield f"{name}: {len(lacking)} of {len(pairs[name])} pairs have no row in {DOCUMENT.name}"


def without_pair(pairs, table):
    """What is said of rows with no pair."""
    for name in sorted(table):
        names = [it.name for it in pairs.get(name, [])]
        yield from (f"{DOCUMENT.name} has a row for {name}/{row}, and there is no such pair" for row in table[name] if row not in names)


def parts(chosen, rooms):
    """The pairs of each crate, for so many copies side by side: those of a crate in several parts, where copies are left."""
    for name, of_crate in chosen.items():
        count = max(1, min(rooms // len(chosen), len(of_crate) // LEAST_APART))
        yield from ((name, of_crate[first::count]) for first in range(count))


def try_all(chosen, crates, minutes, keep):
    """Tries the pairs of each crate, in as many copies side by side as RT_JOBS says, and gives what came of each as it ends. `keep`
    is called before with a crate's name and the goals found so far."""
    rooms = max(1, int(os.environ.get("RT_JOBS") or 1))
    with ThreadPoolExecutor(max_workers=rooms) as pool:
        began = {pool.submit(try_pairs, name, of_part, crates, minutes, partial(keep, name)): name for name, of_part in parts(chosen, rooms)}
        for it in as_completed(began):
            yield began[it], it.result()


def tell(name, tried, shows_goals):
    """Prints what came of a crate's pairs."""
    for line in tried.said:
        print(line)
    if shows_goals:
        for pair, goal in tried.goals.items():
            print(f"{name}/{pair}: {goal}")
    if tried.left:
        print(f"{name}: {len(tried.left)} not tried yet; `tools/each-edit --write {name}` tries all")
    of = len(tried.goals) + len(tried.missed) + len(tried.left)
    print(f"{name}: {len(tried.goals)} of {of} pairs refused, by {tried.checks} checks", flush=True)


def write(pairs, texts, names, tried=None):
    """Writes what came of the pairs of the crates of these names, tried on these texts, and drops the rows of what is gone there."""
    with DOCUMENT.open("r+") as file:
        fcntl.flock(file, fcntl.LOCK_EX)
        document = file.read()
        table = {it: rows for it, rows in read_table(document).items() if it in pairs}
        for name in names:
            table[name] = renewed(table.get(name, {}), pairs[name], tried, texts[name])
        file.seek(0)
        file.truncate()
        file.write(with_table(document, table))


def options(words):
    """The words of the call."""
    parser = argparse.ArgumentParser(prog="tools/each-edit", usage=__doc__, add_help=False)
    parser.add_argument("--write", action="store_true")
    parser.add_argument("--changed", action="store_true")
    parser.add_argument("--minutes", type=float)
    parser.add_argument("names", nargs="*")
    call = parser.parse_args(words)
    if call.changed == bool(call.names) or call.minutes is not None and not call.changed:
        parser.error("either --changed, or the names of crates or pairs")
    return call


def main(words):
    """Runs the command, and gives its status."""
    call = options(words)
    try:
        return perform(call)
    except (EditError, RecordError) as error:
        print(f"each-edit: {error}", file=sys.stderr)
        return 1
    except WrongCall as error:
        print(f"each-edit: {error}", file=sys.stderr)
        return 2


def perform(call):
    """Tries what the call names, and gives its status."""
    crates = crates_of(ROOT)
    pairs = {name: found for name in crates if (found := read_pairs(ROOT / "crates" / name))}
    texts = {name: own_texts(ROOT / "crates" / name) for name in pairs}
    table = read_table(DOCUMENT.read_text())
    chosen = differing(pairs, texts, table) if call.changed else wanted(call.names, pairs)
    minutes = Minutes(allowed(call, chosen))
    refused = 0

    def keep(name, goals):
        if call.write:
            write(pairs, texts, [name], Tried(dict(goals), [], [], [], 0))

    for name, tried in try_all(chosen, crates, minutes, keep):
        tell(name, tried, not call.changed and not call.write)
        refused += len(tried.goals)
        if call.write:
            write(pairs, texts, [name], tried)
    has_all = True
    if call.changed:
        if call.write:
            write(pairs, texts, pairs)
        has_all = tell_record(pairs, chosen, call.write)
        print(f"each-edit: {count(chosen)} of {count(pairs)} pairs tried anew, {refused} refused, in {minutes.taken():.0f} processor minutes")
    return 0 if refused == count(chosen) and has_all else 1


def count(pairs):
    """How many pairs these are, by crate."""
    return sum(len(of_crate) for of_crate in pairs.values())


def allowed(call, chosen):
    """The processor minutes that the call may take, or None."""
    return MINUTES_A_PAIR * count(chosen) if call.changed and call.minutes is None else call.minutes


def tell_record(pairs, chosen, is_written):
    """Prints what the table lacks, and gives whether each row has a pair and each pair a row."""
    table = read_table(DOCUMENT.read_text())
    lacking, lost = list(without_row(pairs, table)), list(without_pair(pairs, table))
    for line in lacking + lost:
        print(line)
    if lacking or lost or chosen and not is_written:
        print("the table is to be written anew: tools/each-edit --write --changed")
    return not lost and not lacking


if __name__ == "__main__":
    sys.exit(main(sys.argv[1:]))
