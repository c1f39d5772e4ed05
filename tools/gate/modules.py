#!/usr/bin/env python3
"""Where the seconds of a crate's check go, module by module.

    rm -rf crates/NAME/out/incremental && (cd crates/NAME && rt check --jobs 1)
    python3 tools/gate/modules.py NAME [COUNT]

A check with one job writes the file of each module as it ends with it. So the times of the files tell how long each module took,
with what it was the first to read. Prints the COUNT that took longest, 30 if none is given, then the sums by kind. `F.Proof` and
`F.Answers` are the goals of function `F`. `F.Lts`, `F.Tie`, `F.Reads` and `F.Layout` are what is shown of its loans: they grow
with its code and with the types in it. Other names are files of `specs/` and `proofs/`.
"""
import collections
import re
import sys
from pathlib import Path
from typing import NamedTuple

ROOT = Path(__file__).resolve().parents[2]
MOST = 30


class Module(NamedTuple):
    """A module, the seconds until its file was written, and the size of the file."""

    seconds: float
    size: int
    name: str


def name_of(file):
    """The module's name: its file's, without the mark before it and the endings."""
    return re.sub(r'^Rattle-|(\.decls)?\.oantt$', '', file.name)


def modules(folder):
    """The modules below an incremental folder, in the order in which they were written."""
    found = sorted((it.lstat().st_mtime_ns, it.lstat().st_size, name_of(it)) for it in folder.rglob('*.oantt'))
    before = [at for at, _, _ in found]
    return [Module((at - earlier) / 1e9, size, name) for (at, size, name), earlier in zip(found[1:], before)]


def by_kind(found):
    """The seconds of each kind of module, the last part of its name; those of specs/ together."""
    sums = collections.Counter()
    for it in found:
        sums['specs' if '-specs' in it.name else it.name.rpartition('.')[2]] += it.seconds
    return sums


def lines(found, count):
    """What is printed of them."""
    yield from (f'{it.seconds:7.2f} s {it.size:10d} bytes  {it.name}' for it in sorted(found, reverse=True)[:count])
    yield ', '.join(f'{kind} {seconds:.1f}' for kind, seconds in by_kind(found).most_common(12))


if __name__ == '__main__':
    below = ROOT / 'crates' / sys.argv[1] / 'out' / 'incremental'
    if not below.is_dir():
        sys.exit(f'{below.relative_to(ROOT)} is not there: check the crate first, as this file tells')
    print('\n'.join(lines(modules(below), int(sys.argv[2]) if len(sys.argv) > 2 else MOST)))
