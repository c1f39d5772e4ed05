#!/usr/bin/env python3
"""Refuses a crate that imports another crate's `proofs`: what crates share stands in `specs/`, or is a law that is called.

`tools/gate/boundaries.py [FOLDER]` prints each such import below its crates/, behind its file, and fails where there is one.
"""
import re
import sys
from pathlib import Path

# In a proof `Rattle.NAME.proofs.File`, in an attribute of code `NAME::proofs::File`.
IMPORT = re.compile(r'\b(?:Rattle\.(\w+)\.proofs\.|(\w+)::proofs::)\w+')


def imports(top):
    """Each import of another crate's proofs, as `file: import`."""
    crates = {it.name for it in Path(top, 'crates').iterdir()}
    for own in sorted(crates):
        files = [it for part in ('src', 'specs', 'proofs') for it in Path(top, 'crates', own, part).rglob('*.*t')]
        for file in sorted(files):
            for found in IMPORT.finditer(file.read_text()):
                if (found[1] or found[2]) in crates - {own}:
                    yield f'{file.relative_to(top)}: {found[0]}'


if __name__ == '__main__':
    told = [*imports(*sys.argv[1:] or '.')]
    for line in told:
        print(line)
    sys.exit(bool(told))
