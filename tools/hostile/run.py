#!/usr/bin/env python3
"""Hostile use of the built program: `run.py [--quick]` tries damaged images, refused memory, failing files and the fuzzer, prints one line
for each and what differed, and ends with status 1 where anything did. docs/HOSTILE.md tells more."""
import argparse
import os
import sys
import time

import damage
import files
import fuzz
import memory
from program import program


# What is tried, with `quick` one input in so many, and how much at once.
KINDS = {
    'images': lambda called, quick, at_once: damage.tried(called, 101 if quick else 1, at_once),
    'memory': lambda called, quick, at_once: memory.tried(called, 4 if quick else 1, at_once),
    'files': lambda called, quick, _: files.tried(called, 16 if quick else 1),
    'fuzzer': lambda called, quick, _: fuzz.tried(called, 8 if quick else 600)}


def main():
    parser = argparse.ArgumentParser(description=__doc__)
    parser.add_argument('--quick', action='store_true', help='one input in so many, in under a minute')
    parser.add_argument('--jobs', type=int, default=os.cpu_count(), help='how many images or command lines at once')
    parser.add_argument('kind', nargs='*', help='images, memory, files or fuzzer; else all')
    given = parser.parse_args()
    unknown = set(given.kind) - set(KINDS)
    if unknown:
        parser.error('no kind is called %s' % ', '.join(unknown))
    called = program()
    if called is None:
        sys.exit('rvvbox is not built: examples/try builds it')
    differed = 0
    for kind in given.kind or KINDS:
        start = time.monotonic()
        tally = KINDS[kind](called, given.quick, given.jobs)
        print('\n'.join(tally.differed[:20] + ['%s (%.0f s)' % (tally.line(), time.monotonic() - start)]), flush=True)
        differed += len(tally.differed)
    sys.exit(bool(differed))


if __name__ == '__main__':
    main()
