#!/usr/bin/env python3
"""How long a host's call takes: `examples/speed/embed.py [RUNS]` builds embed.c over the library that `rt lib` makes in crates/rvvbox_c.

Prints, for each row that embed.c prints, the median of so many runs of it (7), of processor time; and what a run of a kernel with
n = 16 takes beyond its steps, each of which takes what the steps between n = 0 and n = 1000 take. Beside it, how long a process of
`rvvbox run` takes on the same job, where the program was built.
"""
import os
import shutil
import statistics
import subprocess
import sys
import tempfile
import time

HERE = os.path.dirname(os.path.abspath(__file__))
ROOT = os.path.join(HERE, '..', '..')
LIBRARY = os.path.join(ROOT, 'crates', 'rvvbox_c', 'out', 'librvvbox_c.a')
PROGRAM = os.path.join(ROOT, 'crates', 'rvvbox', 'out', 'rvvbox')
STEPS = {0: 2, 16: 34, 1000: 2002}              # of raise_words at VLEN 128: eight for each four words, and two


def built(folder):
    """embed.c as a program in the folder."""
    rt = shutil.which('rt')
    if rt is None or not os.path.exists(LIBRARY):
        sys.exit('no library: `rt lib` in crates/rvvbox_c makes it')
    kit = os.path.join(os.path.dirname(os.path.realpath(rt)), '..', 'c', 'liblibc_c.a')
    program = os.path.join(folder, 'embed')
    words = ['gcc', '-std=gnu11', '-O2', '-I', os.path.join(ROOT, 'include'), '-o', program]
    subprocess.run([*words, os.path.join(HERE, 'embed.c'), LIBRARY, kit], check=True)
    return program


def medians(program, runs):
    """The median of each row's nanoseconds."""
    rows = {}
    for _ in range(runs):
        told = subprocess.run([program], cwd=HERE, check=True, stdout=subprocess.PIPE, text=True).stdout
        for line in told.splitlines():
            name, _, number = line.rpartition(': ')
            rows.setdefault(name, []).append(float(number.removesuffix(' ns')))
    return {name: statistics.median(numbers) for name, numbers in rows.items()}


def main():
    runs = int(sys.argv[1]) if len(sys.argv) > 1 else 7
    with tempfile.TemporaryDirectory() as folder:
        rows = medians(built(folder), runs)
    for name, number in rows.items():
        print('%s: %.0f ns' % (name, number))
    took = {n: rows['run of a kernel, n = %d' % n] for n in STEPS}
    step = (took[1000] - took[0]) / (STEPS[1000] - STEPS[0])
    print('a step: %.1f ns; a run of a kernel beyond its steps, n = 16: %.0f ns' % (step, took[16] - step * STEPS[16]))
    if os.path.exists(PROGRAM):
        start = time.perf_counter()
        for _ in range(100):
            subprocess.run([PROGRAM, 'run', 'job.toml'], cwd=os.path.join(ROOT, 'examples', 'raise_words'), check=True, stdout=subprocess.DEVNULL)
        print('a process of `rvvbox run`, n = 1000: %.0f ns' % ((time.perf_counter() - start) / 100 * 1e9))


main()
