"""Figures of one run, as processor time: `bindings/sqlite/figures.py [--write]`. Each is the least of five times.

With --write they go into README.md.
"""
import re
import subprocess
import sys
from pathlib import Path

HERE = Path(__file__).resolve().parent
sys.path.insert(0, str(HERE.parent))

import readme  # noqa: E402


def times():
    """The processor time of each statement, in nanoseconds a row, by how many rows it reads and by what it is."""
    script = f".load {HERE / 'rvv'}\n" + (HERE / 'figures.sql').read_text()
    told = subprocess.run(['sqlite3', '-batch', ':memory:'], input=script, cwd=HERE.parent / 'kernels', capture_output=True, text=True, check=True)
    found = re.findall(r'^(\d+)\|([^|\n]+)\|.*\nRun Time: real \S+ user (\S+) sys (\S+)', told.stdout, re.M)
    return {(int(rows), name): (float(user) + float(system)) / int(rows) * 1e9 for rows, name, user, system in found}


def main():
    runs = [times() for _ in range(5)]
    least = {it: min(run[it] for run in runs) for it in runs[0]}
    first, cells = {}, [['Statement', 'Rows', 'Processor time a row', 'Beside the first on these rows']]
    for (rows, name), took in least.items():
        cells.append([name, f'{rows:,}', f'{took:,.0f} ns', f'{took / first.setdefault(rows, took):.1f} times'])
    readme.told(HERE, f'{readme.when()}:\n\n{readme.table(*cells)}')


if __name__ == '__main__':
    main()
