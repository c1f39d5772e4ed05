"""Figures of one run: `python3 bindings/postgresql/figures.py [--write]`, where the extension is installed.

4,000,000 rows or elements in one session: the processor time of its backend, beside plain C and PL/pgSQL. Then by the clock, by number of
workers and over two servers of half the rows each, which a busy machine blurs. What is compared takes turns. Each is the least of nine.
With --write they go into README.md.
"""
import re
import subprocess
import sys

from servers import HERE, PORTS, ROLE, Servers, asked, fold, folded_parts, image, psql

sys.path.insert(0, str(HERE.parent))

import readme  # noqa: E402

ROWS, TURNS = 4_000_000, 9
ALONE = 'SET max_parallel_workers_per_gather = 0;'
EAGER = 'SET parallel_setup_cost = 0; SET parallel_tuple_cost = 0; SET min_parallel_table_scan_size = 0;'
# Nanoseconds that the backend has been on a processor.
SPENT = "SELECT 'spent', split_part(pg_read_file('/proc/self/schedstat'), ' ', 1);"


def compiled():
    """The plain C of figures.c, where the servers find it."""
    made = Servers.folder / 'figures.so'
    subprocess.run(['cc', '-O2', '-shared', '-fPIC', '-I', asked('--includedir-server'), '-o', made, HERE / 'figures.c'], check=True)
    return made


def told_by(*scripts, **variables):
    """What scripts print, none of which may fail."""
    told = psql(*scripts, **variables)
    assert 'ERROR' not in told, told
    return told


def least_spent(queries):
    """The least seconds of processor time of each query, by name."""
    script = [line for query in queries.values() for line in (SPENT, query, SPENT)] * TURNS
    at = [int(time) for time in re.findall(r'^spent\|(\d+)$', told_by(ALONE, *script), re.M)]
    took = [(end - begin) / 1e9 for begin, end in zip(at[::2], at[1::2])]
    return {name: min(took[i::len(queries)]) for i, name in enumerate(queries)}


def least_waited(queries):
    """The least seconds by the clock of each setting and query, by name."""
    script = [line for before, query in queries.values() for line in (before, '\\timing on', query, '\\timing off')] * TURNS
    took = [float(time) / 1000 for time in re.findall(r'^Time: ([\d.]+) ms', told_by(*script), re.M)]
    return {name: min(took[i::len(queries)]) for i, name in enumerate(queries)}


def rows(of, least):
    """A row of the table for each name: what it took, and its rate beside the first."""
    first = next(iter(least.values()))
    return [[f'{of} {name}', f'{seconds:.3f} s', f'{ROWS / seconds / 1e6:.1f} million a second', f'{first / seconds:.2f} of the first']
            for name, seconds in least.items()]


def by_processor():
    folds = {'in plain C': 'SELECT plain_fold(50000, v) FROM t;', 'by `rvvbox_fold`': f'SELECT {fold()} FROM t;',
             'in PL/pgSQL': 'SELECT pl_fold(50000, v) FROM t;', 'that is `count(v)`': 'SELECT count(v) FROM t;'}
    maps = {'in plain C': 'SELECT sum(array_length(plain_map(a, b, 3), 1)) FROM c;',
            'by `rvvbox_map`': f"SELECT sum(array_length(rvvbox_map({image('axpy_8192')}, ARRAY[3], a, b), 1)) FROM c;",
            'in PL/pgSQL': 'SELECT sum(array_length(pl_map(a, b, 3), 1)) FROM c;'}
    return rows('an aggregate', least_spent(folds)) + rows('a map', least_spent(maps))


def by_clock():
    asked_for = {f"with {workers} worker{'s' * (workers > 1)}" if workers else 'by one process':
                 (f'{EAGER} SET max_parallel_workers_per_gather = {workers};', f'SELECT {fold()} FROM t;') for workers in (0, 1, 2, 3)}
    asked_for['on two servers'] = (ALONE, f'{folded_parts()};')
    return rows('`rvvbox_fold`', least_waited(asked_for))


def main():
    told_by((HERE / 'figures.sql').read_text(), plain=compiled())
    spent = readme.table(['4,000,000 rows or elements', 'Processor time', 'Rate', 'Beside the first'], *by_processor())
    told_by((HERE / 'servers.sql').read_text(), sockets=Servers.folder, first=PORTS[0], second=PORTS[1], role=ROLE, rows=ROWS // 2)
    waited = readme.table(['4,000,000 rows', 'By the clock', 'Rate', 'Beside the first'], *by_clock())
    readme.told(HERE, f'{readme.when()}:\n\n{spent}\n{waited}')


if __name__ == '__main__':
    try:
        Servers.start()
        main()
    finally:
        Servers.stop()
