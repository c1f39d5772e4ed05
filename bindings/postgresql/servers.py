"""Tests of the PostgreSQL extension that is installed, on servers of its own: `python3 bindings/postgresql/servers.py`.

Two servers are made in a temporary folder and speak by its sockets alone. $PG_CONFIG names the program pg_config. A root runs the servers
as the user postgres. With $WRITE, what pg_regress prints becomes what is expected.
"""
import os
import pwd
import re
import shutil
import socket
import struct
import subprocess
import sys
import tempfile
import unittest
from pathlib import Path

HERE = Path(__file__).resolve().parent
KERNELS, EXAMPLES = HERE.parent / 'kernels', HERE.parents[1] / 'examples'
PG_CONFIG = os.environ.get('PG_CONFIG', 'pg_config')
ROLE = 'postgres' if os.geteuid() == 0 else pwd.getpwuid(os.geteuid()).pw_name
AS = ['runuser', '-u', ROLE, '--'] if os.geteuid() == 0 else []
PORTS = (6543, 6544)
STATE = "'\\x000000000000000050c30000'::bytea"


def asked(word):
    """What pg_config says."""
    return Path(subprocess.run([PG_CONFIG, word], capture_output=True, text=True, check=True).stdout.strip())


def run(*words, **how):
    """Runs a program as the servers' user, in the servers' folder."""
    return subprocess.run([*AS, *map(str, words)], capture_output=True, text=True, cwd=Servers.folder, **how)


class Servers:
    """Two servers in a temporary folder."""
    folder = None

    @classmethod
    def start(cls):
        cls.folder = Path(tempfile.mkdtemp(prefix='rvv'))
        cls.folder.chmod(0o755)
        for image in [*KERNELS.glob('*.elf'), EXAMPLES / 'raise_words' / 'bare.elf']:
            shutil.copy(image, cls.folder)
        words = (EXAMPLES / 'raise_words' / 'raise_words.elf').read_bytes()
        (cls.folder / 'wrong.elf').write_bytes(words.replace(bytes.fromhex('13932200'), bytes.fromhex('13933200')))
        if AS:
            shutil.chown(cls.folder, ROLE)
        for port in PORTS:
            data = cls.folder / str(port)
            run(asked('--bindir') / 'initdb', '-D', data, '-A', 'trust', '-U', ROLE, '-N', '--locale=C', check=True)
            settings = f"-k {cls.folder} -p {port} -c listen_addresses='' -c fsync=off -c max_worker_processes=8 -c max_parallel_workers=8"
            with open(cls.folder / 'log', 'a') as log:
                subprocess.run([*AS, asked('--bindir') / 'pg_ctl', '-D', data, '-w', '-o', settings, 'start'], cwd=cls.folder, check=True, stdout=log,
                               stderr=log)

    @classmethod
    def stop(cls):
        for port in PORTS:
            run(asked('--bindir') / 'pg_ctl', '-D', cls.folder / str(port), '-m', 'immediate', 'stop')
        shutil.rmtree(cls.folder)


def psql(*scripts, database='postgres', **variables):
    """What scripts print, in one session, and the errors behind."""
    words = [asked('--bindir') / 'psql', '-X', '-A', '-t', '-q', '-h', Servers.folder, '-p', str(PORTS[0]), '-U', ROLE, '-d', database]
    words += [word for name, value in variables.items() for word in ('-v', f'{name}={value}')]
    ran = subprocess.run([*AS, *map(str, words)], input='\n'.join(scripts), capture_output=True, text=True, cwd=Servers.folder)
    return ran.stdout + ran.stderr


def image(name):
    """The image as SQL."""
    return "'\\x" + (KERNELS / f'{name}.elf').read_bytes().hex() + "'::bytea"


def fold():
    """The fold of a column v."""
    return f"rvvbox_fold({image('fold')}, {image('merge')}, {STATE}, v)"


def folded_parts():
    """The state of each server's part. Both servers work at once, and neither has to look for the rows of a shard."""
    return ' UNION ALL '.join(f'SELECT {shard} AS shard, {fold()} AS state FROM parts_{name}' for shard, name in enumerate(('zero', 'one')))


class Tests(unittest.TestCase):
    maxDiff = None

    @classmethod
    def setUpClass(cls):
        Servers.start()
        cls.addClassCleanup(Servers.stop)
        told = psql((HERE / 'servers.sql').read_text(), sockets=Servers.folder, first=PORTS[0], second=PORTS[1], role=ROLE, rows=200_000)
        assert 'ERROR' not in told, told

    def test_regress(self):
        regress = asked('--pkglibdir') / 'pgxs/src/test/regress/pg_regress'
        environment = os.environ | {'RVV_KERNELS': str(Servers.folder)}
        ran = run(regress, f'--inputdir={HERE}', f'--outputdir={Servers.folder}', f"--bindir={asked('--bindir')}", f'--host={Servers.folder}',
                  f'--port={PORTS[0]}', f'--user={ROLE}', '--dbname=regression', 'rvvbox', env=environment)
        written = Servers.folder / 'results' / 'rvvbox.out'
        if os.environ.get('WRITE'):
            (HERE / 'expected' / 'rvvbox.out').write_text(written.read_text())
            return
        self.assertEqual(ran.returncode, 0, (Servers.folder / 'regression.diffs').read_text() if ran.returncode else '')

    def merges_to_one(self, states):
        """Each server folds its own rows, and the merged state is that of one server with all rows."""
        told = psql('SET enable_partitionwise_aggregate = on;', f'EXPLAIN (VERBOSE, COSTS OFF) {states};')
        self.assertEqual((told.count('Async Foreign Scan'), told.count('Relations: Aggregate on')), (2, 2), told)
        merged = (f"WITH s AS MATERIALIZED ({states}) SELECT substr(rvvbox_run({image('merge')}, ARRAY[a.state, b.state], '{{}}'), 1, 8) "
                  'FROM s AS a, s AS b WHERE a.shard = 0 AND b.shard = 1;')
        one = psql('CREATE TEMP TABLE whole AS SELECT * FROM parts;', f'SELECT substr({fold()}, 1, 8) FROM whole;')
        self.assertEqual(psql('SET enable_partitionwise_aggregate = on;', merged), one)
        self.assertTrue(one.startswith('\\x'), one)

    def test_two_servers_by_part(self):
        self.merges_to_one(folded_parts())

    def test_two_servers_by_shard(self):
        self.merges_to_one(f'SELECT shard, {fold()} AS state FROM parts GROUP BY shard')

    def test_parallel(self):
        """Any number of workers leaves the bytes that one process does."""
        planned = ['SET parallel_setup_cost = 0;', 'SET parallel_tuple_cost = 0;', 'SET min_parallel_table_scan_size = 0;']
        told = {psql(*planned, f'SET max_parallel_workers_per_gather = {workers};', f'SELECT {fold()} FROM part;') for workers in (0, 1, 2, 4)}
        self.assertEqual(len(told), 1)

    def test_cancel(self):
        """A run of seconds ends within 50 ms of its cancellation: of ten runs the best, on a busy machine. No session is left behind."""
        spins = f"SELECT rvvbox_run({image('spin')}, '{{}}', ARRAY[100000000]);"
        told = psql("SET rvvbox.max_steps = 2000000000; SET statement_timeout = '100ms';", '\\timing on', *[spins] * 10)
        self.assertEqual(told.count('canceling statement due to statement timeout'), 10, told)
        self.assertLess(min(map(float, re.findall(r'Time: ([\d.]+) ms', told))), 150)
        spins = [f"PREPARE spins AS {spins}", "SET rvvbox.max_steps = 2000000000; SET statement_timeout = '2ms';", *['EXECUTE spins;'] * 20, USED,
                 *['EXECUTE spins;'] * 200, USED]
        first, last = used(psql(*spins))
        self.assertLess(last - first, 1000)

    def test_flat_memory(self):
        """10^5 refused statements need no more memory than 4,000. Each is sent by itself, and is a transaction."""
        wire = Wire()
        wire.send(f"PREPARE runs AS SELECT rvvbox_run({image('axpy_16')}, '{{}}', ARRAY[17, $1]);",
                  f"PREPARE maps AS SELECT rvvbox_map({image('axpy_16')}, ARRAY[$1::int8], ARRAY[1], ARRAY[1, 2]);",
                  "PREPARE bytes AS SELECT rvvbox_run(convert_to($1::text, 'UTF8'), '{}', '{}');",
                  "PREPARE images AS SELECT rvvbox_run(pg_read_binary_file($1), '{}', '{}');")
        four = 'EXECUTE runs(1);', 'EXECUTE maps(2);', "EXECUTE bytes('3');", f"EXECUTE images('{Servers.folder}/wrong.elf');"
        used = []
        for turns in (10, 250):
            refused = sum(kind == b'E' for _ in range(turns) for kind, _ in wire.send(*four * 100))
            self.assertEqual(refused, 400 * turns)
            used += [int(re.search(rb'used.{4}(\d+)', body, re.S)[1]) for kind, body in wire.send(USED) if kind == b'D']
        wire.socket.close()
        self.assertLess(used[1] - used[0], 1000)


class Wire:
    """A connection by PostgreSQL's own protocol: statements are sent together, and answered one by one."""

    def __init__(self):
        self.socket = socket.socket(socket.AF_UNIX)
        self.socket.connect(f'{Servers.folder}/.s.PGSQL.{PORTS[0]}')
        self.file = self.socket.makefile('rb')
        words = b''.join(word.encode() + b'\0' for word in ('user', ROLE, 'database', 'postgres', ''))
        self.socket.sendall(struct.pack('!II', 8 + len(words), 3 << 16) + words)
        self.answers(1)

    def answers(self, count):
        """The messages up to so many of those that a statement ends with, each of a type and a body."""
        told = []
        while count:
            kind, size = struct.unpack('!cI', self.file.read(5))
            told.append((kind, self.file.read(size - 4)))
            count -= kind == b'Z'
        return told

    def send(self, *statements):
        """Sends statements, each a query by itself, and tells all answers."""
        texts = [statement.encode() + b'\0' for statement in statements]
        self.socket.sendall(b''.join(struct.pack('!cI', b'Q', 4 + len(text)) + text for text in texts))
        return self.answers(len(texts))


# The memory of a server's process, in KB.
USED = "SELECT 'used', substring(pg_read_file('/proc/self/status') FROM 'VmData:\\s+(\\d+)');"


def used(told):
    """What USED told each time."""
    return [int(number) for number in re.findall(r'^used\|(\d+)$', told, re.M)]


if __name__ == '__main__':
    unittest.main()
