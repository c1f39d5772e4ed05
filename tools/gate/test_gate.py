"""Tests of how many proofs go side by side, and of the table of minutes: `python3 -m unittest discover -s tools/gate`."""
import os
import subprocess
import sys
import tempfile
import unittest
from pathlib import Path
from unittest import mock

import lanes
import minutes
from minutes import Process, Work

HERE = Path(__file__).resolve().parent
GB = 1_000_000_000
# What stands for a process of rattle: a shell that is called so, with a command below it that ends with its input.
PROVES = ['rattle', '-c', 'cat; :', 'check', '--crate-name', 'small']


class Lanes(unittest.TestCase):
    def test_by_processors_and_memory(self):
        for cores, room, wanted in ((1, 20 * GB, 1), (2, 20 * GB, 2), (4, 13 * GB, 4), (16, 60 * GB, 4), (4, 11 * GB, 3), (4, 7 * GB, 2),
                                    (2, 7 * GB, 2), (4, GB, 1), (4, 0, 1)):
            with self.subTest(cores=cores, room=room):
                self.assertEqual(lanes.lanes(cores, room), wanted)

    def test_a_given_number_is_kept(self):
        with mock.patch.dict(os.environ, {'RT_JOBS': '3'}):
            self.assertEqual(lanes.chosen(), 3)
        for word in ('', '0', 'many'):
            with mock.patch.dict(os.environ, {'RT_JOBS': word}):
                self.assertIn(lanes.chosen(), range(1, lanes.MOST + 1))

    def test_this_machine(self):
        self.assertGreater(lanes.free(), 0)
        self.assertGreaterEqual(lanes.memory('MemTotal'), lanes.memory('MemAvailable'))


class Kinds(unittest.TestCase):
    def test_work(self):
        rattle, crate = '/kit/bin/rattle', '/repo/crates/rows'
        for words, folder, wanted in (
                ([rattle, 'build', '--crate-name', 'rows', 'src/lib.rt'], crate, Work('rows', 'proof')),
                ([rattle, 'check', '--crate-name', 'rows', '--test'], crate, Work('rows', 'tests')),
                ([rattle, 'build', '--crate-name', 'rows', '--crate-checked', 'checked'], crate, Work('rows', 'build')),
                ([rattle, 'check', '--crate-name', 'rows', '--incremental', '/tmp/rt-edits-7-a/seed'], '/tmp/rt-edit-7-b', Work('rows', 'second proof')),
                ([rattle, 'check', '--crate-name', 'rows', '--incremental', '/tmp/rt-edits-7-a/0'], '/tmp/rt-edit-7-b', Work('rows', 'edits')),
                ([rattle, 'check', '--crate-name', 'rows'], '/tmp/rt-edit-7-b', Work('rows', 'edits')),
                (['/tmp/rt-run-7-c/bin/rows_tests'], '/tmp/rt-run-7-c/data', Work('rows', 'run')),
                (['/kit/bin/rattle-test', '--seconds', '60', '/tmp/rt-run-7-c/bin/rows_tests'], '/', Work('rows', 'run')),
                (['python3', '-m', 'unittest', 'discover', '-s', 'tools/hostile'], '/repo', Work('tools/hostile', 'scripts')),
                (['python3', 'tools/embed/stamps.py', '5'], '/repo', Work('tools/embed/stamps.py', 'scripts')),
                ([rattle, 'fmt', '--check', 'src/lib.rt'], crate, None),
                (['python3', '/usr/bin/rt', 'ci'], '/repo', None),
                ([], '/', None)):
            with self.subTest(words=words):
                self.assertEqual(minutes.work_of(words, folder), wanted)

    def test_below(self):
        found = {1: Process(0, 0, 0), 2: Process(1, 0, 0), 3: Process(2, 0, 0), 4: Process(1, 0, 0), 5: Process(9, 0, 0)}
        self.assertEqual(sorted(minutes.below(2, found)), [3])
        self.assertEqual(sorted(minutes.below(1, found)), [2, 3, 4])


class Table(unittest.TestCase):
    def test_a_process_and_what_it_starts_are_one_work(self):
        sampler = minutes.Sampler(os.getpid())
        with subprocess.Popen(PROVES, executable='/bin/sh', stdin=subprocess.PIPE) as proof:
            while not sampler.seen and proof.poll() is None:
                self.assertTrue(sampler.look())
            proof.stdin.close()
        self.assertEqual([it.work for it in sampler.seen.values()], [Work('small', 'proof')])
        self.assertEqual([line.split()[:3] for line in minutes.table(sampler)[1:]],
                         [['small', 'proof', '1'], ['all', 'proof', '1'], ['all', 'all', f'{sampler.ticks / minutes.TICKS:.0f}']])

    def test_it_is_written_when_the_gate_has_ended(self):
        with tempfile.TemporaryDirectory() as folder:
            file = Path(folder) / 'minutes.txt'
            with subprocess.Popen(['sleep', '1.5']) as gate:
                subprocess.run([sys.executable, HERE / 'minutes.py', str(gate.pid), file], check=True, timeout=30)
            self.assertIn('processors', file.read_text())


if __name__ == '__main__':
    unittest.main()
