"""Tests of the SQLite extension, by Debian's program sqlite3: `make check`."""
import os
import shutil
import signal
import subprocess
import sys
import tempfile
import time
import unittest
from pathlib import Path

HERE = Path(__file__).resolve().parent
KERNELS, EXAMPLES = HERE.parent / 'kernels', HERE.parents[1] / 'examples'
EXPECTED = HERE / 'expected.txt'


class Sqlite(unittest.TestCase):
    @classmethod
    def setUpClass(cls):
        folder = tempfile.TemporaryDirectory()
        cls.addClassCleanup(folder.cleanup)
        cls.folder = Path(folder.name)
        for image in KERNELS.glob('*.elf'):
            shutil.copy(image, cls.folder)
        words = (EXAMPLES / 'raise_words' / 'raise_words.elf').read_bytes()
        (cls.folder / 'wrong.elf').write_bytes(words.replace(bytes.fromhex('13932200'), bytes.fromhex('13933200')))

    def ran(self, script, *before):
        """What a script prints: its rows, and then its errors without the numbers of lines."""
        words = [*before, 'sqlite3', '-batch', ':memory:']
        answer = subprocess.run(words, input=f'.load {HERE / "rvv"}\n{script}', cwd=self.folder, capture_output=True, text=True, timeout=300)
        errors = [line.partition(': ')[2] if line.startswith('Runtime error near') else line for line in answer.stderr.splitlines()]
        return answer.stdout + '---- errors\n' + ''.join(line + '\n' for line in errors)

    def test_script(self):
        self.maxDiff = None
        told = self.ran((HERE / 'test.sql').read_text())
        if os.environ.get('WRITE'):
            EXPECTED.write_text(told)
        self.assertEqual(told, EXPECTED.read_text())

    def interrupted(self):
        """Seconds from sqlite3_interrupt, which the program calls for a signal, to the end of a run of seconds."""
        script = (f".load {HERE / 'rvv'}\nSELECT rvv_load('spin', readfile('spin.elf')), rvv_max_steps(2000000000);\n"
                  "SELECT rvv_call('spin', NULL, 100000000);\n")
        with subprocess.Popen(['sqlite3', '-batch', ':memory:'], stdin=subprocess.PIPE, stdout=subprocess.PIPE, stderr=subprocess.PIPE,
                              cwd=self.folder, text=True) as program:
            program.stdin.write(script)
            program.stdin.close()
            self.assertEqual(program.stdout.readline(), '512|2000000000\n')
            time.sleep(0.1)
            began = time.monotonic()
            program.send_signal(signal.SIGINT)
            self.assertIn('interrupted', program.stderr.readline())
            return time.monotonic() - began

    def test_interrupt(self):
        """Within 50 ms, of ten tries the best, on a busy machine."""
        self.assertLess(min(self.interrupted() for _ in range(10)), 0.05)

    def most(self, rows):
        """The most memory, in KB, of so many calls that are done and so many that are refused."""
        numbers = f'WITH RECURSIVE c(x) AS (SELECT 1 UNION ALL SELECT x + 1 FROM c WHERE x < {rows})'
        refused = "SELECT rvv_call('axpy', NULL, NULL, NULL, 17, 1);\n" * (rows // 20)
        script = f"SELECT rvv_load('axpy', readfile('axpy_16.elf'));\n{numbers} SELECT sum(length(rvv_call('axpy', NULL, NULL, NULL, 16, x))) FROM c;\n"
        told = self.ran(script + refused + "SELECT 'end';\n", sys.executable, '-c', TIMED)
        self.assertIn(f'{64 * rows}\nend\n', told)
        return int(told.splitlines()[-1])

    def test_flat_memory(self):
        self.assertLess(self.most(100_000), self.most(2000) + 2000)

    @unittest.skipUnless(shutil.which('valgrind'), 'valgrind is not installed')
    def test_no_leak(self):
        told = self.ran((HERE / 'test.sql').read_text(), 'valgrind', '--quiet', '--leak-check=full', '--errors-for-leak-kinds=definite', '--error-exitcode=9')
        self.assertNotIn('==', told)


# Runs the program that is named, and prints the most memory that it had.
TIMED = '''
import resource, subprocess, sys
subprocess.run(sys.argv[1:])
print(resource.getrusage(resource.RUSAGE_CHILDREN).ru_maxrss, file=sys.stderr)
'''


if __name__ == '__main__':
    unittest.main()
