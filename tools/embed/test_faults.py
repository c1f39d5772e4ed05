"""Wrong arguments have the statuses of the header, and refused allocations leave memory as it was, and nothing behind."""
import tempfile
import unittest
from pathlib import Path

from library import ROOT, compiled, ran, under_valgrind


class Faults(unittest.TestCase):
    def test_each(self):
        with tempfile.TemporaryDirectory() as folder:
            program = str(Path(folder) / 'faults')
            compiled(Path(__file__).parent / 'faults.c', program, '-Wl,--wrap=malloc,--wrap=realloc')
            answer = ran(under_valgrind(program), cwd=ROOT / 'examples' / 'raise_words')
        self.assertEqual((answer.returncode, answer.stderr), (0, b''))


if __name__ == '__main__':
    unittest.main()
