"""Sessions: a run by slices leaves what it leaves at once, what is refused changes nothing, and refused allocations leave nothing behind."""
import tempfile
import unittest
from pathlib import Path

from library import ROOT, compiled, ran, under_valgrind


class Sessions(unittest.TestCase):
    def test_each(self):
        with tempfile.TemporaryDirectory() as folder:
            program = str(Path(folder) / 'sessions')
            compiled(Path(__file__).parent / 'sessions.c', program, '-Wl,--wrap=malloc,--wrap=realloc')
            answer = ran(under_valgrind(program), cwd=ROOT / 'examples' / 'raise_words')
        self.assertEqual((answer.returncode, answer.stderr), (0, b''))


if __name__ == '__main__':
    unittest.main()
