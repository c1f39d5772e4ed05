"""Threads run, share and let go kernels of one image at once, and others go on with its sessions: no thread races another, and nothing is
leaked."""
import tempfile
import unittest
from pathlib import Path

from library import ROOT, compiled, ran, under_helgrind, under_valgrind


class Threads(unittest.TestCase):
    def test_one_image(self):
        with tempfile.TemporaryDirectory() as folder:
            program = str(Path(folder) / 'threads')
            compiled(Path(__file__).parent / 'threads.c', program, '-pthread')
            for words in (under_valgrind(program), under_helgrind(program)):
                answer = ran(words, cwd=ROOT / 'examples' / 'raise_words')
                self.assertEqual((answer.returncode, answer.stderr), (0, b''))


if __name__ == '__main__':
    unittest.main()
