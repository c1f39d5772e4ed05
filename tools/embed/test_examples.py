"""The examples for hosts are built, run, and leave what another program computed; and so do the wrappers for C++ and Rust."""
import subprocess
import tempfile
import unittest
from pathlib import Path

from install import install
from library import FLAGS, ROOT, archives, compiled, ran, under_valgrind, without_target

EXAMPLES = ROOT / 'examples'
EXPECTED = EXAMPLES / 'raise_words' / 'expected.bin'


class Examples(unittest.TestCase):
    def test_c(self):
        with tempfile.TemporaryDirectory() as folder:
            program = str(Path(folder) / 'embed_c')
            compiled(EXAMPLES / 'embed_c' / 'main.c', program)
            answer = ran(under_valgrind(program), cwd=EXAMPLES / 'embed_c')
        self.assertEqual((answer.returncode, answer.stderr), (0, b'DONE: 2002 steps\n'))
        self.assertEqual(answer.stdout, EXPECTED.read_bytes())

    def test_spans(self):
        with tempfile.TemporaryDirectory() as folder:
            program = str(Path(folder) / 'spans')
            words = [word for word in FLAGS if not word.startswith('-std')]
            subprocess.run(['g++', '-std=c++20', *words, '-o', program, Path(__file__).parent / 'spans.cpp', *archives(), '-pthread'], check=True)
            answer = ran(under_valgrind(program), cwd=EXAMPLES / 'raise_words')
        self.assertEqual((answer.returncode, answer.stderr), (0, b''))


class Cargo(unittest.TestCase):
    @classmethod
    def setUpClass(cls):
        cls.folder = tempfile.TemporaryDirectory()
        install(Path(cls.folder.name))

    @classmethod
    def tearDownClass(cls):
        cls.folder.cleanup()

    def cargo(self, where, *words):
        """What cargo answers in a folder, over the library that was just installed."""
        environment = {**without_target(), 'RVVBOX_LIB': str(Path(self.folder.name) / 'lib')}
        return ran(['cargo', *words, '--quiet', '--offline', '--target-dir', str(Path(self.folder.name) / 'target')], cwd=where, env=environment)

    def test_example(self):
        answer = self.cargo(EXAMPLES / 'embed_cargo', 'run')
        self.assertEqual((answer.returncode, answer.stderr), (0, b'2002 steps\n'))
        self.assertEqual(answer.stdout, EXPECTED.read_bytes())

    def test_wrapper(self):
        answer = self.cargo(ROOT / 'bindings' / 'rust', 'test')
        self.assertEqual(answer.returncode, 0, answer.stdout + answer.stderr)


if __name__ == '__main__':
    unittest.main()
