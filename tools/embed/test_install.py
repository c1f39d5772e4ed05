"""What `install.py` puts below a folder serves hosts: the tests of calls pass over the archive, an example runs over the shared library, and
neither shows another name than the header's functions."""
import shutil
import subprocess
import tempfile
import unittest
from pathlib import Path

from install import functions, install
from library import FLAGS, ROOT, ran

WORDS = ROOT / 'examples' / 'raise_words'
HERE = Path(__file__).parent


def seen(library, *words):
    """The names that a library defines for others."""
    told = subprocess.run(['nm', *words, '--defined-only', '--extern-only', library], check=True, capture_output=True, text=True).stdout
    return sorted(line.split()[-1] for line in told.splitlines() if len(line.split()) == 3)


class Install(unittest.TestCase):
    @classmethod
    def setUpClass(cls):
        cls.folder = tempfile.TemporaryDirectory()
        cls.prefix = Path(cls.folder.name) / 'a prefix'
        install(cls.prefix)
        cls.libraries = cls.prefix / 'lib'

    @classmethod
    def tearDownClass(cls):
        cls.folder.cleanup()

    def test_names(self):
        self.assertEqual(seen(self.libraries / 'librvvbox.a'), functions())
        self.assertEqual(seen(self.libraries / 'librvvbox.so', '--dynamic'), functions())

    def test_archive(self):
        program = str(self.prefix / 'faults')
        words = ['gcc', '-I', self.prefix / 'include', *FLAGS, '-o', program, HERE / 'faults.c', self.libraries / 'librvvbox.a', '-Wl,--wrap=malloc,--wrap=realloc']
        subprocess.run(words, check=True)
        answer = ran([program], cwd=WORDS)
        self.assertEqual((answer.returncode, answer.stderr), (0, b''))

    def test_shared(self):
        program, example = str(self.prefix / 'embed_c'), ROOT / 'examples' / 'embed_c'
        words = ['gcc', '-I', self.prefix / 'include', *FLAGS, '-o', program, example / 'main.c', '-L', self.libraries, '-lrvvbox']
        subprocess.run(words, check=True)
        answer = ran([program], cwd=example, env={'LD_LIBRARY_PATH': str(self.libraries)})
        self.assertEqual((answer.returncode, answer.stdout), (0, (WORDS / 'expected.bin').read_bytes()))

    @unittest.skipUnless(shutil.which('pkg-config'), 'pkg-config is not installed')
    def test_pkg_config(self):
        words = ['pkg-config', '--cflags', '--libs', 'rvvbox']
        told = subprocess.run(words, env={'PKG_CONFIG_PATH': str(self.libraries / 'pkgconfig')}, capture_output=True, text=True, check=True).stdout
        self.assertIn('-lrvvbox', told)


if __name__ == '__main__':
    unittest.main()
