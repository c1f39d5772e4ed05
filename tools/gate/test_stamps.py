"""stamps.py stamps the libraries that a run made, and no others."""
import contextlib
import importlib.util
import io
import os
import tempfile
import types
import unittest
from pathlib import Path
from unittest import mock

FILE = Path(__file__).resolve().parents[1] / 'embed' / 'stamps.py'
SPEC = importlib.util.spec_from_file_location('stamps', FILE)
stamps = importlib.util.module_from_spec(SPEC)
SPEC.loader.exec_module(stamps)

SINCE = 1_000_000_000
BEFORE = SINCE - 1


class Stamps(unittest.TestCase):
    def setUp(self):
        folder = tempfile.TemporaryDirectory()
        self.addCleanup(folder.cleanup)
        self.root = Path(folder.name)

    def library(self, name, *times):
        """A library of that name, with a folder in it for each further time, each folder made at its time."""
        top = self.root / name / 'rlib' / f'{name}.rlib'
        top.mkdir(parents=True)
        below = [top / str(number) for number in range(len(times) - 1)]
        for folder in below:
            folder.mkdir()
            (folder / 'file').touch()
        for folder, time in zip([top, *below], times):
            os.utime(folder, (time, time))
        return top

    def stamp(self, name):
        return self.root / name / 'rlib' / 'stamp'

    def test_folders_made_since(self):
        self.assertTrue(stamps.is_new(self.library('new', SINCE, SINCE), SINCE))

    def test_one_folder_made_before(self):
        self.assertFalse(stamps.is_new(self.library('old', SINCE, SINCE, BEFORE), SINCE))

    def test_stamped(self):
        top = self.library('stamped', SINCE)
        self.stamp('stamped').touch()
        self.assertFalse(stamps.is_new(top, SINCE))

    def test_none(self):
        self.assertFalse(stamps.is_new(self.root / 'none', SINCE))

    def crate(self, name, makes=True):
        top = str(self.root / name / 'rlib' / f'{name}.rlib')
        return types.SimpleNamespace(rlib=top, makes_rlib=lambda: makes, stamp=lambda: f'sum of {name}')

    def test_main(self):
        self.library('new', SINCE)
        self.library('old', BEFORE)
        self.library('program', SINCE)
        crates = [self.crate('new'), self.crate('old'), self.crate('program', makes=False), self.crate('none')]
        kit = types.SimpleNamespace(crates_below=lambda root: crates)
        at = os.getcwd()
        self.addCleanup(os.chdir, at)
        with mock.patch.object(stamps, 'kit_library', lambda: kit), contextlib.redirect_stdout(io.StringIO()) as said:
            stamps.main(SINCE)
        self.assertEqual(self.stamp('new').read_text(), 'sum of new')
        self.assertFalse(self.stamp('old').exists())
        self.assertFalse(self.stamp('program').exists())
        self.assertEqual(said.getvalue(), 'stamps: 1 libraries that rt ci proved can be taken by rt lib\n')


if __name__ == '__main__':
    unittest.main()
