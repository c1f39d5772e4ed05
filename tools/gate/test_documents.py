"""Tests of `tools/prose` and `tools/links`: `python3 -m unittest discover -s tools/gate`."""
import contextlib
import importlib.machinery
import importlib.util
import io
import subprocess
import sys
import tempfile
import unittest
from pathlib import Path

TOOLS = Path(__file__).resolve().parents[1]


def loaded(name):
    """A script of `tools` as a module."""
    loader = importlib.machinery.SourceFileLoader(f'tool_{name}', str(TOOLS / name))
    made = importlib.util.module_from_spec(importlib.util.spec_from_loader(loader.name, loader))
    loader.exec_module(made)
    return made


prose, links = loaded('prose'), loaded('links')


class Folder(unittest.TestCase):
    def setUp(self):
        folder = tempfile.TemporaryDirectory()
        self.addCleanup(folder.cleanup)
        self.folder = Path(folder.name)

    def file(self, name, text):
        (self.folder / name).write_text(text)
        return self.folder / name


class Prose(Folder):
    def status(self, *words):
        """What `tools/prose` answers, and what it prints."""
        with contextlib.redirect_stdout(io.StringIO()) as printed:
            return prose.main([str(word) for word in words]), printed.getvalue()

    def test_sentences(self):
        text = ('# A heading of five words here\n\nOne two three. Four five six seven!\n\n- an item of a list\n- another one of it\n\n'
                '```text\nnot a sentence at all\n```\n| a row | of a table |\n\nNo more.\n')
        self.assertEqual(prose.sentences(text), [3, 4, 5, 4])

    def test_words_are_those_that_people_wrote(self):
        text = 'One two.\n```text\nthree\n```\n<!-- the pairs, by a script -->\nfour\n<!-- the end of the pairs -->\n'
        self.assertEqual(prose.words(text), 2)
        self.assertEqual(prose.words('This page is printed by `a script`.'), 0)

    def test_comments(self):
        text = '//! Of the file.\n//// no comment of a document\nlet x = 1; // nor this\n    /// Of an item.\n/// Its second line.\n'
        self.assertEqual(prose.comments(text), 'Of the file.\n\n\nOf an item.\nIts second line.')

    def test_limits(self):
        short = self.file('short.md', 'One two three four.\n')
        self.assertEqual(self.status('--average', 4, short)[0], 0)
        self.assertEqual(self.status('--average', 3, short)[0], 1)
        self.assertEqual(self.status('--words', 4, short)[0], 0)
        self.assertEqual(self.status('--words', 3, short)[0], 1)
        long = ' '.join(['word'] * 31) + '.\n'
        self.assertEqual(self.status('--average', 40, self.file('one.md', long))[0], 0)
        status, printed = self.status('--average', 40, self.file('two.md', long + long))
        self.assertEqual(status, 1)
        self.assertIn('two.md: 31.0 words a sentence, 100 % above 30', printed)

    def test_the_repository_has_what_is_measured(self):
        self.assertIn(TOOLS.parent / 'README.md', prose.documents())
        self.assertTrue(any(path.suffix == '.antt' for path in prose.commented()))


class Links(Folder):
    def test_anchors(self):
        self.assertEqual(links.anchors('# What `run` does, in order\n## As TOML\n## As TOML\n```text\n# none\n```\n'),
                         {'what-run-does-in-order', 'as-toml', 'as-toml-1'})

    def test_what_leads_nowhere_is_told(self):
        self.file('there.md', '# A heading\n')
        page = self.file('page.md', '# Here\n[a](there.md) [b](there.md#a-heading) [c](#here) [d](https://nowhere.invalid) `[e](no.md)`\n'
                                    '[f](gone.md) [g](there.md#gone) ![h](gone.svg)\n')
        self.assertEqual(list(links.broken(page)), ['gone.md: no such file', 'there.md#gone: no such heading', 'gone.svg: no such file'])


class Picture(unittest.TestCase):
    def test_it_is_what_its_text_says(self):
        text = (TOOLS.parent / 'docs/picture.dot').read_bytes()
        drawn = subprocess.run([sys.executable, '-B', TOOLS / 'certify/picture.py'], input=text, capture_output=True, check=True).stdout
        self.assertEqual((TOOLS.parent / 'docs/picture.svg').read_bytes(), drawn)


if __name__ == '__main__':
    unittest.main()
