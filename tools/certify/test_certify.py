"""Tests: `python3 -m unittest discover tools/certify`. Those that compile are skipped with a notice where clang-16 or ld.lld-16 is not there."""
import contextlib
import io
import pathlib
import shutil
import subprocess
import tempfile
import unittest

import advice
import certify_main
import kernels_page
import notes
import search
import small
import toml_form
import trial
from outside import ROOT, certificates

HERE = pathlib.Path(__file__).parent
EXAMPLES = ROOT / 'examples'
OPTIONS = '--target=riscv32 -march=rv32im_zve32x -mabi=ilp32 -ffreestanding -fno-builtin -mno-relax -c'.split()
LINK = ['ld.lld-16', '-static', '-no-pie', '-z', 'max-page-size=4', '-z', 'noexecstack', '-T', EXAMPLES / 'kernel.ld']
IS_THERE = shutil.which('clang-16') and shutil.which('ld.lld-16')


def param(text):
    """A parameter of kernels.toml: `r 1024`, `rw 1024` or `0..1024`."""
    if '..' in text:
        lo, hi = text.split('..')
        return certificates.Param('scalar', 0, int(lo), int(hi))
    mode, size = text.split()
    return certificates.Param('buffer', toml_form.MODES[mode], int(size), 0)


def example(name):
    data = (EXAMPLES / name / f'{name}.elf').read_bytes()
    return data, certificates.read_image(data)


class Kernels(unittest.TestCase):
    """The kernels of kernels.toml, and that docs/KERNELS.md is the page that is printed of them."""

    def setUp(self):
        self.kernels = kernels_page.kernels()

    @unittest.skipUnless(IS_THERE, 'clang-16 or ld.lld-16 is not installed')
    def test_each_kernel_is_found_or_not_as_the_table_says(self):
        with tempfile.TemporaryDirectory() as folder:
            for kernel in self.kernels:
                with self.subTest(kernel=kernel['name']):
                    self.search(kernel, pathlib.Path(folder))

    def built(self, kernel, folder):
        """A kernel's image, as a file and read, and its parameters."""
        built, image = folder / 'k.o', folder / 'k.elf'
        source = HERE / 'kernels' / f"{kernel['name']}.c"
        subprocess.run(['clang-16', *OPTIONS, *kernel.get('options', kernels_page.PLAIN), source, '-o', built], check=True)
        subprocess.run([*LINK, built, '-o', image], check=True)
        data = image.read_bytes()
        return image, data, certificates.read_image(data), [param(text) for text in kernel['param']]

    @unittest.skipUnless(IS_THERE, 'clang-16 or ld.lld-16 is not installed')
    def test_each_that_is_refused_is_accepted_with_guards(self):
        with tempfile.TemporaryDirectory() as folder:
            for kernel in self.kernels:
                if kernel['search'] != 'found':
                    with self.subTest(kernel=kernel['name']):
                        _, data, _, params = self.built(kernel, pathlib.Path(folder))
                        self.assertEqual(small.Guarded(data, params).answer(), 'accepted')

    def search(self, kernel, folder):
        image, data, read, params = self.built(kernel, folder)
        refuted = trial.refuted(read, params, 128)
        self.assertEqual(refuted is not None, kernel['search'] == 'none')
        if refuted:
            self.assertIn(kernel['help'], '\n'.join(advice.told_of_run(refuted, read)))
            return
        found = search.find(read, params, 128)
        self.assertEqual(found.answer == 'accepted', kernel['search'] == 'found', found.answer)
        if kernel['search'] == 'found':
            image.write_bytes(notes.with_note(data, certificates.certificate_bytes(found.certificate)))
            with contextlib.redirect_stderr(io.StringIO()):
                said, is_accepted = certify_main.judge(image, read, found.certificate)
            self.assertTrue(is_accepted, said)
            self.assertEqual(said, advice.ended('accepted', found.certificate, read.entry))
        else:
            self.assertIn(kernel['help'], '\n'.join(advice.told(found, read)))

    def test_the_page_is_the_printed_one(self):
        self.assertEqual((ROOT / 'docs/KERNELS.md').read_text(), kernels_page.page())
        self.assertEqual({path.stem for path in (HERE / 'kernels').glob('*.c')}, {kernel['name'] for kernel in self.kernels})


class Runs(unittest.TestCase):
    def test_what_falls(self):
        visits = lambda *registers: [[0] * 10 + list(some) + [0] * (22 - len(some)) for some in zip(*registers)]
        for is_paid, registers in ((True, [(3, 2, 1), (0, 1, 2)]), (False, [(1, 2, 3), (5, 5, 5)]), (False, [(3, 2, 2), (5, 5, 5)]),
                                   (True, [(3, 2, 2), (5, 5, 4)]), (True, [(9, 8, 9, 8), (3, 3, 2, 2)]), (False, [(9, 8, 9, 8), (3, 4, 3, 4)]),
                                   (False, [(9, 7, 8, 9), (9, 8, 7, 8)]), (True, [(9, 7, 8, 6), (9, 9, 7, 7)]), (True, [(7,), (7,)])):
            with self.subTest(registers=registers):
                self.assertEqual(trial.is_paid(visits(*registers)), is_paid)


class Examples(unittest.TestCase):
    def test_certificates_of_the_examples_are_found(self):
        for name in ('sum_bytes', 'raise_words', 'translate', 'raise_if', 'fill_rows'):
            _, image = example(name)
            params = certificates.read_certificate(image.certificate).params
            self.assertEqual(search.find(image, params, 512).answer, 'accepted', name)

    def test_a_certificate_comes_back_from_its_text(self):
        for name in ('sum_bytes', 'raise_if', 'fill_rows'):
            data, image = example(name)
            certificate = certificates.read_certificate(image.certificate)
            again = toml_form.Form(toml_form.written(certificate)).certificate(certificate.vlen)
            self.assertEqual(certificates.certificate_bytes(again), image.certificate)
            self.assertEqual(notes.with_note(data, image.certificate), data)


if __name__ == '__main__':
    unittest.main()
