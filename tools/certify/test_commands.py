"""Tests of the command line: `find`, `put`, `show`, and the way of a new user that README.md tells."""
import contextlib
import io
import os
import pathlib
import re
import shutil
import subprocess
import tempfile
import unittest

import certify_main
import compilers
import host
import names
import notes
import toml_form
from outside import ROOT, certificates

EXAMPLES = ROOT / 'examples'
COMPILERS = 'clang-16', 'ld.lld-16', 'clang-19', 'ld.lld-19'
GCC = 'riscv64-unknown-elf-gcc'
ARE_THERE = all(map(shutil.which, COMPILERS))
LOOP = '''vlen = [128, 256, 512]

[[param]]
kind = "buffer"
mode = "rw"
size = 4096

[[param]]
kind = "scalar"
lo = 0
hi = 1024

[[block]]
start = "end"
constant = 1
fact = [{ number = "ra", lo = 0xffff_fff0, hi = 0xffff_fff0 }]

[[block]]
start = 0x1_0000
constant = 2
factor = 8
register = "a1"
[[block.fact]]
number = "a1"
hi = 1024
equal = { terms = [{ passed = 1 }] }
[[block.fact]]
number = "x10"
lo = 0x4000_0000
hi = 0x4000_0000
equal = { constant = 0x4000_0000 }
[[block.fact]]
number = 1
lo = 0xffff_fff0
hi = 0xffff_fff0

[[block]]
start = "loop"
constant = 1
factor = 8
register = 11
[[block.fact]]
number = "ra"
lo = 0xffff_fff0
hi = 0xffff_fff0
[[block.fact]]
number = "a0"
lo = 0x4000_0000
hi = 0x4000_1000
equal = { constant = 0x4000_0000, terms = [{ passed = 1, factor = 4 }, { register = "a1", factor = -4 }] }
[[block.fact]]
number = "a1"
lo = 1
hi = 1024
'''
MAP = '00010004 t loop\n0x10024 end\n\nnot a line of a map\n'


class Case(unittest.TestCase):
    """A folder of its own, and the command line in it."""

    def setUp(self):
        folder = tempfile.TemporaryDirectory()
        self.addCleanup(folder.cleanup)
        self.folder = pathlib.Path(folder.name)

    def file(self, name, text):
        (self.folder / name).write_text(text)
        return str(self.folder / name)

    def said(self, *words):
        """The status, and what was printed to both streams."""
        out, err = io.StringIO(), io.StringIO()
        with contextlib.redirect_stdout(out), contextlib.redirect_stderr(err):
            try:
                status = certify_main.main([str(word) for word in words])
            except SystemExit as e:
                status = e.code
        return status, out.getvalue(), err.getvalue()

    def done(self, *words):
        status, out, err = self.said(*words)
        self.assertEqual(status, 0, out + err)
        return out

    def certificate(self, name):
        return certificates.read_certificate(certificates.read_image((self.folder / name).read_bytes()).certificate)


def example(name):
    return EXAMPLES / name / f'{name}.elf'


class Find(Case):
    JOB = '''vlen = 256
        param = [{ kind = "buffer", mode = "r", size = 1024 }, { kind = "scalar", lo = 0, hi = HI }, { kind = "none" },
        { kind = "buffer", mode = "rw", file = "out.bin" }]'''

    def job(self, most=1024):
        (self.folder / 'out.bin').write_bytes(bytes(4))
        return self.file('job.toml', self.JOB.replace('HI', str(most)))

    def test_the_length_is_the_jobs_and_a_buffers_size_that_of_its_file(self):
        out = self.done('find', example('sum_bytes'), self.job(), '-o', self.folder / 'one.elf')
        self.assertRegex(out, r'^accepted: bound \d+ \+ \d+ \* x11\n$')
        found = self.certificate('one.elf')
        self.assertEqual((found.vlen, [p.a for p in found.params if p.kind == 'buffer']), (256, [1024, 4]))

    def test_each_length_has_its_image_and_its_text(self):
        self.done('find', example('sum_bytes'), self.job(), '--vlen', '512,128,256', '-o', self.folder / 'sum.elf',
                  '--toml', self.folder / 'sum.toml')
        for name, vlen in (('sum', 512), ('sum-128', 128), ('sum-256', 256)):
            self.assertEqual(self.certificate(name + '.elf').vlen, vlen)
            self.done('put', example('sum_bytes'), self.folder / (name + '.toml'), '-o', self.folder / 'again.elf')
            self.assertEqual((self.folder / 'again.elf').read_bytes(), (self.folder / (name + '.elf')).read_bytes())

    def test_a_run_that_faults_shows_that_there_is_none(self):
        status, out, _ = self.said('find', example('sum_bytes'), self.job(1025), '-o', self.folder / 'one.elf')
        self.assertEqual((status, out.splitlines()[0]), (1, 'there is no certificate at VLEN 256'))
        self.assertIn('a run with a1 = 1025 meets LoadFault 0x40000400 at 0x1', out)
        self.assertFalse((self.folder / 'one.elf').exists())

    def test_a_buffer_that_may_only_be_read(self):
        job = self.file('job.toml', pathlib.Path(self.job()).read_text().replace('"rw"', '"r"'))
        status, out, _ = self.said('find', example('sum_bytes'), job, '-o', self.folder / 'one.elf')
        self.assertEqual(status, 1)
        self.assertRegex(out, 'meets StoreFault 0x4000[0-9a-f]{4} at .*\n.* is what is written to of mode "rw"')

    def test_faults_of_usage(self):
        sum_bytes, out = example('sum_bytes'), self.folder / 'one.elf'
        no_mode = self.file('no_mode.toml', 'param = [{ kind = "buffer", size = 4 }]')
        no_file = self.file('no_file.toml', 'param = [{ kind = "buffer", mode = "r", file = "none.bin" }]')
        no_toml = self.file('no_toml.toml', 'param = [')
        no_value = self.file('no_value.toml', 'param = [{ kind = "scalar", lo = 4 }]')
        for said, *words in (("a parameter needs 'mode'", sum_bytes, no_mode), ('none.bin', sum_bytes, no_file),
                             ("a parameter needs 'value'", sum_bytes, no_value),
                             ('no_toml.toml: not TOML', sum_bytes, no_toml), ('is no image: TooShort', no_toml, self.job()),
                             ('none.elf', self.folder / 'none.elf', self.job()),
                             ('a length is 128, 256 or 512', sum_bytes, self.job(), '--vlen', '64'),
                             ('a length is 128, 256 or 512', sum_bytes, self.job(), '--vlen', 'wide')):
            with self.subTest(said=said):
                status, _, err = self.said('find', *words, '-o', out)
                self.assertEqual(status, 2)
                self.assertIn(said, err)
        self.assertEqual(self.said('find', sum_bytes, self.job())[0], 2)
        self.assertEqual(self.said()[0], 2)


class Put(Case):
    def put(self, text, image=example('raise_words'), *more):
        return self.said('put', image, self.file('c.toml', text), '-o', self.folder / 'put.elf', *more)

    def test_labels_of_a_map_lengths_and_what_is_sorted(self):
        status, _, err = self.put(LOOP, example('raise_words'), '--map', self.file('map', MAP))
        self.assertEqual((status, err), (0, ''))
        for name, vlen in (('put', 128), ('put-256', 256), ('put-512', 512)):
            found = self.certificate(name + '.elf')
            self.assertEqual((found.vlen, found.version), (vlen, 1))
            self.assertEqual([b.start for b in found.blocks], [0x10000, 0x10004, 0x10024])
            self.assertEqual([f.number for f in found.blocks[0].facts], [1, 10, 11])
            self.assertEqual(found.blocks[1].facts[1].equal, (0x40000000, ((11, 0xfffffffc), (34, 4))))
            image = self.folder / (name + '.elf')
            said = certify_main.judge(image, certificates.read_image(image.read_bytes()), found)
            self.assertEqual(said, ('accepted: bound 2 + 8 * x11', True))

    def test_an_older_note_goes(self):
        once = example('raise_words').read_bytes()
        self.put(LOOP.replace('"loop"', '0x10004').replace('"end"', '0x10024').replace('hi = 1024', 'hi = 1000'))
        other = (self.folder / 'put.elf').read_bytes()
        self.assertNotEqual(other, once)
        self.assertEqual(self.certificate('put.elf').params[1].b, 1000)
        self.done('put', self.folder / 'put.elf', EXAMPLES / 'raise_words/certificate.toml', '-o', self.folder / 'back.elf')
        self.assertEqual((self.folder / 'back.elf').read_bytes(), once)

    def test_an_image_that_has_none_gets_one(self):
        status, _, _ = self.put('vlen = 128\n[[block]]\nstart = 0x10000\nconstant = 7\nvtype = "e8, m2, ta, ma"\n', example('add_bytes'))
        block, = self.certificate('put.elf').blocks
        self.assertEqual((status, block.c, block.vtype), (0, 7, 0xc1))

    def test_orders_and_second_factors_are_of_version_2(self):
        block = 'vlen = 512\n[[block]]\nstart = 0x10000\nconstant = 7\n'
        orders = 'order = [{ greater = "a1", lesser = "vl" }, { greater = 10, lesser = "a1" }]\n'
        for more, version in (('', 1), (orders, 2), ('factor = 2\nregister = "a2"\nsecond_factor = 3\nsecond_register = "a1"\n', 2)):
            self.assertEqual(self.put(block + more)[0], 0)
            self.assertEqual(self.certificate('put.elf').version, version)
        found, = self.certificate('put.elf').blocks
        self.assertEqual((found.r, found.k, found.r2, found.k2), (11, 3, 12, 2))
        self.put(block + orders)
        self.assertEqual([tuple(o) for o in self.certificate('put.elf').blocks[0].orders], [(10, 11), (11, 32)])

    def test_the_example_of_the_documents(self):
        text = (ROOT / 'docs/CERTIFICATES.md').read_text()
        example = re.search(r'^```toml\n(.*?)^```', text, re.S | re.M)[1]
        made = certificates.certificate_bytes(toml_form.Form(example).certificate(128))
        self.assertIn(f'It has {len(made)} bytes', text)
        parts = re.findall(r'^((?:[0-9a-f]{2} )+[0-9a-f]{2}) ', text, re.M)
        self.assertEqual(len(parts), 5)
        for part in parts:
            self.assertIn(bytes.fromhex(part), made)
        image = certificates.read_image((EXAMPLES / 'raise_words/raise_words.elf').read_bytes())
        self.assertEqual(made, image.certificate)

    def test_each_vector_type_has_its_text(self):
        for text, bits in names.VTYPE_BITS.items():
            form = toml_form.Form(f'vlen = 128\n[[block]]\nstart = 0x10000\nconstant = 1\nvtype = "{text}"\n')
            self.assertEqual(form.certificate(128).blocks[0].vtype, bits)

    def test_what_breaks_a_rule_of_the_bytes_is_told_and_put(self):
        status, _, err = self.put('vlen = 128\n[[block]]\nstart = 0x10002\nconstant = 1\n')
        self.assertEqual(status, 0)
        self.assertIn('breaks a rule of its bytes, BlockOrder', err)

    def test_errors_tell_their_line(self):
        line = {text: number for number, text in reversed(list(enumerate(LOOP.splitlines(), 1)))}
        mapped = MAP.replace('loop', 'lop')
        for old, new, said in (
                ('size = 4096', 'sise = 4096', 'line {}: unknown key sise in param'),
                ('factor = 8', 'factors = 8', 'line {}: unknown key factors in block'),
                ('number = "x10"', 'register = "x10"', 'line {}: unknown key register in fact'),
                ('equal = { constant = 0x4000_0000 }', 'equal = { sum = 0 }', 'line {}: unknown key sum in equal'),
                ('mode = "rw"', 'mode = "w"', 'line {}: mode has to be "r" or "rw"'),
                ('equal = { terms = [{ passed = 1 }] }', 'equal = { terms = [{ passed = 8 }] }', 'passed has to be a number from 0 to 0x7'),
                ('number = "x10"', 'number = "x33"', 'line {}: number has to be a register'),
                ('kind = "scalar"', 'kind = "number"', 'line {}: kind has to be'),
                ('vlen = [128, 256, 512]', 'vlen = [128, 1024]', 'line {}: vlen has to be'),
                ('start = "loop"', 'start = "lost"', 'line {}: no label lost in the image'),
                ('size = 4096', 'size = 0x200_0000', 'line {}: size has to be a number'),
                ('constant = 2', 'constant = 2\nvtype = "e8,m16,ta,ma"', 'vtype e8,m16,ta,ma is none'),
                ('constant = 2', '', 'block 2 needs constant'),
                ('register = 11', 'register = [', 'c.toml: not TOML')):
            with self.subTest(said=said):
                self.assertIn(old, LOOP)
                text = LOOP.replace(old, new, 1)
                status, _, err = self.put(text, example('raise_words'), '--map', self.file('map', MAP))
                self.assertEqual(status, 2)
                self.assertIn(said.format(line[old]), err)
        self.assertIn('no label loop', self.put(LOOP, example('raise_words'), '--map', self.file('map', mapped))[2])
        self.assertIn('no label end', self.put(LOOP)[2])
        nine = 'vlen = 128\nparam = [' + '{ kind = "none" },' * 9 + ']\n'
        self.assertIn('more than eight parameters', self.put(nine)[2])


class Show(Case):
    def test_names_and_code(self):
        out = self.done('show', example('raise_if'))
        for line in ('version 2, VLEN 128', 'a0: a buffer of 1024 bytes to read and write', 'a2: a number, 0 to 1',
                     '0x10014: at most 8 * a1 instructions', '  vl is at most a1', '  vtype is e8,m1,ta,ma', '  t0 is 1 to 64, equal to vl',
                     '    0x10014  vse8.v v8, (a0)'):
            self.assertIn(line, out)

    def test_its_text_is_put_again(self):
        for name in ('raise_words', 'raise_if', 'fill_rows', 'translate', 'grey'):
            text = self.file('c.toml', self.done('show', example(name), '--toml'))
            self.done('put', example(name), text, '-o', self.folder / 'again.elf')
            self.assertEqual((self.folder / 'again.elf').read_bytes(), example(name).read_bytes(), name)

    def test_what_has_none_or_a_broken_one(self):
        self.assertEqual(self.said('show', example('add_bytes'))[::2], (2, f"certify: {example('add_bytes')} has no certificate\n"))
        (self.folder / 'bad.elf').write_bytes(notes.with_note(example('add_bytes').read_bytes(), bytes(8)))
        self.assertEqual(self.said('show', self.folder / 'bad.elf')[::2], (1, 'certify: refused: Version\n'))


class NewHost(unittest.TestCase):
    """The documents' call of the library."""

    def test_it_is_a_test_word_for_word(self):
        block = re.search(r'^## In Rattle\n.*?```rust\n(.*?)^```', (ROOT / 'docs/EMBEDDING.md').read_text(), re.S | re.M)[1]
        self.assertIn(block, (ROOT / 'crates/run_calls/src/tests/readme.rt').read_text())


def told(page, heading):
    """The blocks of text in a section of a page: of each its commands with what they print."""
    text = (ROOT / page).read_text()
    section = re.split(r'^## ', text[text.index(f'\n## {heading}\n') + 4:], flags=re.M)[0]
    # a command goes on behind a backslash at the end of its line
    return [re.findall(r'^\$ ((?:.*\\\n)*.*)\n((?:(?!\$ ).*\n)*)', block, re.M) for block in re.findall(r'^```text\n(.*?)^```', section, re.S | re.M)]


@unittest.skipUnless(ARE_THERE, f"one of {', '.join(COMPILERS)} is not installed")
class NewUser(Case):
    """README.md's own kernel, from C to `run`, what docs/CERTIFY.md goes on to do with it, and the loop of docs/MAKE.md, by their own words."""

    def setUp(self):
        super().setUp()
        os.symlink(ROOT / 'tools', self.folder / 'tools')
        os.mkdir(self.folder / 'bin')
        if host.program():
            os.symlink(pathlib.Path(host.program()).resolve(), self.folder / 'bin/rvvbox')
        self.path = {**os.environ, 'PATH': f"{self.folder / 'bin'}:{os.environ['PATH']}"}
        self.first, self.early = told('README.md', 'Your own kernel')
        (_, files), *self.first = self.first            # (the first command shows the source and the job)
        self.file('line.c', files[:files.index('image = ')])
        self.file('job.toml', files[files.index('image = '):])

    def try_all(self, commands, folder=None):
        """Runs commands, each of which has to print what the page shows. Those that run a kernel need the program."""
        for command, said in commands:
            if not host.program() and 'rvvbox ' in command:
                continue
            ran = subprocess.run(['bash', '-c', command], cwd=folder or self.folder, env=self.path, capture_output=True, text=True)
            self.assertEqual((ran.returncode, ran.stdout), (0, said), command + ran.stderr)

    def test_the_readme(self):
        self.try_all(self.first + self.early)

    @unittest.skipUnless(shutil.which(GCC), f'{GCC} is not installed')
    def test_the_page(self):
        (self.folder / 'text').write_bytes((self.folder / 'job.toml').read_bytes()[:64])
        for name, size in (('to', 32), ('length', 4), ('status', 4)):
            (self.folder / name).write_bytes(bytes(size))
        for heading in ('Your C, one command', 'What a guard that fails looks like', 'Images of other compilers'):
            for block in told('docs/CERTIFY.md', heading):
                self.try_all(block)

    @unittest.skipUnless(host.program(), 'rvvbox is not built')
    def test_the_loop_that_needs_no_search(self):
        made, *_ = told('docs/MAKE.md', 'An example')
        self.try_all(made, shutil.copytree(EXAMPLES / 'raise_words', self.folder / 'raise_words'))

    def test_labels_come_from_the_symbol_table(self):
        source = self.file('halve.c', 'void _start(unsigned char *bytes, unsigned n) { for (unsigned i = 0; i < n; i++) bytes[i] /= 2; }')
        image = self.folder / 'halve.elf'
        self.assertIsNone(compilers.compiled(compilers.SETS[0], [source], image, '_start'))
        entry = certificates.read_image(image.read_bytes()).entry
        self.assertEqual(notes.labels(image.read_bytes())['_start'], entry)
        blocks = 'vlen = 128\nblock = [{ start = "_start + 8", constant = 1 }, { start = "_start", constant = 2 }]\n'
        self.done('put', image, self.file('c.toml', blocks), '-o', image)
        self.assertEqual([b.start for b in self.certificate('halve.elf').blocks], [entry, entry + 8])
        self.assertIn(f'{entry:#x} <_start>: at most 2 instructions', self.done('show', image))


if __name__ == '__main__':
    unittest.main()
