"""Tests of `certify cc`. Those that compile are skipped where clang-16 or ld.lld-16 is not there."""
import os
import pathlib
import shutil
import struct
import subprocess
import unittest
from unittest import mock

import compilers
import host
import small
from outside import certificates
from test_commands import GCC, Case

CLANG = 'clang-16'
IS_THERE = shutil.which(CLANG) and shutil.which('ld.lld-16')
# a rising index that is kept, and an exit that depends on data
PLACE = '''void place(const unsigned char *bytes, unsigned n, unsigned wanted, unsigned *at) {
    unsigned i;
    for (i = 0; i < n && bytes[i] != wanted; i++)
        ;
    *at = i + MORE;
}
'''
BYTES = bytes(range(40))


@unittest.skipUnless(IS_THERE, 'clang-16 or ld.lld-16 is not installed')
class Cc(Case):
    def job(self, most=40, has_run=True, size=40):
        (self.folder / 'in').write_bytes(BYTES[:size])
        (self.folder / 'at').write_bytes(bytes(4))
        value = ', value = 20' if has_run else ''
        sizes = ['size = 40, file = "in"', 'size = 4, file = "at"'] if has_run else ['size = 40', 'size = 4']
        return self.file('job.toml', f'''vlen = 128
            param = [{{ kind = "buffer", mode = "r", {sizes[0]} }}, {{ kind = "scalar", lo = 0, hi = {most}{value} }},
            {{ kind = "scalar", lo = 0, hi = 255{value} }}, {{ kind = "buffer", mode = "rw", {sizes[1]} }},
            {{ kind = "buffer", mode = "rw", {sizes[1]} }}]''')

    def cc(self, *more, source=PLACE, job=None):
        """The command on the source. The first set of flags alone is asked, unless `more` names a compiler."""
        with mock.patch.object(compilers, 'SETS', compilers.SETS[:1]):
            return self.said('cc', self.file('place.c', source), job or self.job(), '-o', self.folder / 'out.elf', '--entry', 'place',
                             '--cflags=-DMORE=0', *more)

    def image(self, name='out.elf'):
        return certificates.read_image((self.folder / name).read_bytes())

    def placed(self, image, n, wanted, vlen=128):
        """What the kernel stores, and the number of a guard."""
        params = [small.reads(40), small.scalar(0, 50), small.scalar(0, 255), small.writes(4), small.STATUS]
        ran = small.run(image, params, [BYTES, n, wanted, bytes(4), bytes(4)], vlen)
        self.assertEqual((ran.fault, ran.steps is None), (None, False))
        return [struct.unpack('<I', ran.buffers[place])[0] for place in (3, 4)]

    def test_headers_of_the_library(self):
        """Memory functions, and what else freestanding code includes."""
        headers = ''.join(f'#include <{name}.h>\n' for name in ('assert', 'ctype', 'stdlib', 'string'))
        source = headers + PLACE.replace('    *at = i + MORE;', '    i += MORE + !isdigit(48) + abs(0);\n    assert(i);\n    memcpy(at, &i, sizeof i);')
        status, out, err = self.cc(source=source)
        self.assertEqual(status, 0, out + err)
        self.assertEqual(self.placed(self.image(), 40, 7)[0], 7)

    def test_the_last_line_is_that_of_check(self):
        status, out, err = self.cc('--map', self.folder / 'map')
        self.assertEqual(status, 0, out + err)
        self.assertRegex(out, r'^accepted: bound \d+ \+ \d+ \* x11\n$')
        self.assertIn(f'kept: {compilers.SETS[0].name}', err)
        self.assertEqual([self.placed(self.image(), n, wanted)[0] for n, wanted in ((40, 7), (40, 200), (0, 0), (5, 7))], [7, 40, 0, 5])
        if host.program():
            ran = subprocess.run([host.program(), 'check', self.folder / 'out.elf'], capture_output=True, text=True)
            self.assertEqual(ran.stdout, out)

    def test_a_guard_that_fails_has_its_line_of_the_source(self):
        status, out, err = self.cc('--cflags=-DMORE=0 -g', '--status', '4', '--map', self.folder / 'map', job=self.job(50))
        self.assertEqual(status, 0, out + err)
        image = self.image()
        self.assertEqual([self.placed(image, 50, 39), self.placed(image, 40, 200)], [[39, 0], [40, 0]])
        at, number = self.placed(image, 41, 200)
        self.assertEqual(at, 0)
        line = (self.folder / 'map').read_text().splitlines()[number - 1].split('\t')
        self.assertEqual((line[0], line[3][:5], line[5]), (str(number), 'place', 'a0'))
        self.assertRegex(line[4], r'(/place\.c:\d+|^-)$')

    def test_each_length_has_an_image(self):
        status, out, err = self.cc('--vlen', '128,256,512')
        self.assertEqual(status, 0, out + err)
        self.assertRegex(out, r'^(accepted: bound \d+ \+ \d+ \* x11\n){3}$')
        for name, vlen in (('out', 128), ('out-256', 256), ('out-512', 512)):
            image = self.image(name + '.elf')
            self.assertEqual(certificates.read_certificate(image.certificate).vlen, vlen)
            self.assertEqual(self.placed(image, 40, 9, vlen)[0], 9)

    def test_flags_are_added(self):
        self.assertEqual(self.cc('--cflags=-DMORE=100 -O1')[0], 0)
        self.assertEqual(self.placed(self.image(), 40, 7)[0], 107)

    def test_more_than_one_source(self):
        kernel = self.file('kernel.c', 'unsigned doubled(unsigned); void _start(unsigned n, unsigned *out) { *out = doubled(n); }')
        other = self.file('other.c', 'unsigned doubled(unsigned n) { return 2 * n; }')
        (self.folder / 'at').write_bytes(bytes(4))
        job = self.file('job.toml', '''param = [{ kind = "scalar", lo = 0, hi = 9, value = 4 },
            { kind = "buffer", mode = "rw", file = "at" }]''')
        status, out, err = self.said('cc', kernel, other, job, '-o', self.folder / 'out.elf', '--cc', CLANG)
        self.assertEqual(status, 0, out + err)
        params = [small.scalar(0, 9), small.writes(4)]
        self.assertEqual(small.run(self.image(), params, [4, bytes(4)]).buffers[1], small.word(8))

    def test_a_job_without_a_run(self):
        status, out, err = self.cc(job=self.job(has_run=False))
        self.assertEqual(status, 0, out + err)
        self.assertEqual(self.placed(self.image(), 40, 7)[0], 7)

    @unittest.skipUnless(shutil.which(GCC), f'{GCC} is not installed')
    def test_another_compiler(self):
        status, out, err = self.cc('--cc', GCC)
        self.assertEqual(status, 0, out + err)
        self.assertIn(f'kept: {GCC}', err)
        self.assertEqual(self.placed(self.image(), 40, 7)[0], 7)

    # ---- What is refused ----------------------------------------------------------------------------------------------------------

    def refused(self, status, said, *more, **how):
        ended, out, err = self.cc(*more, **how)
        self.assertEqual(ended, status, out + err)
        self.assertIn(said, out + err)
        self.assertFalse((self.folder / 'out.elf').exists())

    def test_a_source_that_does_not_compile(self):
        self.refused(2, 'the compiler refuses the source:', source='void place(')
        self.refused(2, "use of undeclared identifier 'MORE'", '--cflags=')
        self.refused(2, 'none.c', source='#include "none.c"')

    def test_a_source_that_is_not_there(self):
        self.assertEqual(self.said('cc', self.folder / 'none.c', self.job(), '-o', self.folder / 'out.elf')[0], 2)
        self.assertEqual(self.said('cc', self.job(), '-o', self.folder / 'out.elf')[::2], (2, 'certify: cc takes C sources, and behind them a job file\n'))

    def test_a_status_that_is_none(self):
        for place in (0, 1, 5):
            self.refused(2, '--status has to name', '--status', place)

    @unittest.skipUnless(host.program(), 'rvvbox is not built')
    def test_a_run_that_faults(self):
        """No set of flags gives an image whose run of the job ends."""
        job = self.job()
        text = pathlib.Path(job).read_text().replace('mode = "rw"', 'mode = "r"')
        self.refused(1, 'nothing found at VLEN 128', job=self.file('job.toml', text))


class NoCompiler(Case):
    def test_none_on_the_path(self):
        source, job = self.file('k.c', PLACE), self.file('job.toml', 'param = []')
        with mock.patch.dict(os.environ, PATH=str(self.folder)):
            for more in ((), ('--cc', 'clang-99')):
                status, out, err = self.said('cc', source, job, '-o', self.folder / 'out.elf', *more)
                self.assertEqual((status, out), (2, ''))
                self.assertRegex(err, r'^certify: .*(no compiler is there|clang-99)')
        self.assertFalse((self.folder / 'out.elf').exists())

    def test_sets(self):
        self.assertEqual([it.name.split()[0] for it in compilers.SETS][:1], ['clang-16'])
        self.assertEqual(len({it.command for it in compilers.SETS}), len(compilers.SETS))
        self.assertTrue(all('-march=rv32im' in ' '.join(it.command) for it in [*compilers.SETS, *compilers.sets('gcc'), *compilers.sets('clang')]))


if __name__ == '__main__':
    unittest.main()
