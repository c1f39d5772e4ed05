#!/usr/bin/env python3
"""A fuzzer: `fuzz.py SECONDS [SEED]` draws images, jobs and scripts, and compares what the built program answers with expected.py and
made.py.

An image is one of the examples or of the tables of conformance with some of its bytes, words, pieces or fields changed, or a kernel that
is drawn with a certificate, of which up to two places are changed. It goes to `check`, to `try`, to `run`, with a script of commands that
are drawn, some of them damaged, to `mon`, and to `make`; where it is accepted, its run on drawn arguments has to be within its bound, and
the same as its `try` and `mon`. A loop is an image of makes.txt with its parameters, some of them changed, and goes to `make`. A job is a
text with some keys, values or bytes changed. Whatever differs is kept in the folder hostile-found, with its job, and told.
"""
import pathlib
import random
import re
import sys
import time

import expected
import made
from damage import FEW, Trials, drawn_args
from expected import Job
from outside import ROOT, certificates, drawn_checks, monitors, runs
from program import Folder, Tally, program

WORDS = ('try', 'run', 'mon')        # the subcommands that read a job's image
MOST_KEPT = 100
NUMBERS = (0, 1, 2, 3, 4, 7, 8, 16, 32, 127, 128, 255, 256, 4095, 4096, 65535, 0x7fffffff, 0x80000000, 0xfffffff0, 0xffffffff)
VALUES = ('0', '1', '-1', '128', '256', '512', '127', '4294967295', '4294967296', '9223372036854775807', '0x80', '1_0', '1.0', 'true',
          '""', '"r"', '"rw"', '"keep"', '"ones"', '"none"', '"scalar"', '"buffer"', '"in0"', '"image.elf"', '"missing"', '[]', '{}', "'keep'", '1979-05-27', 'inf')
KEYS = ('image', 'vlen', 'agnostic', 'max', 'kind', 'mode', 'size', 'file', 'out', 'lo', 'hi', 'value', 'param', 'x')
CODE = 84                   # where code begins behind one program header
LARGE = 5000                # larger images are passed over
SMALL = 300                 # the most bytes of a buffer
LONG = 1 << 22              # an image with a larger bound is not run
ANY = [certificates.Param('buffer', 6, 64), certificates.Param('scalar', 0, 0, 40)]      # for an image without a certificate


def rows_of(table):
    """The fields of each row of a table of conformance."""
    return [row.split() for row in (ROOT / 'crates/conformance/data' / table).read_text().splitlines() if row[0] != '#']


def param_of(field):
    """A parameter as makes.txt spells it."""
    if field == '-':
        return made.NONE
    if field[0] == 's':
        return certificates.Param('scalar', 0, *(int(end, 16) for end in field[1:].split(':')))
    return certificates.Param('buffer', made.MODES[{'r': 'r', 'w': 'rw'}[field[0]]], int(field[1:]))


class Images:
    """Images that are drawn."""

    def __init__(self, r):
        self.r = r
        self.examples = [path.read_bytes() for path in sorted((ROOT / 'examples').glob('[!s]*/*.elf'))]
        self.seeds = list(self.examples)
        for table, share in (('checks.txt', 7), ('orders.txt', 7), ('images.txt', 1)):
            files = [row[table != 'images.txt'] for row in rows_of(table)[::share]]
            self.seeds += [bytes.fromhex(file) for file in files if '+' not in file and len(file) < 2 * LARGE]
        self.loops = [(int(row[0]), [param_of(field) for field in row[1:9]], bytes.fromhex(row[9])) for row in rows_of('makes.txt') if len(row[9]) < 2 * LARGE]
        self.kernels = drawn_checks.Draw(r.random())

    def one(self):
        if self.r.random() < 0.4:
            return drawn_checks.one_row(self.kernels)[1]
        file = bytearray(self.r.choice(self.seeds))
        for _ in range(self.r.choice((1, 1, 1, 2, 3, 8))):
            self.change(file)
        return bytes(file)

    def loop(self):
        """A length of vector registers, parameters and an image, of which some are changed."""
        vlenb, params, file = self.r.choice(self.loops)
        params, file = list(params), bytearray(file)
        for _ in range(self.r.choice((0, 0, 1, 1, 2))):
            self.change(file, self.r.choice((0, CODE, CODE, CODE)))
        if self.r.random() < 0.3:
            place = self.r.randrange(8)
            params[place] = self.changed_param(params[place])
        return self.r.choice((vlenb, vlenb, vlenb, 16, 32, 64)), params, bytes(file)

    def changed_param(self, p):
        """Another parameter, or the same with an end or a size moved."""
        r = self.r
        near = p._replace(a=max(0, p.a + r.choice((-1, 0, 1))), b=p.b and min(p.b + r.choice((-1, 0, 1)), 0xffffffff))
        return r.choice((near, near, made.NONE, certificates.Param('scalar', 0, r.choice(NUMBERS), r.choice(NUMBERS)),
                         certificates.Param('buffer', r.choice((4, 6)), r.choice(NUMBERS)))) if p.kind != 'none' else p

    def change(self, file, first=0):
        """Changes bytes from this one on."""
        r = self.r
        at = r.randrange(min(first, len(file)), len(file) + 1)
        if r.random() < 0.3 and first == 0 and len(file) > 110:
            at = r.randrange(110)
        kind = r.randrange(9)
        if kind == 0:
            del file[at:]
        elif kind == 1:
            file[at:at] = r.randbytes(r.choice((1, 4, 32)))
        elif kind == 2:
            del file[at:at + r.choice((1, 4, 12))]
        elif kind == 3:
            other = r.choice(self.seeds)
            start = r.randrange(len(other))
            file[at:at + 32] = other[start:start + 32]
        elif at < len(file):
            if kind == 4:
                file[at] ^= 1 << r.randrange(8)
            elif kind == 5:
                file[at] = r.choice(NUMBERS) & 255
            elif kind == 6:
                file[at] = file[at] + r.choice((1, 255)) & 255
            else:
                at -= at % 4
                file[at:at + 4] = r.choice((r.choice(NUMBERS), r.getrandbits(32))).to_bytes(4, 'little')


def job_for(r, file):
    """A job on an image: most often what its certificate wants, in which one argument may be another; or any."""
    try:
        certificate = certificates.read_certificate(certificates.read_image(file).certificate or b'')
        params, vlenb = certificate.params, certificate.vlen // 8
    except certificates.Refused:
        params, vlenb = ANY, r.choice((16, 32, 64))
    small = [p._replace(a=min(p.a, SMALL)) if p.kind == 'buffer' and p.a > 1 << 16 else p for p in params]
    args = drawn_args(r, small, 40)
    if r.random() < 0.2:
        args[r.randrange(len(args))] = r.choice((None, r.choice(NUMBERS), ('w', r.randbytes(r.randrange(SMALL)))))
    if r.random() < 0.1:
        vlenb = r.choice((16, 32, 64))
    return Job(vlenb, r.random() < 0.5, r.choice((0, 1, FEW, 200, 200)), args)


def script_for(r, file, job):
    """Commands for the monitor of an image's run, some of which are damaged."""
    try:
        expected.read_image(file)
    except certificates.Refused:
        return b'x\nc\n'
    run = runs.Run('', file, job.args, job.vlenb)
    script = '\n'.join(monitors.command(r, run) for _ in range(r.randrange(16))).encode() + r.choice((b'', b'\n', b'\nc\nx\n', b'\nq', b'\nq\n', b'\r\n'))
    if r.random() < 0.2:
        at = r.randrange(len(script) + 1)
        script = script[:at] + r.choice((b'', b'\0', b'\n', b'\r', b' ', b'\xc3', r.randbytes(3), 5000 * b'0')) + script[at + r.randrange(3):]
    return script


def job_text(r, whole):
    """A job's text, changed, that names no file outside its folder."""
    while True:
        lines = whole.splitlines()
        for _ in range(r.choice((0, 1, 1, 1, 2, 4))):
            at = r.randrange(len(lines))
            key, _, value = lines[at].partition(' = ')
            kind = r.randrange(7)
            if kind == 0:
                lines[at] = '%s = %s' % (key, r.choice(VALUES))
            elif kind == 1:
                lines[at] = '%s = %s' % (r.choice(KEYS), value)
            elif kind == 2:
                lines.insert(at, '%s = %s' % (r.choice(KEYS), r.choice(VALUES)))
            elif kind == 3 and len(lines) > 1:
                del lines[at]
            elif kind == 4:
                lines.insert(at, lines[r.randrange(len(lines))])
            elif kind == 5:
                lines.append('[[param]]\nkind = "none"')
            else:
                place = r.randrange(len(lines[at]) + 1)
                lines[at] = lines[at][:place] + r.choice('"\'=[]{}# \t.,_-0é\x7f\x01' + key) + lines[at][place + r.randrange(2):]
        text = '\n'.join(lines).encode()
        if r.random() < 0.05:
            at = r.randrange(len(text))
            text = text[:at] + bytes([r.randrange(128, 256)]) + text[at + 1:]
        if not re.search(rb'[/\\]', text) and is_judged(text):
            return text


def is_judged(text):
    """Whether TOML 1.0, which Python reads, and 1.1 say the same of a text, and no number is too large for one of them alone."""
    return not re.search(rb'\{[^}]*(\n|,\s*\})|\d{19}|\d[eE]|\d:', text)


def kinds_of(job):
    """Parameters that the arguments of a job match: each number up to itself, and each buffer's size."""
    return [made.NONE if arg is None else certificates.Param('scalar', 0, 0, arg) if isinstance(arg, int) else
            certificates.Param('buffer', made.MODES[{'r': 'r', 'w': 'rw'}[arg[0]]], len(arg[1])) for arg in job.args]


class Fuzzer:
    def __init__(self, folder, tally, seed):
        self.r = random.Random(seed)
        self.folder, self.tally = folder, tally
        self.images = Images(self.r)
        self.trials = Trials(folder, tally, seed, LONG)

    def image(self):
        r, file = self.r, self.images.one()
        if len(file) > LARGE:
            return
        self.tally.tried += 1
        is_accepted = self.trials.check('image', file)
        job = job_for(r, file)
        job.put(self.folder)
        for word in WORDS:
            self.trials.compared('image', file, word, job, script_for(r, file, job))
        if is_accepted:
            self.trials.runs('image', file)
        self.trials.makes('image', file, kinds_of(job), job.vlenb)

    def loop(self):
        vlenb, params, file = self.images.loop()
        self.tally.tried += 1
        self.tally.count('of them loops')
        self.trials.makes('loop', file, params, vlenb)

    def job(self):
        """A changed job on an example: its answer, and every file behind it."""
        file = self.r.choice(self.images.examples)
        job = job_for(self.r, file)
        text = job_text(self.r, job.text('image.elf'))
        self.tally.tried += 1
        self.tally.count('of them jobs')
        files = {'image.elf': file, 'job.toml': text} | {'in%d' % place: data for place, data in job.buffers()}
        for word in WORDS:
            self.folder.hold(files)
            script = script_for(self.r, file, job) if word == 'mon' else b''
            wanted, left = expected.of_text(text, word, files, script)
            self.tally.expect('job, %s %s' % (word, script), self.folder.call(word, 'job.toml', script=script), wanted)
            self.tally.expect('job, files behind %s %s' % (word, script), self.folder.files(), files | left)

    def make_job(self):
        """A changed job of `make` on a loop: its answer, and every file behind it."""
        vlenb, params, file = self.images.loop()
        text = job_text(self.r, made.job_text(params, vlenb))
        self.tally.tried += 1
        self.tally.count('of them jobs')
        files = {'image.elf': file, 'job.toml': text}
        self.folder.hold(files)
        wanted, certified = made.of_text(text, files, 'image.elf')
        self.tally.expect('job, make', self.folder.call('make', 'image.elf', 'job.toml', 'made.elf'), wanted)
        self.tally.expect('job, files behind make', self.folder.files(), files | ({} if certified is None else {'made.elf': certified}))

    def keep(self, found):
        """Keeps what the last calls were about, of the first things found."""
        kept = pathlib.Path('hostile-found') / str(found)
        if found < MOST_KEPT:
            kept.mkdir(parents=True, exist_ok=True)
            for name, data in self.folder.files().items():
                (kept / name).write_bytes(data)
            (kept / 'told').write_text('\n'.join(self.tally.differed[found:]) + '\n')


def tried(called, seconds, seed=1):
    tally = Tally('fuzzer')
    end = time.monotonic() + seconds
    with Folder(called) as folder:
        fuzzer = Fuzzer(folder, tally, seed)
        while time.monotonic() < end:
            found = len(tally.differed)
            draw, = fuzzer.r.choices((fuzzer.image, fuzzer.loop, fuzzer.job, fuzzer.make_job), (12, 4, 3, 1))
            draw()
            if len(tally.differed) > found:
                fuzzer.keep(found)
            expected.ran.clear()
            if len(expected.judged) > 1000:
                expected.judged.clear()
    tally.count('images accepted', fuzzer.trials.accepted)
    return tally


def main():
    called = program()
    if called is None:
        sys.exit('rvvbox is not built: examples/try builds it')
    seconds, *seed = map(int, sys.argv[1:])
    tally = tried(called, seconds, *seed)
    print('\n'.join(tally.differed[:20] + [tally.line()]))
    sys.exit(bool(tally.differed))


if __name__ == '__main__':
    main()
