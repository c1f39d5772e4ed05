"""Damaged images: every prefix of certified images, and each byte of their headers, code and note changed; and the same of an image
without a certificate.

Each with a certificate is given to `check`, to `try`, to `run`, and with a few commands to `mon`. Every answer has to be the one that
expected.py tells; and what is accepted has to run within its bound on arguments that are drawn, and to end as `try` and `mon` end. Those
without are given to `make`, whose answers and files have to be those of made.py; and `check` has to accept what is made.
"""
import itertools
import random
import struct
from concurrent.futures import ProcessPoolExecutor

import expected
import made
from expected import Job
from outside import ROOT, certificates
from program import Answer, Folder, Tally, total

NAMES = ('raise_words', 'sum_bytes', 'raise_if')        # two of version 1, one without vectors, and one of version 2
LENGTHS = {16: 1, 32: 2, 64: 3}                         # bytes of a vector register, and how a certificate spells it
VALUES = (0x00, 0x7f, 0x80, 0xff)
FEW = 40                                                # the most steps of a `try` of what is refused
MODELLED = 400                                          # the most steps of a run that the machine in Python carries out too
MOST = (1 << 63) - 1                                    # the most steps that a job may have
DRAWS = 2
BEGUN = b's 3\nx\ncsr\nl 10000 8\nm 40000000 16\n'    # commands of `mon`
WATCHED = BEGUN + b'c\nq\n'                            # and up to the end of the run
# What raise_words takes.
PARAMS = [certificates.Param('buffer', certificates.READ | certificates.WRITE, 4096), certificates.Param('scalar', 0, 0, 1024)] + 6 * [made.NONE]


def example(name, vlenb):
    """The example's image with its certificate, for this length of vector registers."""
    file = bytearray((ROOT / 'examples' / name / (name + '.elf')).read_bytes())
    file[file.index(certificates.read_image(file).certificate) + 2] = LENGTHS[vlenb]
    return bytes(file)


def places(file):
    """Where the ELF header, the program headers, and the bytes of segments and notes lie in a file."""
    table, = struct.unpack_from('<I', file, 28)
    count, = struct.unpack_from('<H', file, 44)
    parts = [(0, 52), (table, 32 * count)]
    for k in range(count):
        kind, offset, _, _, size = struct.unpack_from('<5I', file, table + 32 * k)
        if kind in (certificates.LOAD, certificates.NOTE):
            parts.append((offset, size))
    return sorted({at for first, size in parts for at in range(first, first + size)})


def damaged(file):
    """(what was done, the bytes) of each damaged file."""
    for size in range(len(file)):
        yield 'the first %d bytes' % size, file[:size]
    for at in places(file):
        for value in VALUES:
            if file[at] != value:
                yield 'byte %d is %02x' % (at, value), file[:at] + bytes([value]) + file[at + 1:]


def drawn_args(draw, params, most_scalar=None):
    """Arguments that match the parameters of a certificate: numbers at the ends of their intervals, or between."""
    args = []
    for p in params:
        if p.kind == 'scalar':
            top = p.b if most_scalar is None else max(p.a, min(p.b, most_scalar))
            args.append(draw.choice((p.a, top, draw.randint(p.a, top))))
        elif p.kind == 'buffer':
            args.append(('w' if p.mode & certificates.WRITE else 'r', draw.randbytes(p.a)))
        else:
            args.append(None)
    return args


class Trials:
    """Calls of the program on one image after the other, each compared with what is expected."""

    def __init__(self, folder, tally, seed=1, most=MOST):
        """`most`: an accepted image whose bound is larger is not run."""
        self.folder, self.tally, self.most = folder, tally, most
        self.draw = random.Random(seed)
        self.accepted = 0

    def check(self, what, file):
        """Whether the image is accepted."""
        self.folder.put('image.elf', file)
        wanted = expected.of_check(file)
        self.tally.expect(what + ', check', self.folder.call('check', 'image.elf'), wanted)
        return wanted.status == 0

    def compared(self, what, file, word, job, script=WATCHED):
        script = script if word == 'mon' else b''
        wanted, left = expected.of_job(file, job, word, script)
        got, got_left = self.called(word, job, script)
        self.tally.expect('%s, %s %s' % (what, word, script), got, wanted)
        self.tally.expect('%s, out files of %s %s' % (what, word, script), got_left, left)

    def called(self, word, job, script=b''):
        """The answer, and the out files by place, of which there are none where nothing was run."""
        outs = {place: 'out%d' % place for place, _ in job.buffers()}
        self.folder.remove(*outs.values())
        answer = self.folder.call(word, 'job.toml', script=script)
        left = {place: self.folder.get(name) for place, name in outs.items()}
        return answer, {place: data for place, data in left.items() if data is not None}

    def runs(self, what, file):
        """An accepted image on arguments that are drawn: its bound is enough, one step less is not, and `run` is `try` and `mon`."""
        self.accepted += 1
        certificate = certificates.read_certificate(expected.read_image(file).certificate)
        for k in range(DRAWS):
            args = drawn_args(self.draw, certificate.params, None if k else 12)
            job = Job(certificate.vlen // 8, self.draw.random() < 0.5, MOST, args)
            refusal, bound = expected.session(file, job)
            if refusal is None and bound <= self.most:
                self.run_and_try('%s, drawn %d' % (what, k), file, job, bound)
        if bound:
            job.most = min(bound - 1, MOST)
            job.put(self.folder)
            self.tally.expect(what + ', a step less than the bound', self.called('run', job), (expected.refused('BoundTooLarge'), {}))

    def run_and_try(self, what, file, job, bound):
        job.most = bound
        job.put(self.folder)
        run, tried = self.called('run', job), self.called('try', job)
        self.tally.expect(what + ', run is try', run, tried)
        words = run[0].output.split()
        within = run[0].status == 0 and words[:1] == ['ended:'] and int(words[1]) <= bound
        self.tally.expect(what + ', within its bound of %d' % bound, within or run[0], True)
        if within and int(words[1]) <= MODELLED:
            self.tally.expect(what + ', as the machine in Python', run, expected.carried_out(file, job))
        if within:
            begun = expected.of_job(file, job, 'mon', BEGUN)[0].output
            wanted = Answer(0, '%sended step %s\n' % (begun, words[1])), run[1]
            self.tally.expect(what + ', mon is run', self.called('mon', job, WATCHED), wanted)

    def makes(self, what, file, params, vlenb):
        """`make` of one image, of which what is made is accepted."""
        wanted, certified = made.of_file(file, params, vlenb)
        self.folder.put('image.elf', file)
        self.folder.put('kinds.toml', made.job_text(params, vlenb))
        self.folder.remove('made.elf')
        self.tally.expect(what + ', make', self.folder.call('make', 'image.elf', 'kinds.toml', 'made.elf'), wanted)
        self.tally.expect(what + ', what is made', self.folder.get('made.elf'), certified)
        if certified is not None:
            self.tally.count('certificates made')
            self.tally.expect(what + ', check of what is made', self.folder.call('check', 'made.elf'), wanted)


def part(program, name, vlenb, share):
    """One example at one length: as it is, and one in `share` of its damaged files."""
    tally = Tally('damaged images', 'images')
    with Folder(program) as folder:
        trials = Trials(folder, tally, '%s %d' % (name, vlenb))
        file = example(name, vlenb)
        params = certificates.read_certificate(certificates.read_image(file).certificate).params
        job = Job(vlenb, vlenb == 32, FEW, drawn_args(trials.draw, params, 9))
        one(trials, '%s at %d bits' % (name, 8 * vlenb), file, job)
        for what, changed in itertools.islice(damaged(file), None, None, share):
            one(trials, '%s at %d bits, %s' % (name, 8 * vlenb, what), changed, job)
    tally.count('images accepted', trials.accepted)
    return tally


def one(trials, what, file, job):
    trials.tally.tried += 1
    is_accepted = trials.check(what, file)
    job.put(trials.folder)
    for word in ('try', 'run', 'mon'):
        trials.compared(what, file, word, job)
    if is_accepted:
        trials.runs(what, file)


def bare_part(program, vlenb, share):
    """The image without a certificate at one length: as it is, and one in `share` of its damaged files."""
    tally = Tally('damaged images', 'images')
    with Folder(program) as folder:
        trials = Trials(folder, tally)
        file = (ROOT / 'examples/raise_words/bare.elf').read_bytes()
        for what, changed in itertools.chain([('as it is', file)], itertools.islice(damaged(file), None, None, share)):
            tally.tried += 1
            trials.makes('bare at %d bits, %s' % (8 * vlenb, what), changed, PARAMS, vlenb)
    return tally


def tried(program, share=1, at_once=1):
    """All examples at all lengths, so many at once."""
    with ProcessPoolExecutor(at_once) as pool:
        parts = [pool.submit(part, program, name, vlenb, share) for name in NAMES for vlenb in LENGTHS]
        parts += [pool.submit(bare_part, program, vlenb, share) for vlenb in LENGTHS]
        return total(part.result() for part in parts)
