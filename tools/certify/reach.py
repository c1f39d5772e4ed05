#!/usr/bin/env python3
"""How far `certify` reaches: a folder of kernels, each compiled in several ways, guarded, run, and compared with what it was.

    reach.py FOLDER [--flags NAME,..] [--only KERNEL,..] [--jobs N] [--cc] [--markdown] [--limit SECONDS] [--runs N]

A folder has `*.c`, and a `kernels.toml` with what each kernel is passed by place: "rw 4096" and "r 4096" are buffers, "0..4096=4000" a
scalar in an interval with its number in the first run. Behind an "@" stands what a buffer is filled with: a kind of `KINDS`, or a file of
the folder. A kernel's image runs unguarded, then with guards, on that input and on some others; the buffers have to be the same wherever the
unguarded run ends without a fault. It stands outside the gate, since it takes minutes.
"""
import argparse
import contextlib
import io
import math
import multiprocessing
import pathlib
import random
import re
import resource
import signal
import struct
import sys
import tempfile
import tomllib
import traceback
from collections import namedtuple

import compilers
import from_c
import harden
import host
import notes
import toml_form
import watch
from outside import certificates

MORE = ('-DKERNEL=_start', '-w', '-fwrapv', '-fno-strict-aliasing')
GCC = 'riscv64-unknown-elf-gcc'
FLAGS = {
    'clang16-Os': lambda: named('clang-16 -Os, scalar'),
    'clang16-O3': lambda: named('clang-16 -O3, vectors'),
    'clang19-Os': lambda: named('clang-19 -Os, scalar'),
    'clang19-strips': lambda: named('clang-19 -O3, strips'),
    'gcc-O2': lambda: compilers.sets(GCC)[0],
    'gcc-Os': lambda: compilers.sets(GCC)[1],
    'gcc-O3': lambda: compilers.sets(GCC)[2],
}
USUAL = 'clang16-Os,clang16-O3,clang19-Os,clang19-strips,gcc-O2'
VLEN = 128
MOST_STEPS = 20_000_000         # of a run on other inputs

# A parameter of a kernel: what it is, what a scalar has in the first run, and what a buffer is filled with.
Place = namedtuple('Place', 'param value filled')
# What came of a kernel in one way: its steps without and with guards, what was put in, processor seconds, and ok or what went wrong.
Row = namedtuple('Row', 'kernel flags plain steps put seconds answer')


def named(name):
    return next(it for it in compilers.SETS if it.name == name)


# ---- What a kernel is passed -----------------------------------------------------------------------------------------------------

def places_of(texts):
    """The parameters of a kernel."""
    out = []
    for text in texts:
        buffer, scalar = re.fullmatch(r'(rw|r) (\d+)(?:@(.+))?', text), re.fullmatch(r'(\d+)\.\.(\d+)=(\d+)', text)
        if buffer:
            out.append(Place(certificates.Param('buffer', toml_form.MODES[buffer[1]], int(buffer[2]), 0), None, buffer[3]))
        elif scalar:
            out.append(Place(certificates.Param('scalar', 0, int(scalar[1]), int(scalar[2])), int(scalar[3]), None))
        else:
            raise notes.Trouble(f'what is passed is "rw SIZE", "r SIZE@KIND" or "LO..HI=VALUE", and not {text!r}')
    return out


def out_of(letters):
    return lambda size, rng: bytes(rng.choice(letters) for _ in range(size))


def of_words(letter, word):
    return lambda size, rng: struct.pack(f'<{size // struct.calcsize(letter)}{letter}',
                                         *(word(rng) for _ in range(size // struct.calcsize(letter))))


def sorted_words(size, rng):
    return struct.pack(f'<{size // 4}I', *sorted(rng.getrandbits(32) for _ in range(size // 4)))


def repeated(piece, margin, end):
    """Pieces behind one another up to a margin, and one byte as the rest."""
    def filled(size, rng):
        out = b''
        while len(out) < size - margin:
            out += piece(rng)
        return out[:size].ljust(size, end)
    return filled


def lz4_piece(rng):
    count = rng.randrange(5, 14)
    return bytes([count << 4 | rng.randrange(8)]) + rng.randbytes(count) + struct.pack('<H', rng.randrange(1, 5))


def lzf_piece(rng):
    count = rng.randrange(5, 20)
    return bytes([count - 1]) + rng.randbytes(count) + bytes([rng.randrange(1, 6) << 5, rng.randrange(4)])


BASE64 = b'ABCDEFGHIJKLMNOPQRSTUVWXYZabcdefghijklmnopqrstuvwxyz0123456789+/'
KINDS = {
    None: lambda size, rng: rng.randbytes(size),
    'zero': lambda size, rng: bytes(size),
    'small': lambda size, rng: bytes(rng.randrange(16) for _ in range(size)),
    'text': out_of(b'abc {}":,\\ x1\n'),
    'csv': out_of(b'abcd,efgh,12"34\n'),
    'b64': out_of(BASE64),
    'b64tab': lambda size, rng: bytes(BASE64.find(c) if c in BASE64 else 128 for c in range(256)),
    'hex': out_of(b'0123456789abcdef'),
    'ini': out_of(b'key=12\n\n;[s]'),
    'words': of_words('I', lambda rng: rng.getrandbits(rng.choice((3, 8, 16, 32)))),
    'idx': of_words('I', lambda rng: rng.randrange(300)),
    'sorted': sorted_words,
    'rle': repeated(lambda rng: bytes([rng.choice((2 * rng.randrange(1, 20), 3, 5)), rng.randrange(256)]), 0, b'\0'),
    'var': lambda size, rng: bytes(rng.randrange(128) + 128 * (rng.randrange(3) == 0) for _ in range(size)),
    'lz4': repeated(lz4_piece, 40, b'\x10'),
    'lzf': repeated(lzf_piece, 40, b'\0'),
    'opt': lambda size, rng: (bytes([1, 2, 4, 5, 0xb4, 3, 3, 7, 1, 8, 10]) + rng.randbytes(size))[:size],
}


def filled(folder, place, rng, is_first):
    """What a buffer is filled with. A file is changed in some bytes but for the first run."""
    if place.filled in KINDS:
        return KINDS[place.filled](place.param.a, rng)
    data = bytearray((folder / place.filled).read_bytes()[:place.param.a].ljust(place.param.a, b'\0'))
    for _ in range(0 if is_first else rng.randrange(4)):
        data[rng.randrange(len(data))] = rng.randrange(256)
    return bytes(data)


def passed(folder, places, rng, is_first):
    """Arguments of a run: those of the first, or others by chance."""
    def scalar(place):
        if is_first:
            return place.value
        ends = place.param.a, place.param.b, min(place.param.b, place.param.a + 1)
        return rng.choice((rng.randint(*ends[:2]), rng.randint(*ends[:2]), rng.choice(ends)))
    return [scalar(place) if place.param.kind == 'scalar' else filled(folder, place, rng, is_first) for place in places]


class Job:
    """What `harden` and `from_c` ask of a job file."""

    def __init__(self, places, contents):
        self.places, self.params, self.passed = places, [place.param for place in places], contents
        self.table, self.vlen = {'agnostic': 'ones', 'vlen': VLEN}, VLEN

    def can_run(self):
        return True

    def contents(self):
        return list(self.passed)


# ---- One kernel ------------------------------------------------------------------------------------------------------------------

class TimeUp(BaseException):
    """A kernel takes too long."""


def used():
    """The processor seconds of this process and of those that it waited for."""
    both = [resource.getrusage(who) for who in (resource.RUSAGE_SELF, resource.RUSAGE_CHILDREN)]
    return sum(it.ru_utime + it.ru_stime for it in both)


class Kernel:
    """A kernel, its input, and what is made of it."""

    def __init__(self, folder, name, texts, runs):
        self.folder, self.name, self.runs = folder, name, runs
        self.places = places_of(texts)
        self.rng, self.seconds = random.Random(name), 0
        self.job = Job(self.places, passed(folder, self.places, self.rng, True))

    def source(self):
        return self.folder / f'{self.name}.c'

    def run(self, image, contents, subcommand, most=1 << 40):
        return host.run(self.job.table, image, self.job.params, contents, VLEN, subcommand, most)

    def written(self, ran):
        """The buffers that a kernel may have written."""
        return {place: data for place, data in ran.buffers.items() if self.job.params[place].mode & certificates.WRITE}

    def compared(self, plain, made):
        """What differs between runs on other inputs, or 'ok' with how many could be compared."""
        compared = 0
        for number in range(self.runs):
            contents = passed(self.folder, self.places, self.rng, False)
            one = self.run(plain, contents, 'try', MOST_STEPS)
            if one.steps is None:
                continue
            two = self.run(made.data, contents, 'run')
            compared += 1
            if self.written(one) != self.written(two):
                scalars = [it if isinstance(it, int) else '.' for it in contents]
                return f'WRONG on other input {number} {scalars}: {one.steps} steps, guarded {two.steps}{self.ended_by(made, contents)}'
        return f'ok, {compared} others'

    def ended_by(self, made, contents):
        """Which guard ended a run."""
        number = made.maker and harden.failed_guard(made.maker, self.job, VLEN, contents)
        if not number:
            return ''
        it = made.maker.told[number - 1]
        return f', ended by guard {number}: {it.kind} at {it.pc:#x}, {it.what}'

    def guarded(self, flags, folder):
        """A row for one set of flags."""
        path = folder / f'{self.name}.elf'
        said = compilers.compiled(flags, [self.source()], path, '_start', MORE)
        if said is not None:
            return self.row(flags, None, None, '', f'not compiled: {one_line(said)}')
        data = path.read_bytes()
        plain = self.run(data, self.job.passed, 'try')
        if plain.steps is None:
            return self.row(flags, None, None, '', f'try: {one_line(plain.said)}')
        start = used()
        made = harden.made(data, certificates.read_image(data), self.job, VLEN, watch.Progress())
        self.seconds = used() - start
        put = '; '.join(harden.summary(made, 0))
        ran = self.run(made.data, self.job.passed, 'run')
        if ran.steps is None:
            return self.row(flags, plain.steps, None, put, f'run: {one_line(ran.said)}')
        if self.written(ran) != self.written(plain):
            return self.row(flags, plain.steps, ran.steps, put, f'WRONG on the first input{self.ended_by(made, self.job.passed)}')
        return self.row(flags, plain.steps, ran.steps, put, self.compared(data, made))

    def by_cc(self):
        """A row for `certify cc`, which chooses the flags."""
        start = used()
        made = from_c.made([self.source()], self.job, VLEN, watch.Progress(), cflags=MORE)
        self.seconds = used() - start
        if made is None:
            return self.row(None, None, None, '', 'nothing found')
        best, _ = made
        return self.row(best.flags, best.plain.steps, best.steps, '; '.join(harden.summary(best.made, 0)), self.compared(best.data, best.made))

    def row(self, flags, plain, steps, put, answer):
        return Row(self.name, flags.name if flags else 'cc', plain, steps, put, self.seconds, answer)


def one_line(text):
    return ' '.join(text.split())[:300]


def done(work):
    """One row, in a process of its own."""
    folder, name, texts, flags, limit, runs = work
    def up(*_):
        raise TimeUp
    signal.signal(signal.SIGPROF, up)
    signal.setitimer(signal.ITIMER_PROF, limit)
    said = io.StringIO()
    try:
        with tempfile.TemporaryDirectory() as place, contextlib.redirect_stderr(said):
            kernel = Kernel(folder, name, texts, runs)
            row = kernel.by_cc() if flags == 'cc' else kernel.guarded(FLAGS[flags](), pathlib.Path(place))
    except TimeUp:
        row = Row(name, flags, None, None, '', 0, f'more than {limit} processor seconds')
    except (notes.Trouble, certificates.Refused) as e:
        row = Row(name, flags, None, None, '', 0, f'not accepted: {one_line(str(e))}')
    except Exception:
        row = Row(name, flags, None, None, '', 0, f'CRASH: {one_line(traceback.format_exc()[-400:])}')
    finally:
        signal.setitimer(signal.ITIMER_PROF, 0)
    tail = f' [{one_line(said.getvalue())[-160:]}]' if said.getvalue() and not row.answer.startswith('ok') else ''
    return row._replace(seconds=row.seconds or used(), flags=flags if flags != 'cc' else row.flags, answer=row.answer + tail)


# ---- Tables ----------------------------------------------------------------------------------------------------------------------

def factor(row):
    return row.steps / row.plain if row.steps and row.plain else None


def cells(row):
    ratio = factor(row)
    return (row.kernel, row.flags, '' if row.plain is None else str(row.plain), '' if row.steps is None else str(row.steps),
            '' if ratio is None else f'{ratio:.2f}', row.put, f'{row.seconds:.1f}', row.answer)


HEADS = ('kernel', 'flags', 'steps', 'guarded', 'factor', 'put in', 'seconds', 'answer')


def printed(row, is_markdown):
    out = cells(row)
    if is_markdown:
        return '| ' + ' | '.join(cell.replace('|', '\\|') for cell in out) + ' |'
    return f'{out[0]:20} {out[1]:15} {out[2]:>9} {out[3]:>9} {out[4]:>6} {out[6]:>6}  {out[7]} ({out[5]})'


def sums(rows):
    """What is told of each set of flags, and of all."""
    for flags in [*dict.fromkeys(row.flags for row in rows), None]:
        some = [row for row in rows if flags in (None, row.flags)]
        accepted = [row for row in some if row.steps is not None]
        right = [row for row in accepted if row.answer.startswith('ok')]
        ratios = [factor(row) for row in right]
        mean = math.exp(sum(map(math.log, ratios)) / len(ratios)) if ratios else 0
        yield (f'{flags or "all"}: {len(accepted)} of {len(some)} accepted, {len(right)} right, steps {mean:.3f} times in the geometric mean, '
               f'at most {max(row.seconds for row in some):.0f} processor seconds')


def main(words=None):
    parser = argparse.ArgumentParser(prog='reach.py', description=__doc__.splitlines()[0])
    parser.add_argument('folder', type=pathlib.Path)
    parser.add_argument('--flags', default=USUAL, help=f'of {", ".join(FLAGS)}')
    parser.add_argument('--only', help='kernels by name')
    parser.add_argument('--jobs', type=int, default=1)
    parser.add_argument('--cc', action='store_true', help='by `certify cc`, which chooses the flags')
    parser.add_argument('--markdown', action='store_true')
    parser.add_argument('--limit', type=int, default=120, help='processor seconds for a kernel')
    parser.add_argument('--runs', type=int, default=5, help='how many other inputs')
    args = parser.parse_args(words)
    if host.program() is None:
        parser.error('rvvbox is not there: build it, or name it by $RVVBOX')
    kernels = tomllib.loads((args.folder / 'kernels.toml').read_text())
    names = args.only.split(',') if args.only else list(kernels)
    works = [(args.folder, name, kernels[name], flags, args.limit, args.runs)
             for flags in (['cc'] if args.cc else args.flags.split(',')) for name in names]
    if args.markdown:
        print('| ' + ' | '.join(HEADS) + ' |')
        print('|' + '---|' * len(HEADS))
    rows = []
    with multiprocessing.Pool(args.jobs, maxtasksperchild=1) as pool:
        for row in pool.imap(done, works, chunksize=1):
            rows.append(row)
            print(printed(row, args.markdown), flush=True)
    print('', *sums(rows), sep='\n')
    return 0


if __name__ == '__main__':
    sys.exit(main())
