"""Makes loops.txt: runs of the loops of makes.txt, each with the certificate that is made of it in its note.

Usage: loops.py > loops.txt. Rows are as in sessions.txt. MAX is the bound itself, C + K * n. n is its lower end, its upper end and numbers between, as
far as a run of MOST_STEPS steps goes and, but for one strip, changes no more than SPELLED bytes; of a loop with more than LARGE bytes of buffers one n. Where not even
the lower end does, the row is the refusal for one step fewer than the bound.

The certificate is maker.py's; that it opens the run, or does not, checker.py and opening.py say. State, memory and steps are qemu-riscv32's where buffers have
up to ASKED bytes, and model.py's in each row.
"""
import functools
import random
import subprocess

import certificates as c
import checker
import maker
import makes
import model
import opening
from kernels import Kernel, file_of
from runs import Run
from table import vlmax_of

MOST_STEPS, SPELLED, DRAWN_BYTES = 2000, 1024, 64
ASKED, LARGE = 1 << 14, 1 << 20
opening.check = functools.lru_cache(None)(checker.check)


def spelled(data):
    """HEX, or HEX+N where more than four zeros lie behind."""
    zeros = len(data) - len(data.rstrip(b'\0'))
    return data[:len(data) - zeros].hex() + '+%d' % zeros if zeros > 4 else data.hex()


class LoopRun(Run):
    def row(self, *after):
        """As Run's, with buffers as they are spelled here."""
        args = ['-' if a is None else 's%08x' % a if isinstance(a, int) else a[0] + spelled(a[1]) for a in self.args]
        return ' '.join([str(self.vlenb), 'ones' if self.ones else 'keep', str(self.most), self.image.hex()] + args + ['='] + [short(str(a)) for a in after])


def short(outs):
    """The text of what has changed, with the bytes of its arguments as they are spelled here."""
    fields = [field.split('=') for field in outs.split(' ')]
    return ' '.join('='.join([f[0], spelled(bytes.fromhex(f[1]))] if f[0][0] == 'a' else f) for f in fields)


def counts(rng, loop, lo, hi, vlmax):
    """Numbers of elements, from the lower end to the upper one, that a run is short enough for."""
    strips = min(MOST_STEPS // loop.length, SPELLED // (loop.width * vlmax * max(1, len(loop.pointers))) or 1)
    most = min(hi, max(1, strips) * vlmax)
    between = {rng.randint(lo, most), min(most, max(lo, vlmax + 1))} if lo <= most else set()
    return sorted(({lo, hi} | between) & set(range(lo, most + 1)) if lo <= most else set())


def argument(rng, p):
    if p.kind == 'none':
        return None
    if p.kind == 'scalar':
        return rng.randint(p.a, p.b)
    drawn = min(p.a, DRAWN_BYTES)
    return ('w' if p.mode & c.WRITE else 'r', bytes(rng.randrange(256) for _ in range(drawn)) + bytes(p.a - drawn))


def buffer_bytes(passed):
    return sum(p.a for p in passed if p.kind == 'buffer')


def is_asked(made, ones):
    """Whether qemu is. It keeps what lies past element 0 of vmv.s.x under "ones", too."""
    texts = [model.text_of(word) for word in words_of(made)]
    return buffer_bytes(made.passed) <= ASKED and not (ones and any(text.startswith('vmv.s.x ') for text in texts))


def words_of(made):
    return [int.from_bytes(data[k:k + 4], 'little') for _, data, flags in made.segments if flags & 1 for k in range(0, len(data), 4)]


def runs_of(rng, made):
    """The runs of a loop of the class, or the refusal of one that has no short run: each with its bound, and whether it is opened."""
    passed = made.passed
    image = c.read_image(makes.plain_file(made.segments, made.entry))
    certificate, loop = maker.make(image, passed, made.vlenb), maker.Loop(image, passed)
    file = file_of(Kernel([(at, data, len(data), flags) for at, data, flags in made.segments], made.entry, certificate))
    place = loop.n - maker.FIRST_ARGUMENT
    lo, hi = passed[place].a, passed[place].b
    arguments = [argument(rng, p) for p in passed]
    found = counts(rng, loop, lo, hi, vlmax_of(loop.vtype, made.vlenb))
    if buffer_bytes(passed) > LARGE:
        found = found[-1:]
    for n in found or [lo]:
        arguments[place] = n
        bound, ones = 2 + loop.length * n, rng.random() < .5
        by_hand = None if found and is_asked(made, ones) else 'not asked'
        yield LoopRun(made.name, file, list(arguments), made.vlenb, ones, bound if found else bound - 1, by_hand), bound, bool(found)


def after(run, bound, is_opened):
    """What comes of a run."""
    refusal = opening.refusal(run.image, run.args, run.vlenb, run.most)
    assert refusal == (None if is_opened else 'BoundTooLarge'), (run.name, refusal)
    if not is_opened:
        return [refusal]
    mine = run.of_model()
    theirs = mine if run.by_hand else run.of_qemu()
    assert mine == theirs and mine[0] == 'ended' and mine[1] <= bound, '%s\n model %s\n qemu  %s' % (run.name, mine, theirs)
    return mine


def main():
    rng = random.Random(1)
    makes.fill(150, 1)
    loops = [made for made in makes.ROWS if made.answer.startswith('made ')]
    runs = [run for made in loops for run in runs_of(rng, made)]
    refused, asked = sum(not is_opened for _, _, is_opened in runs), sum(run.by_hand is None for run, _, _ in runs)
    version = subprocess.run(['qemu-riscv32', '--version'], capture_output=True, text=True).stdout.split()[2]
    for line in __doc__.split('\n')[:-1]:
        print(('# ' + line).rstrip())
    print('# %d rows of %d loops: %d runs by qemu-riscv32 %s and model.py, %d by model.py alone, and %d that are refused.' % (
        len(runs), len(loops), asked, version, len(runs) - asked - refused, refused))
    before = None
    for run, bound, is_opened in runs:
        row = run.row(*after(run, bound, is_opened))
        print('# %s\n%s' % (run.name, row) if run.name not in (None, before) else row)
        before = run.name


if __name__ == '__main__':
    main()
