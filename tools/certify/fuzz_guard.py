"""Random kernels, with guards and without: wherever the unguarded run meets no fault, both leave the same buffers.

    fuzz_guard.py [--count N] [--seed N] [--runs N] [--keep FOLDER]

Each kernel is random RV32IM code over two buffers and two scalars: loops, branches, calls, loads and stores. It is made from its seed alone.
A kernel that is not accepted is counted with why. A run that its fuel ended is counted too, since fuel is taken from the job's own run.
"""
import argparse
import contextlib
import io
import pathlib
import random
import struct
import sys

import harden
import host
import notes
import program
import search
import watch
from outside import certificates
from program import RA, SP, ZERO, Branch, Jump, Label, Number, word

FIRST, SIZES, MOST_STEPS, LIMIT = 0x10000, (256, 128), 100_000, 60
PARAMS = [certificates.Param('buffer', certificates.READ | certificates.WRITE, SIZES[0], 0),
          certificates.Param('buffer', certificates.READ, SIZES[1], 0),
          certificates.Param('scalar', 0, 0, 64), certificates.Param('scalar', 0, 0, 0xffffffff)]
OUT, IN, COUNT, ANY = 10, 11, 12, 13
PLAIN = (14, 15, 16, 17, 5, 6, 7, 28, 29, 8, 9)         # what statements read and write
COUNTERS = (18, 19, 20, 21)                             # of loops, by depth
BINARY = ('add', 'sub', 'and', 'or', 'xor', 'sll', 'srl', 'sra', 'slt', 'sltu', 'mul', 'mulhu', 'remu', 'divu')
IMMEDIATE = ('addi', 'andi', 'ori', 'xori', 'slti', 'sltiu')
SHIFTS = ('slli', 'srli', 'srai')
BRANCHES = ('beq', 'bne', 'blt', 'bge', 'bltu', 'bgeu')
LOADS, STORES = (('lw', 4), ('lhu', 2), ('lh', 2), ('lbu', 1), ('lb', 1)), (('sw', 4), ('sh', 2), ('sb', 1))


class Writer:
    """Random code of one kernel."""

    def __init__(self, rng):
        self.rng, self.labels, self.functions = rng, 0, []

    def label(self):
        self.labels += 1
        return 'label', self.labels

    def register(self):
        return self.rng.choice(PLAIN)

    def kernel(self):
        """The operations of a whole kernel."""
        out = [op for r in PLAIN for op in self.started(r)] + self.block(0, 9) + [word('jalr', rd=0, rs1=RA, imm=0)]
        if not self.functions:
            return out
        # calls need the return address of the kernel on the stack
        out[-1:] = [word('lw', rd=RA, rs1=SP, imm=12), word('addi', rd=SP, rs1=SP, imm=16), out[-1]]
        out = [word('addi', rd=SP, rs1=SP, imm=-16), word('sw', rs1=SP, rs2=RA, imm=12), *out]
        return out + [op for body in self.functions for op in body]

    def started(self, register):
        """A first number for a register: a passed one, or some other."""
        kind = self.rng.randrange(3)
        if kind == 0:
            return [word('addi', rd=register, rs1=self.rng.choice((COUNT, ANY)), imm=0)]
        return [Number(register, self.rng.choice((0, 1, self.rng.randrange(64), self.rng.getrandbits(32))))]

    def block(self, depth, most):
        out = []
        for _ in range(self.rng.randint(1, most)):
            out += self.statement(depth)
        return out

    def statement(self, depth):
        kinds = [self.sum, self.sum, self.load, self.load, self.store, self.store]
        if depth < 3:
            kinds += [lambda: self.choice(depth), lambda: self.loop(depth), lambda: self.pointer_loop(depth)]
        if depth < 2 and len(self.functions) < 3:
            kinds.append(lambda: self.call(depth))
        return self.rng.choice(kinds)()

    def sum(self):
        rng, rd, one, two = self.rng, self.register(), self.register(), self.register()
        kind = rng.randrange(3)
        if kind == 0:
            return [word(rng.choice(IMMEDIATE), rd=rd, rs1=one, imm=rng.choice((rng.randrange(-8, 64), 255, -1)))]
        if kind == 1:
            return [word(rng.choice(SHIFTS), rd=rd, rs1=one, imm=rng.randrange(1, 32))]
        return [word(rng.choice(BINARY), rd=rd, rs1=one, rs2=two)]

    def address(self, place, size, temporary):
        """An address in a buffer: by a number, by an index that is cut, or by one that may be too great."""
        rng, most, base = self.rng, SIZES[place] - size, (OUT, IN)[place]
        kind = rng.randrange(8)
        if kind < 2:
            return [], base, rng.randrange(most + 1) // size * size
        index = rng.choice(PLAIN + COUNTERS[:1])
        out = [word('addi', rd=temporary, rs1=index, imm=0)]
        if kind < 6:
            out = [word('andi', rd=temporary, rs1=index, imm=SIZES[place] // size - 1)]
        if size > 1:
            out.append(word('slli', rd=temporary, rs1=temporary, imm=size.bit_length() - 1))
        return out + [word('add', rd=temporary, rs1=temporary, rs2=base)], temporary, 0

    def load(self):
        name, size = self.rng.choice(LOADS)
        rd = self.register()
        out, base, offset = self.address(self.rng.randrange(2), size, rd)
        return out + [word(name, rd=rd, rs1=base, imm=offset)]

    def store(self):
        name, size = self.rng.choice(STORES)
        out, base, offset = self.address(0, size, 30)
        return out + [word(name, rs1=base, rs2=self.register(), imm=offset)]

    def choice(self, depth):
        other, end = self.label(), self.label()
        out = [Branch(self.rng.choice(BRANCHES), self.register(), self.rng.choice((ZERO, self.register())), other)]
        out += self.block(depth + 1, 2)
        if self.rng.randrange(2):
            return out + [Label(other)]
        return out + [Jump(ZERO, end), Label(other), *self.block(depth + 1, 2), Label(end)]

    def loop(self, depth):
        """A loop by a count: up to a passed number or a small one, down from it, or with a way out that depends on data."""
        rng, head, end, k = self.rng, self.label(), self.label(), COUNTERS[depth]
        body = self.block(depth + 1, 4)
        leave = [Branch(rng.choice(BRANCHES), self.register(), self.register(), end)] if rng.randrange(3) == 0 else []
        kind = rng.randrange(4)
        if kind == 0:                                                   # while (k < n)
            return [Number(k, 0), Label(head), Branch('bgeu', k, COUNT, end), *body, *leave,
                    word('addi', rd=k, rs1=k, imm=rng.choice((1, 1, 2, 3))), Jump(ZERO, head), Label(end)]
        if kind == 1:                                                   # while (k--)
            return [word('addi', rd=k, rs1=COUNT, imm=0), Branch('beq', k, ZERO, end), Label(head), *body, *leave,
                    word('addi', rd=k, rs1=k, imm=-1), Branch('bne', k, ZERO, head), Label(end)]
        if kind == 2:                                                   # do .. while (++k != some number)
            n = rng.randrange(1, 9)
            return [Number(k, 0), Number(30, n), Label(head), *body, *leave, word('addi', rd=k, rs1=k, imm=1),
                    Number(30, n), Branch('bne', k, 30, head), Label(end)]
        x = self.register()                                             # until a number is 0
        return [word('andi', rd=x, rs1=x, imm=63), Label(head), Branch('beq', x, ZERO, end), *[op for op in body if not writes(op, x)], *leave,
                word(rng.choice(('srli', 'addi')), rd=x, rs1=x, imm=1) if rng.randrange(2) else word('addi', rd=x, rs1=x, imm=-1),
                Jump(ZERO, head), Label(end)]

    def pointer_loop(self, depth):
        """A pointer that walks over a buffer to an end."""
        rng, head, end, p, e = self.rng, self.label(), self.label(), COUNTERS[depth], 31
        place = rng.randrange(2)
        name, size = rng.choice(LOADS if place else LOADS + STORES)
        access = word(name, rs1=p, imm=0, **({'rs2': self.register()} if name.startswith('s') else {'rd': self.register()}))
        base = (OUT, IN)[place]
        ends = [word('addi', rd=e, rs1=base, imm=SIZES[place])]
        if rng.randrange(2):
            ends = [word('slli', rd=e, rs1=COUNT, imm=rng.randrange(2)), word('add', rd=e, rs1=e, rs2=base)]
        sums = [op for _ in range(rng.randrange(3)) for op in self.sum()]
        leave = [Branch(rng.choice(BRANCHES), self.register(), self.register(), end)] if rng.randrange(3) == 0 else []
        return [word('addi', rd=p, rs1=base, imm=0), *ends, Label(head), Branch(*rng.choice((('bgeu', p, e), ('beq', p, e))), end), access, *sums, *leave,
                word('addi', rd=p, rs1=p, imm=size), Jump(ZERO, head), Label(end)]

    def call(self, depth):
        """A call of a function of its own, or of one that is there."""
        if self.functions and self.rng.randrange(2):
            name = self.rng.choice(self.functions)[0].name
            return [Jump(RA, name)]
        name, place = self.label(), len(self.functions)
        self.functions.append([Label(name)])
        # (a function calls none, and so keeps its return address in the register)
        kept, self.functions = self.functions, self.functions + [None] * 3
        body = self.block(max(depth + 1, 2), 3)
        self.functions = kept
        self.functions[place] += body + [word('jalr', rd=0, rs1=RA, imm=0)]
        return [Jump(RA, name)]


def writes(op, register):
    """Whether an operation is a word that may write a register."""
    return isinstance(op, (program.Word, Number)) and (op.rd == register if isinstance(op, Number) else op.word >> 7 & 31 == register)


def elf(operations):
    """An image with one segment of code."""
    code = b''.join(struct.pack('<I', w) for w in program.Laid(operations, FIRST).words)
    header = b'\x7fELF\x01\x01\x01' + bytes(9) + struct.pack('<HHIIIIIHHHHHH', 2, 243, 1, FIRST, 52, 0, 0, 52, 32, 1, 40, 0, 0)
    return header + struct.pack('<8I', 1, 84, FIRST, FIRST, len(code), len(code), 5, 4) + code


def contents(rng):
    """Arguments of a run."""
    return [rng.randbytes(SIZES[0]), rng.randbytes(SIZES[1]), rng.choice((0, 1, 64, rng.randrange(65))),
            rng.choice((0, 1, rng.randrange(256), rng.getrandbits(32)))]


class Job:
    """What `harden` asks of a job file."""

    def __init__(self, passed):
        self.params, self.passed, self.table = PARAMS, passed, {'agnostic': 'ones'}

    def can_run(self):
        return True

    def contents(self):
        return list(self.passed)


def tried(seed, runs, folder=None):
    """What comes of the kernel of a seed: a word, and more of it."""
    rng = random.Random(seed)
    data = elf(Writer(rng).kernel())
    job = Job(contents(rng))
    ran = host.run(job.table, data, PARAMS, job.passed, 128, 'try', MOST_STEPS)
    if ran.steps is None:
        return 'no run', ran.said.splitlines()[0]
    if folder:
        (folder / f'{seed}.elf').write_bytes(data)
    try:
        with contextlib.redirect_stderr(io.StringIO()):
            made = harden.made(data, certificates.read_image(data), job, 128, watch.Progress(LIMIT))
    except search.OutOfTime:
        return 'too long', f'above {LIMIT} seconds'
    except notes.Trouble as e:
        return 'not accepted', str(e)[:200]
    if folder:
        (folder / f'{seed}.guarded.elf').write_bytes(made.data)
    short = False
    for number, passed in enumerate([job.passed] + [contents(rng) for _ in range(runs)]):
        one = host.run(job.table, data, PARAMS, passed, 128, 'try', MOST_STEPS)
        if one.steps is None:
            continue
        two = host.run(job.table, made.data, PARAMS, passed, 128, 'run')
        if two.steps is None:
            return 'WRONG', f'run {number}: {two.said[:200]}'
        if one.buffers[0] != two.buffers[0]:
            failed = harden.failed_guard(made.maker, job, 128, passed) if made.maker else 0
            told = made.maker.told[failed - 1] if failed else None
            if told is None or told.kind != 'fuel' or not number:
                return 'WRONG', f'run {number} on {passed[2:]}: {told or "no guard fails"}'
            short = True
    return ('out of fuel' if short else 'as it stands' if made.maker is None else 'right'), ''


def main(words=None):
    parser = argparse.ArgumentParser(prog='fuzz_guard.py', description=__doc__.splitlines()[0])
    parser.add_argument('--count', type=int, default=20)
    parser.add_argument('--seed', type=int, default=0, help='of the first kernel')
    parser.add_argument('--runs', type=int, default=6, help='on other inputs')
    parser.add_argument('--keep', type=pathlib.Path, metavar='FOLDER', help='write the images there')
    args = parser.parse_args(words)
    came = {}
    for seed in range(args.seed, args.seed + args.count):
        answer, more = tried(seed, args.runs, args.keep)
        came[answer] = came.get(answer, 0) + 1
        if more and answer != 'no run':
            print(f'{seed}: {answer}: {more}', flush=True)
    print(', '.join(f'{count} {answer}' for answer, count in sorted(came.items())))
    return 1 if 'WRONG' in came else 0


if __name__ == '__main__':
    sys.exit(main())
