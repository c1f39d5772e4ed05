"""Draws kernels with certificates for checks.py: right ones, and then up to two changes.

`lines` are straight code of any instructions, cut into blocks that state what checker.py knows there, as exactly as it is known; so a range that is
wider or narrower elsewhere gives another answer. `loops` are strip-mined loops and others, with certificates by formula.
"""
import random

import certificates as c
import checker
import model
from assembly import assembled
from checker import PASSED, VL, Refused, Walk, check
from kernels import CODE, Kernel, code_bytes, file_of, kernel
from table import ALL, M32, SCALAR, VECTOR, VTYPES, lmul4_of, sew_of

NUMBERS = (0, 1, 2, 3, 4, 7, 8, 15, 16, 17, 31, 32, 33, 63, 64, 100, 127, 128, 255, 256, 1000, 65535, 0x7fffffff, 0x80000000, 0x80000001, M32 - 1, M32)
ROOM = 4096


class Draw:
    """Random choices from a seed."""

    def __init__(self, seed):
        self.r = random.Random(seed)

    def one(self, things):
        return self.r.choice(things)

    def below(self, n):
        return self.r.randrange(n)

    def is_in(self, share):
        return self.r.random() < share

    def number(self):
        return self.one(NUMBERS) if self.is_in(0.5) else self.one((self.below(20), self.below(300), self.below(1 << 32)))

    def interval(self):
        if self.is_in(0.7):
            lo = self.below(20)
            return lo, lo + self.one((0, 1, 5, 20, 100, 1000))
        ends = sorted((self.number(), self.number()))
        return tuple(ends)


# ---- Straight code ------------------------------------------------------------------------------------------------------------------

PLAIN = [i for i in SCALAR if i.shape in ('imm', 'shift', 'reg', 'upper')]
OFTEN = [ALL[n] for n in ('addi', 'add', 'sub', 'slli', 'mul', 'andi', 'srli', 'remu', 'sll', 'divu', 'and')]
ACCESSES = [i for i in SCALAR if i.shape in ('load', 'store')]
CSRS = [i for i in SCALAR if i.shape == 'csr']
VSETS = [i for i in SCALAR if i.shape == 'vset']
VECTOR_ACCESSES = [i for i in VECTOR if i.shape.startswith(('vload', 'vstore'))]
STATING = [i for i in VECTOR if i.stem in ('vmv', 'vand', 'vminu', 'vmaxu', 'vadd', 'vsll', 'vsrl', 'vnsrl', 'vremu', 'vzext', 'vid', 'viota')]
REGISTERS = (5, 6, 7, 10, 11, 12, 13)


class Line:
    """Straight code that is drawn word by word, each with what is known behind it."""

    def __init__(self, draw, vlenb):
        self.draw, self.vlenb = draw, vlenb
        self.words, self.blocks, self.sizes = [], [], {}
        self.params = [self.param(place) for place in range(4)] + [c.Param('none')] * 4
        self.places = {address: place for place, address, _, _ in checker.buffers(self.params)}
        certificate = c.Certificate(8 * vlenb, self.params, [])
        segment = c.Segment(CODE, CODE + ROOM, c.READ | c.EXECUTE, b'')
        self.walk = Walk(c.Image(CODE, [segment], None), certificate)
        self.entry = checker.at_entry(certificate, vlenb)

    def param(self, place):
        if place < 2 and self.draw.is_in(0.8):
            return c.Param('buffer', c.READ | (c.WRITE if self.draw.is_in(0.7) else 0), ROOM)
        return c.Param('scalar', 0, *self.draw.interval()) if self.draw.is_in(0.9) else c.Param('none')

    @property
    def pc(self):
        return CODE + 4 * len(self.words)

    def stated(self, s, start, share=0.7):
        """A block whose facts hold in s, as exactly as they are known."""
        d, facts = self.draw, []
        if s.x[1].range == (model.EXIT, model.EXIT):
            facts.append(c.RegisterFact(1, model.EXIT, model.EXIT))
        chosen = [n for n in REGISTERS + (VL,) if d.is_in(share)]
        sums = {n: self.sum_of(s, n, chosen) for n in chosen if d.is_in(0.5)}
        atoms = {atom for equal in sums.values() if equal for atom, _ in equal[1]}
        for n in chosen:
            lo, hi = s.x[n].range
            equal = None if n in atoms else sums.get(n)
            equal = None if equal and any(sums.get(atom) and atom not in atoms for atom, _ in equal[1]) else equal
            if (lo, hi) != c.FULL or equal:
                facts.append(c.RegisterFact(n, lo, hi, equal))
        vectors = sorted((f for f in s.facts if d.is_in(0.8)), key=lambda f: f.register)
        return c.Block(start, 0, 0, 0, s.vtype if d.is_in(0.8) else None, tuple(facts), tuple(vectors))

    def sum_of(self, s, n, chosen):
        """A sum that x[n] is, of what was passed and of up to two other registers, or None."""
        form = s.x[n].form
        others = [(m, k) for m in REGISTERS + (VL,) if m != n for k in (1, 2, 4, M32)]
        self.draw.r.shuffle(others)
        tries = [()] + [(one,) for one in others[:12]] + list(zip(others[:12], others[12:]))
        for terms in tries:
            if len({m for m, _ in terms}) < len(terms):
                continue
            rest = form
            for m, k in terms:
                rest = rest.plus(s.x[m].form, -k)
            if all(PASSED <= atom < PASSED + 8 for atom in rest.terms):
                return rest.constant, tuple(sorted(list(terms) + list(rest.terms.items())))
        return None

    def fields(self, i, s):
        d, f = self.draw, {}
        lmul = max(1, lmul4_of(s.vtype) // 4) if s.vtype is not None else 1
        for name in i.syntax:
            if name in ('rd', 'rs1', 'rs2'):
                f[name] = d.one(REGISTERS) if d.is_in(0.95) else d.one((0, 2, 8))
            elif name in ('vd', 'vs1', 'vs2', 'vs3'):
                held = [fact.register for fact in s.facts]
                f[name] = d.one(held) if held and d.is_in(0.5) else d.below(32) // lmul * lmul
            elif name == 'vm':
                f['vm'] = int(d.is_in(0.85))
            elif name == 'csr':
                f['csr'] = d.one((0xc20, 0xc21, 0xc22, 9, 10, 15))
            elif name == 'avl':
                f['avl'] = d.below(32)
            elif name == 'imm':
                f['imm'] = self.immediate(i, s)
        if i.shape == 'csr' and f['csr'] >= 0xc20 and 'rs1' in f:
            f['rs1'] = 0
        if i.shape == 'csr' and f['csr'] >= 0xc20 and 'imm' in f:
            f['imm'] = 0
        if i.shape in ('load', 'store') or i.shape.startswith(('vload', 'vstore')):
            f['rs1'] = d.one([n for n in REGISTERS if s.x[n].range[0] >> 28 == 4] or [10])
        if i.shape == 'vset' and f.get('rs1') and d.is_in(0.15):
            f['rs1'] = 0
            f['rd'] = d.one((0, f['rd']))
        return f

    def immediate(self, i, s):
        d = self.draw
        if i.shape == 'vset':
            return d.one(VTYPES) if d.is_in(0.95) else d.below(1 << 10)
        if i.is_vector:
            return d.below(8) if d.is_in(0.6) else d.below(32)
        if i.shape == 'upper':
            return d.below(1 << 20) << 12
        if i.shape == 'shift':
            return d.below(6) if d.is_in(0.7) else d.below(32)
        return d.one((0, 1, -1, 2, 4, 8, 15, 16, 31, 127, 255, 2047, -2048, d.below(64), -d.below(64)))

    def instruction(self, s):
        d = self.draw
        if s.vtype is not None and d.is_in(0.6):
            return d.one(d.one((STATING, STATING, STATING, VECTOR_ACCESSES, VECTOR)))
        return d.one(d.one((OFTEN, OFTEN, PLAIN, ACCESSES, CSRS, VSETS, VSETS)))

    def step(self, s):
        """s behind one more word that may stand there."""
        while True:
            i = self.instruction(s)
            word = i.encode(**self.fields(i, s))
            after = checker.copy.deepcopy(s)
            try:
                decoded = model.decode(word)
                if decoded is None or i.is_vector and not self.is_right(word, s):
                    continue
                self.note_size(after, *decoded)
                self.walk.act(after, *decoded, self.pc)
            except Refused:
                continue
            after.words += 1
            self.words.append(word)
            return after

    def is_right(self, word, s):
        i, _ = model.decode(word)
        return model.is_legal(model.VILL if s.vtype is None else s.vtype, word)

    def note_size(self, s, i, f):
        """Keeps how many bytes of a buffer are asked for."""
        bounds = None
        if i.shape in ('load', 'store'):
            lo, hi = checker.offset_sum(s, f['rs1'], f['imm']).range
            bounds = lo, hi + i.width // 8
        elif i.shape.startswith(('vload', 'vstore')):
            bounds = checker.vector_access(s, i, f)
        for address, place in self.places.items():
            if bounds and address <= bounds[0] and bounds[1] <= address + ROOM:
                self.sizes[place] = max(self.sizes.get(place, 1), bounds[1] - address)

    def claimed(self, start):
        """A block whose facts need not hold: sums that wrap, intervals that their sums do not meet, pointers into buffers."""
        d, facts = self.draw, []
        atoms = [n for n in REGISTERS + (VL,) if d.is_in(0.6)]
        for n in REGISTERS + (VL,):
            lo, hi = d.interval()
            base = d.one(list(self.places) + [lo]) if d.is_in(0.5) else lo
            if n in atoms:
                if (lo, hi) != c.FULL:
                    facts.append(c.RegisterFact(n, lo, hi))
            elif d.is_in(0.8):
                chosen = [m for m in atoms if d.is_in(0.4)] + [PASSED + place for place, p in enumerate(self.params) if p.kind == 'scalar' and d.is_in(0.4)]
                terms = tuple((m, d.one((1, 1, 1, 2, 4, M32, M32, M32 - 1, M32 - 3, 0x80000000, d.below(1 << 32) or 1))) for m in chosen)
                ends = (base, min(M32, base + d.one((0, 16, 64, 4000)))) if d.is_in(0.5) else c.FULL
                facts.append(c.RegisterFact(n, *ends, (base, terms)))
        vectors, free = [], 0
        while free < 24 and d.is_in(0.6):
            registers, width = d.one((1, 1, 2, 4)), d.one((8, 16, 32))
            register = free + -free % registers + registers * d.below(3)
            lo = d.below(20)
            vectors.append(c.VectorFact(register, width, registers, d.one((0, 0, 1, 4, registers * 8 * self.vlenb // width)) % 256, lo, lo + d.below(200)))
            free = register + registers
        return c.Block(start, 0, 0, 0, d.one(VTYPES) if d.is_in(0.7) else None, tuple(facts), tuple(vectors))

    def run(self):
        """The kernel: some blocks one behind the other, and a branch or none at the end. Each has the least budget that is enough."""
        d, blocks, ways = self.draw, [], []
        block = self.stated(self.entry, CODE, 0.9)._replace(vtype=None)
        if d.is_in(0.4):
            # The end comes first, and what stands behind it is never reached: it is checked all the same.
            self.words.append(0x73)
            blocks.append(block)
            ways.append([(self.after_words(block, 1), None)])
            block = self.claimed(self.pc)
        for _ in range(d.one((1, 2, 2, 3))):
            s = self.after_words(block, 0)
            for _ in range(d.one((1, 2, 3, 4, 5))):
                s = self.step(s)
            blocks.append(block)
            ways.append([(s, len(blocks))])
            block = self.stated(s, self.pc)
        self.end(block, blocks, ways)
        for place in range(len(blocks))[::-1]:
            blocks[place] = self.paid(blocks[place], [(s, None if to is None else blocks[to]) for s, to in ways[place]])
        params = [p._replace(a=self.sizes.get(place, 1)) if p.kind == 'buffer' and d.is_in(0.9) else p for place, p in enumerate(self.params)]
        code = code_bytes(self.words)
        return Kernel([(CODE, code, len(code), 5)], CODE, c.Certificate(8 * self.vlenb, params, blocks))

    def after_words(self, block, words):
        s = checker.at_block(self.walk.certificate, block, self.vlenb)
        s.words = words
        return s

    def paid(self, block, ways):
        """The block with the least c that is enough for its ways, for some factor."""
        d = self.draw
        values = self.after_words(block, 0).x
        small = [n for n in REGISTERS if values[n].range[1] < 1 << 24]
        k = d.one((1, 2, 3, 8, d.below(100) + 1)) if small and d.is_in(0.5) else 0
        r = d.one(small) if k else 0
        value = values[r]
        enough = lambda least: all(checker.is_paid(s, checker.Start(least, k, value), to) for s, to in ways)
        lo, hi = 0, M32
        while lo < hi:
            middle = (lo + hi) // 2
            lo, hi = (lo, middle) if enough(middle) else (middle + 1, hi)
        return block._replace(c=lo, k=k, r=r)

    def end(self, block, blocks, ways):
        """The last words: ecall, ret, or a branch with a block on each side."""
        d = self.draw
        blocks.append(block)
        if d.is_in(0.35):
            s = self.after_words(block, 1)
            self.words.append(0x73 if d.is_in(0.3) or s.x[1].range[0] != model.EXIT else 0x8067)
            ways.append([(s, None)])
            return
        i = d.one([j for j in SCALAR if j.shape == 'branch'])
        f = {'rs1': d.one(REGISTERS), 'rs2': d.one(REGISTERS + (0,))}
        at, place = self.pc, len(blocks)
        self.words += [i.encode(to=CODE + 8, **f), 0x73, 0x73]
        gone = []
        for taken, start in ((False, at + 4), (True, at + 8)):
            way = checker.refined(self.after_words(block, 1), i, f, taken)
            blocks.append(self.stated(way, start) if way else c.Block(start, 0, 0, 0, None, (c.RegisterFact(5, 1, 1),), ()))
            if way:
                gone.append((way, len(blocks) - 1))
        ways.append(gone)
        ways += [[(self.after_words(b, 1), None)] for b in blocks[place:]]


def lines(draw, vlenb):
    return Line(draw, vlenb).run()


# ---- Loops ---------------------------------------------------------------------------------------------------------------------------

def strips(d, vlenb):
    """A strip-mined loop over one to three pointers, at any SEW and LMUL."""
    vtype = d.one(VTYPES)
    sew = sew_of(vtype)
    most, count = d.one((1, 7, 64, 100, 1024)), d.one((1, 1, 2, 3))
    pointers = [(13 + k, d.one((8, 16, 32)) if d.is_in(0.3) else sew, d.is_in(0.5)) for k in range(count)]
    body, steps = [], []
    for register, width, is_written in pointers:
        body.append('v%se%d.v v%d,(x%d)' % ('s' if is_written and d.is_in(0.3) else 'l', width, d.one((8, 16, 24)), register))
        if is_written:
            body.append('vse%d.v v%d,(x%d)%s' % (width, d.one((8, 16, 24)), register, d.one(('', '', ',v0.t'))))
        shift = {8: 0, 16: 1, 32: 2}[width]
        steps += ['slli t1,t0,%d' % shift, 'add x%d,x%d,t1' % (register, register)] if shift else ['add x%d,x%d,t0' % (register, register)]
    body.insert(d.below(len(body)), d.one(('vadd.vi v%d,v%d,1', 'vmul.vv v%d,v%d,v24', 'vmax.vv v%d,v%d,v8')) % (8, 8 + 8 * d.below(2)))
    words = ['beqz a2,end', 'loop: vsetvli t0,a2,%d' % vtype] + body + steps + ['sub a2,a2,t0', 'bnez a2,loop', 'end: ret']
    passed = ['-', '-', 's 0 %d' % most]
    for register, width, _ in pointers:
        is_stored = any(w.startswith('vs') and '(x%d)' % register in w for w in body)
        passed.append('%s %d' % ('rw' if is_stored else 'r', most * width // 8))
    at, first, inside = 0x40000000, '', ''
    for register, width, _ in pointers:
        size = most * width // 8
        first += '; x%d is %d' % (register, at)
        inside += '; x%d %d..%d = %d - %d x12 + %d p2' % (register, at, at + size, at, width // 8, width // 8)
        at += size + -size % 4096 + 4096
    cost = len(words) - 2
    return kernel('; '.join(words), ', '.join(passed), '''0x10000 2 %d*x12; R; x12 0..%d = p2%s
        loop 1 %d*x12; R; x12 1..%d%s
        end 1; R''' % (cost, most, first, cost, most, inside), vlenb)


def counts(d, vlenb):
    """A loop of scalar instructions with a count that falls by one, and a pointer that grows."""
    size, most, low = d.one((1, 2, 4)), d.one((1, 9, 255, 1024)), d.one((0, 0, 1))
    op = d.one(('l', 's'))
    access = op + {1: 'b', 2: 'h', 4: 'w'}[size] + (d.one(('', 'u')) if op == 'l' and size < 4 else '')
    more = [d.one(('add a3,a3,t0', 'xor a3,a3,t0', 'andi t0,t0,7', 'nop', 'mul t1,t0,a3')) for _ in range(d.below(3))]
    words = ['%s t0,0(a0)' % access] + more + ['addi a0,a0,%d' % size, 'addi a1,a1,-1', 'bnez a1,loop', 'end: ret']
    cost = len(words) - 1
    inside = 'loop 1 %d*x11; R; x10 0x40000000..%d = 0x40000000 - %d x11 + %d p1; x11 1..%d\nend 1; R' % (cost, 0x40000000 + most * size, size, size, most)
    passed = '%s %d, s %d %d' % ('rw' if op == 's' else 'r', most * size, low, most)
    if low and d.is_in(0.5):
        return kernel('loop: ' + '; '.join(words), passed, inside, vlenb)
    return kernel('beqz a1,end; loop: ' + '; '.join(words), passed, '0x10000 2 %d*x11; R; x10 is 0x40000000; x11 %d..%d = p1\n%s' % (cost, low, most, inside), vlenb)


def tables(d, vlenb):
    """Indices that are made before a loop, and a gather in it: the loop states vtype, vl and a fact on vector registers."""
    width, lmul = d.one((8, 16, 32)), d.one((0, 1, 2))
    sew = {8: 0, 16: 1, 32: 2}[width]
    group = 1 << lmul
    vtype = sew << 3 | lmul
    count, most, top = d.one((1, 3, 4)), d.one((1, 5, 100)), d.one((1, 9, 15))
    made = d.one(('vand.vi v8,v8,%d' % top, 'vmv.v.i v8,%d' % top, 'li t0,%d; vremu.vx v8,v8,t0' % (top + 1), 'li t0,%d; vminu.vx v8,v8,t0' % top))
    stated = (top, top) if 'vmv' in made else (0, top)
    size = top + width // 8
    words = 'vsetivli x0,%d,%d; %s; loop: vluxei%d.v v16,(a0),v8; ' % (count, vtype, made, width)
    words += d.one(('', 'vadd.vi v16,v16,1; ', 'vse%d.v v16,(a1),v0.t; ' % width)) + 'addi a2,a2,-1; bnez a2,loop; end: ret'
    code, labels = assembled(words)
    before = (labels['loop'] - CODE) // 4
    cost = len(code) - before - 1
    vl = '%d..%d' % (count, count)
    return kernel(words, 'r %d, rw %d, s 1 %d' % (size, count * width // 8, most), '''0x10000 %d %d*x12; R; x10 is 0x40000000; x11 is 0x40002000; x12 1..%d
        loop 1 %d*x12 vtype=%d; R; x10 is 0x40000000; x11 is 0x40002000; x12 1..%d; vl %s; v8*%d e%d %s%d..%d
        end 1; R''' % (before + 1, cost, most, cost, vtype, most, vl, group, width, d.one(('', '#%d ' % count)), *stated), vlenb)


# ---- Changes -------------------------------------------------------------------------------------------------------------------------

def moved(d, n):
    """A number near n, or any."""
    return d.one((n + 1, n - 1, n + 1, n - 1, n + 4, n - 4, 2 * n, n // 2, d.number())) & M32


def change_at(things, place, thing):
    return tuple(things[:place]) + (thing,) + tuple(things[place + 1:])


def changed_fact(d, fact):
    kind = d.below(8)
    if kind < 2:
        return fact._replace(lo=moved(d, fact.lo))
    if kind < 4:
        return fact._replace(hi=moved(d, fact.hi))
    if kind == 4:
        return fact._replace(number=d.one((fact.number + 1, fact.number - 1, d.one(REGISTERS))) & 255)
    if fact.equal is None:
        return fact._replace(equal=d.one(((fact.lo, ()), (0, ((d.one(REGISTERS), 1),)))))
    constant, terms = fact.equal
    if not terms or kind == 5:
        return fact._replace(equal=(moved(d, constant), terms))
    place = d.below(len(terms))
    atom, k = terms[place]
    if kind == 6:
        return fact._replace(equal=(constant, change_at(terms, place, (atom, moved(d, k)))))
    return fact._replace(equal=d.one(((constant, change_at(terms, place, (atom + d.one((1, 255)) & 255, k))), (constant, terms[:-1]), None)))


def changed_vector(d, v):
    return d.one((
        v._replace(lo=moved(d, v.lo)), v._replace(hi=moved(d, v.hi)), v._replace(count=d.one((0, v.count + 1, max(0, v.count - 1), 4))),
        v._replace(width=d.one((8, 16, 32))), v._replace(registers=d.one((1, 2, 4, 8))), v._replace(register=(v.register + d.one((1, 2, 255))) & 31)))


def changed_block(d, b):
    kind = d.below(12)
    if kind < 4 and b.facts:
        place = d.below(len(b.facts))
        return b._replace(facts=change_at(b.facts, place, changed_fact(d, b.facts[place])))
    if (kind < 7 or b.vectors and d.is_in(0.3)) and b.vectors:
        place = d.below(len(b.vectors))
        return b._replace(vectors=change_at(b.vectors, place, changed_vector(d, b.vectors[place])))
    if kind == 7 and b.facts:
        place = d.below(len(b.facts))
        return b._replace(facts=b.facts[:place] + b.facts[place + 1:])
    if kind == 8:
        return b._replace(vtype=d.one((None, d.one(VTYPES))) if b.vtype is not None else d.one(VTYPES))
    if kind == 9:
        return b._replace(start=b.start + d.one((4, -4, 4, -4, 2)))
    budgets = [b._replace(c=moved(d, b.c))] + ([b._replace(k=moved(d, b.k)), b._replace(r=d.one(REGISTERS))] if b.k or d.is_in(0.1) else [])
    return d.one(budgets)


def changed_param(d, p):
    if p.kind == 'scalar':
        return d.one((lambda: p._replace(a=moved(d, p.a)), lambda: p._replace(b=moved(d, p.b)), lambda: c.Param('buffer', c.READ, 64)))()
    if p.kind == 'buffer':
        if p.mode & c.WRITE and d.is_in(0.5):
            return p._replace(mode=c.READ)
        return d.one((p._replace(a=moved(d, p.a)), p._replace(a=max(p.a - 1, 0)), p._replace(a=max(p.a - 1, 0)), c.Param('scalar', 0, 0, 9)))
    return c.Param('scalar', 0, 0, 9)


def changed_blocks(d, blocks):
    vectors = [place for place, b in enumerate(blocks) if b.vectors]
    place = d.one(vectors) if vectors and d.is_in(0.3) else d.below(len(blocks))
    if d.is_in(0.03):
        return list(blocks[:place]) + list(blocks[place + 1:])
    return list(change_at(blocks, place, changed_block(d, blocks[place])))


def changed_code(d, code):
    at = 4 * d.below(len(code) // 4)
    word = int.from_bytes(code[at:at + 4], 'little') ^ 1 << d.below(32)
    code = code[:at] + code_bytes([word]) + code[at + 4:]
    return code[:-4] or code if d.is_in(0.05) else code


def changed(d, k):
    """A kernel with one place changed."""
    certificate = k.certificate
    kind = d.below(20)
    if kind < 11:
        return k._replace(certificate=certificate._replace(blocks=changed_blocks(d, certificate.blocks)))
    if kind < 15:
        place = d.one([n for n, p in enumerate(certificate.params) if p.kind != 'none'] or [0])
        return k._replace(certificate=certificate._replace(params=change_at(certificate.params, place, changed_param(d, certificate.params[place]))))
    if kind < 19:
        address, code, _, flags = k.segments[0]
        code = changed_code(d, code)
        return k._replace(segments=[(address, code, len(code), flags)])
    return k._replace(entry=k.entry + 4)


def one_row(d):
    """(vlenb, file) of one row."""
    vlenb = d.one((16, 32))
    k = d.one((lines, lines, lines, lines, strips, strips, counts, tables))(d, vlenb)
    for _ in range(d.one((0, 1, 1, 1, 2))):
        k = changed(d, k)
    certificate = k.certificate
    if d.is_in(0.05):
        # The same claims of the other length.
        vlenb = 48 - vlenb
        certificate = certificate._replace(vlen=8 * vlenb)
    if d.is_in(0.98):
        certificate = certificate._replace(blocks=sorted(certificate.blocks, key=lambda b: b.start))
    file = file_of(k._replace(certificate=certificate))
    if d.is_in(0.03):
        at = d.below(len(file))
        file = file[:at] + bytes([file[at] ^ 1 << d.below(8)]) + file[at + 1:]
    return (vlenb if d.is_in(0.985) else 48 - vlenb), file


def drawn(count, seed, most=600):
    """(vlenb, file, answer) of each row; files above so many bytes are passed over."""
    d = Draw(seed)
    out = []
    while len(out) < count:
        vlenb, file = one_row(d)
        if len(file) <= most:
            out.append((vlenb, file, check(file, vlenb)))
    return out
