"""Makes steps.txt: one instruction on one state, and what it leaves.

Usage: steps.py > steps.txt. Every result is that of qemu-riscv32; model.py has to say the same, but for the cases of `by_hand`, each with the section by which
this profile differs from what qemu does or can show; there the result is the model's.
"""
import itertools
import os
import re
import struct
import subprocess
import sys

import chosen
import longest
import model
from drawn import PLACES, SHAPES_OF_LEGAL, VILL, fields_of, registers, rng, seed, vl_of
from qemu import EBREAK, TRAMPOLINE, Batch
from table import ALL, BUFFER, M32, RO, RW, SCALAR, VECTOR, VTYPES, lmul4_of, sew_of, state_of, vlmax_of

PC = 0x10000
cases = []


class Case:
    """A state before (what steps.txt shows of it), a word, and the machine's numbers that follow from both."""

    def __init__(self, vlenb, ones, vtype, vl, seed, word, x=None, v=None, vxrm=0, vxsat=0):
        self.vlenb, self.ones, self.vtype, self.vl, self.seed, self.word = vlenb, ones, vtype, vl, seed, word
        self.x_over, self.v_over, self.vxrm, self.vxsat = dict(x or {}), dict(v or {}), vxrm, vxsat
        self.x, v = state_of(seed, vlenb)
        self.v = bytearray(v)
        for n, value in self.x_over.items():
            assert n and 0 <= value <= M32
            self.x[n] = value
        for n, data in self.v_over.items():
            self.v[n * vlenb:n * vlenb + len(data)] = data
        self.v = bytes(self.v)

    def shown(self):
        parts = [str(self.vlenb), 'ones' if self.ones else 'keep', '%08x' % self.vtype, str(self.vl), '%08x' % self.seed, '%08x' % self.word]
        parts += ['x%d=%08x' % p for p in sorted(self.x_over.items())]
        parts += ['v%d=%s' % (n, d.hex()) for n, d in sorted(self.v_over.items())]
        parts += ['vxrm=%d' % self.vxrm] * (self.vxrm != 0) + ['vxsat=%d' % self.vxsat] * (self.vxsat != 0)
        return ' '.join(parts)

    def changes(self, pc, x, v, vl, vtype, vxrm, vxsat, rw):
        out = ['pc=%08x' % pc] if pc != PC + 4 else []
        out += ['x%d=%08x' % (n, x[n]) for n in range(1, 32) if x[n] != self.x[n]]
        for n in range(32):
            part = slice(n * self.vlenb, (n + 1) * self.vlenb)
            if v[part] != self.v[part]:
                out.append('v%d=%s' % (n, bytes(v[part]).hex()))
        out += ['vl=%d' % vl] * (vl != self.vl) + ['vtype=%08x' % vtype] * (vtype != self.vtype)
        out += ['vxrm=%d' % vxrm] * (vxrm != self.vxrm) + ['vxsat=%d' % vxsat] * (vxsat != self.vxsat)
        k = 0
        while k < len(rw):
            if rw[k] != BUFFER[k]:
                end = k
                while end < len(rw) and rw[end] != BUFFER[end]:
                    end += 1
                out.append('m%08x=%s' % (RW + k, bytes(rw[k:end]).hex()))
                k = end
            k += 1
        return ' '.join(out)


def add(*args, **more):
    cases.append(Case(*args, **more))


# ---- What the model says ------------------------------------------------------------------------------------------------------------------------------

def areas():
    return model.Memory([(0x10000, struct.pack('<I', 0x73), 'x'), (0x2fff0000, bytes(65536), 'rw'), (RW, BUFFER, 'rw'), (RO, BUFFER, 'r')])


def of_model(c):
    memory = areas()
    m = model.Machine(c.vlenb, c.ones, PC, c.x, c.v, c.vtype, c.vl, c.vxrm, c.vxsat, memory)
    try:
        m.step(c.word)
    except model.Fault as e:
        return 'fault %s %08x' % e.args
    assert not any(memory.areas[1][1])
    return c.changes(m.pc, m.x, m.v, m.vl, m.vtype, m.vxrm, m.vxsat, memory.areas[2][1])


# ---- What qemu says ------------------------------------------------------------------------------------------------------------------------------------

def of_qemu(todo):
    """The results of cases of one VLEN and one setting; None where qemu is not asked."""
    b = Batch(todo[0].vlenb, todo[0].ones)
    b.map(PC, struct.pack('<I', EBREAK) * 1024, 7)
    b.map(TRAMPOLINE, bytes(4096), 7)
    b.map(0x2fff0000, bytes(65536), 3)
    b.map(RW, BUFFER, 3)
    b.map(RO, BUFFER, 1)
    places = []
    for c in todo:
        if is_not_asked(c):
            places.append(None)
            continue
        b.poke(PC, struct.pack('<I', c.word))
        at = b.run(PC, c.vtype, c.vl, c.vxrm, c.vxsat, c.x, c.v)
        rw = None
        if c.word & 0x7f in (0x23, 0x27):
            rw = b.dump(RW, 4096)
            b.poke(RW, BUFFER)
        places.append((at, rw))
    checks = [b.dump(RW, 4096), b.dump(RO, 4096), b.dump(0x2fff0000, 65536)]
    answers = b.answers()
    assert [answers[k] for k in checks] == [BUFFER, BUFFER, bytes(65536)]
    for c, p in zip(todo, places):
        if p is None:
            yield None
            continue
        r, rw = answers[p[0]], answers[p[1]] if p[1] is not None else BUFFER
        d = model.decode(c.word)
        if r.pc == PC and r.signal == 4:
            yield 'fault Illegal %08x' % c.word
        elif r.pc == PC and r.signal == 11:
            yield 'fault %s %08x' % ('StoreFault' if c.word & 0x7f in (0x23, 0x27) else 'LoadFault', r.address)
        elif r.pc == PC and r.signal == 5 and c.word == EBREAK:
            yield 'ebreak'
        else:
            assert r.pc != PC and r.signal in (4, 5, 11), (r.signal, '%x' % r.pc, '%08x' % c.word)
            yield c.changes(r.pc, r.x, r.v, r.vl, r.vtype, r.vxrm, r.vxsat, rw)


def is_not_asked(c):
    # An ecall would be a system call of the harness's; a 16-bit word is code to qemu; a jump into the word itself does not come back.
    d = model.decode(c.word)
    return c.word == 0x73 or c.word & 3 != 3 or d is not None and d[0].shape in ('jal', 'jalr', 'branch') and (
        of_model(c).startswith(('pc=%08x' % PC, 'fault JumpMisaligned %08x' % (PC + 2))))


# ---- Where the profile differs from qemu ---------------------------------------------------------------------------------------------------------------

def by_hand(c, qemu, mine):
    """The section by which the model's result stands and not qemu's, or None."""
    d = model.decode(c.word)
    if qemu is None:
        return 'not asked: ecall ends the run (docs/MACHINE.md, Start and end); 16-bit words mean nothing (docs/MACHINE.md, Instructions); a jump into itself'
    if d is None:
        return 'means nothing: what words.txt says (docs/MACHINE.md, Instructions)'
    i, f = d
    if i.shape in ('jal', 'jalr', 'branch') and mine.startswith('fault JumpMisaligned'):
        # "Unconditional Jumps": with the C extension, which qemu's CPU has, targets are multiples of 2.
        m = re.match(r'pc=(\S+)', qemu)
        assert m and 'fault JumpMisaligned ' + m.group(1) == mine, (qemu, mine)
        return 'a misaligned target (docs/DECISIONS.md, The scalar machine: Jumps)'
    if qemu.startswith('fault') and mine.startswith('fault') and qemu.split()[1] == mine.split()[1] != 'Illegal':
        told, first = int(mine.split()[2], 16), int(qemu.split()[2], 16)
        size = sew_of(c.vtype) // 8 if i.shape.endswith('_indexed') else i.width // 8
        if (first - told & M32) < size and first != told:
            return 'the address told is that of the access, not of its first byte that is refused (docs/MACHINE.md, Steps and faults)'
    if i.name == 'vmv.s.x' and c.ones and c.vtype >> 6 & 1:
        return 'vmv.s.x: the elements past the first are tail ("Integer Scalar Move Instructions"); qemu keeps them'
    if i.stem == 'vslidedown' and f['vm'] == 0 and c.ones and c.vtype >> 7 & 1:
        return 'vslidedown: inactive elements whose source lies past VLMAX are agnostic as others are (docs/DECISIONS.md, Vectors: Agnostic elements); qemu keeps them'
    if i.shape == 'vset' and i.name != 'vsetivli' and f['rd'] == 0 and f['rs1'] == 0 and mine != qemu:
        return 'the keep form with another VLMAX (docs/DECISIONS.md, Vectors: vset keeps vl)'
    return None


# ---- Scalar cases ----------------------------------------------------------------------------------------------------------------------------------------

SOME = [0, 1, M32, 0x80000000, 0x7fffffff]
MORE = SOME + [2, 31, 32, 0xfffffffe, 0x80000001, 0x7ffffffe, 0x0000ffff, 0x00010000, 0x12345678]


def scalar_cases():
    known = [i for i in SCALAR]
    cfg = lambda: (rng.choice((16, 32)), rng.random() < 0.5) + rng.choice([(VILL, 0), (0xd0, 3), (0x00, 16), (0xc3, 7)])

    def one(word, **k):
        vlenb, ones, vtype, vl = cfg()
        add(vlenb, ones, vtype, vl, seed(), word, **k)

    for i in known:
        if i.shape == 'reg':
            pairs = [(a, b) for a in SOME for b in SOME] + [(rng.choice(MORE), rng.choice(MORE)) for _ in range(6)]
            for a, b in pairs:
                r1, r2 = rng.sample(range(1, 32), 2)
                one(i.encode(rd=rng.choice([r1, r2, rng.randrange(1, 32), rng.randrange(1, 32)]), rs1=r1, rs2=r2), x={r1: a, r2: b})
            one(i.encode(rd=0, rs1=5, rs2=6))
            one(i.encode(rd=7, rs1=0, rs2=6))
            one(i.encode(rd=7, rs1=6, rs2=0))
            one(i.encode(rd=7, rs1=6, rs2=6))
        elif i.shape in ('imm', 'shift'):
            for imm in ((0, 1, -1, 2047, -2048) if i.shape == 'imm' else (0, 1, 15, 30, 31)):
                for a in SOME + [rng.choice(MORE)]:
                    r1 = rng.randrange(1, 32)
                    one(i.encode(rd=rng.choice([r1, rng.randrange(1, 32)]), rs1=r1, imm=imm), x={r1: a})
                one(i.encode(rd=rng.randrange(1, 32), rs1=0, imm=imm))
            one(i.encode(rd=0, rs1=9, imm=5))
        elif i.shape == 'upper':
            for imm in (0, 0x1000, 0x7ffff000, 0x80000000, 0xfffff000, 0xffff0000, 0x12345000):
                one(i.encode(rd=rng.randrange(1, 32), imm=imm))
            one(i.encode(rd=0, imm=0x5000))
        elif i.shape == 'load' or i.shape == 'store':
            n = i.width // 8
            places = [RW, RW + 1, RW + 2, RW + 3, RW + 0x7f, RW + 0x123, RW + 4096 - n, RW + 4096 - n + 1, RW + 4095, RW + 4096, RW - 1, RW - n, RO, RO + 5,
                      RO + 4096 - n, RO + 4096 - n + 1, RO + 4096, RO - 1, 0, M32, (M32 + 1 - n) & M32, 0x2ffeffff, 0x30000000, 0x30000000 - n + 1 if n > 1 else 0x30000000]
            places += [0x2fff0000, 0x30000000 - n, 0x2ffff001] if i.shape == 'load' else []
            places += [RW + k for k in (0x85, 0x186, 0x2c7, 0x3c8)]   # where the bytes are of either sign
            for at in places:
                for imm in {0, rng.choice((1, -1, 2047, -2048, 4, -4, rng.randrange(-2048, 2048)))}:
                    r1, r2 = rng.sample(range(1, 32), 2)
                    where = {r1: at - imm & M32}
                    one(i.encode(rd=rng.choice([r1, r2]), rs1=r1, imm=imm) if i.shape == 'load' else i.encode(rs2=r2, rs1=r1, imm=imm), x=where)
            if i.shape == 'load':
                one(i.encode(rd=0, rs1=8, imm=0), x={8: RW})
                one(i.encode(rd=0, rs1=8, imm=0), x={8: RW + 4096})
            else:
                one(i.encode(rs2=8, rs1=8, imm=3), x={8: RW})
                one(i.encode(rs2=0, rs1=8, imm=4), x={8: RW})
            one(i.encode(rd=5, rs2=5, rs1=0, imm=-1))
        elif i.shape == 'branch':
            for a in SOME:
                for b in SOME:
                    r1, r2 = rng.sample(range(1, 32), 2)
                    one(i.encode(rs1=r1, rs2=r2, to=PC + rng.choice((8, 12, -4, -8, 4092, -4096, 2048, 16, 4))), x={r1: a, r2: b})
            for a, b in ((3, 3), (3, 4), (4, 3), (M32, 1), (1, M32)):
                for off in (2, 6, -2, 4094, 0):
                    one(i.encode(rs1=5, rs2=6, to=PC + off), x={5: a, 6: b})
            one(i.encode(rs1=7, rs2=7, to=PC + 64))
            one(i.encode(rs1=0, rs2=0, to=PC + 64))
            one(i.encode(rs1=0, rs2=7, to=PC + 64))
        elif i.shape == 'jal':
            for off in (8, -4, 4, 1048572, -65536, 2048, 4096, -4096, 0x5554, 2, 6, -2, 1048574, 0):
                for rd in (0, 1, rng.randrange(2, 32)):
                    one(i.encode(rd=rd, to=PC + off))
        elif i.shape == 'jalr':
            for a in (0x20000000, 0x20000001, 0x20000002, 0x20000003, 0x20000004, 0x80000000, 0xfffffff0, 0xfffffffd, 0x7fffffff, 0x10004, 0x10005, 4):
                for imm in (0, rng.choice((1, 2, 3, 4, -1, -4, 2047, -2048))):
                    r1 = rng.randrange(1, 32)
                    one(i.encode(rd=rng.choice((0, 1, r1, rng.randrange(32))), rs1=r1, imm=imm), x={r1: a})
            one(i.encode(rd=1, rs1=0, imm=-16))
            one(i.encode(rd=1, rs1=0, imm=2044))
        elif i.shape == 'fence':
            for w in (0x0ff0000f, 0x8330000f, 0x0000000f, 0xfff0000f, 0x0ff00f8f, 0x0fff800f):
                one(w)
        elif i.shape == 'ecall':
            for _ in range(4):
                one(0x73)
    # What means nothing.
    rows = [l.split() for l in open(os.path.join(os.path.dirname(os.path.abspath(__file__)), '../crates/conformance/data/words.txt')) if l[0] != '#']
    nothing = [int(r[0], 16) for r in rows if r[1] == 'illegal' and int(r[0], 16) != EBREAK]
    for word in [EBREAK, 0x0000100f, 0x0015e503, 0, M32] + rng.sample(nothing, 120):
        one(word)


def csr_cases():
    for i in [i for i in SCALAR if i.shape == 'csr']:
        for csr in (0x009, 0x00a, 0x00f, 0xc20, 0xc21, 0xc22, 0x008, 0xc00, 0x003, 0xc23):
            many = 10 if csr < 0x100 and csr in (9, 10, 15) else 8 if csr in (0xc20, 0xc21, 0xc22) else 2
            for k in range(many):
                vlenb, ones = (16, 32)[k % 2], bool(k & 2)
                vtype = rng.choice(VTYPES + [VILL])
                vl = 0 if vtype == VILL else rng.choice((0, 1, vlmax_of(vtype, vlenb), rng.randrange(vlmax_of(vtype, vlenb) + 1)))
                state = dict(vxrm=rng.randrange(4), vxsat=rng.randrange(2))
                rd = rng.choice((0, 5, 31, rng.randrange(32)))
                zero = k % 4 == 0 or csr >= 0xc00 and k < 6
                if 'imm' in i.syntax:
                    add(vlenb, ones, vtype, vl, seed(), i.encode(rd=rd, csr=csr, imm=0 if zero else rng.choice((1, 2, 3, 4, 5, 6, 7, 8, 24, 31))), **state)
                else:
                    r1 = 0 if zero else rng.randrange(1, 32)
                    x = {r1: rng.choice((0, 1, 2, 3, 4, 5, 6, 7, 8, M32, 0x80000000, 0xfffffff8))} if r1 else {}
                    add(vlenb, ones, vtype, vl, seed(), i.encode(rd=rng.choice((rd, r1)), csr=csr, rs1=r1), x=x, **state)


def vset_cases():
    li, ili, l = ALL['vsetvli'], ALL['vsetivli'], ALL['vsetvl']

    def before(vlenb):
        vtype = rng.choice(VTYPES + [VILL] * 4)
        vl = 0 if vtype == VILL else rng.choice((0, 1, vlmax_of(vtype, vlenb), rng.randrange(vlmax_of(vtype, vlenb) + 1)))
        return vtype, vl

    bad = [v for v in range(0x100) if v not in VTYPES]
    wide = [1 << b | 0xd0 for b in range(8, 32)] + [M32, VILL, 0xffffff00, 0x80000001]
    for vlenb in (16, 32):
        for ones in (False, True):
            one = lambda word, x=None, state=None: add(vlenb, ones, *(state or before(vlenb)), seed(), word, x=x)
            for req in VTYPES:
                m = vlmax_of(req, vlenb)
                for avl in rng.sample((0, 1, m - 1, m, m + 1, 2 * m - 1, 2 * m, 2 * m + 1, 0x7fffffff, 0x80000000, M32), 3):
                    rd, r1, r2 = rng.choice((0, 5, 0, 31)), *rng.sample(range(1, 32), 2)
                    one(li.encode(rd=rd, rs1=r1, imm=req), {r1: avl})
                    if rng.random() < 0.5:
                        one(l.encode(rd=rng.choice((rd, r1, r2)), rs1=r1, rs2=r2), {r1: avl, r2: req})
                one(ili.encode(rd=rng.randrange(32), avl=rng.choice((0, 1, 31, min(31, m), rng.randrange(32))), imm=req))
                one(li.encode(rd=rng.randrange(1, 32), rs1=0, imm=req))
                # Both x0: kept where VLMAX is the same.
                same = [v for v in VTYPES if vlmax_of(v, vlenb) == m]
                v = rng.choice(same)
                one(li.encode(rd=0, rs1=0, imm=req), state=(v, rng.randrange(m + 1)))
                v = rng.choice(VTYPES)
                r2 = rng.randrange(1, 32)
                one(l.encode(rd=0, rs1=0, rs2=r2), {r2: req}, state=(v, rng.randrange(vlmax_of(v, vlenb) + 1)))
                if rng.random() < 0.2:
                    one(li.encode(rd=0, rs1=0, imm=req), state=(VILL, 0))
            for req in rng.sample(bad, 25):
                one(li.encode(rd=rng.randrange(32), rs1=rng.randrange(32), imm=req))
                one(ili.encode(rd=rng.randrange(32), avl=rng.randrange(32), imm=req))
            for req in (0x100, 0x200, 0x300, 0x1d0, 0x2d0):
                one(ili.encode(rd=5, avl=7, imm=req))
            for req in (0x100, 0x200, 0x400, 0x7ff, 0x4d0):
                one(li.encode(rd=5, rs1=6, imm=req))
                one(li.encode(rd=0, rs1=0, imm=req), state=(0xd0, 2))
            for req in wide:
                one(l.encode(rd=rng.randrange(32), rs1=rng.randrange(32), rs2=7), {7: req})
            one(l.encode(rd=5, rs1=6, rs2=0))


# ---- Vector cases ---------------------------------------------------------------------------------------------------------------------------------------

def arithmetic_cases(per):
    k = 0
    for i in VECTOR:
        if i.base & 0x7f != 0x57:
            continue
        for vlenb in (16, 32):
            for ones in (False, True):
                for low in SHAPES_OF_LEGAL:
                    for _ in range(per):
                        k += 1
                        vtype = low | rng.randrange(4) << 6
                        vm = i.vms[k % len(i.vms)]
                        f = fields_of(i, vtype, vm, rng.choice(PLACES))
                        if f is None:
                            continue
                        vl = vl_of(rng.randrange(6) if rng.random() < 0.8 else k, vtype, vlenb)
                        x = {}
                        if 'rs1' in f and rng.random() < 0.6:
                            x[f['rs1']] = rng.choice((0, 1, M32, 0x80, 0x8000, 0x80000000, 0x7f, 0x7fff, 0x7fffffff, vl, max(0, vl - 1), vlmax_of(vtype, vlenb),
                                                      rng.randrange(64), rng.getrandbits(32)))
                        state = {}
                        if i.shape in ('fixed', 'narrow'):
                            state = dict(vxrm=rng.randrange(4), vxsat=int(rng.random() < 0.2))
                        v = {}
                        if i.shape in ('gather', 'gather16') and 'vs1' in f and rng.random() < 0.7:
                            # Indices that mostly lie inside the group.
                            w = 16 if i.shape == 'gather16' else sew_of(vtype)
                            n = max(1, w * lmul4_of(vtype) // sew_of(vtype) // 4)
                            for r in range(f['vs1'], f['vs1'] + n):
                                v[r] = b''.join((rng.randrange(vlmax_of(vtype, vlenb) + 2) & (1 << w) - 1).to_bytes(w // 8, 'little') for _ in range(vlenb * 8 // w))
                        if i.eew and 'm' in i.eew[1:] and 'vs2' in f and rng.random() < 0.4:
                            v[f['vs2']] = (1 << rng.randrange(vlenb * 8)).to_bytes(vlenb, 'little')
                        if vm == 0 and rng.random() < 0.15:
                            v[0] = bytes([rng.choice((0, 255))]) * vlenb
                        add(vlenb, ones, vtype, vl, seed(), i.encode(vm=vm, **f), x=x, v=v, **state)
        # A word that is not legal, and one under vill.
        f = fields_of(i, 0xd0, i.vms[0], 'apart') or {}
        add(16, True, VILL, 0, seed(), i.encode(vm=i.vms[0], **f))
        if i.shape not in ('tox', 'fromx', 'logic', 'count', 'reduce'):
            for n in ('vd', 'vs2', 'vs1'):
                if n in f and i.eew[('vd', 'vs2', 'vs1').index(n)] in ('1', '2', '1/2'):
                    for low in (0x11, 0x0a, 0x03):
                        word = i.encode(vm=i.vms[0], **(f | {n: f[n] | 1}))
                        if not model.is_legal(low, word):
                            add(32, True, low, vlmax_of(low, 32), seed(), word)


def access_cases(per):
    k = 0
    for i in VECTOR:
        if not i.shape.startswith(('vload', 'vstore')):
            continue
        is_load = i.shape.startswith('vload')
        how = i.shape.split('_')[1] if '_' in i.shape else 'unit'
        for vm in i.vms:
            for vlenb in (16, 32):
                for ones in (False, True):
                    for low in SHAPES_OF_LEGAL + ([VILL] if how in ('whole', 'mask') else []):
                        for _ in range(per):
                            k += 1
                            vtype = low if low == VILL else low | rng.randrange(4) << 6
                            f = registers(i, vtype, vm, PLACES[k % len(PLACES)])
                            if f is None:
                                if rng.random() < 0.3 and vtype != VILL:
                                    f = {n: 8 for n in i.syntax if n != 'vm'}
                                    add(vlenb, ones, vtype, min(4, vlmax_of(vtype, vlenb)), seed(), i.encode(vm=vm, **f), x={8: RW})
                                continue
                            vl = 0 if vtype == VILL else vl_of(rng.randrange(6), vtype, vlenb)
                            size = i.width // 8
                            n = {'whole': i.regs * vlenb // size, 'mask': (vl + 7) // 8}.get(how, vl)
                            x, v = {}, {}
                            if how == 'strided':
                                if f['rs2'] == f['rs1']:
                                    f['rs2'] = f['rs1'] % 31 + 1
                                x[f['rs2']] = rng.choice((0, size, size + 1, 2 * size, 3, M32, -size & M32, -3 * size & M32, 1, 5))
                            if how == 'indexed':
                                # Indices small enough to hit a buffer, mostly.
                                w = i.width
                                count = max(1, w * lmul4_of(vtype) // sew_of(vtype) // 4)
                                size = sew_of(vtype) // 8
                                for r in range(f['vs2'], f['vs2'] + count):
                                    v[r] = b''.join((rng.randrange(min(1 << w, 2000))).to_bytes(w // 8, 'little') for _ in range(vlenb * 8 // w))
                            total = n * size
                            base = [RW + rng.randrange(64), RW + 1500 + rng.randrange(64), RW + 4096 - total, RW + 4096 - total + 1, RO + rng.randrange(64),
                                    RW + 1024 + rng.randrange(4), RO + 4096 - total + rng.randrange(total + 2), RW + 4096 - total // 2, 0, M32 - 2, RW - 1,
                                    RW + 2000, RW + 1700, RW + 1800][rng.randrange(14)]
                            x[f['rs1']] = base & M32
                            add(vlenb, ones, vtype, vl, seed(), i.encode(vm=vm, **f), x=x, v=v)


# Lengths about those of whole chunks of 16 bytes, and the greatest.
LENGTHS = (0, 1, 15, 16, 17, 31, 32, 33, 255, 256)


def length_cases():
    """Each operation at each length that a group of 8 registers of 256 bits has room for, its forms in turn; of 4 registers where it widens."""
    stems = {}
    for i in VECTOR:
        if i.base & 0x7f == 0x57:
            stems.setdefault(i.stem, []).extend((i, vm) for vm in i.vms)
    for forms in stems.values():
        turn = itertools.cycle(forms)
        for sew_bits, length in itertools.product(range(3), LENGTHS):
            i, vm = next(turn)
            for low in (sew_bits << 3 | 3, sew_bits << 3 | 2):
                vtype = low | rng.randrange(4) << 6
                f = None if length > vlmax_of(vtype, 32) else fields_of(i, vtype, vm, 'apart')
                if f is not None:
                    add(32, length % 2 == 0, vtype, length, seed(), i.encode(vm=vm, **f), vxrm=rng.randrange(4) if i.shape in ('fixed', 'narrow') else 0)
                    break


def main():
    scalar_cases()
    csr_cases()
    vset_cases()
    arithmetic_cases(2)
    access_cases(1)
    for args, more in chosen.cases():
        add(*args, **more)
    length_cases()
    for args, more in itertools.chain(chosen.later_cases(), longest.cases()):
        add(*args, **more)
    groups = {}
    for n, c in enumerate(cases):
        groups.setdefault((c.vlenb, c.ones), []).append(n)
    results = [None] * len(cases)
    for ns in groups.values():
        for n, r in zip(ns, of_qemu([cases[n] for n in ns])):
            results[n] = r
    rows, hand, wrong = [], {}, {}
    for c, q in zip(cases, results):
        mine = of_model(c)
        if q != mine:
            why = by_hand(c, q, mine)
            if why is None:
                d = model.decode(c.word)
                wrong.setdefault(d[0].name if d else 'none', []).append((c.shown(), q, mine, model.text_of(c.word)))
            hand[why] = hand.get(why, 0) + 1
        rows.append((c.shown() + ' = ' + mine).rstrip())
    for name in wrong:
        for w in wrong[name][:2]:
            print('differs: %s\n  %s\n  qemu  %s\n  model %s' % (w[3], w[0], w[1], w[2]), file=sys.stderr)
    print({n: len(w) for n, w in wrong.items()}, file=sys.stderr)
    print(len(rows), hand, file=sys.stderr)
    version = subprocess.run(['qemu-riscv32', '--version'], capture_output=True, text=True).stdout.split()[2]
    print('# One step each. Made by vectors/steps.py: results of qemu-riscv32 %s, which vectors/model.py shares; by hand where the script says so.' % version)
    print('# %d rows, %d of them by hand.' % (len(rows), sum(hand.values())))
    for why in sorted(w for w in hand if w):
        print('#   %d: %s' % (hand[why], why))
    print('\n'.join(rows))
    if wrong:
        sys.exit('qemu and the model differ, and no rule says why')


if __name__ == '__main__':
    main()
