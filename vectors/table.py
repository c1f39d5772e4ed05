"""The instructions of RV32IM, Zicsr and Zve32x, one line each: what the other scripts are driven by.

Names, encodings and operands are those of the RISC-V Unprivileged ISA manual ("RV32/64G Instruction Set Listings") and of the "V" vector extension 1.0
("Vector Instruction Listing").
"""
import struct

M32 = 0xffffffff

# The order in which a text shows its fields.
ORDER = ['rd', 'vd', 'vs3', 'rs1', 'rs2', 'vs2', 'vs1', 'avl', 'imm', 'csr', 'to', 'vm']

CSRS = {0x009: 'vxsat', 0x00a: 'vxrm', 0x00f: 'vcsr', 0xc20: 'vl', 0xc21: 'vtype', 0xc22: 'vlenb'}
READ_ONLY = (0xc20, 0xc21, 0xc22)


class Ins:
    """One instruction: its bits, the fields in the order of the assembler's text, and what the other scripts want to know of it.

    fields: those that the text shows. syntax: those of the assembler's text, in its order. imm: 's' signed, 'u' unsigned (of a vector immediate).
    shape: what it does with its operands (see rows below). eew: widths of (vd, vs2, vs1), as multiples of SEW, or 'm' a mask, '1' a single element of SEW,
    '2' one of 2*SEW, 0 none.
    """

    def __init__(self, name, base, syntax, shape, **more):
        self.name, self.base, self.syntax, self.shape = name, base, syntax.split(), shape
        self.imm = more.get('imm', 's')
        self.eew = more.get('eew')
        self.vm = more.get('vm')          # None: both; 0 or 1: that alone
        self.width = more.get('width')    # of a load's or store's words, in bits
        self.regs = more.get('regs', 1)   # of a whole-register load, store or move
        self.fixed = more.get('fixed')    # whether vs1 (or vs2) selects the operation
        self.fields = [f for f in ORDER if f in self.syntax]
        if self.is_vector and 'vm' not in self.fields:
            self.fields.append('vm')

    @property
    def is_vector(self):
        return self.base & 0x7f in (0x57, 0x07, 0x27) and self.shape != 'vset'

    @property
    def stem(self):
        return 'vmv.' + self.name[4] if self.name in ('vmv.x.s', 'vmv.s.x') else self.name.split('.')[0]

    @property
    def vms(self):
        """The values that the bit vm may have."""
        return (0, 1) if self.vm is None else (self.vm,)

    def encode(self, **f):
        """The word with the given fields (immediates as numbers, signed or not)."""
        w = self.base
        put = lambda value, low, width: (value & ((1 << width) - 1)) << low
        vm = f.get('vm', self.vm if self.vm is not None else 1)
        if self.is_vector:
            w |= put(vm, 25, 1)
        for name, low in (('rd', 7), ('vd', 7), ('vs3', 7), ('rs1', 15), ('vs1', 15), ('rs2', 20), ('vs2', 20)):
            if name in self.syntax:
                w |= put(f.get(name, 0), low, 5)
        imm = f.get('imm', 0)
        if 'csr' in self.syntax:
            w |= put(f['csr'], 20, 12) | (put(imm, 15, 5) if 'imm' in self.syntax else 0)
        elif self.shape == 'vset':
            w |= {'vsetvli': put(imm, 20, 11), 'vsetivli': put(imm, 20, 10) | put(f.get('avl', 0), 15, 5), 'vsetvl': 0}[self.name]
        elif self.is_vector:
            w |= put(imm, 15, 5) if 'imm' in self.syntax else 0
        elif self.shape in ('imm', 'load', 'jalr'):
            w |= put(imm, 20, 12)
        elif self.shape == 'shift':
            w |= put(imm, 20, 5)
        elif self.shape == 'store':
            w |= put(imm >> 5, 25, 7) | put(imm, 7, 5)
        elif self.shape == 'branch':
            o = f['to'] - 0x10000
            w |= put(o >> 12, 31, 1) | put(o >> 5, 25, 6) | put(o >> 1, 8, 4) | put(o >> 11, 7, 1)
        elif self.shape == 'jal':
            o = f['to'] - 0x10000
            w |= put(o >> 20, 31, 1) | put(o >> 1, 21, 10) | put(o >> 11, 20, 1) | put(o >> 12, 12, 8)
        elif self.shape == 'upper':
            w |= imm & 0xfffff000
        return w


def scalar():
    """RV32I, M, Zicsr and the vset forms."""
    r = []
    add = lambda *a, **k: r.append(Ins(*a, **k))
    add('lui', 0x37, 'rd imm', 'upper')
    add('auipc', 0x17, 'rd imm', 'upper')
    add('jal', 0x6f, 'rd to', 'jal')
    add('jalr', 0x67, 'rd imm rs1', 'jalr')
    for f3, n in zip((0, 1, 4, 5, 6, 7), 'beq bne blt bge bltu bgeu'.split()):
        add(n, 0x63 | f3 << 12, 'rs1 rs2 to', 'branch')
    for f3, n, w in ((0, 'lb', 8), (1, 'lh', 16), (2, 'lw', 32), (4, 'lbu', 8), (5, 'lhu', 16)):
        add(n, 0x03 | f3 << 12, 'rd imm rs1', 'load', width=w)
    for f3, n, w in ((0, 'sb', 8), (1, 'sh', 16), (2, 'sw', 32)):
        add(n, 0x23 | f3 << 12, 'rs2 imm rs1', 'store', width=w)
    for f3, n in zip((0, 2, 3, 4, 6, 7), 'addi slti sltiu xori ori andi'.split()):
        add(n, 0x13 | f3 << 12, 'rd rs1 imm', 'imm')
    for f7, f3, n in ((0, 1, 'slli'), (0, 5, 'srli'), (0x20, 5, 'srai')):
        add(n, 0x13 | f3 << 12 | f7 << 25, 'rd rs1 imm', 'shift')
    for f7, names in ((0, 'add sll slt sltu xor srl or and'), (0x20, 'sub - - - - sra - -'), (1, 'mul mulh mulhsu mulhu div divu rem remu')):
        for f3, n in enumerate(names.split()):
            if n != '-':
                add(n, 0x33 | f3 << 12 | f7 << 25, 'rd rs1 rs2', 'reg')
    add('fence', 0x0f, '', 'fence')
    add('ecall', 0x73, '', 'ecall')
    for f3, n in zip((1, 2, 3), 'csrrw csrrs csrrc'.split()):
        add(n, 0x73 | f3 << 12, 'rd csr rs1', 'csr')
        add(n + 'i', 0x73 | (f3 + 4) << 12, 'rd csr imm', 'csr')
    add('vsetvli', 0x7057, 'rd rs1 imm', 'vset')
    add('vsetivli', 0xc0007057, 'rd avl imm', 'vset')
    add('vsetvl', 0x80007057, 'rd rs1 rs2', 'vset')
    return r


# funct6, name, forms; then the kind of the immediate, the shape and the widths of vd, vs2, vs1.
# Shapes: int (one element for one), mac (vd is read too; text shows vs1 before vs2), cmp (a mask comes out), carry (v0 is data), carry_mask (a mask comes out),
# merge, mv, widen, narrow, fixed, slide, gather, reduce, and the ones that stand alone.
OPI = '''
00 vadd VXI s int 1 1 1
02 vsub VX s int 1 1 1
03 vrsub XI s int 1 1 1
04 vminu VX s int 1 1 1
05 vmin VX s int 1 1 1
06 vmaxu VX s int 1 1 1
07 vmax VX s int 1 1 1
09 vand VXI s int 1 1 1
0a vor VXI s int 1 1 1
0b vxor VXI s int 1 1 1
0c vrgather VXI u gather 1 1 1
0e vslideup XI u slide 1 1 1
0e vrgatherei16 V u gather16 1 1 e16
0f vslidedown XI u slide 1 1 1
10 vadc VXI s carry 1 1 1
11 vmadc VXI s carry_mask m 1 1
12 vsbc VX s carry 1 1 1
13 vmsbc VX s carry_mask m 1 1
17 vmerge VXI s merge 1 1 1
17 vmv.v VXI s mv 1 0 1
18 vmseq VXI s cmp m 1 1
19 vmsne VXI s cmp m 1 1
1a vmsltu VX s cmp m 1 1
1b vmslt VX s cmp m 1 1
1c vmsleu VXI s cmp m 1 1
1d vmsle VXI s cmp m 1 1
1e vmsgtu XI s cmp m 1 1
1f vmsgt XI s cmp m 1 1
20 vsaddu VXI s fixed 1 1 1
21 vsadd VXI s fixed 1 1 1
22 vssubu VX s fixed 1 1 1
23 vssub VX s fixed 1 1 1
25 vsll VXI u int 1 1 1
27 vsmul VX s fixed 1 1 1
28 vsrl VXI u int 1 1 1
29 vsra VXI u int 1 1 1
2a vssrl VXI u fixed 1 1 1
2b vssra VXI u fixed 1 1 1
2c vnsrl VXI u narrow 1 2 1
2d vnsra VXI u narrow 1 2 1
2e vnclipu VXI u narrow 1 2 1
2f vnclip VXI u narrow 1 2 1
30 vwredsumu V s reduce s2 1 s2
31 vwredsum V s reduce s2 1 s2
'''
OPM = '''
00 vredsum V s reduce s1 1 s1
01 vredand V s reduce s1 1 s1
02 vredor V s reduce s1 1 s1
03 vredxor V s reduce s1 1 s1
04 vredminu V s reduce s1 1 s1
05 vredmin V s reduce s1 1 s1
06 vredmaxu V s reduce s1 1 s1
07 vredmax V s reduce s1 1 s1
08 vaaddu VX s fixed 1 1 1
09 vaadd VX s fixed 1 1 1
0a vasubu VX s fixed 1 1 1
0b vasub VX s fixed 1 1 1
0e vslide1up X s slide 1 1 1
0f vslide1down X s slide 1 1 1
18 vmandn V s logic m m m
19 vmand V s logic m m m
1a vmor V s logic m m m
1b vmxor V s logic m m m
1c vmorn V s logic m m m
1d vmnand V s logic m m m
1e vmnor V s logic m m m
1f vmxnor V s logic m m m
17 vcompress V s compress 1 1 m
20 vdivu VX s int 1 1 1
21 vdiv VX s int 1 1 1
22 vremu VX s int 1 1 1
23 vrem VX s int 1 1 1
24 vmulhu VX s int 1 1 1
25 vmul VX s int 1 1 1
26 vmulhsu VX s int 1 1 1
27 vmulh VX s int 1 1 1
29 vmadd VX s mac 1 1 1
2b vnmsub VX s mac 1 1 1
2d vmacc VX s mac 1 1 1
2f vnmsac VX s mac 1 1 1
30 vwaddu VX s widen 2 1 1
31 vwadd VX s widen 2 1 1
32 vwsubu VX s widen 2 1 1
33 vwsub VX s widen 2 1 1
34 vwaddu.w VX s widen 2 2 1
35 vwadd.w VX s widen 2 2 1
36 vwsubu.w VX s widen 2 2 1
37 vwsub.w VX s widen 2 2 1
38 vwmulu VX s widen 2 1 1
3a vwmulsu VX s widen 2 1 1
3b vwmul VX s widen 2 1 1
3c vwmaccu VX s wmac 2 1 1
3d vwmacc VX s wmac 2 1 1
3e vwmaccus X s wmac 2 1 1
3f vwmaccsu VX s wmac 2 1 1
'''
# OPMVV words whose vs1 selects the operation: funct6, vs1, name, text of the assembler, vm, shape, widths of vd, vs2.
UNARY = '''
10 00 vmv.x.s rd,vs2 1 tox 0 s1
10 10 vcpop.m rd,vs2,vm - count 0 m
10 11 vfirst.m rd,vs2,vm - count 0 m
12 04 vzext.vf4 vd,vs2,vm - ext 1 1/4
12 05 vsext.vf4 vd,vs2,vm - ext 1 1/4
12 06 vzext.vf2 vd,vs2,vm - ext 1 1/2
12 07 vsext.vf2 vd,vs2,vm - ext 1 1/2
14 01 vmsbf.m vd,vs2,vm - first m m
14 02 vmsof.m vd,vs2,vm - first m m
14 03 vmsif.m vd,vs2,vm - first m m
14 10 viota.m vd,vs2,vm - iota 1 m
14 11 vid.v vd,vm - iota 1 0
'''


def suffix(name, shape, form):
    if name.endswith('.w'):
        return name[:-1] + {'V': 'wv', 'X': 'wx'}[form]
    if shape == 'reduce':
        return name + '.vs'
    if shape == 'logic':
        return name + '.mm'
    if shape == 'compress':
        return name + '.vm'
    if shape == 'narrow':
        return name + '.' + {'V': 'wv', 'X': 'wx', 'I': 'wi'}[form]
    if shape == 'mv':
        return name + '.' + {'V': 'v', 'X': 'x', 'I': 'i'}[form]
    return name + '.' + {'V': 'vv', 'X': 'vx', 'I': 'vi'}[form]


def vector():
    r = []
    for text, f3s in ((OPI, {'V': 0, 'I': 3, 'X': 4}), (OPM, {'V': 2, 'X': 6})):
        for row in text.split('\n'):
            if not row:
                continue
            f6, name, forms, imm, shape, d, s2, s1 = row.split()
            for form in forms:
                base = 0x57 | f3s[form] << 12 | int(f6, 16) << 26
                second = {'V': 'vs1', 'X': 'rs1', 'I': 'imm'}[form]
                eew = (d, s2, s1 if form == 'V' else '0')
                mk = lambda n, syn, vm=None: r.append(Ins(n, base, syn, shape, imm=imm, eew=eew, vm=vm))
                full = suffix(name, shape, form)
                if shape in ('carry', 'carry_mask', 'merge'):
                    mk(full + 'm', 'vd vs2 ' + second, 0)
                    if shape == 'carry_mask':
                        mk(full, 'vd vs2 ' + second, 1)
                elif shape == 'mv':
                    mk(full, 'vd ' + second, 1)
                elif shape in ('logic', 'compress'):
                    mk(full, 'vd vs2 vs1', 1)
                elif shape in ('mac', 'wmac'):
                    mk(full, 'vd %s vs2 vm' % second)
                else:
                    mk(full, 'vd vs2 %s vm' % second)
    for row in UNARY.strip().split('\n'):
        f6, vs1, name, syn, vm, shape, d, s2 = row.split()
        base = 0x2057 | int(f6, 16) << 26 | int(vs1, 16) << 15
        r.append(Ins(name, base, syn.replace(',', ' '), shape, eew=(d, s2, '0'), vm=None if vm == '-' else int(vm), fixed=True))
    r.append(Ins('vmv.s.x', 0x42006057, 'vd rs1', 'fromx', eew=('s1', '0', '0'), vm=1))
    for n in (1, 2, 4, 8):
        r.append(Ins('vmv%dr.v' % n, 0x9c003057 | (n - 1) << 15 | 1 << 25, 'vd vs2', 'mvr', eew=('w', 'w', '0'), vm=1, regs=n))
    for code, w in ((0, 8), (5, 16), (6, 32)):
        f3 = code << 12
        for op, d, kind in ((0x07, 'vd', 'l'), (0x27, 'vs3', 's')):
            shape = 'v' + {'l': 'load', 's': 'store'}[kind]
            mk = lambda n, bits, syn, sh, **k: r.append(Ins(n, op | bits, syn, shape + sh, width=w, **k))
            mk('v%se%d.v' % (kind, w), f3, d + ' rs1 vm', '')
            mk('v%sse%d.v' % (kind, w), f3 | 2 << 26, d + ' rs1 rs2 vm', '_strided')
            for order, mop in (('u', 1), ('o', 3)):
                mk('v%s%sxei%d.v' % (kind, order, w), f3 | mop << 26, d + ' rs1 vs2 vm', '_indexed')
            for n in (1, 2, 4, 8):
                if kind == 'l':
                    mk('vl%dre%d.v' % (n, w), f3 | 0x02800000 | (n - 1) << 29, 'vd rs1', '_whole', vm=1, regs=n)
                elif w == 8:
                    mk('vs%dr.v' % n, 0x02800000 | (n - 1) << 29, 'vs3 rs1', '_whole', vm=1, regs=n)
            if w == 8:
                mk('v%sm.v' % kind, 0x02b00000, d + ' rs1', '_mask', vm=1)
    return r


SCALAR = scalar()
VECTOR = vector()
ALL = {i.name: i for i in SCALAR + VECTOR}
assert len(ALL) == len(SCALAR) + len(VECTOR)


# States before a step, as steps.txt gives them.
ENDS = [0, 0xffffffff, 0x80000000, 0x7fffffff, 1, 0x807f0180, 0x7f80ff01, None]


def draws(seed):
    s = seed
    while True:
        s ^= (s << 13) & M32
        s ^= s >> 17
        s ^= (s << 5) & M32
        d = s
        if seed % 2 == 0:
            e = ENDS[(d >> 8) % 8]
            d = s if e is None else e
        yield d


def state_of(seed, vlenb):
    """x0 to x31, and v0 to v31 as one run of bytes."""
    g = draws(seed)
    x = [0] + [next(g) for _ in range(31)]
    v = b''.join(struct.pack('<I', next(g)) for _ in range(vlenb // 4 * 32))
    return x, v


BUFFER = bytes((73 * i + 11 * (i // 256) + 5) % 256 for i in range(4096))
RW, RO = 0x40000000, 0x40002000

VTYPES = [lmul | sew << 3 | ta << 6 | ma << 7
          for ma in (0, 1) for ta in (0, 1) for sew in (0, 1, 2) for lmul in (6, 7, 0, 1, 2, 3)
          if not (lmul == 6 and sew > 0) and not (lmul == 7 and sew > 1)]


def sew_of(vtype):
    return 8 << (vtype >> 3 & 7)


def lmul4_of(vtype):
    """LMUL in quarters: 1 is mf4, 32 is m8."""
    return {6: 1, 7: 2, 0: 4, 1: 8, 2: 16, 3: 32}[vtype & 7]


def vlmax_of(vtype, vlenb):
    return lmul4_of(vtype) * vlenb * 8 // sew_of(vtype) // 4
