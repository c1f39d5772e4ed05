"""A second opinion on qemu: the machine in Python, written from the manuals and docs/DECISIONS.md alone.

The other scripts take qemu's word where qemu and this model say the same, and stop where they don't, unless a rule in the script names the section by which
this profile differs. So no row rests on the model alone but those that the rules name.
"""
from table import ALL, CSRS, M32, ORDER, READ_ONLY, SCALAR, VECTOR, lmul4_of, sew_of, vlmax_of

EXIT = 0xfffffff0
VILL = 0x80000000


# ---- Words ---------------------------------------------------------------------------------------------------------------------------------------

def free_bits(i):
    """The bits of a word that its fields fill."""
    m = 0
    for f in i.syntax:
        if f in ('rd', 'vd', 'vs3'):
            m |= 0xf80
        elif f in ('rs1', 'vs1', 'avl'):
            m |= 0xf8000
        elif f in ('rs2', 'vs2'):
            m |= 0x1f00000
        elif f == 'csr':
            m |= 0xfff00000
        elif f == 'vm' and i.vm is None:
            m |= 1 << 25
        elif f == 'to':
            m |= 0xfe000f80 if i.shape == 'branch' else 0xfffff000
        elif f == 'imm':
            if i.is_vector or 'csr' in i.syntax:
                m |= 0xf8000
            else:
                m |= {'imm': 0xfff00000, 'load': 0xfff00000, 'jalr': 0xfff00000, 'shift': 0x1f00000, 'store': 0xfe000f80, 'upper': 0xfffff000,
                      'vset': 0x7ff00000 if i.name == 'vsetvli' else 0x3ff00000}[i.shape]
    if i.shape == 'fence':
        m = 0xffff8f80
    return m


def fixed(i):
    w = i.base
    if i.is_vector and i.vm == 1:
        w |= 1 << 25
    return w, ~free_bits(i) & M32


TABLE = {}
for _i in SCALAR + VECTOR:
    _w, _m = fixed(_i)
    TABLE.setdefault(_w & 0x7f, []).append((_w, _m, _i))


def signed(v, bits):
    v &= (1 << bits) - 1
    return v - (1 << bits) if v >> (bits - 1) else v


def decode(word):
    """(instruction, fields), or None."""
    for w, m, i in TABLE.get(word & 0x7f, ()):
        if word & m == w:
            break
    else:
        return None
    f = {}
    for name, low in (('rd', 7), ('vd', 7), ('vs3', 7), ('rs1', 15), ('vs1', 15), ('rs2', 20), ('vs2', 20), ('avl', 15)):
        if name in i.syntax:
            f[name] = word >> low & 31
    if i.is_vector:
        f['vm'] = word >> 25 & 1
    if i.shape in ('vload_whole', 'vstore_whole') and (word >> 7 & 31) % i.regs:
        return None
    if 'csr' in i.syntax:
        f['csr'] = word >> 20
        if 'imm' in i.syntax:
            f['imm'] = word >> 15 & 31
        if f['csr'] not in CSRS:
            return None
        if f['csr'] in READ_ONLY and (i.name in ('csrrw', 'csrrwi') or word >> 15 & 31):
            return None
    elif i.shape == 'branch':
        f['to'] = signed((word >> 31) << 12 | (word >> 7 & 1) << 11 | (word >> 25 & 63) << 5 | (word >> 8 & 15) << 1, 13)
    elif i.shape == 'jal':
        f['to'] = signed((word >> 31) << 20 | (word >> 12 & 255) << 12 | (word >> 20 & 1) << 11 | (word >> 21 & 1023) << 1, 21)
    elif 'imm' in i.syntax:
        if i.is_vector:
            f['imm'] = signed(word >> 15, 5) if i.imm == 's' else word >> 15 & 31
        else:
            f['imm'] = {'imm': lambda: signed(word >> 20, 12), 'load': lambda: signed(word >> 20, 12), 'jalr': lambda: signed(word >> 20, 12),
                        'shift': lambda: word >> 20 & 31, 'store': lambda: signed((word >> 25) << 5 | (word >> 7 & 31), 12),
                        'upper': lambda: word & 0xfffff000, 'vset': lambda: word >> 20 & (0x7ff if i.name == 'vsetvli' else 0x3ff)}[i.shape]()
    return i, f


def text_of(word, at=0x10000):
    """What a word means at an address."""
    d = decode(word)
    if d is None:
        return 'illegal'
    i, f = d
    show = {'csr': lambda v: '%03x' % v, 'to': lambda v: '%08x' % (at + v & M32)}
    out = i.name
    for n in ORDER:
        if n in f:
            v = f[n]
            out += ' %s=%s' % (n, '%08x' % v if n == 'imm' and i.shape == 'upper' else show.get(n, str)(v))
    return out


# ---- Vector configuration and legality ------------------------------------------------------------------------------------------------------------

def is_supported(vtype):
    """ "Vector type register, vtype"; what is supported: docs/DECISIONS.md, Vectors (Not supported)."""
    return vtype >> 8 == 0 and vtype >> 3 & 7 <= 2 and vtype & 7 not in (4, 5) and sew_of(vtype) * 4 <= lmul4_of(vtype) * 32


def vset(vlenb, vtype, vl, avl, request):
    """avl: 'keep', 'greatest' or a number. The new vtype and vl. "AVL encoding"; docs/DECISIONS.md, Vectors."""
    if not is_supported(request):
        return VILL, 0
    greatest = vlmax_of(request, vlenb)
    if avl == 'keep':
        if vtype == VILL or vlmax_of(vtype, vlenb) != greatest:
            return VILL, 0
        return request, vl
    return request, greatest if avl == 'greatest' else min(avl, greatest)


class Operand:
    """A vector operand: register, EEW (1 for a mask), EMUL in quarters (None where it is a single register whatever LMUL is), and its kind."""

    def __init__(self, role, reg, kind, vtype, width=None):
        self.role, self.reg, self.kind = role, reg, kind
        sew = sew_of(vtype)
        if kind == 'm':
            self.eew, self.emul4 = 1, 4
        elif kind in ('s1', 's2'):
            self.eew, self.emul4 = sew * int(kind[1]), None
        elif kind == 'w':
            self.eew, self.emul4 = 8, 4 * width
        elif kind[0] == 'e':
            self.eew = int(kind[1:])
            self.emul4 = self.eew * lmul4_of(vtype) / sew
        else:
            k = {'1': 1, '2': 2, '1/2': 0.5, '1/4': 0.25}[kind]
            self.eew, self.emul4 = sew * k, lmul4_of(vtype) * k

    @property
    def is_single(self):
        return self.kind in ('s1', 's2')

    @property
    def count(self):
        return 1 if self.emul4 is None else max(1, int(self.emul4) // 4)

    @property
    def registers(self):
        return range(self.reg, self.reg + self.count)


NO_SHARING = ('vslideup', 'vslide1up', 'vrgather', 'vrgatherei16', 'vcompress', 'viota', 'vmsbf', 'vmsif', 'vmsof')


def operands(i, f, vtype):
    """The vector operands, v0 as a mask or as carries left out: destination (or None), sources."""
    if i.shape.startswith('vload') or i.shape.startswith('vstore'):
        how = i.shape.split('_')[1] if '_' in i.shape else 'unit'
        role, reg = ('vd', f['vd']) if 'vd' in f else ('vs3', f['vs3'])
        kind = {'unit': 'e%d' % i.width, 'strided': 'e%d' % i.width, 'indexed': '1', 'whole': 'w', 'mask': 'm'}[how]
        data = Operand(role, reg, kind, vtype, i.regs)
        sources = [Operand('vs2', f['vs2'], 'e%d' % i.width, vtype)] if how == 'indexed' else []
        return (data, sources) if role == 'vd' else (None, [data] + sources)
    kinds = i.eew
    dest = Operand('vd', f['vd'], kinds[0], vtype, i.regs) if kinds[0] != '0' else None
    sources = [Operand(n, f[n], k, vtype, i.regs) for n, k in (('vs2', kinds[1]), ('vs1', kinds[2])) if k != '0' and n in f]
    return dest, sources


def is_legal(vtype, word):
    """Of a vector word that means something. docs/DECISIONS.md, Vectors (Legality, v0, With vill set); "Vector Operands", "Vector Masking",
    "Vector Loads and Stores"."""
    i, f = decode(word)
    if i.shape in ('vload_whole', 'vstore_whole'):
        return True
    if i.shape == 'mvr':
        return f['vd'] % i.regs == 0 and f['vs2'] % i.regs == 0
    if vtype == VILL:
        return False
    dest, sources = operands(i, f, vtype)
    every = ([dest] if dest else []) + sources
    for o in every:
        if o.eew != 1 and o.eew not in (8, 16, 32):
            return False
        if o.is_single:
            continue
        if o.emul4 > 32 or o.reg % o.count != 0:
            return False
    if dest is None:
        return True
    if f['vm'] == 0 and 0 in dest.registers and not (dest.eew == 1 or dest.is_single):
        return False
    if i.stem in ('vadc', 'vsbc', 'vmerge') and 0 in dest.registers:
        return False
    if i.stem in NO_SHARING:
        masks = [0] if f['vm'] == 0 else []
        if any(r in dest.registers for o in sources for r in o.registers) or any(r in dest.registers for r in masks):
            return False
    if dest.is_single:
        return True
    for s in sources:
        if s.is_single or not set(s.registers) & set(dest.registers) or s.eew == dest.eew:
            continue
        if dest.eew < s.eew:
            if dest.reg != s.reg:
                return False
        elif not (s.emul4 >= 4 and dest.reg + dest.count == s.reg + s.count):
            return False
    return True


# ---- Numbers -------------------------------------------------------------------------------------------------------------------------------------------

def divided(a, b, w, is_signed):
    """Quotient and remainder, both as unsigned numbers. "Division Operations"."""
    mask = (1 << w) - 1
    if b == 0:
        return mask, a
    if not is_signed:
        return a // b, a % b
    x, y = signed(a, w), signed(b, w)
    q = abs(x) // abs(y)
    if (x < 0) != (y < 0):
        q = -q
    return q & mask, x - q * y & mask


def rounded(v, d, vxrm):
    """ "Vector Fixed-Point Rounding Mode Register vxrm" """
    if d == 0:
        return v
    low, floor = v & (1 << d) - 1, v >> d
    half = 1 << (d - 1)
    if vxrm == 0:
        return floor + (low >= half)
    if vxrm == 1:
        return floor + (low > half or low == half and floor & 1)
    if vxrm == 2:
        return floor
    return floor | (low != 0)


def clipped(v, w, is_signed):
    lo, hi = (-(1 << w - 1), (1 << w - 1) - 1) if is_signed else (0, (1 << w) - 1)
    return max(lo, min(hi, v))


LOGW = {8: 3, 16: 4, 32: 5, 64: 6}


def amount(b, w):
    return b & (w - 1)


# a is vs2's element, b the other operand, both unsigned numbers of w bits; c the old element of vd. The result is taken modulo 2^w.
INT = {
    'vadd': lambda a, b, w: a + b, 'vsub': lambda a, b, w: a - b, 'vrsub': lambda a, b, w: b - a,
    'vminu': lambda a, b, w: min(a, b), 'vmaxu': lambda a, b, w: max(a, b),
    'vmin': lambda a, b, w: min(signed(a, w), signed(b, w)), 'vmax': lambda a, b, w: max(signed(a, w), signed(b, w)),
    'vand': lambda a, b, w: a & b, 'vor': lambda a, b, w: a | b, 'vxor': lambda a, b, w: a ^ b,
    'vsll': lambda a, b, w: a << amount(b, w), 'vsrl': lambda a, b, w: a >> amount(b, w), 'vsra': lambda a, b, w: signed(a, w) >> amount(b, w),
    'vmul': lambda a, b, w: a * b, 'vmulhu': lambda a, b, w: a * b >> w, 'vmulh': lambda a, b, w: signed(a, w) * signed(b, w) >> w,
    'vmulhsu': lambda a, b, w: signed(a, w) * b >> w,
    'vdivu': lambda a, b, w: divided(a, b, w, False)[0], 'vdiv': lambda a, b, w: divided(a, b, w, True)[0],
    'vremu': lambda a, b, w: divided(a, b, w, False)[1], 'vrem': lambda a, b, w: divided(a, b, w, True)[1],
}
MAC = {'vmacc': lambda a, b, c, w: b * a + c, 'vnmsac': lambda a, b, c, w: c - b * a, 'vmadd': lambda a, b, c, w: b * c + a, 'vnmsub': lambda a, b, c, w: a - b * c}
CMP = {
    'vmseq': lambda a, b, w: a == b, 'vmsne': lambda a, b, w: a != b, 'vmsltu': lambda a, b, w: a < b, 'vmsleu': lambda a, b, w: a <= b,
    'vmsgtu': lambda a, b, w: a > b, 'vmslt': lambda a, b, w: signed(a, w) < signed(b, w), 'vmsle': lambda a, b, w: signed(a, w) <= signed(b, w),
    'vmsgt': lambda a, b, w: signed(a, w) > signed(b, w),
}
# Widening: a is vs2 and b the other operand at SEW w (a at 2*SEW in the .w forms); c the old element at 2*SEW.
WIDEN = {
    'vwaddu': lambda a, b, w: a + b, 'vwadd': lambda a, b, w: signed(a, w) + signed(b, w), 'vwsubu': lambda a, b, w: a - b,
    'vwsub': lambda a, b, w: signed(a, w) - signed(b, w), 'vwmulu': lambda a, b, w: a * b, 'vwmul': lambda a, b, w: signed(a, w) * signed(b, w),
    'vwmulsu': lambda a, b, w: signed(a, w) * b,
}
WIDE = {'vwaddu': lambda a, b, w: a + b, 'vwadd': lambda a, b, w: a + signed(b, w), 'vwsubu': lambda a, b, w: a - b, 'vwsub': lambda a, b, w: a - signed(b, w)}
WMAC = {'vwmaccu': lambda a, b, c, w: b * a + c, 'vwmacc': lambda a, b, c, w: signed(b, w) * signed(a, w) + c,
        'vwmaccsu': lambda a, b, c, w: signed(b, w) * a + c, 'vwmaccus': lambda a, b, c, w: b * signed(a, w) + c}
REDUCE = {'vredsum': lambda a, b, w: a + b, 'vredand': INT['vand'], 'vredor': INT['vor'], 'vredxor': INT['vxor'], 'vredminu': INT['vminu'],
          'vredmin': INT['vmin'], 'vredmaxu': INT['vmaxu'], 'vredmax': INT['vmax'], 'vwredsumu': lambda a, b, w: a + b, 'vwredsum': lambda a, b, w: a + b}
LOGIC = {'vmandn': lambda a, b: a & ~b, 'vmand': lambda a, b: a & b, 'vmor': lambda a, b: a | b, 'vmxor': lambda a, b: a ^ b, 'vmorn': lambda a, b: a | ~b,
         'vmnand': lambda a, b: ~(a & b), 'vmnor': lambda a, b: ~(a | b), 'vmxnor': lambda a, b: ~(a ^ b)}


def fixed_point(name, a, b, w, vxrm):
    """Result and whether it saturated. "Vector Fixed-Point Arithmetic Instructions"."""
    x, y = signed(a, w), signed(b, w)
    if name in ('vsaddu', 'vsadd', 'vssubu', 'vssub'):
        is_signed = name in ('vsadd', 'vssub')
        p, q = (x, y) if is_signed else (a, b)
        v = p + q if 'add' in name else p - q
        return clipped(v, w, is_signed), clipped(v, w, is_signed) != v
    if name in ('vaaddu', 'vaadd', 'vasubu', 'vasub'):
        p, q = (a, b) if name[-1] == 'u' else (x, y)
        return rounded(p + q if 'add' in name else p - q, 1, vxrm), False
    if name == 'vsmul':
        v = rounded(x * y, w - 1, vxrm)
        return clipped(v, w, True), clipped(v, w, True) != v
    return rounded(a if name == 'vssrl' else x, amount(b, w), vxrm), False


def narrowed(name, a, b, w, vxrm):
    d = b & (2 * w - 1)
    if name == 'vnsrl':
        return a >> d, False
    if name == 'vnsra':
        return signed(a, 2 * w) >> d, False
    is_signed = name == 'vnclip'
    v = rounded(signed(a, 2 * w) if is_signed else a, d, vxrm)
    return clipped(v, w, is_signed), clipped(v, w, is_signed) != v


# ---- The machine --------------------------------------------------------------------------------------------------------------------------------------

class Memory:
    """Areas: first address, bytes, rights (letters of rwx)."""

    def __init__(self, areas):
        self.areas = [[a, bytearray(b), r] for a, b, r in areas]

    def find(self, addr, right):
        for a, b, r in self.areas:
            if a <= addr < a + len(b) and right in r:
                return b, addr - a
        return None

    def permits(self, addr, n, right):
        return addr + n <= 1 << 32 and all(self.find(addr + k, right) for k in range(n))

    def load(self, addr, n):
        return bytes(b[o] for b, o in (self.find(addr + k, 'r') for k in range(n)))

    def store(self, addr, data):
        for k, byte in enumerate(data):
            b, o = self.find(addr + k, 'w')
            b[o] = byte


class Fault(Exception):
    pass


class Machine:
    def __init__(self, vlenb, ones, pc, x, v, vtype, vl, vxrm, vxsat, memory):
        self.vlenb, self.ones, self.pc, self.x, self.v, self.vtype, self.vl = vlenb, ones, pc, list(x), bytearray(v), vtype, vl
        self.vxrm, self.vxsat, self.memory = vxrm, vxsat, memory

    def set_x(self, n, value):
        if n:
            self.x[n] = value & M32

    # Elements.

    def get(self, reg, w, k):
        at = reg * self.vlenb + k * w // 8
        return int.from_bytes(self.v[at:at + w // 8], 'little')

    def put(self, reg, w, k, value):
        at = reg * self.vlenb + k * w // 8
        self.v[at:at + w // 8] = (value & (1 << w) - 1).to_bytes(w // 8, 'little')

    def bit(self, reg, k):
        return self.v[reg * self.vlenb + k // 8] >> k % 8 & 1

    def put_bit(self, reg, k, value):
        at = reg * self.vlenb + k // 8
        self.v[at] = self.v[at] & ~(1 << k % 8) | (value & 1) << k % 8

    def active(self, f, k):
        return f['vm'] == 1 or self.bit(0, k) == 1

    def agnostic(self, bit):
        return self.ones and self.vtype >> bit & 1

    def write_elements(self, reg, w, count, new, is_active, first_tail=None):
        """new: list of the body's elements, None for one that keeps its old value whatever its policy; tail from first_tail (vl) to count."""
        if self.vl == 0:
            return
        for k in range(self.vl if first_tail is None else first_tail):
            if is_active(k):
                if new[k] is not None:
                    self.put(reg, w, k, new[k])
            elif new[k] is not None and self.agnostic(7):
                self.put(reg, w, k, -1)
        if self.agnostic(6):
            for k in range(self.vl if first_tail is None else first_tail, count):
                self.put(reg, w, k, -1)

    def write_mask(self, reg, new, is_active):
        if self.vl == 0:
            return
        for k in range(self.vl):
            if is_active(k):
                self.put_bit(reg, k, new[k])
            elif self.agnostic(7):
                self.put_bit(reg, k, 1)
        if self.ones:
            for k in range(self.vl, 8 * self.vlenb):
                self.put_bit(reg, k, 1)

    # Steps.

    def step(self, word):
        """Raises Fault and changes nothing, or carries the word out."""
        d = decode(word)
        if d is None:
            raise Fault('Illegal', word)
        i, f = d
        if i.is_vector:
            if not is_legal(self.vtype, word):
                raise Fault('Illegal', word)
            self.vector(i, f)
            self.pc = self.pc + 4 & M32
        elif i.shape == 'vset':
            self.vset(i, f)
            self.pc = self.pc + 4 & M32
        elif i.shape == 'csr':
            self.csr(i, f)
            self.pc = self.pc + 4 & M32
        else:
            self.scalar(i, f)

    def vset(self, i, f):
        if i.name == 'vsetivli':
            avl = f['avl']
        elif f['rs1']:
            avl = self.x[f['rs1']]
        else:
            avl = 'greatest' if f['rd'] else 'keep'
        self.vtype, self.vl = vset(self.vlenb, self.vtype, self.vl, avl, self.x[f['rs2']] if i.name == 'vsetvl' else f['imm'])
        self.set_x(f['rd'], self.vl)

    def csr(self, i, f):
        n = f['csr']
        old = {0x009: self.vxsat, 0x00a: self.vxrm, 0x00f: self.vxrm << 1 | self.vxsat, 0xc20: self.vl, 0xc21: self.vtype, 0xc22: self.vlenb}[n]
        operand = f['imm'] if 'imm' in f else self.x[f['rs1']]
        writes = i.name in ('csrrw', 'csrrwi') or (f['imm'] if 'imm' in f else f['rs1']) != 0
        if writes:
            new = {'w': operand, 's': old | operand, 'c': old & ~operand}[i.name[4]]
            if n == 0x009:
                self.vxsat = new & 1
            elif n == 0x00a:
                self.vxrm = new & 3
            else:
                self.vxsat, self.vxrm = new & 1, new >> 1 & 3
        self.set_x(f['rd'], old)

    def scalar(self, i, f):
        x, pc, n = self.x, self.pc, i.name
        a, b = x[f.get('rs1', 0)], x[f.get('rs2', 0)]
        imm = f.get('imm', 0)
        go = pc + 4 & M32
        if i.shape in ('branch', 'jal', 'jalr'):
            sa, sb = signed(a, 32), signed(b, 32)
            taken = {'beq': a == b, 'bne': a != b, 'blt': sa < sb, 'bge': sa >= sb, 'bltu': a < b, 'bgeu': a >= b}.get(n, True)
            if taken:
                target = (a + imm & ~1 if n == 'jalr' else pc + f['to']) & M32
                if target % 4:
                    raise Fault('JumpMisaligned', target)
                if n in ('jal', 'jalr'):
                    self.set_x(f['rd'], go)
                go = target
        elif i.shape in ('load', 'store'):
            at, size = a + imm & M32, i.width // 8
            if i.shape == 'load':
                if not self.memory.permits(at, size, 'r'):
                    raise Fault('LoadFault', at)
                v = int.from_bytes(self.memory.load(at, size), 'little')
                self.set_x(f['rd'], v if n.endswith('u') else signed(v, i.width))
            else:
                if not self.memory.permits(at, size, 'w'):
                    raise Fault('StoreFault', at)
                self.memory.store(at, (b & (1 << i.width) - 1).to_bytes(size, 'little'))
        elif n == 'ecall':
            go = EXIT
        elif n == 'lui':
            self.set_x(f['rd'], imm)
        elif n == 'auipc':
            self.set_x(f['rd'], pc + imm)
        elif n != 'fence':
            if i.shape in ('imm', 'shift'):
                b, n = imm & M32, {'sltiu': 'sltu'}.get(n, n[:-1])
            sa, sb, k = signed(a, 32), signed(b, 32), b & 31
            self.set_x(f['rd'], {
                'add': lambda: a + b, 'sub': lambda: a - b, 'sll': lambda: a << k, 'slt': lambda: sa < sb, 'sltu': lambda: a < b, 'xor': lambda: a ^ b,
                'srl': lambda: a >> k, 'sra': lambda: sa >> k, 'or': lambda: a | b, 'and': lambda: a & b, 'mul': lambda: a * b,
                'mulh': lambda: sa * sb >> 32, 'mulhsu': lambda: sa * b >> 32, 'mulhu': lambda: a * b >> 32, 'div': lambda: divided(a, b, 32, True)[0],
                'divu': lambda: divided(a, b, 32, False)[0], 'rem': lambda: divided(a, b, 32, True)[1], 'remu': lambda: divided(a, b, 32, False)[1]}[n]())
        self.pc = go

    def vector(self, i, f):
        if i.shape.startswith('vload') or i.shape.startswith('vstore'):
            return self.memory_access(i, f)
        if i.shape == 'mvr':
            n = i.regs * self.vlenb
            self.v[f['vd'] * self.vlenb:f['vd'] * self.vlenb + n] = self.v[f['vs2'] * self.vlenb:f['vs2'] * self.vlenb + n]
            return
        sew, vl, stem = sew_of(self.vtype), self.vl, i.stem
        mask = (1 << sew) - 1
        dest, sources = operands(i, f, self.vtype)
        vs2 = next((o for o in sources if o.role == 'vs2'), None)
        vs1 = next((o for o in sources if o.role == 'vs1'), None)
        is_active = lambda k: self.active(f, k)
        every = lambda k: True

        def b(k, w=sew):
            if vs1:
                return self.get(vs1.reg, int(vs1.eew), k)
            if 'rs1' in f:
                return self.x[f['rs1']] & (1 << w) - 1
            return f['imm'] & (1 << w) - 1

        def a(k):
            return self.get(vs2.reg, int(vs2.eew), k)

        if dest and dest.eew != 1:
            w = int(dest.eew)
            total = dest.count * self.vlenb * 8 // w
            old = lambda k: self.get(dest.reg, w, k)
            write = lambda new, act=is_active: self.write_elements(dest.reg, w, total, new, act)
        body = range(vl)

        if i.shape == 'int':
            write([INT[stem](a(k), b(k), sew) for k in body])
        elif i.shape == 'mac':
            write([MAC[stem](a(k), b(k), old(k), sew) for k in body])
        elif i.shape == 'cmp':
            self.write_mask(f['vd'], [CMP[stem](a(k), b(k), sew) for k in body], is_active)
        elif i.shape == 'carry':
            write([a(k) + b(k) + self.bit(0, k) if stem == 'vadc' else a(k) - b(k) - self.bit(0, k) for k in body], every)
        elif i.shape == 'carry_mask':
            c = lambda k: self.bit(0, k) if f['vm'] == 0 else 0
            self.write_mask(f['vd'], [a(k) + b(k) + c(k) > mask if stem == 'vmadc' else a(k) - b(k) - c(k) < 0 for k in body], every)
        elif i.shape == 'merge':
            write([b(k) if self.bit(0, k) else a(k) for k in body], every)
        elif i.shape == 'mv':
            write([b(k) for k in body])
        elif i.shape == 'widen':
            if '.w' in i.name:
                write([WIDE[stem](a(k), b(k), sew) for k in body])
            else:
                write([WIDEN[stem](a(k), b(k), sew) for k in body])
        elif i.shape == 'wmac':
            write([WMAC[stem](a(k), b(k), old(k), sew) for k in body])
        elif i.shape in ('narrow', 'fixed'):
            f2 = narrowed if i.shape == 'narrow' else fixed_point
            both = [f2(stem, a(k), b(k, 32) if i.shape == 'narrow' and not vs1 else b(k), sew, self.vxrm) for k in body]
            if any(sat for k, (_, sat) in enumerate(both) if is_active(k)):
                self.vxsat = 1
            write([v for v, _ in both])
        elif i.shape == 'ext':
            part = int(vs2.eew)
            write([signed(a(k), part) if stem == 'vsext' else a(k) for k in body])
        elif i.shape == 'slide':
            offset = f['imm'] if 'imm' in f else self.x[f['rs1']]
            vlmax = vlmax_of(self.vtype, self.vlenb)
            if stem == 'vslideup':
                write([a(k - offset) if k >= offset else None for k in body])
            elif stem == 'vslidedown':
                write([a(k + offset) if k + offset < vlmax else 0 for k in body])
            elif stem == 'vslide1up':
                write([a(k - 1) if k else offset for k in body])
            else:
                write([a(k + 1) if k < vl - 1 else offset for k in body])
        elif i.shape in ('gather', 'gather16'):
            vlmax = vlmax_of(self.vtype, self.vlenb)
            index = lambda k: b(k) if vs1 else f['imm'] if 'imm' in f else self.x[f['rs1']]
            write([a(index(k)) if index(k) < vlmax else 0 for k in body])
        elif i.shape == 'compress':
            packed = [a(k) for k in body if self.bit(f['vs1'], k)]
            self.write_elements(dest.reg, w, total, packed, every, len(packed))
        elif i.shape == 'reduce':
            if vl:
                w = int(dest.eew)
                acc = self.get(f['vs1'], w, 0)
                for k in body:
                    if is_active(k):
                        e = signed(a(k), sew) if stem == 'vwredsum' else a(k)
                        acc = REDUCE[stem](acc, e, w) & (1 << w) - 1
                self.write_single(dest, acc)
        elif i.shape == 'logic':
            self.write_mask(f['vd'], [LOGIC[stem](self.bit(f['vs2'], k), self.bit(f['vs1'], k)) & 1 for k in body], every)
        elif i.shape == 'count':
            on = [k for k in body if is_active(k) and self.bit(f['vs2'], k)]
            self.set_x(f['rd'], len(on) if stem == 'vcpop' else on[0] if on else -1)
        elif i.shape == 'first':
            on = [k for k in body if is_active(k) and self.bit(f['vs2'], k)]
            at = on[0] if on else vl
            self.write_mask(f['vd'], [{'vmsbf': k < at, 'vmsif': k <= at, 'vmsof': k == at}[stem] for k in body], is_active)
        elif i.shape == 'iota':
            if stem == 'vid':
                write(list(body))
            else:
                write([sum(1 for j in range(k) if is_active(j) and self.bit(f['vs2'], j)) for k in body])
        elif i.shape == 'tox':
            self.set_x(f['rd'], signed(self.get(f['vs2'], sew, 0), sew))
        elif i.shape == 'fromx':
            if vl:
                self.write_single(dest, self.x[f['rs1']])
        else:
            raise AssertionError(i.shape)

    def write_single(self, dest, value):
        w = int(dest.eew)
        self.put(dest.reg, w, 0, value)
        if self.agnostic(6):
            for k in range(1, self.vlenb * 8 // w):
                self.put(dest.reg, w, k, -1)

    def memory_access(self, i, f):
        is_load = i.shape.startswith('vload')
        how = i.shape.split('_')[1] if '_' in i.shape else 'unit'
        base, reg = self.x[f['rs1']], f['vd'] if is_load else f['vs3']
        size = i.width // 8
        if how == 'whole':
            places = [(k, base + k * size & M32) for k in range(i.regs * self.vlenb // size)]
        elif how == 'mask':
            places = [(k, base + k & M32) for k in range((self.vl + 7) // 8)]
        else:
            body = [k for k in range(self.vl) if self.active(f, k)]
            if how == 'indexed':
                places = [(k, base + self.get(f['vs2'], i.width, k) & M32) for k in body]
                size = sew_of(self.vtype) // 8
            else:
                stride = size if how == 'unit' else self.x[f['rs2']]
                places = [(k, base + k * stride & M32) for k in body]
        for _, at in places:
            if not self.memory.permits(at, size, 'r' if is_load else 'w'):
                raise Fault('LoadFault' if is_load else 'StoreFault', at)
        if not is_load:
            for k, at in places:
                self.memory.store(at, self.get(reg, 8 * size, k).to_bytes(size, 'little'))
            return
        got = {k: int.from_bytes(self.memory.load(at, size), 'little') for k, at in places}
        if how == 'whole':
            for k in got:
                self.put(reg, 8 * size, k, got[k])
        elif how == 'mask':
            if self.vl:
                for k in got:
                    self.put(reg, 8, k, got[k])
                if self.ones:
                    for k in range(len(places), self.vlenb):
                        self.put(reg, 8, k, 255)
        else:
            dest, _ = operands(i, f, self.vtype)
            w = 8 * size
            self.write_elements(reg, w, dest.count * self.vlenb * 8 // w, [got.get(k, 0) for k in range(self.vl)], lambda k: self.active(f, k))
