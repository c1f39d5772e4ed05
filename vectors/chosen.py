"""Cases of steps.txt that are chosen: fixed point at the ends of the range in every rounding mode, slides and gathers at and past VLMAX, masks, no elements,
and accesses at the ends of memory."""
import itertools

import model
from drawn import VILL, fields_of, registers, rng, seed, vl_of
from table import ALL, M32, RO, RW, VECTOR, sew_of, state_of, vlmax_of

# vlenb and the setting, in turn.
turns = itertools.cycle([(16, False), (32, True), (16, True), (32, False)])
M1, M2, M4, M8, MF4, MF2 = 0, 1, 2, 3, 6, 7


def vtype_of(sew, lmul, policies=None):
    return lmul | {8: 0, 16: 1, 32: 2}[sew] << 3 | (rng.randrange(4) if policies is None else policies) << 6


def ends_of(w):
    return [0, 1, (1 << w - 1) - 1, 1 << w - 1, (1 << w) - 1, (1 << w - 1) + 1]


def even_seed():
    return seed() & ~1 or 2


def mask_of(bits, vlenb):
    return (sum(1 << k for k in bits) & (1 << 8 * vlenb) - 1).to_bytes(vlenb, 'little')


def spread(values, w, i, f, vtype, role, vlenb):
    """The registers of an operand with these elements, over and over."""
    _, sources = model.operands(i, f, vtype)
    operand = next(o for o in sources if o.role == role)
    data = b''.join((v & (1 << w) - 1).to_bytes(w // 8, 'little') for v in itertools.islice(itertools.cycle(values), operand.count * vlenb * 8 // w))
    return {operand.reg + k: data[k * vlenb:(k + 1) * vlenb] for k in range(operand.count)}


# ---- Fixed point -----------------------------------------------------------------------------------------------------------------------------------------

ROUNDED = [i for i in VECTOR if i.shape == 'fixed' or i.stem in ('vnclip', 'vnclipu')]
SATURATING = [i for i in ROUNDED if i.stem in ('vsaddu', 'vsadd', 'vssubu', 'vssub', 'vsmul', 'vnclip', 'vnclipu')]


def sixteen(i, sew, vlenb):
    """A vtype with about 16 elements."""
    lmul = {8: M1, 16: M2, 32: M4}[sew] if vlenb == 16 else {8: M1, 16: M1, 32: M2}[sew]
    return vtype_of(sew, lmul)


def sews_of(i):
    return (8, 16) if i.shape == 'narrow' else (8, 16, 32)


def second_operands(i, sew):
    """Immediates or numbers for x[rs1] at the ends; None where the operand is vs1."""
    shifts = i.shape == 'narrow' or i.stem in ('vssrl', 'vssra')
    if 'vs1' in i.syntax:
        return [None]
    if 'imm' in i.syntax:
        return rng.sample((0, 1, 2, sew // 2, sew - 1, 31), 2) if shifts else rng.sample((-16, -1, 1, 15), 2)
    return rng.sample((1, 2, sew - 1, sew, 2 * sew - 1, M32), 2) if shifts else [1 << sew - 1, rng.choice((1, (1 << sew - 1) - 1, M32))]


def rounding():
    for i in ROUNDED:
        for sew, vxrm, vm in itertools.product(sews_of(i), range(4), i.vms):
            for second in second_operands(i, sew):
                vlenb, ones = next(turns)
                vtype = sixteen(i, sew, vlenb)
                f = fields_of(i, vtype, vm, 'apart')
                x = {}
                if 'imm' in f:
                    f['imm'] = second
                if 'rs1' in f:
                    x[f['rs1']] = second
                yield (vlenb, ones, vtype, vl_of(rng.randrange(3), vtype, vlenb), even_seed(), i.encode(vm=vm, **f)), dict(x=x, vxrm=vxrm, vxsat=int(rng.random() < 0.1))


def saturating(i, f, vlenb, vtype, vl, seed, over):
    """Which elements alone set vxsat."""
    x, v = state_of(seed, vlenb)
    for n, value in over.items():
        x[n] = value
    found = []
    for k in range(vl):
        m = model.Machine(vlenb, False, 0, x, mask_of([k], vlenb) + v[vlenb:], vtype, vl, 0, 0, None)
        m.step(i.encode(vm=0, **f))
        found.append(m.vxsat == 1)
    return found


def some_saturating(i, sew):
    """A state in which some elements set vxsat, but not the first."""
    while True:
        vlenb, ones = next(turns)
        vtype = sixteen(i, sew, vlenb)
        f = fields_of(i, vtype, 0, 'apart')
        if 'imm' in f:
            f['imm'] = 1 if i.shape == 'narrow' else 15
        s = even_seed()
        # vsmul saturates where both operands are the least number there is.
        x = {f['rs1']: 1 << sew - 1} if i.name == 'vsmul.vx' else {}
        vl = vlmax_of(vtype, vlenb)
        apart = saturating(i, f, vlenb, vtype, vl, s, x)
        if not apart[0] and any(apart):
            return vlenb, ones, vtype, vl, s, f, x, apart


def saturation():
    """vxsat follows the active elements of the body alone."""
    for i in SATURATING:
        for sew in sews_of(i):
            vlenb, ones, vtype, vl, s, f, x, apart = some_saturating(i, sew)
            inactive = [k for k in range(vl) if not apart[k]]
            first = apart.index(True)
            masked, plain = i.encode(vm=0, **f), i.encode(vm=1, **f)
            yield (vlenb, ones, vtype, vl, s, masked), dict(x=x, v={0: mask_of(inactive, vlenb)})
            yield (vlenb, ones, vtype, vl, s, masked), dict(x=x, v={0: mask_of([0, first], vlenb)})
            yield (vlenb, ones, vtype, first, s, plain), dict(x=x)
            yield (vlenb, ones, vtype, first + 1, s, plain), dict(x=x)
            yield (vlenb, ones, vtype, first, s, plain), dict(x=x, vxsat=1)


# ---- Elements that move ----------------------------------------------------------------------------------------------------------------------------------

KINDS = ((8, M1), (8, MF2), (16, M2), (32, M1), (32, M4), (8, M8))


def distances():
    """Slides by, and gathers from, numbers at and past vl and VLMAX."""
    for i in [i for i in VECTOR if i.shape in ('slide', 'gather', 'gather16')]:
        k = 0
        for (sew, lmul), vm in itertools.product(KINDS, i.vms):
            vlenb, ones = next(turns)
            vtype = vtype_of(sew, lmul)
            m = vlmax_of(vtype, vlenb)
            if i.stem in ('vslide1up', 'vslide1down'):
                choices = [0, 1, M32, 1 << sew - 1]
            elif 'imm' in i.syntax:
                choices = [0, 1, 15, 31]
            elif 'rs1' in i.syntax:
                choices = [0, 1, m - 2, m - 1, m, m + 1, 0x100, 0x10000, 0x80000000, M32 - m + 1, M32]
            else:
                choices = [None] * 3
            for choice in choices:
                k += 1
                f = fields_of(i, vtype, vm, 'apart' if i.stem in model.NO_SHARING or k % 3 else 'd2')
                if f is None:
                    continue
                vl = (m, max(1, m // 2 + 1), m, max(1, m - 1), 1)[k % 5]
                x, v = {}, {}
                if 'imm' in f:
                    f['imm'] = choice
                elif 'rs1' in f:
                    x[f['rs1']] = choice & M32
                else:
                    w = 16 if i.shape == 'gather16' else sew
                    indices = [m - 1, m, 0, vl, vl - 1, M32, 1 << w - 1, m + 1, 1, m // 2]
                    rng.shuffle(indices)
                    v = spread(indices, w, i, f, vtype, 'vs1', vlenb)
                yield (vlenb, ones, vtype, vl, seed(), i.encode(vm=vm, **f)), dict(x=x, v=v)


def masks():
    """Masks without a bit, with all, with one at the last element or past it: as an operand, and as the mask of a reduction."""
    for i in [i for i in VECTOR if i.shape in ('count', 'first', 'iota', 'compress', 'reduce')]:
        for sew, vm, bits in itertools.product((8, 32), i.vms, range(6)):
            vlenb, ones = next(turns)
            vtype = vtype_of(sew, rng.choice((M1, M2, M4)) if sew == 8 or i.stem[:2] != 'vw' else M1)
            vl = vl_of((1, 4, 0)[bits % 3], vtype, vlenb)
            f = fields_of(i, vtype, vm, 'apart')
            if f is None:
                continue
            everything = range(8 * vlenb)
            mask = mask_of([(), everything, [vl - 1], [vl] if vl < 8 * vlenb else [], [0], everything[vl:]][bits], vlenb)
            v = {0: mask} if i.shape == 'reduce' else {f['vs1' if i.shape == 'compress' else 'vs2']: mask} if 'vs1' in f or 'vs2' in f else {}
            yield (vlenb, ones, vtype, vl, seed(), i.encode(vm=vm, **f)), dict(v=v)


def no_elements():
    """vl 0, with every element agnostic."""
    for i in [i for i in VECTOR if i.base & 0x7f == 0x57]:
        for sew, vm in itertools.product((8, 16, 32), i.vms):
            vlenb = 16 if sew == 8 else 32
            vtype = vtype_of(sew, M1, 3)
            f = fields_of(i, vtype, vm, 'apart')
            if f is not None and (sew != 32 or i.shape == 'ext'):
                yield (vlenb, True, vtype, 0, seed(), i.encode(vm=vm, **f)), dict(v={0: mask_of(range(8), vlenb)})


# ---- Accesses --------------------------------------------------------------------------------------------------------------------------------------------

END = RW + 4096


def places_of(how, size, total):
    """Base, and what else there is: the stride or the indices. Data of `size` bytes an element, `total` in all."""
    if how == 'unit':
        for base in (RW + 16, END - total, END - total + 1, END - 2 * size, RW - size, RO + 3, RO + 4096 - size, -size & M32):
            yield base, None
    elif how == 'strided':
        for base, stride in ((RW + 2048, 0), (RW + 2048, -size), (RW + 2049, -3 * size), (RW + 100, size + 1), (RW + 64, 4096), (RW, 0x80000000), (RW, 0x40000000),
                             (RW + 3 * size, -size), (END - 3 * size, size), (RW + 77, -1), (RO + 4095 - size, -2), (END - size, 1), (-2 * size & M32, size)):
            yield base, stride & M32


def indices_of(w, size):
    """Base and indices, of w bits, for an indexed access."""
    top = (1 << w) - 1
    few = [0, size, 5, 3 * size, 100, 7, 2 * size, 64]
    yield RW + 8, few
    yield RW + 1 - (top - 127 if w < 32 else 0x3fffff00) & M32, [(top - 127 if w < 32 else 0x3fffff00) + n for n in few]
    yield RW + 2000, [top - 3, 17, top, 0, top // 2 + 1] if w == 8 else [-n for n in few] if w == 32 else [9, top, 3]
    yield RW + 300, [40]
    yield END - 64, [n % 64 for n in few] + [64 - size, 64 - size + 1, 64]
    yield RO + 50, [3, 99, 50, 98]
    yield RW - 20, [20, 21, 20 + size, 19]
    yield M32 - 99, [100, 99] if w < 32 else [RW + 100 + n for n in few] + [50]


def vtypes_for(i, vm):
    """For each SEW a vtype at which the word may be legal, and fields."""
    for sew in (8, 16, 32):
        for lmul in rng.sample((M1, M2, MF2, M4), 4):
            if lmul == MF2 and sew == 32:
                continue
            vtype = vtype_of(sew, lmul)
            f = registers(i, vtype, vm, 'apart')
            if f is not None:
                yield vtype, f
                break


def of_elements(i, how):
    for vm in i.vms:
        for vtype, _ in vtypes_for(i, vm):
            size = sew_of(vtype) // 8 if how == 'indexed' else i.width // 8
            turn = 0
            for base, more in indices_of(i.width, size) if how == 'indexed' else places_of(how, size, size * vlmax_of(vtype, 16)):
                turn += 1
                vlenb, ones = next(turns)
                f = registers(i, vtype, vm, 'apart')
                m = vlmax_of(vtype, vlenb)
                vl = min(m, vlmax_of(vtype, 16)) if turn % 4 else max(1, m - 1)
                if how == 'strided':
                    f['rs2'] = (f['rs1'] + 1 + rng.randrange(30)) % 32
                    f['rs2'] = f['rs2'] if f['rs2'] != f['rs1'] else 0
                x, v = {f['rs1']: base}, {}
                if how == 'strided' and f['rs2']:
                    x[f['rs2']] = more
                if how == 'indexed':
                    v = dict(spread(more, i.width, i, f, vtype, 'vs2', vlenb))
                if vm == 0 and 0 not in v and turn % 2:
                    v[0] = mask_of([[0, 1], [3], [k for k in range(vl) if k % 3 == 1], range(vl - 1)][rng.randrange(4)], vlenb)
                yield (vlenb, ones, vtype, vl, seed(), i.encode(vm=vm, **f)), dict(x=x, v=v)
            # No element, wherever the base lies.
            yield (16, True, vtype | 0xc0, 0, seed(), i.encode(vm=vm, **f)), dict(x={f['rs1']: 0})


def of_masks(i):
    for vl in (0, 1, 7, 8, 9, 15, 16, 17, 127, 128, 129, 255, 256):
        vlenb, ones = (32, True) if vl > 128 else next(turns)
        for base in (RW + 33, END - (vl + 7) // 8 + rng.randrange(2)):
            vtype = vtype_of(8, M8)
            f = registers(i, vtype, 1, 'apart')
            yield (vlenb, ones, vtype, vl, seed(), i.encode(vm=1, **f)), dict(x={f['rs1']: base})
    for sew, lmul in ((8, MF4), (16, M1), (32, M8), (16, MF2)):
        vlenb, ones = next(turns)
        vtype = vtype_of(sew, lmul)
        f = registers(i, vtype, 1, 'apart')
        yield (vlenb, ones, vtype, vlmax_of(vtype, vlenb), seed(), i.encode(vm=1, **f)), dict(x={f['rs1']: RO + 1})
    f = registers(i, 0, 1, 'apart')
    yield (16, True, VILL, 0, seed(), i.encode(vm=1, **f)), dict(x={f['rs1']: RW})


def of_registers(i):
    for vlenb in (16, 32):
        size, total = i.width // 8, i.regs * vlenb
        for base in (RW + 31, END - total, END - total + 1, END - total + size, END - 5, RO + 8, RW - size, -size & M32):
            vtype = rng.choice((VILL, VILL, vtype_of(8, M1), vtype_of(32, M8)))
            f = registers(i, VILL, 1, 'apart')
            vl = 0 if vtype == VILL else rng.choice((0, 1, vlmax_of(vtype, vlenb)))
            yield (vlenb, next(turns)[1], vtype, vl, seed(), i.encode(vm=1, **f)), dict(x={f['rs1']: base})


def accesses():
    for i in [i for i in VECTOR if i.shape.startswith(('vload', 'vstore'))]:
        how = i.shape.split('_')[1] if '_' in i.shape else 'unit'
        yield from of_masks(i) if how == 'mask' else of_registers(i) if how == 'whole' else of_elements(i, how)


def whole_moves():
    """Moves of whole registers under vill, and at vl 0."""
    for i in [i for i in VECTOR if i.shape == 'mvr']:
        for vlenb, vtype, place in itertools.product((16, 32), (VILL, 0xd0, 0x03), ('apart', 'd2')):
            f = registers(i, vtype, 1, place)
            yield (vlenb, True, vtype, 0, seed(), i.encode(vm=1, **f)), {}
        for vd, vs2 in ((1, 8), (8, 1), (4, 2)):
            yield (16, True, VILL, 0, seed(), i.encode(vm=1, vd=vd, vs2=vs2)), {}


def small_numbers():
    """Results that can be seen by eye."""
    word = lambda name, **f: ALL[name].encode(**{'vm': 1} | f)
    v = {8: bytes(range(1, 17)), 9: b'\x0a' + bytes(15), 10: 16 * b'\x55', 12: b'\x0a' + bytes(15)}
    for ones in (False, True):
        for vl in (4, 16, 0):
            at = lambda word, **more: ((16, ones, 0x40, vl, 3, word), dict(v=v) | more)
            yield at(word('vredsum.vs', vd=10, vs2=8, vs1=9))
            yield at(word('vredsum.vs', vd=10, vs2=8, vs1=9, vm=0), v=v | {0: b'\x0e' + bytes(15)})
            yield at(word('vcpop.m', rd=5, vs2=12))
            yield at(word('vfirst.m', rd=5, vs2=12))
            yield at(word('vcompress.vm', vd=10, vs2=8, vs1=12))
            yield at(word('vslidedown.vx', vd=10, vs2=8, rs1=6), x={6: M32})
    for vxrm in range(4):
        yield (16, False, 0, 3, 5, word('vssra.vi', vd=10, vs2=8, imm=2)), dict(v={8: bytes([6, 10, 256 - 6])}, vxrm=vxrm)
    for vm in (0, 1):
        yield (16, False, 0, 1, 7, word('vsmul.vv', vd=10, vs2=8, vs1=9, vm=vm)), dict(v={0: bytes(16), 8: b'\x80', 9: b'\x80'})


# ---- Ties, ends and bits past 127 ------------------------------------------------------------------------------------------------------------------------

def elements(values, w, vlenb):
    """One register with these elements, over and over, as far as it has room."""
    return b''.join((v & (1 << w) - 1).to_bytes(w // 8, 'little') for v in itertools.islice(itertools.cycle(values), 8 * vlenb // w))


def on_elements(name, sew, a, b, vlenb=32, wide=False, **state):
    """An instruction on the elements a of vs2 and, in its order, b of vs1, or the number or immediate b; a in two registers where `wide`."""
    i = ALL[name]
    f, x, v = dict(vd=8, vs2=4), {}, {}
    data = elements(a, 2 * sew if wide else sew, 2 * vlenb if wide else vlenb)
    for k in range(len(data) // vlenb):
        v[4 + k] = data[k * vlenb:(k + 1) * vlenb]
    if 'vs1' in i.syntax:
        f['vs1'], v[2] = 2, elements(b, sew, vlenb)
    elif 'rs1' in i.syntax:
        f['rs1'], x[7] = 7, b & M32
    else:
        f['imm'] = b
    vtype = vtype_of(sew, M1, 0)
    return (vlenb, False, vtype, vlmax_of(vtype, vlenb), 1 + 2 * sew, i.encode(vm=1, **f)), dict(x=x, v=v, **state)


def about_ties(d):
    """Numbers of which the lowest d bits are a half, and more and less than that, behind even and odd ones of either sign."""
    half = 1 << d - 1
    return [(k << d) + half + off for k in (0, 1, 2, 5, -1, -2, -3, -6) for off in ((0,) if d == 1 else (0, -1, 1))]


def ties():
    """A half behind an even and an odd number, of either sign, at each width and in each mode."""
    odd = [1, 3, 5, 11, -1, -3, -5, -11]
    for sew, vxrm in itertools.product((8, 16, 32), range(4)):
        at = lambda name, a, b, **more: on_elements(name, sew, a, b, vxrm=vxrm, **more)
        for name in ('vaadd.vv', 'vaaddu.vv'):
            yield at(name, [n // 2 for n in odd], [n - n // 2 for n in odd])
        for name in ('vasub.vv', 'vasubu.vv'):
            yield at(name, [n // 2 for n in odd], [n // 2 - n for n in odd])
        # The half of a unit of vsmul is a quarter of the greatest number's successor.
        yield at('vsmul.vv', [1 << sew - 2] * 8, odd)
        yield at('vsmul.vx', odd, 1 << sew - 2)
        for name, d in (('vssrl.vi', 1), ('vssrl.vx', 2), ('vssra.vi', 1), ('vssra.vx', 3), ('vssra.vv', 2)):
            yield at(name, about_ties(d), [d] if name[-2:] == 'vv' else d)
        if sew < 32:
            for name, d in (('vnclip.wi', 1), ('vnclip.wx', 3), ('vnclipu.wi', 1), ('vnclipu.wx', 3)):
                yield at(name, [n for n in about_ties(d) if name[:7] == 'vnclip.' or n >= 0], d, wide=True)


def exact_ends():
    """Results that are the greatest or the least number and do not saturate, and those next to them that do."""
    for sew, vxrm in itertools.product((8, 16, 32), (0, 2, 3)):
        least, most, top = -(1 << sew - 1), (1 << sew - 1) - 1, (1 << sew) - 1
        at = lambda name, a, b, **more: on_elements(name, sew, a, b, vxrm=vxrm, **more)
        yield at('vsmul.vv', [least, -most, least, most], [-most, least, most, least])
        yield at('vsmul.vx', [least, 1, -1], -most)
        yield at('vsmul.vv', [least], [least])
        if vxrm == 0:
            yield at('vsadd.vv', [most - 1, least + 1, most, least], [1, -1, 0, 0])
            yield at('vssub.vv', [most - 1, least + 1, most, least], [-1, 1, 0, 0])
            yield at('vsaddu.vv', [top - 1, top], [1, 0])
            yield at('vssubu.vv', [1, top, 0], [1, top, 0])
        if sew < 32:
            yield at('vnclip.wi', [most << 1, least << 1], 1, wide=True)
            yield at('vnclip.wi', [(most << 1) + 1], 1, wide=True)
            yield at('vnclip.wi', [(least << 1) - 1], 1, wide=True)
            yield at('vnclipu.wi', [top << 1], 1, wide=True)
            yield at('vnclipu.wi', [(top << 1) + 1], 1, wide=True)


def least_by_minus_one():
    """The least number divided by -1."""
    for sew, name in itertools.product((8, 16, 32), ('vdiv', 'vdivu', 'vrem', 'vremu')):
        least = 1 << sew - 1
        yield on_elements(name + '.vv', sew, [least, least, 7, -7, least + 1, 0], [-1, 1, -1, -1, -1, -1])
        yield on_elements(name + '.vx', sew, [least, least + 1, 5, -5, 0, -1], -1)


def past_127():
    """The first bit of a mask at and past bit 127, and none below vl; masked, the first of which bit the mask lets through."""
    everything = range(256)
    for i in [i for i in VECTOR if i.shape == 'first' or i.stem in ('vfirst', 'vcpop')]:
        vd = dict(rd=5) if 'rd' in i.syntax else dict(vd=4)
        for bits, vl in (((127, 130), 256), ((128, 129), 256), ((129,), 256), ((199, 201), 200), ((200, 250), 200), ((255,), 256), ((), 256), (range(128, 256), 255)):
            for ones in (False, True):
                yield (32, ones, 0xc3, vl, 9, i.encode(vm=1, vs2=3, **vd)), dict(v={3: mask_of(bits, 32)})
        for through in (range(140, 256), range(128), everything):
            yield (32, True, 0xc3, 256, 9, i.encode(vm=0, vs2=3, **vd)), dict(v={0: mask_of(through, 32), 3: mask_of((130, 150, 151), 32)})


def wide_indices():
    """vrgatherei16 where its indices would fill 16 registers."""
    for (vd, vs2, vs1), vm in itertools.product(((8, 0, 16), (16, 24, 0), (8, 16, 24)), (1, 0)):
        yield (32, True, 0xc3, 256, 11, ALL['vrgatherei16.vv'].encode(vm=vm, vd=vd, vs2=vs2, vs1=vs1)), {}


def later_cases():
    """As `cases`, which draw from one source of random numbers; these draw none."""
    for some in (ties, exact_ends, least_by_minus_one, past_127, wide_indices):
        yield from some()


def cases():
    """(vlenb, ones, vtype, vl, seed, word), and what else a case may have."""
    for some in (rounding, saturation, distances, masks, no_elements, accesses, whole_moves, small_numbers):
        yield from some()
