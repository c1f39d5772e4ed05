"""Guards of vector accesses by indices, or by a stride that is not known: an index above what the buffer has ends the run, and all are cut to
it, so that a checker knows them. Where the base is not one known number in the buffer, indices from the buffer's first byte take its place."""
from collections import namedtuple

import kinds
from outside import checker, model, table
from program import ZERO, Branch, Number, Word, word, INS

# zone: by name. first: where the buffer begins, where indices count from there, else None. most: the greatest index. width, registers: of the
# indices. vtype, other, data: the vector type, one with the indices' width, and the one of the access by indices.
Index = namedtuple('Index', 'zone first most width registers vtype other data')


def of(node, known, register, zone):
    """The guard of an access, by what is known before it."""
    base, vtype = checker.known(known.x[register].range), known.vtype
    base = base if base is not None and zone[0] <= base < zone[1] else None
    is_wide = base is None or 'strided' in node.i.shape
    width, count = 32, (table.lmul4_of(vtype) * 32 // table.sew_of(vtype) + 3) // 4
    if not is_wide:
        _, sources = model.operands(node.i, node.f, vtype)
        group = next(o for o in sources if o.role == 'vs2')
        width, count = int(group.eew), group.count
    if count > 8:
        raise kinds.Stuck(f'the indices at {node.pc:#x} would take more than 8 registers')
    begin = zone[0] if base is None else base
    size = node.i.width if 'strided' in node.i.shape else table.sew_of(vtype)       # (of an element, which an access by indices has from vtype)
    most = min(zone[1] - size // 8 - begin, (1 << width) - 1)
    return Index(zone[3], zone[0] if base is None else None, most, width, count, vtype, with_width(vtype, width), with_width(vtype, size))


def with_width(vtype, width):
    """The vector type of so many bits an element with the same count of elements."""
    lmul = {6: -2, 7: -1, 0: 0, 1: 1, 2: 2, 3: 3}[vtype & 7] + width.bit_length() - table.sew_of(vtype).bit_length()
    return vtype & 0xc0 | (width.bit_length() - 4) << 3 | lmul & 7


def registers_for(index, node, free):
    """A group for indices, a register for a mask, and what of both is to be kept in memory meanwhile, as groups (first, count)."""
    own = {node.f.get('vd'), node.f.get('vs3'), node.f.get('vs2'), 0}
    groups = [set(range(first, first + index.registers)) for first in range(0, 32, index.registers)]
    good = [group for group in groups if group <= free]
    singles = [r for r in range(31, 0, -1) if r in free and not (good and r in good[0])]
    kept = []
    if not good:
        busy = {r for r in own if r is not None}
        spans = {r for first in busy for r in range(first, min(first + 8, 32))}
        good = [group for group in reversed(groups) if not group & spans]
        if not good:
            raise kinds.Stuck(f'too few vector registers are spare at {node.pc:#x}')
        kept.append((min(good[0]), index.registers))
        singles = [r for r in range(31, 0, -1) if r in free]
    if not singles:
        single = next((r for r in range(31, 0, -1) if r not in good[0] and r not in own), None)
        singles = [single]
        kept.append((single, 1))
    return min(good[0]), singles[0], kept


def moved(kept, t, place, vlenb, name):
    """What keeps groups in memory, or takes them back."""
    out = []
    for first, count in kept:
        f = {'vs3': first} if name == 'vs{}r.v' else {'vd': first}
        out += [Number(t, place), word(name.format(count), rs1=t, **f)]
        place += count * vlenb
    return out


def indices_words(node, index, spare, t, first):
    """What makes the indices; with the group that they are in then. first: a register that holds where the buffer begins, or None."""
    out, source = [], node.f.get('vs2')
    if 'strided' in node.i.shape:
        out += [word('vid.v', vd=spare, vm=1), word('vmul.vx', vd=spare, vs2=spare, rs1=node.f['rs2'], vm=1)]
        source = spare
    elif index.first is not None and node.i.width < 32:
        out.append(word(f'vzext.vf{32 // node.i.width}', vd=spare, vs2=source, vm=1))
        source = spare
    if index.first is not None:
        out += [Number(t, index.first)] if first is None else []
        out += [word('sub', rd=t, rs1=node.f['rs1'], rs2=t if first is None else first), word('vadd.vx', vd=spare, vs2=source, rs1=t, vm=1)]
        source = spare
    return out, source


def words(node, index, label, t, other, spare, mask, constants):
    """The access behind its guard. t, other: registers; spare, mask: vector registers. constants: number -> the register that holds it."""
    first, most = constants.get(index.first), max(index.most, 0)
    made, source = indices_words(node, index, spare, t, first)
    out = [word('vsetvli', rd=0, rs1=0, imm=index.other)] if index.other != index.vtype else []
    out += made + ([] if most in constants else [Number(t, most)])
    end = constants.get(most, t)
    out += [word('vmsgtu.vx', vd=mask, vs2=source, rs1=end, vm=node.f['vm']),
            word('vcpop.m', rd=other, vs2=mask, vm=node.f['vm']), Branch('bne', other, ZERO, label),
            word('vminu.vx', vd=spare, vs2=source, rs1=end, vm=1)]
    if index.other != index.data:
        out.append(word('vsetvli', rd=0, rs1=0, imm=index.data))
    f = {name: node.f[name] for name in ('vd', 'vs3', 'vm', 'rs1') if name in node.f}
    if index.first is not None:
        out += [Number(t, index.first)] if first is None else []
        f['rs1'] = t if first is None else first
    is_load = node.i.shape.startswith('vload')
    name = node.i.name if index.first is None and 'indexed' in node.i.shape else f'v{"lu" if is_load else "so"}xei{index.width}.v'
    back = [word('vsetvli', rd=0, rs1=0, imm=index.vtype)] if index.data != index.vtype else []
    return [*out, Word(INS[name].encode(**f, vs2=spare), node.key), *back]
