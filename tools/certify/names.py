"""Names of registers, vector types and instructions, both ways."""
import re

from outside import checker, model, table

ABI = ('zero ra sp gp tp t0 t1 t2 s0 s1 a0 a1 a2 a3 a4 a5 a6 a7 s2 s3 s4 s5 s6 s7 s8 s9 s10 s11 t3 t4 t5 t6 vl').split()
NUMBERS = {**{name: n for n, name in enumerate(ABI)}, **{f'x{n}': n for n in range(32)}, 'fp': 8}
LMUL = {6: 'mf4', 7: 'mf2', 0: 'm1', 1: 'm2', 2: 'm4', 3: 'm8'}
PASSED = checker.PASSED


def atom(number):
    """The name of a form's atom: a register, vl, or what was passed at a place."""
    return ABI[number] if number < PASSED else f'passed {number - PASSED}'


def vtype(bits):
    """A vector type as `e8,m2,ta,ma`; None is `unknown`."""
    if bits is None:
        return 'unknown'
    if not model.is_supported(bits):
        return f'{bits:#x}'
    return ','.join([f'e{table.sew_of(bits)}', LMUL[bits & 7], 'ta' if bits & 64 else 'tu', 'ma' if bits & 128 else 'mu'])


VTYPE_BITS = {vtype(bits): bits for bits in table.VTYPES}


def total(constant, terms):
    """A sum as `0x40000000 - 4 * a1 + 4 * passed 1`."""
    parts = []
    for place, factor in terms:
        factor = model.signed(factor, 32)
        times = '' if abs(factor) == 1 else f'{abs(factor)} * '
        parts.append(('- ' if factor < 0 else '+ ') + times + atom(place))
    parts = ([number(constant)] if constant or not parts else []) + parts
    return ' '.join(parts).removeprefix('+ ')


def number(value):
    return f'{value:#x}' if value >= 0x1000 else str(value)


def interval(lo, hi):
    return number(lo) if lo == hi else f'{number(lo)} to {number(hi)}'


def budget(constant, factors):
    """`2 + 8 * a1`. factors: pairs of register and factor."""
    parts = [f'{k} * {ABI[r]}' for r, k in factors if k]
    return ' + '.join(([str(constant)] if constant or not parts else []) + parts)


def instruction(i, f, pc):
    """An instruction as an assembler writes it."""
    if i.shape in ('load', 'store', 'jalr'):
        first = f['rs2'] if i.shape == 'store' else f['rd']
        return f"{i.name} {ABI[first]}, {f['imm']}({ABI[f['rs1']]})"
    shown = []
    for name in i.syntax:
        if name == 'vm':
            shown += [] if f['vm'] else ['v0.t']
        elif name in ('vd', 'vs1', 'vs2', 'vs3'):
            shown.append(f'v{f[name]}')
        elif name == 'rs1' and i.shape.startswith(('vload', 'vstore')):
            shown.append(f'({ABI[f[name]]})')
        elif name in ('rd', 'rs1', 'rs2'):
            shown.append(ABI[f[name]])
        elif name == 'to':
            shown.append(f"{pc + f['to'] & table.M32:#x}")
        elif name == 'csr':
            shown.append(table.CSRS[f['csr']])
        elif name == 'imm' and i.shape == 'upper':
            shown.append(f"{f['imm'] >> 12:#x}")
        elif name == 'imm' and i.shape == 'vset':
            shown.append(vtype(f['imm']).replace(',', ', '))
        else:
            shown.append(str(f[name]))
    return ' '.join([i.name, ', '.join(shown)]).strip()


def register(text):
    """The number of a register by number or name, vl as 32; None where it is none."""
    if isinstance(text, str):
        return NUMBERS.get(text)
    return text if isinstance(text, int) and 0 <= text <= 32 else None


def vector_register(text):
    found = re.fullmatch(r'v(\d+)', text) if isinstance(text, str) else None
    number = int(found[1]) if found else text
    return number if isinstance(number, int) and 0 <= number < 32 else None
