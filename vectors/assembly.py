"""A small assembler over table.py, for kernels that no compiler builds."""
import re

from table import ALL, CSRS, M32

NAMES = ['zero', 'ra', 'sp', 'gp', 'tp', 't0', 't1', 't2', 's0', 's1'] + ['a%d' % n for n in range(8)]
NAMES += ['s%d' % n for n in range(2, 12)] + ['t%d' % n for n in range(3, 7)]
NUMBERS = {name: n for n, name in enumerate(NAMES)} | {'%s%d' % (kind, n): n for kind in 'xv' for n in range(32)}
SEW = {'e8': 0, 'e16': 1, 'e32': 2, 'e64': 3}
LMUL = {'m1': 0, 'm2': 1, 'm4': 2, 'm8': 3, 'mf8': 5, 'mf4': 6, 'mf2': 7}
OTHERS = {'ret': 'jalr x0, 0(ra)', 'nop': 'addi x0, x0, 0', 'j': 'jal x0,', 'li': 'addi', 'mv': 'addi', 'beqz': 'beq', 'bnez': 'bne'}


def vtype_of(fields):
    """`e8,m1,ta,ma`, or a number; tu and mu are what is not said."""
    if re.fullmatch(r'-?\w+', fields[0]) and fields[0] not in SEW:
        return int(fields[0], 0)
    return SEW[fields[0]] << 3 | LMUL[fields[1]] | ('ta' in fields) << 6 | ('ma' in fields) << 7


def spelled(name, fields):
    """The instruction that a short form stands for."""
    if name in ('ret', 'nop', 'j'):
        name, *more = OTHERS[name].replace(',', ' ').replace('(', ' ').replace(')', ' ').split()
        return name, more + fields
    if name == 'li':
        return 'addi', [fields[0], 'x0', fields[1]]
    if name == 'mv':
        return 'addi', fields + ['0']
    if name in ('beqz', 'bnez'):
        return OTHERS[name], [fields[0], 'x0', fields[1]]
    return name, fields


def word_of(text, at, labels):
    """The word of one line at an address. `.word N` is N."""
    name, *fields = re.split(r'[\s,()]+', text.strip().rstrip(')'))
    if name == '.word':
        return int(fields[0], 0)
    name, fields = spelled(name, fields)
    i, values = ALL[name], {}
    if i.is_vector:
        values['vm'] = i.vm if i.vm is not None else 'v0.t' not in fields
    for kind in i.syntax:
        if kind == 'vm':
            continue
        if kind == 'imm' and i.shape == 'vset':
            values['imm'] = vtype_of(fields)
            continue
        field = fields.pop(0)
        if kind == 'to':
            values['to'] = 0x10000 + (labels[field] if field in labels else int(field, 0)) - at
        elif kind == 'csr':
            values['csr'] = next((n for n, csr in CSRS.items() if csr == field), None) or int(field, 0)
        elif kind in ('imm', 'avl'):
            values[kind] = int(field, 0) << (12 if i.shape == 'upper' else 0) & M32
        else:
            values[kind] = NUMBERS[field]
    return i.encode(**values)


def assembled(text, at=0x10000):
    """The words of lines that `;` or newlines part, and the addresses of their labels."""
    labels, lines = {}, []
    for line in re.split(r'[;\n]', text):
        *names, line = line.split(':')
        for name in names:
            labels[name.strip()] = at + 4 * len(lines)
        if line.strip():
            lines.append(line)
    return [word_of(line, at + 4 * k, labels) for k, line in enumerate(lines)], labels
