"""Kernels with certificates, written as text, and the ELF files that hold them.

A certificate's blocks are lines `LABEL [C] [K*xR [K*xR]] [vtype=e8,m1,ta,ma]; FACT; ..`. A FACT is one of

    R                                       x1 is EXIT
    x10 LO..HI                              an interval
    x10 LO..HI = 0x40000000 - 4 x11 + 4 p1  and an equality; p1 is what was passed for parameter 1, and vl is a register too
    x10 is N                                [N, N] and the equality N
    v8*2 e16 LO..HI                         a vector fact for vl elements of two registers; `v8*2 e16 #4 LO..HI` for the first 4
    vl <= x11                               an order fact

`..HI` alone is from 0. A label may be an address. Parameters are `s LO HI`, `r SIZE`, `rw SIZE`, `-`, parted by commas.
"""
import re
import struct
from collections import namedtuple

import certificates as c
from assembly import NUMBERS, assembled, vtype_of
from images import elf, note
from model import EXIT
from table import M32

CODE = 0x10000
# Segments are (address, bytes, memory size, flags).
Kernel = namedtuple('Kernel', 'segments entry certificate')


def number(text):
    return EXIT if text == 'EXIT' else int(text, 0)


def interval(text):
    lo, hi = text.split('..')
    return number(lo or '0'), number(hi)


def atom(text):
    return c_passed(text) if text[0] == 'p' else 32 if text == 'vl' else NUMBERS[text]


def c_passed(text):
    return 33 + int(text[1:])


def equality(text):
    """(constant, terms) of a sum of numbers and multiples of atoms."""
    constant, terms = 0, {}
    for sign, part in re.findall(r'([+-]?)\s*([^+-]+)', text.strip()):
        factor, *name = part.split()
        value, name = (1, factor) if factor[0] in 'xpv' else (number(factor), name[0] if name else None)
        value = -value if sign == '-' else value
        if name is None:
            constant += value
        else:
            terms[atom(name)] = terms.get(atom(name), 0) + value
    return constant & M32, tuple(sorted((a, k & M32) for a, k in terms.items()))


def fact(text):
    """A register fact, a vector fact or an order fact."""
    if '<=' in text:
        return c.OrderFact(*(atom(name.strip()) for name in reversed(text.split('<='))))
    if text == 'R':
        return c.RegisterFact(1, EXIT, EXIT)
    name, *rest = text.split(None, 1)
    rest = rest[0]
    if '*' in name:
        register, registers = name[1:].split('*')
        width, *count, ends = rest.split()
        return c.VectorFact(int(register), int(width[1:]), int(registers), int(count[0][1:]) if count else 0, *interval(ends))
    register = atom(name)
    if rest.startswith('is '):
        n = number(rest[3:])
        return c.RegisterFact(register, n, n, (n, ()))
    ends, *equal = rest.split('=')
    return c.RegisterFact(register, *(interval(ends) if ends.strip() else c.FULL), equality(equal[0]) if equal else None)


def block(line, labels):
    head, *texts = [part.strip() for part in line.split(';')]
    label, *more = head.split()
    start = labels[label] if label in labels else int(label, 0)
    constant, factors, vtype = 0, [], None
    for part in more:
        if part.startswith('vtype='):
            vtype = vtype_of(part[6:].split(','))
        elif '*' in part:
            k, r = part.split('*')
            factors.append((int(k, 0), atom(r)))
        else:
            constant = int(part, 0)
    facts = [fact(text) for text in texts if text]
    registers = tuple(sorted((f for f in facts if isinstance(f, c.RegisterFact)), key=lambda f: f.number))
    vectors, orders = (tuple(f for f in facts if isinstance(f, kind)) for kind in (c.VectorFact, c.OrderFact))
    (k, r), (k2, r2) = (factors + [(0, 0), (0, 0)])[:2]
    return c.Block(start, constant, k, r, vtype, registers, vectors, k2, r2, tuple(sorted(orders)))


def params(text):
    out = []
    for part in filter(None, text.split(',')):
        kind, *more = part.split()
        numbers = [int(n, 0) for n in more]
        out.append({'-': lambda: c.Param('none'), 's': lambda: c.Param('scalar', 0, *numbers), 'r': lambda: c.Param('buffer', c.READ, *numbers),
                    'rw': lambda: c.Param('buffer', c.READ | c.WRITE, *numbers)}[kind]())
    return out + [c.Param('none')] * (8 - len(out))


def code_bytes(words):
    return struct.pack('<%dI' % len(words), *words)


def kernel(text, passed, blocks, vlenb=16, more=(), at=CODE, entry=None, version=1):
    """A kernel of assembly, parameters and blocks; `more`: segments beside that of its code."""
    words, labels = assembled(text, at)
    code = code_bytes(words)
    lines = [line for line in blocks.split('\n') if line.strip()]
    certificate = c.Certificate(8 * vlenb, params(passed), [block(line, labels) for line in lines], version)
    return Kernel([(at, code, len(code), 5)] + list(more), at if entry is None else entry, certificate)


def file_of(kernel, descriptor=None):
    """The kernel's ELF file. descriptor: the certificate's bytes, where they are not to be those of the kernel's own."""
    body = b''.join(data for _, data, _, _ in kernel.segments)
    headers, offset = [], 0
    for address, data, memory, flags in kernel.segments:
        headers.append((c.LOAD, offset, address, len(data), memory, flags))
        offset += len(data)
    own = note(b'RVVBOX\0', c.certificate_bytes(kernel.certificate) if descriptor is None else descriptor, 1)
    headers.append((c.NOTE, offset, 0, len(own), len(own), c.READ))
    return elf(headers, body + own, [(24, 4, kernel.entry)])
