"""What an ELF file spells: segments and certificate, or the one error that is told of it; and files that spell given certificates.

Written from docs/IMAGES.md and docs/CERTIFICATES.md. checker.py judges certificates, checks.py makes them.
"""
import struct
from collections import namedtuple

from table import M32, VTYPES

READ, WRITE, EXECUTE = 4, 2, 1
LOAD, DYNAMIC, INTERP, NOTE, TLS = 1, 2, 3, 4, 7
NO_EQUALITY = 255
FULL = (0, M32)


class Refused(Exception):
    """An error that is told, and where it has one its address."""

    @property
    def text(self):
        return ' '.join([self.args[0]] + ['%08x' % pc for pc in self.args[1:]])


# ---- Images ----------------------------------------------------------------------------------------------------------------------

Segment = namedtuple('Segment', 'first end rights data')
Image = namedtuple('Image', 'entry segments certificate')
Header = namedtuple('Header', 'kind offset address paddr filesz memsz flags align')


def read_image(file):
    """The image of a file's bytes, or Refused with the first error in the order of docs/IMAGES.md."""
    u16 = lambda at: struct.unpack_from('<H', file, at)[0]
    u32 = lambda at: struct.unpack_from('<I', file, at)[0]
    refuse_if(len(file) < 52, 'TooShort')
    refuse_if(file[:4] != b'\x7fELF', 'BadMagic')
    refuse_if(file[4:7] != bytes([1, 1, 1]), 'BadClass')
    refuse_if(u16(16) != 2 or u32(20) != 1, 'BadType')
    refuse_if(u16(18) != 243, 'BadMachine')
    refuse_if(u32(36) & 15 != 0, 'BadFlags')
    count, table = u16(44), u32(28)
    refuse_if(u16(40) != 52 or u16(42) != 32 or not 1 <= count <= 64 or table + 32 * count > len(file), 'BadHeaderTable')
    headers = [Header(*struct.unpack_from('<8I', file, table + 32 * k)) for k in range(count)]
    refuse_if(any(h.kind in (DYNAMIC, INTERP, TLS) for h in headers), 'NotStatic')
    refuse_if(any(is_out_of_file(h, file) for h in headers), 'SegmentOutOfFile')
    segments = [Segment(h.address, h.address + h.memsz, h.flags & 7, file[h.offset:h.offset + h.filesz] + bytes(h.memsz - h.filesz))
                for h in headers if h.kind == LOAD and h.memsz]
    refuse_if(any(not is_in_place(s) for s in segments), 'SegmentOutOfPlace')
    refuse_if(any(a.first < b.end and b.first < a.end for k, a in enumerate(segments) for b in segments[:k]), 'SegmentsOverlap')
    refuse_if(any(s.rights & WRITE and s.rights & EXECUTE for s in segments), 'WriteAndExecute')
    refuse_if(len(file) > 4 << 20 or len(segments) > 16 or sum(s.end - s.first for s in segments) > 16 << 20, 'TooLarge')
    entry = u32(24)
    refuse_if(entry % 4 or code_segment(segments, entry) is None, 'EntryNotCode')
    found = [d for h in headers if h.kind == NOTE for d in certificates_in(file[h.offset:h.offset + h.filesz])]
    refuse_if(len(found) > 1, 'TwoCertificates')
    return Image(entry, segments, found[0] if found else None)


def refuse_if(is_wrong, name):
    if is_wrong:
        raise Refused(name)


def is_out_of_file(h, file):
    return h.kind in (LOAD, NOTE) and h.filesz > 0 and h.offset + h.filesz > len(file) or h.kind == LOAD and h.filesz > h.memsz


def is_in_place(s):
    return 0x1000 <= s.first and s.end <= 0x20000000 or 0x80000000 <= s.first and s.end <= 0xc0000000


def code_segment(segments, pc):
    """The executable segment that holds the four bytes at pc."""
    return next((s for s in segments if s.rights & EXECUTE and s.first <= pc and pc + 4 <= s.end), None)


def certificates_in(part):
    """The descriptors of the notes RVVBOX of type 1, until a note runs past the part's end."""
    at = 0
    while at + 12 <= len(part):
        namesz, descsz, kind = struct.unpack_from('<III', part, at)
        name = at + 12
        descriptor = name + namesz + -namesz % 4
        if name + namesz > len(part) or descsz and descriptor + descsz > len(part):
            return
        if part[name:name + namesz] == b'RVVBOX\0' and kind == 1:
            yield part[descriptor:descriptor + descsz]
        at = descriptor + descsz + -descsz % 4


# ---- Certificates ----------------------------------------------------------------------------------------------------------------

Param = namedtuple('Param', 'kind mode a b', defaults=(0, 0, 0))   # kind: 'none', 'scalar', 'buffer'; mode: READ or READ | WRITE
RegisterFact = namedtuple('RegisterFact', 'number lo hi equal', defaults=(None,))   # equal: None, or (constant, ((atom, coefficient), ..))
VectorFact = namedtuple('VectorFact', 'register width registers count lo hi')       # count 0: vl
OrderFact = namedtuple('OrderFact', 's r')                                          # r's number is at most s's; 32: vl
Block = namedtuple('Block', 'start c k r vtype facts vectors k2 r2 orders', defaults=(0, 0, ()))    # vtype: None where it is not known
Certificate = namedtuple('Certificate', 'vlen params blocks version', defaults=(1,))

VLENS = {1: 128, 2: 256, 3: 512}
KINDS = ('none', 'scalar', 'buffer')
MODES = {1: READ, 3: READ | WRITE}


class Fields:
    """Bytes that are read field by field. A field that is missing is Short, one that is wrong is told by the given name."""

    def __init__(self, data):
        self.data, self.at = data, 0

    def take(self, size, name, is_right=lambda value: True):
        if self.at + size > len(self.data):
            raise Refused('Short')
        value = int.from_bytes(self.data[self.at:self.at + size], 'little')
        self.at += size
        if not is_right(value):
            raise Refused(name)
        return value

    def zero(self, size, name):
        self.take(size, name, lambda value: value == 0)


def read_certificate(data):
    f = Fields(data)
    version = f.take(2, 'Version', lambda v: v in (1, 2))
    vlen = VLENS[f.take(1, 'Version', lambda v: v in VLENS)]
    f.zero(1, 'Version')
    params = [read_param(f) for _ in range(8)]
    count = f.take(2, 'TooMany', lambda v: v <= 1024)
    f.zero(2, 'TooMany')
    blocks = []
    for _ in range(count):
        blocks.append(read_block(f, blocks[-1].start if blocks else -1, params, vlen, version))
    refuse_if(f.at < len(data), 'TrailingBytes')
    return Certificate(vlen, params, blocks, version)


def read_param(f):
    kind = KINDS[f.take(1, 'Parameter', lambda v: v < 3)]
    mode = f.take(1, 'Parameter', lambda v: v in ((1, 3) if kind == 'buffer' else (0,)))
    f.zero(2, 'Parameter')
    a = f.take(4, 'Parameter', lambda v: {'none': v == 0, 'scalar': True, 'buffer': v <= 16 << 20}[kind])
    b = f.take(4, 'Parameter', lambda v: a <= v if kind == 'scalar' else v == 0)
    return Param(kind, MODES.get(mode, 0), a, b)


def read_block(f, before, params, vlen, version):
    start = f.take(4, 'BlockOrder', lambda v: v > before and v % 4 == 0)
    c, k = f.take(4, 'Budget'), f.take(4, 'Budget')
    k2 = f.take(4, 'Budget', lambda v: v == 0 or k != 0) if version == 2 else 0
    r = f.take(1, 'Budget', lambda v: 1 <= v <= 31 if k else v == 0)
    r2 = f.take(1, 'Budget', lambda v: r < v <= 31 if k2 else v == 0) if version == 2 else 0
    is_known = f.take(1, 'Fact', lambda v: v < 2)
    vtype = f.take(1, 'Fact', lambda v: v in VTYPES if is_known else v == 0)
    registers, vectors = f.take(1, 'TooMany', lambda v: v <= 32), f.take(1, 'TooMany', lambda v: v <= 32)
    orders = f.take(1, 'TooMany', lambda v: v <= 32) if version == 2 else 0
    for _ in range(1 if version == 2 else 3):
        f.zero(1, 'TooMany')
    facts = []
    for _ in range(registers):
        facts.append(read_register_fact(f, facts[-1].number if facts else 0, params))
    groups = []
    for _ in range(vectors):
        groups.append(read_vector_fact(f, groups[-1].register + groups[-1].registers if groups else 0, vlen))
    equal = {fact.number for fact in facts if fact.equal}
    pairs = []
    for _ in range(orders):
        pairs.append(read_order_fact(f, pairs[-1].s if pairs else 0, equal))
    refuse_if(any(atom in equal for fact in facts if fact.equal for atom, _ in fact.equal[1]), 'Equality')
    return Block(start, c, k, r, vtype if is_known else None, tuple(facts), tuple(groups), k2, r2, tuple(pairs))


def read_register_fact(f, before, params):
    number = f.take(1, 'Fact', lambda v: before < v <= 32)
    lo = f.take(4, 'Fact')
    hi = f.take(4, 'Fact', lambda v: lo <= v)
    terms = f.take(1, 'Equality', lambda v: v <= 8 or v == NO_EQUALITY)
    if terms == NO_EQUALITY:
        refuse_if((lo, hi) == FULL, 'Fact')
        return RegisterFact(number, lo, hi)
    constant, sum_of, atom = f.take(4, 'Equality'), [], 0
    for _ in range(terms):
        is_atom = lambda v: v > atom and (v <= 32 or v <= 40 and params[v - 33].kind == 'scalar')
        atom = f.take(1, 'Equality', is_atom)
        sum_of.append((atom, f.take(4, 'Equality', lambda v: v != 0)))
    return RegisterFact(number, lo, hi, (constant, tuple(sum_of)))


def read_vector_fact(f, free, vlen):
    register = f.take(1, 'Fact', lambda v: free <= v < 32)
    width = f.take(1, 'Fact', lambda v: v in (8, 16, 32))
    registers = f.take(1, 'Fact', lambda v: v in (1, 2, 4, 8) and register % v == 0)
    f.zero(1, 'Fact')
    count = f.take(2, 'Fact', lambda v: v <= registers * vlen // width)
    f.zero(2, 'Fact')
    lo = f.take(4, 'Fact')
    hi = f.take(4, 'Fact', lambda v: lo <= v < 1 << width and (lo, v) != (0, (1 << width) - 1))
    return VectorFact(register, width, registers, count, lo, hi)


def read_order_fact(f, before, equal):
    s = f.take(1, 'Order', lambda v: before < v <= 32 and v not in equal)
    r = f.take(1, 'Order', lambda v: 1 <= v <= 32 and v != s and v not in equal)
    return OrderFact(s, r)


# ---- Files of given certificates -------------------------------------------------------------------------------------------------

def param_bytes(p):
    return struct.pack('<BBHII', KINDS.index(p.kind), {0: 0, READ: 1, READ | WRITE: 3}[p.mode], 0, p.a, p.b)


def register_fact_bytes(fact):
    out = struct.pack('<BII', fact.number, fact.lo, fact.hi)
    if fact.equal is None:
        return out + bytes([NO_EQUALITY])
    constant, terms = fact.equal
    return out + struct.pack('<BI', len(terms), constant) + b''.join(struct.pack('<BI', *term) for term in terms)


def vector_fact_bytes(v):
    return struct.pack('<BBBBHHII', v.register, v.width, v.registers, 0, v.count, 0, v.lo, v.hi)


def block_bytes(b, version=1):
    counts = b.vtype is not None, b.vtype or 0, len(b.facts), len(b.vectors)
    facts = b''.join(map(register_fact_bytes, b.facts)) + b''.join(map(vector_fact_bytes, b.vectors))
    if version == 1:
        assert (b.k2, b.r2, b.orders) == (0, 0, ()), 'version 1 has no second factor and no orders'
        return struct.pack('<IIIBBBBB3x', b.start, b.c, b.k, b.r, *counts) + facts
    head = struct.pack('<IIIIBBBBBBBx', b.start, b.c, b.k, b.k2, b.r, b.r2, *counts, len(b.orders))
    return head + facts + b''.join(struct.pack('<BB', *order) for order in b.orders)


def certificate_bytes(certificate):
    vlen = next(code for code, bits in VLENS.items() if bits == certificate.vlen)
    return (struct.pack('<HBB', certificate.version, vlen, 0) + b''.join(map(param_bytes, certificate.params))
            + struct.pack('<HH', len(certificate.blocks), 0) + b''.join(block_bytes(b, certificate.version) for b in certificate.blocks))
