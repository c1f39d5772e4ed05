"""A second opinion on block_checker: the rules by which a certificate is checked, in Python.

Written from the rules as docs/CHECKER.md tells them, and from no code or definition of crates/. `check(file, vlenb)` gives the answer of a
row of checks.txt. What words mean and whether they are legal is model.py's. The functions stand in the order of the rules: values, what is
known at a block's start, scalar instructions, vset, accesses, facts on vector registers, branches, edges, blocks.
"""
import copy
from collections import namedtuple

import model
from certificates import FULL, READ, WRITE, OrderFact, RegisterFact, Refused, VectorFact, code_segment, read_certificate, read_image
from table import M32, sew_of, vlmax_of

TERMS, WORDS = 8, 4096
VL = 32                     # vl stands behind the 32 registers
PASSED = 33                 # the atom of what was passed for parameter 0
FIRST_FRESH = PASSED + 8
SPAN = 1 << 32


# ---- Values: forms and ranges ------------------------------------------------------------------------------------------------------

class Form:
    """A constant and multiples of atoms, modulo 2^32. No coefficient is 0."""

    def __init__(self, constant, terms=()):
        self.constant = constant & M32
        self.terms = {atom: c & M32 for atom, c in dict(terms).items() if c & M32}

    def __eq__(self, other):
        return self.constant == other.constant and self.terms == other.terms

    def plus(self, other, factor=1):
        """This form and a multiple of the other, with all terms that there are."""
        atoms = self.terms.keys() | other.terms.keys()
        return Form(self.constant + factor * other.constant,
                    {atom: self.terms.get(atom, 0) + factor * other.terms.get(atom, 0) for atom in atoms})

    def times(self, factor):
        return Form(0).plus(self, factor)

    def only_atom(self):
        """The atom that is the whole form, or None."""
        return next(iter(self.terms)) if self.constant == 0 and list(self.terms.values()) == [1] else None


Value = namedtuple('Value', 'form range')


def meet(a, b):
    """The numbers of both intervals, or None where there is none."""
    lo, hi = max(a[0], b[0]), min(a[1], b[1])
    return (lo, hi) if lo <= hi else None


def is_word(interval):
    return 0 <= interval[0] and interval[1] <= M32


def known(range):
    return range[0] if range[0] == range[1] else None


def interval_of(constant, terms, atoms):
    """The interval of a sum in whole numbers, by interval arithmetic."""
    ends = [sorted((c * atoms[atom][0], c * atoms[atom][1])) for atom, c in terms.items()]
    return constant + sum(lo for lo, _ in ends), constant + sum(hi for _, hi in ends)


def whole_terms(form):
    """Coefficients as signed numbers of 32 bits."""
    return {atom: model.signed(c, 32) for atom, c in form.terms.items()}


def split_terms(terms, splits):
    """The sum of whole numbers with each split atom replaced by its two parts, all at once."""
    out = {}
    for atom, c in terms.items():
        for part in splits.get(atom, (atom,)):
            out[part] = out.get(part, 0) + c
    return {atom: c for atom, c in out.items() if c}


class Known:
    """What is known between two words: atoms with ranges and splits, the values of x0 to x31 and vl, vtype (None: not known), vector facts."""

    def __init__(self, vlenb):
        self.vlenb = vlenb
        self.atoms, self.splits = {}, {}
        self.x = [Value(Form(0), (0, 0))] * 33
        self.vtype, self.facts = None, []
        self.words = 0

    @property
    def vl(self):
        return self.x[VL].range

    def sum_interval(self, form):
        """The interval of a form's sum: its own, met with the one after the split atoms are replaced."""
        terms = whole_terms(form)
        own = interval_of(form.constant, terms, self.atoms)
        after = split_terms(terms, self.splits)
        if len(after) > TERMS:
            return own
        return meet(own, interval_of(form.constant, after, self.atoms)) or own

    def wraps(self, form):
        """How often 2^32 is taken from a form's sum to give a number of 32 bits, or None where that isn't one number."""
        lo, hi = self.sum_interval(form)
        return lo // SPAN if lo // SPAN == hi // SPAN else None

    def range_of(self, form):
        """A form's range, or None."""
        wraps = self.wraps(form)
        if wraps is None:
            return None
        lo, hi = self.sum_interval(form)
        return lo - wraps * SPAN, hi - wraps * SPAN

    def fresh(self, range):
        """An atom that is new, as a value."""
        atom = max(FIRST_FRESH - 1, *self.atoms) + 1 if self.atoms else FIRST_FRESH
        self.atoms[atom] = range
        return Value(Form(0, {atom: 1}), range)

    def computed(self, form, arithmetic):
        """A value of this form; `arithmetic` is what interval arithmetic says of it, in whole numbers."""
        if len(form.terms) > TERMS:
            return self.fresh(arithmetic if is_word(arithmetic) else FULL)
        return Value(form, self.met(arithmetic, form))

    def met(self, arithmetic, form):
        of_form = self.range_of(form)
        if not is_word(arithmetic):
            return of_form or FULL
        return of_form and meet(arithmetic, of_form) or arithmetic

    def set_x(self, number, value):
        if number:
            self.x[number] = value

    def constant(self, number):
        return Value(Form(number), (number & M32, number & M32))


# ---- What is known at the start of a block, and of a run --------------------------------------------------------------------------------

def passed_atoms(certificate):
    return {PASSED + place: (p.a, p.b) for place, p in enumerate(certificate.params) if p.kind == 'scalar'}


def at_block(certificate, block, vlenb):
    s = Known(vlenb)
    s.atoms.update(passed_atoms(certificate))
    stated = {fact.number: fact for fact in block.facts}
    equal = []
    for number in range(1, 33):
        fact = stated.get(number, RegisterFact(number, *FULL))
        interval = fact.lo, fact.hi
        if fact.equal is None:
            s.atoms[number] = interval
            s.x[number] = Value(Form(0, {number: 1}), interval)
        else:
            equal.append((number, interval, Form(*fact.equal)))
    ends = lambda number: (stated[number].lo, stated[number].hi) if number in stated else FULL
    for order in block.orders:
        split(s, order, ends(order.s), ends(order.r))
    # The intervals that split are those that are stated; with the splits in place every number of the start has its form's range too.
    equal += [(number, s.x[number].range, s.x[number].form) for number in s.atoms if number <= VL]
    for number, interval, form in equal:
        of_form = s.range_of(form)
        s.x[number] = Value(form, of_form and meet(interval, of_form) or interval)
    s.vtype, s.facts = block.vtype, list(block.vectors)
    return s


def split(s, order, greater, lesser):
    """The atom of an order's greater number is that of the lesser one and a rest, by the intervals that are stated of both."""
    if greater[1] < lesser[0]:
        return
    rest = s.fresh((max(0, greater[0] - lesser[1]), greater[1] - lesser[0]))
    s.splits[order.s] = order.r, rest.form.only_atom()


def buffers(params):
    """(place, address, size, rights) of the buffers: each begins 4096 bytes past the one before, rounded up to 4096."""
    at = 0x40000000
    for place, p in enumerate(params):
        if p.kind == 'buffer':
            yield place, at, p.a, p.mode
            at += p.a + -p.a % 4096 + 4096


def at_entry(certificate, vlenb):
    s = Known(vlenb)
    s.atoms.update(passed_atoms(certificate))
    s.x[1], s.x[2] = s.constant(model.EXIT), s.constant(0x30000000)
    for place, p in enumerate(certificate.params):
        if p.kind == 'scalar':
            s.x[10 + place] = Value(Form(0, {PASSED + place: 1}), (p.a, p.b))
    for place, address, _, _ in buffers(certificate.params):
        s.x[10 + place] = s.constant(address)
    return s


# ---- Scalar instructions ----------------------------------------------------------------------------------------------------------------

def offset_sum(s, register, offset):
    """x[register] and a signed number, as addi."""
    a = s.x[register]
    return s.computed(a.form.plus(Form(offset)), (a.range[0] + offset, a.range[1] + offset))


def scaled(s, a, factor):
    return s.computed(a.form.times(factor), (a.range[0] * factor, a.range[1] * factor))


def scalar_result(s, i, f, pc):
    """What an instruction that is no access, CSR form or jump puts into rd."""
    name, a, b = i.name, s.x[f.get('rs1', 0)], s.x[f.get('rs2', 0)]
    if i.shape in ('imm', 'shift'):
        b = s.constant(f['imm'])
        name = {'sltiu': 'sltu'}.get(name, name[:-1])
    if name == 'lui':
        return s.constant(f['imm'])
    if name == 'auipc':
        return s.constant(pc + f['imm'])
    if i.name == 'addi':
        return offset_sum(s, f['rs1'], f['imm'])
    if name == 'add':
        return s.computed(a.form.plus(b.form), (a.range[0] + b.range[0], a.range[1] + b.range[1]))
    if name == 'sub':
        return s.computed(a.form.plus(b.form, -1), (a.range[0] - b.range[1], a.range[1] - b.range[0]))
    if name == 'and':
        return s.fresh((0, min(a.range[1], b.range[1])))
    if name in ('slt', 'sltu'):
        return s.fresh((0, 1))
    by = known(b.range)
    if name == 'mul' and by is None and known(a.range) is not None:
        return scaled(s, b, known(a.range))
    if by is not None:
        if name == 'mul':
            return scaled(s, a, by)
        if name == 'sll':
            return scaled(s, a, 1 << by % 32)
        if name == 'srl':
            return s.fresh((a.range[0] >> by % 32, a.range[1] >> by % 32))
        if name == 'divu' and by:
            return s.fresh((a.range[0] // by, a.range[1] // by))
        if name == 'remu' and by:
            return s.fresh((0, min(a.range[1], by - 1)))
    return s.fresh(FULL)


LOADED = {'lbu': (0, 255), 'lhu': (0, 65535)}


def csr_result(s, number):
    """What a read of a CSR gives."""
    if number == 0xc20:
        return s.x[VL]
    if number == 0xc22:
        return s.constant(s.vlenb)
    return s.fresh({0x009: (0, 1), 0x00a: (0, 3), 0x00f: (0, 7)}.get(number, FULL))


# ---- vset --------------------------------------------------------------------------------------------------------------------------------

def vset(s, i, f):
    bits = f['imm'] if 'imm' in f else known(s.x[f['rs2']].range)
    is_keep = 'rs1' in f and f['rs1'] == 0 and f['rd'] == 0
    before = s.vl[0]
    if bits is not None and not model.is_supported(bits):
        s.vtype, s.x[VL] = None, s.constant(0)
    elif is_keep and bits is not None and s.vtype is not None and vlmax_of(s.vtype, s.vlenb) == vlmax_of(bits, s.vlenb):
        s.vtype = bits
        return
    elif is_keep:
        s.vtype, s.x[VL] = None, s.fresh((0, s.vl[1]))
    elif bits is None:
        s.vtype, s.x[VL] = None, s.fresh((0, 8 * s.vlenb))
    else:
        s.vtype, s.x[VL] = bits, new_length(s, f, vlmax_of(bits, s.vlenb))
    s.facts = [fact for fact in (recounted(s, fact, before) for fact in s.facts) if fact]
    s.set_x(f['rd'], s.x[VL])


def new_length(s, f, most):
    """vl, for what is asked for and the new VLMAX. An atom that is all that is asked for is split into vl and a rest."""
    if 'avl' in f:
        asked = s.constant(f['avl'])
    elif f['rs1'] == 0:
        return s.fresh((most, most))
    else:
        asked = s.x[f['rs1']]
    lo, hi = asked.range
    length = s.fresh((min(lo, most), min(hi, most)))
    atom = asked.form.only_atom()
    if atom is not None:
        rest = s.fresh((max(0, lo - most), max(0, hi - most)))
        s.splits[atom] = length.form.only_atom(), rest.form.only_atom()
    return length


def recounted(s, fact, least):
    """What a fact says where vl changes that was at least `least`; None where that is nothing."""
    if fact.count:
        return fact
    count = min(least, fact.registers * 8 * s.vlenb // fact.width)
    return fact._replace(count=count) if count else None


# ---- Accesses ----------------------------------------------------------------------------------------------------------------------------

Zone = namedtuple('Zone', 'first end rights')


def zones_of(image, params):
    return ([Zone(s.first, s.end, s.rights) for s in image.segments] + [Zone(0x2fff0000, 0x30000000, READ | WRITE)]
            + [Zone(at, at + size, rights) for _, at, size, rights in buffers(params)])


def require_access(zones, first, end, is_store):
    """All bytes from first up to end lie in one zone with the right."""
    held = [zone for zone in zones if zone.first <= first and end <= zone.end]
    if any(zone.rights & (WRITE if is_store else READ) for zone in held):
        return
    raise Refused('ReadOnly' if is_store and held else 'AccessNotProved')


def address_bounds(s, base, stride, offset):
    """The bounds of x[base] + stride * vl + offset: interval arithmetic's, and where that stays within 32 bits the form's too."""
    x, vl = s.x[base], s.x[VL]
    lengths = sorted((stride * vl.range[0], stride * vl.range[1]))
    arithmetic = x.range[0] + lengths[0] + offset, x.range[1] + lengths[1] + offset
    form = x.form.plus(vl.form, stride).plus(Form(offset))
    if not is_word(arithmetic) or len(form.terms) > TERMS:
        return arithmetic
    return s.met(arithmetic, form)


def vector_access(s, i, f):
    """The first byte of a vector load or store and the byte behind its last, or None where nothing is accessed."""
    how = i.shape.split('_')[1] if '_' in i.shape else 'unit'
    lo, hi = s.x[f['rs1']].range
    if how == 'whole':
        return lo, hi + i.regs * s.vlenb
    most = s.vl[1]
    if most == 0:
        return None
    size = i.width // 8
    if how == 'unit':
        return lo, address_bounds(s, f['rs1'], size, 0)[1]
    if how == 'mask':
        return lo, hi + (most + 7) // 8
    if how == 'strided':
        number = known(s.x[f['rs2']].range)
        if number is None:
            raise Refused('AccessNotProved')
        stride = model.signed(number, 32)
        if stride >= 0:
            return lo, address_bounds(s, f['rs1'], stride, size - stride)[1]
        return address_bounds(s, f['rs1'], stride, -stride)[0], hi + size
    _, sources = model.operands(i, f, s.vtype)
    index = source_range(s, next(o for o in sources if o.role == 'vs2'))
    return lo + index[0], hi + index[1] + sew_of(s.vtype) // 8


# ---- Facts on vector registers ----------------------------------------------------------------------------------------------------------

def source_range(s, group):
    """What is known of the elements below vl of an operand."""
    width = int(group.eew)
    for fact in s.facts:
        if (fact.register, fact.width, fact.registers) == (group.reg, width, group.count) and (fact.count == 0 or fact.count >= s.vl[1]):
            return fact.lo, fact.hi
    return 0, (1 << width) - 1


def operand_range(s, f, sources, sew):
    """What is known of the second operand: a group, an x register or an immediate."""
    top = (1 << sew) - 1
    if 'vs1' in f:
        return source_range(s, next(o for o in sources if o.role == 'vs1'))
    if 'rs1' in f:
        lo, hi = s.x[f['rs1']].range
        return (lo, hi) if hi <= top else (0, top)
    return f['imm'] & top, f['imm'] & top


def stated_range(s, i, f, sources):
    """What an unmasked instruction makes known of the elements below vl of its destination, or None."""
    sew = sew_of(s.vtype)
    most = vlmax_of(s.vtype, s.vlenb) - 1
    if i.stem in ('vid', 'viota'):
        return 0, most
    if i.shape not in ('mv', 'int', 'narrow', 'ext'):
        return None
    vs2 = next((o for o in sources if o.role == 'vs2'), None)
    a = source_range(s, vs2) if vs2 else None
    if i.stem == 'vzext':
        return a
    if i.stem == 'vsext':
        return None
    b = operand_range(s, f, sources, sew)
    by = known(b)
    if i.stem == 'vmv':
        return b
    if i.stem == 'vand':
        return 0, min(a[1], b[1])
    if i.stem == 'vminu':
        return min(a[0], b[0]), min(a[1], b[1])
    if i.stem == 'vmaxu':
        return max(a[0], b[0]), max(a[1], b[1])
    if i.stem == 'vadd':
        return a[0] + b[0], a[1] + b[1]
    if i.stem == 'vsll' and by is not None:
        return a[0] << by % sew, a[1] << by % sew
    if i.stem == 'vsrl' and by is not None:
        return a[0] >> by % sew, a[1] >> by % sew
    if i.stem == 'vnsrl' and by is not None:
        return a[0] >> by % (2 * sew), a[1] >> by % (2 * sew)
    if i.stem == 'vremu' and 'rs1' in f and by:
        return 0, min(a[1], by - 1)
    return None


def vector_step(s, i, f, zones):
    """Any vector instruction but vset."""
    is_store = i.shape.startswith('vstore')
    if is_store or i.shape.startswith('vload'):
        bounds = vector_access(s, i, f)
        if bounds:
            require_access(zones, *bounds, is_store)
    vtype = model.VILL if s.vtype is None else s.vtype
    dest, sources = model.operands(i, f, vtype)
    stated = stated_range(s, i, f, sources) if f['vm'] and s.vtype is not None else None
    if dest:
        s.facts = [fact for fact in s.facts
                   if not set(range(fact.register, fact.register + fact.registers)) & set(dest.registers)]
    if stated:
        sew = sew_of(vtype)
        if stated[1] < 1 << sew and stated != (0, (1 << sew) - 1):
            s.facts.append(VectorFact(f['vd'], sew, dest.count, 0, *stated))
    if i.shape == 'count':
        s.set_x(f['rd'], s.fresh((0, s.vl[1]) if i.stem == 'vcpop' else FULL))
    if i.shape == 'tox':
        s.set_x(f['rd'], s.fresh(FULL))


# ---- What a branch tells ------------------------------------------------------------------------------------------------------------------

OPPOSITE = {'eq': 'ne', 'ne': 'eq', 'lt': 'ge', 'ge': 'lt', 'ltu': 'geu', 'geu': 'ltu'}


def cut(range, number):
    """A range without a number at one of its ends; lo > hi where nothing is left."""
    lo, hi = range
    return lo + (lo == number), hi - (hi == number)


def related(condition, a, b):
    """The ranges of two numbers for which the condition holds."""
    if condition == 'eq':
        both = max(a[0], b[0]), min(a[1], b[1])
        return both, both
    if condition == 'ne':
        return (a if known(b) is None else cut(a, known(b))), (b if known(a) is None else cut(b, known(a)))
    if condition in ('lt', 'ltu'):
        return (a[0], min(a[1], b[1] - 1)), (max(b[0], a[0] + 1), b[1])
    return (max(a[0], b[0]), a[1]), (b[0], min(b[1], a[1]))


def refined(s, i, f, taken):
    """What is known behind a branch; None where that way can't be gone."""
    s = copy.deepcopy(s)
    one, two = f['rs1'], f['rs2']
    a, b = s.x[one], s.x[two]
    condition = i.name[1:] if taken else OPPOSITE[i.name[1:]]
    is_signed = condition in ('lt', 'ge')
    if one == two or is_signed and max(a.range[1], b.range[1]) >= 1 << 31:
        return s
    ranges = related(condition, a.range, b.range)
    if any(lo > hi for lo, hi in ranges):
        return None
    s.x[one], s.x[two] = Value(a.form, ranges[0]), Value(b.form, ranges[1])
    atoms = a.form.only_atom(), b.form.only_atom()
    if atoms[0] is not None and atoms[0] == atoms[1]:
        both = meet(*ranges)
        if both is None:
            return None
        s.atoms[atoms[0]] = both
    else:
        for atom, range_ in zip(atoms, ranges):
            if atom is not None:
                s.atoms[atom] = range_
    for number, value in enumerate(s.x):
        if number:
            of_form = s.range_of(value.form)
            s.x[number] = Value(value.form, of_form and meet(value.range, of_form) or value.range)
    return s


def told_orders(i, f, taken):
    """The orders that a branch itself tells on one of its edges."""
    one, two = f['rs1'], f['rs2']
    condition = i.name[1:] if taken else OPPOSITE[i.name[1:]]
    if condition == 'eq':
        return OrderFact(one, two), OrderFact(two, one)
    return {'ltu': (OrderFact(two, one),), 'geu': (OrderFact(one, two),)}.get(condition, ())


# ---- Edges --------------------------------------------------------------------------------------------------------------------------------

def require_edge(s, target, blocks, budget, told=()):
    """All that a way to a target asks. s: what is known on it. target: None where it isn't known. budget: None on the way from the entry,
    else Start. told: the orders that the branch tells whose edge this is."""
    if target != model.EXIT and target not in blocks:
        raise Refused('TargetNotABlock')
    block = None if target == model.EXIT else blocks[target]
    if block:
        if block.vtype is not None and block.vtype != s.vtype:
            raise Refused('VtypeUnknown')
        for fact in block.facts:
            lo, hi = s.x[fact.number].range
            if not (fact.lo <= lo and hi <= fact.hi):
                raise Refused('IntervalNotProved')
        for fact in block.facts:
            if fact.equal and not is_equal(s, fact):
                raise Refused('EqualityNotProved')
        for order in block.orders:
            if order not in told and not is_in_order(s, s.x[order.s], s.x[order.r]):
                raise Refused('OrderNotProved')
        for fact in block.vectors:
            if not any(implies(s, held, fact) for held in s.facts):
                raise Refused('VectorFactNotProved')
    if budget and not is_paid(s, budget, block):
        raise Refused('BudgetNotProved')


def is_equal(s, fact):
    """The stated sum, with what registers and vl are now in their place, is the register's form."""
    constant, terms = fact.equal
    now = Form(constant)
    for atom, c in terms:
        now = now.plus(s.x[atom].form if atom < PASSED else Form(0, {atom: 1}), c)
    return now == s.x[fact.number].form


def implies(s, held, fact):
    """Whether a fact that is held says what another one states."""
    if (held.register, held.width, held.registers) != (fact.register, fact.width, fact.registers):
        return False
    if not (fact.lo <= held.lo and held.hi <= fact.hi):
        return False
    if fact.count == 0:
        return held.count == 0 or held.count >= s.vl[1]
    return fact.count <= s.vl[0] if held.count == 0 else held.count >= fact.count


def is_in_order(s, greater, lesser):
    """By the ends of the ranges, or by the forms, whose split atoms are replaced however many terms that gives."""
    if lesser.range[1] <= greater.range[0]:
        return True
    difference = whole_sum(s, 0, ((1, greater.form), (-1, lesser.form)))
    if difference is None:
        return False
    constant, terms = difference
    own = interval_of(constant, terms, s.atoms)
    after = interval_of(constant, split_terms(terms, s.splits), s.atoms)
    return (meet(own, after) or own)[0] >= 0


def whole_sum(s, constant, parts):
    """A constant and multiples of the numbers of forms, in whole numbers: constant and terms, or None where one of the forms has no range."""
    sum_of = {}
    for factor, form in parts:
        if factor == 0:
            continue
        wraps = s.wraps(form)
        if wraps is None:
            return None
        constant += factor * (form.constant - wraps * SPAN)
        for atom, coefficient in whole_terms(form).items():
            sum_of[atom] = sum_of.get(atom, 0) + factor * coefficient
    return constant, sum_of


Start = namedtuple('Start', 'c k value k2 value2', defaults=(0, Value(Form(0), (0, 0))))    # a block's budget, with its registers' values at the start


def is_paid(s, start, block):
    """c + k * x[r] + k2 * x[r2] at the block's start is at least the words and the target's budget."""
    c, k, k2 = (block.c, block.k, block.k2) if block else (0, 0, 0)
    value, value2 = (s.x[block.r], s.x[block.r2]) if block else (s.constant(0), s.constant(0))
    spare = start.c - s.words - c
    if spare + start.k * start.value.range[0] + start.k2 * start.value2.range[0] >= k * value.range[1] + k2 * value2.range[1]:
        return True
    parts = (start.k, start.value.form), (start.k2, start.value2.form), (-k, value.form), (-k2, value2.form)
    difference = whole_sum(s, spare, parts)
    return difference is not None and interval_of(*difference, s.atoms)[0] >= 0


# ---- Blocks -------------------------------------------------------------------------------------------------------------------------------

class Walk:
    """The check of an image against a certificate."""

    def __init__(self, image, certificate):
        self.image, self.certificate, self.vlenb = image, certificate, certificate.vlen // 8
        self.blocks = {block.start: block for block in certificate.blocks}
        self.zones = zones_of(image, certificate.params)

    def run(self):
        if self.image.entry not in self.blocks:
            raise Refused('NoEntryBlock')
        self.told_at(self.image.entry, require_edge, at_entry(self.certificate, self.vlenb), self.image.entry, self.blocks, None)
        for block in self.certificate.blocks:
            self.walk(block)

    @staticmethod
    def told_at(pc, rule, *what):
        try:
            return rule(*what)
        except Refused as e:
            raise Refused(e.args[0], pc) from None

    def walk(self, block):
        s = at_block(self.certificate, block, self.vlenb)
        start = Start(block.c, block.k, s.x[block.r], block.k2, s.x[block.r2])
        pc = block.start
        while self.told_at(pc, self.word, s, start, pc):
            pc += 4

    def fetched(self, s, pc):
        """The instruction at pc, where it is one that is legal."""
        segment = code_segment(self.image.segments, pc)
        if segment is None:
            raise Refused('NotCode')
        word = int.from_bytes(segment.data[pc - segment.first:pc - segment.first + 4], 'little')
        decoded = model.decode(word)
        if decoded is None:
            raise Refused('IllegalWord')
        i, _ = decoded
        if i.is_vector:
            needs_vtype = i.shape not in ('vload_whole', 'vstore_whole', 'mvr')
            if needs_vtype and s.vtype is None:
                raise Refused('VtypeUnknown')
            if not model.is_legal(model.VILL if s.vtype is None else s.vtype, word):
                raise Refused('IllegalWord')
        return decoded

    def word(self, s, start, pc):
        """One word of a block: whether the block goes on behind it."""
        if s.words == WORDS:
            raise Refused('BlockTooLong')
        i, f = self.fetched(s, pc)
        s.words += 1
        after = pc + 4 & M32
        edge = lambda known, target, told=(): require_edge(known, target, self.blocks, start, told)
        if i.shape == 'branch':
            for taken, target in ((True, pc + f['to'] & M32), (False, after)):
                way = refined(s, i, f, taken)
                if way:
                    edge(way, target, told_orders(i, f, taken))
            return False
        if i.shape in ('jal', 'jalr'):
            target = pc + f['to'] & M32 if i.shape == 'jal' else known(offset_sum(s, f['rs1'], f['imm']).range)
            s.set_x(f['rd'], s.constant(after))
            edge(s, target & ~1 if target is not None else None)
            return False
        if i.shape == 'ecall':
            edge(s, model.EXIT)
            return False
        self.act(s, i, f, pc)
        if after in self.blocks:
            edge(s, after)
            return False
        return True

    def act(self, s, i, f, pc):
        """An instruction that leads to the next one."""
        if i.is_vector:
            vector_step(s, i, f, self.zones)
        elif i.shape == 'vset':
            vset(s, i, f)
        elif i.shape in ('load', 'store'):
            lo, hi = offset_sum(s, f['rs1'], f['imm']).range
            require_access(self.zones, lo, hi + i.width // 8, i.shape == 'store')
            if i.shape == 'load':
                s.set_x(f['rd'], s.fresh(LOADED.get(i.name, FULL)))
        elif i.shape == 'csr':
            s.set_x(f['rd'], csr_result(s, f['csr']))
        elif i.shape != 'fence':
            s.set_x(f['rd'], scalar_result(s, i, f, pc))


def check(file, vlenb):
    """The answer for an ELF file's bytes and a length of vector registers in bytes."""
    try:
        image = read_image(file)
    except Refused as e:
        return 'image ' + e.text
    if image.certificate is None:
        return 'no certificate'
    try:
        certificate = read_certificate(image.certificate)
    except Refused as e:
        return 'certificate ' + e.text
    try:
        if certificate.vlen != 8 * vlenb:
            raise Refused('WrongVlen')
        Walk(image, certificate).run()
    except Refused as e:
        return e.text
    block = next(block for block in certificate.blocks if block.start == image.entry)
    budget = 'accepted %d %d %d' % (block.c, block.k, block.r)
    return budget + ' %d %d' % (block.k2, block.r2) if block.k2 else budget
