"""The second checker's own steps with the same answers in less time: a search walks many blocks many times.

Words are decoded once. Forms with few atoms are summed without lists. Behind a branch the ranges are met again of those registers
alone whose forms have an atom that the branch has cut. `test_quick.py` compares each with the checker's.
"""
from functools import lru_cache

from outside import certificates, checker, model

M32, SPAN, VL, TERMS = checker.M32, checker.SPAN, checker.VL, checker.TERMS
Value = checker.Value
FULL = certificates.FULL


# ---- Forms and what is known -------------------------------------------------------------------------------------------------

def form_of(constant, terms):
    """A form of a constant of 32 bits and terms of which none is 0."""
    form = object.__new__(checker.Form)
    form.constant, form.terms = constant, terms
    return form


def plus(form, other, factor=1):
    """A form and a multiple of another one."""
    terms = form.terms
    if other.terms:
        terms = dict(terms)
        for atom, c in other.terms.items():
            now = terms.get(atom, 0) + factor * c & M32
            if now:
                terms[atom] = now
            else:
                terms.pop(atom, None)
    return form_of(form.constant + factor * other.constant & M32, terms)


def only_atom(form):
    """The atom that is the whole form, or None."""
    terms = form.terms
    if len(terms) == 1 and not form.constant:
        (atom, factor), = terms.items()
        return atom if factor == 1 else None
    return None


def copied(known, _=None):
    """What is known, so that a change of the copy leaves the other as it is: numbers and forms are never changed in place."""
    other = object.__new__(checker.Known)
    other.vlenb, other.vtype, other.words = known.vlenb, known.vtype, known.words
    other.atoms, other.splits = known.atoms.copy(), known.splits.copy()
    other.x, other.facts = known.x.copy(), known.facts.copy()
    return other


def sum_interval(known, form, slow=checker.Known.sum_interval):
    """The interval of a form's sum, with no split where none of its atoms is split."""
    lo = hi = form.constant
    for atom, c in form.terms.items():
        if atom in known.splits:
            return slow(known, form)
        least, most = known.atoms[atom]
        if c >> 31:
            c -= SPAN
            least, most = most, least
        lo += c * least
        hi += c * most
    return lo, hi


def range_of(known, form):
    """A form's range, or None."""
    lo, hi = known.sum_interval(form)
    wraps = lo // SPAN
    return (lo - wraps * SPAN, hi - wraps * SPAN) if wraps == hi // SPAN else None


def fresh(known, range):
    """An atom that is new, as a value: above the last one, as new ones are put behind all others."""
    last = next(reversed(known.atoms), 0)
    atom = max(last, checker.FIRST_FRESH - 1, *(known.atoms if last < checker.FIRST_FRESH else ())) + 1
    known.atoms[atom] = range
    return Value(form_of(0, {atom: 1}), range)


def constant(known, number):
    """A number as a value."""
    number &= M32
    return Value(form_of(number, {}), (number, number))


def times(form, factor):
    """A multiple of a form."""
    return form_of(form.constant * factor & M32, {atom: now for atom, c in form.terms.items() if (now := c * factor & M32)})


def computed(known, form, lo, hi):
    """A value of a form of which interval arithmetic gives these ends."""
    is_word = 0 <= lo and hi <= M32
    if len(form.terms) > TERMS:
        return known.fresh((lo, hi) if is_word else FULL)
    of_form = range_of(known, form)
    if not is_word:
        return Value(form, of_form or FULL)
    return Value(form, of_form and checker.meet((lo, hi), of_form) or (lo, hi))


# ---- Scalar instructions -----------------------------------------------------------------------------------------------------

def offset_sum(s, register, offset):
    """`checker.offset_sum`."""
    form, (lo, hi) = s.x[register]
    return computed(s, form_of(form.constant + offset & M32, form.terms), lo + offset, hi + offset)


def addi(s, f):
    return offset_sum(s, f['rs1'], f['imm'])


def add(s, f):
    (one, a), (two, b) = s.x[f['rs1']], s.x[f['rs2']]
    return computed(s, plus(one, two), a[0] + b[0], a[1] + b[1])


def sub(s, f):
    (one, a), (two, b) = s.x[f['rs1']], s.x[f['rs2']]
    return computed(s, plus(one, two, -1), a[0] - b[1], a[1] - b[0])


def slli(s, f):
    form, (lo, hi) = s.x[f['rs1']]
    factor = 1 << f['imm']
    return computed(s, times(form, factor), lo * factor, hi * factor)


def srli(s, f):
    lo, hi = s.x[f['rs1']].range
    return fresh(s, (lo >> f['imm'], hi >> f['imm']))


def andi(s, f):
    return fresh(s, (0, min(s.x[f['rs1']].range[1], f['imm'] & M32)))


def lui(s, f):
    return constant(s, f['imm'])


def anything(s, _):
    return fresh(s, FULL)


def is_less(s, _):
    return fresh(s, (0, 1))


RESULTS = {'addi': addi, 'add': add, 'sub': sub, 'slli': slli, 'srli': srli, 'andi': andi, 'lui': lui,
           **dict.fromkeys(('xor', 'xori', 'or', 'ori', 'sra', 'srai'), anything), **dict.fromkeys(('slt', 'slti', 'sltu', 'sltiu'), is_less)}


def scalar_result(s, i, f, pc, slow=checker.scalar_result):
    """`checker.scalar_result`, by the instruction's name."""
    result = RESULTS.get(i.name)
    return slow(s, i, f, pc) if result is None else result(s, f)


checker.Form.plus, checker.Form.times, checker.Form.only_atom = plus, times, only_atom
checker.offset_sum, checker.scalar_result = offset_sum, scalar_result
checker.Known.__deepcopy__ = copied     # the checker copies at each branch
checker.Known.sum_interval, checker.Known.range_of = sum_interval, range_of
checker.Known.fresh, checker.Known.constant = fresh, constant
model.decode, model.is_legal = lru_cache(1 << 16)(model.decode), lru_cache(1 << 16)(model.is_legal)


# ---- The start of a block, and what a branch tells ---------------------------------------------------------------------------

ATOMS = [form_of(0, {number: 1}) for number in range(33)]
ANY_ATOMS = dict.fromkeys(range(1, 33), FULL)
ANY = [constant(None, 0), *(Value(form, FULL) for form in ATOMS[1:])]       # what registers may be of which nothing is stated


@lru_cache(1 << 16)
def form_of_sum(equal):
    """The form of a stated sum."""
    return checker.Form(*equal)


@lru_cache(1 << 16)
def stated_number(equal):
    """A stated sum as a value, where it is a number alone."""
    return constant(None, equal[0])


def is_equal(s, number, equal):
    """`checker.is_equal`: whether a stated sum, with what registers are now, is a register's form."""
    constant, terms = equal
    now = {}
    for atom, c in terms:
        if atom >= checker.PASSED:
            now[atom] = now.get(atom, 0) + c
            continue
        form = s.x[atom].form
        constant += c * form.constant
        for other, factor in form.terms.items():
            now[other] = now.get(other, 0) + c * factor
    form = s.x[number].form
    if constant & M32 != form.constant:
        return False
    return {atom: c & M32 for atom, c in now.items() if c & M32} == form.terms


def at_block(certificate, block, vlenb):
    """`checker.at_block`: the ranges of a start's forms are asked for only where an equality or a split may cut them."""
    s = checker.Known(vlenb)
    s.atoms, s.x = {**checker.passed_atoms(certificate), **ANY_ATOMS}, list(ANY)
    intervals, equal = ANY_ATOMS.copy(), []
    for number, lo, hi, total in block.facts:
        intervals[number] = interval = lo, hi
        if total is not None:
            if total[1] or not lo <= total[0] & M32 <= hi:
                equal.append((number, form_of_sum(total)))
            else:
                s.x[number] = stated_number(total)
            del s.atoms[number]
        elif interval != FULL:
            s.atoms[number], s.x[number] = interval, Value(ATOMS[number], interval)
    for order in block.orders:
        checker.split(s, order, intervals[order.s], intervals[order.r])
    for number, form in equal + [(number, ATOMS[number]) for number in s.atoms if number in s.splits]:
        of_form = s.range_of(form)
        s.x[number] = Value(form, of_form and checker.meet(intervals[number], of_form) or intervals[number])
    s.vtype, s.facts = block.vtype, list(block.vectors)
    return s


def refined(s, i, f, taken):
    """`checker.refined`: what is known behind a branch; None where that way can't be gone."""
    one, two = f['rs1'], f['rs2']
    a, b = s.x[one], s.x[two]
    condition = i.name[1:] if taken else checker.OPPOSITE[i.name[1:]]
    if one == two or condition in ('lt', 'ge') and max(a.range[1], b.range[1]) >= 1 << 31:
        return copied(s)
    ranges = checker.related(condition, a.range, b.range)
    if any(lo > hi for lo, hi in ranges):
        return None
    atoms = a.form.only_atom(), b.form.only_atom()
    if atoms[0] is not None and atoms[0] == atoms[1]:
        both = checker.meet(*ranges)
        if both is None:
            return None
        ranges = both, both
    s = copied(s)
    cut(s, one, ranges[0], two, ranges[1])
    return s


def cut(s, one, range_one, two=0, range_two=(0, 0)):
    """Cuts the ranges of two numbers, and what follows for others."""
    cuts = {}
    for number, range_ in ((one, range_one), (two, range_two)):
        form = s.x[number].form
        s.x[number] = Value(form, range_)
        atom = form.only_atom()
        if atom is not None:
            cuts[atom] = range_
    s.atoms.update(cuts)
    touched = set(cuts) | {atom for atom, parts in s.splits.items() if parts[0] in cuts or parts[1] in cuts}
    for number, value in enumerate(s.x):
        if number and (number in (one, two) or not touched.isdisjoint(value.form.terms)):
            of_form = s.range_of(value.form)
            s.x[number] = Value(value.form, of_form and checker.meet(value.range, of_form) or value.range)
