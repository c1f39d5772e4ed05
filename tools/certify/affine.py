"""Which sums of registers hold where a block begins: the affine hull of all that may be there.

A space is a point and directions, over 41 places: 1 to 31 registers, 32 vl, 33 to 40 the values passed. An instruction that keeps a
sum moves point and directions; every other one makes its destination free. Where ways join, the hull of both is taken
(M. Karr, "Affine relationships among variables of a program", 1976). Whole numbers are taken, not those modulo 2^32: what is
found is a guess that a checker judges. A direction is a dict of the places that it changes, with whole numbers without a common factor.
"""
from math import gcd

from outside import checker, model

PLACES = 41
VL, PASSED = checker.VL, checker.PASSED


class Space:
    """All numbers that the places may have: a point plus multiples of the directions."""

    def __init__(self, point, directions):
        self.point, self.directions = point, directions

    def copy(self):
        """The same space; rows are never changed in place."""
        return Space(list(self.point), list(self.directions))

    def constant(self, terms, constant=0):
        """The one number that a sum of places has, or None."""
        if any(sum(factor * d[place] for place, factor in terms.items() if place in d) for d in self.directions):
            return None
        return model.signed(constant + sum(factor * self.point[place] for place, factor in terms.items()), 32)

    def free(self, places):
        """These places may have any number."""
        if not all(d.keys().isdisjoint(places) for d in self.directions):
            kept = ({place: number for place, number in d.items() if place not in places} for d in self.directions)
            self.directions = list(reduced(kept).values())
        self.directions = [*self.directions, *({place: 1} for place in places)]
        for place in places:
            self.point[place] = 0

    def joined(self, other):
        """The hull of both spaces."""
        held = {min(d): d for d in self.directions}
        for row in (self.between(other), *other.directions):
            put(held, row)
        return Space(self.point, list(held.values()))

    def between(self, other):
        """The way from one point to the other."""
        return {place: a - b for place, (a, b) in enumerate(zip(self.point, other.point)) if a != b}

    def holds(self, other):
        """Whether the other space lies in this one."""
        held = {min(d): d for d in self.directions}
        return not any(rest_of(held, row) for row in (self.between(other), *other.directions))

    def sums(self, order):
        """Each place that is a sum of others with whole factors: place -> (constant, ((place, factor), ..)). Places that come first
        in `order` stay free where that can be."""
        ranks, out = {place: k for k, place in enumerate(order)}, {}
        held = reduced(self.directions, lambda place: ranks.get(place, PLACES))
        terms_of = {place: [] for place in range(1, VL + 1) if place not in held}
        for pivot, row in held.items():
            for place, number in row.items():
                if place in terms_of:
                    terms_of[place].append((pivot, number, row[pivot]))
        for place, terms in terms_of.items():
            if len(terms) <= checker.TERMS and all(number % unit == 0 for _, number, unit in terms):
                whole = [(pivot, number // unit) for pivot, number, unit in terms]
                constant = self.point[place] - sum(factor * self.point[pivot] for pivot, factor in whole)
                factors = sorted((pivot, factor & checker.M32) for pivot, factor in whole)
                out[place] = constant & checker.M32, tuple(term for term in factors if term[1])
        return out


def cleared(other, row, column):
    """A row less the multiple of the other that leaves nothing in a column."""
    if column not in other:
        return other
    shared = gcd(row[column], other[column])
    times, less = row[column] // shared, other[column] // shared
    out = {place: times * number for place, number in other.items()} if times != 1 else dict(other)
    for place, number in row.items():
        now = out.get(place, 0) - less * number
        if now:
            out[place] = now
        else:
            out.pop(place, None)
    shared = gcd(*out.values()) if out else 1
    return {place: number // shared for place, number in out.items()} if shared > 1 else out


def rest_of(held, row):
    """What is left of a row without those that are held."""
    for column in [column for column in row if column in held]:
        row = cleared(row, held[column], column)
    return row


def put(held, row, rank=None):
    """Adds a row to those that are held by their pivots: each has its pivot as its first place, which no other one has. rank: what the order
    of places is by."""
    row = rest_of(held, row)
    if row:
        pivot = min(row, key=rank)
        for column, other in held.items():
            if pivot in other:
                held[column] = cleared(other, row, pivot)
        held[pivot] = row


def reduced(rows, rank=None):
    """The rows in reduced echelon form, by their pivots."""
    held = {}
    for row in rows:
        put(held, row, rank)
    return held


def at_entry(certificate):
    """What is there at the start of a run."""
    known = checker.at_entry(certificate, certificate.vlen // 8)
    space = Space([0] * PLACES, [])
    for number, value in enumerate(known.x):
        if not value.form.terms:
            space.point[number] = model.signed(value.form.constant, 32)
    for place, param in enumerate(certificate.params):
        if param.kind == 'scalar':
            space.directions.append({10 + place: 1, PASSED + place: 1})
    return space


class Effect:
    """What a block's words make of the places: each that it sets as a sum of those of its start, and of new ones above them."""

    def __init__(self, space):
        self.space, self.of, self.new, self.is_fixed = space, {}, PLACES, True

    def sum_of(self, place):
        """A place now: (constant, terms)."""
        return self.of.get(place) or ((0, {place: 1}) if place else (0, {}))

    def constant(self, place):
        """The one number that a place has now, or None: what it has may differ from one start to another."""
        constant, terms = self.sum_of(place)
        if not terms:
            return model.signed(constant, 32)
        self.is_fixed = False
        return self.space.constant(terms, constant) if max(terms) < PLACES else None

    def assign(self, place, parts, constant=0):
        """The place becomes a sum of places and a constant."""
        terms = {}
        for other, factor in parts:
            more, among = self.sum_of(other)
            constant += factor * more
            for atom, number in among.items():
                terms[atom] = terms.get(atom, 0) + factor * number
        self.of[place] = model.signed(constant, 32), {atom: number for atom, number in terms.items() if number}

    def free(self, place):
        """The place may have any number."""
        self.of[place] = 0, {self.new: 1}
        self.new += 1

    def on(self, space, live):
        """The space behind the block. live: the places of which something is asked there; all others stand at 0."""
        uses, left = {}, live - self.of.keys()
        for place, (_, terms) in self.of.items():
            for atom, factor in terms.items() if place in live else ():
                uses.setdefault(atom, []).append((place, factor))
        rows = [moved(d, uses, left) for d in space.directions]
        rows += [moved({atom: 1}, uses, left) for atom in uses if atom >= PLACES]
        point = [number if place in left else 0 for place, number in enumerate(space.point)]
        for place in live & self.of.keys():
            constant, terms = self.of[place]
            point[place] = model.signed(constant + sum(f * space.point[a] for a, f in terms.items() if a < PLACES), 32)
        return Space(point, list(reduced(filter(None, rows)).values()))


def moved(direction, uses, left):
    """A direction behind a block that leaves these places as they were. uses: atom -> the places whose sums have it, with its factor."""
    out = {place: number for place, number in direction.items() if place in left}
    for atom, number in direction.items():
        for place, factor in uses.get(atom, ()):
            out[place] = out.get(place, 0) + factor * number
    return {place: number for place, number in out.items() if number}


def effect(words, space, vlenb):
    """What the words of a block make of the places."""
    now = Effect(space)
    for pc, i, f in words:
        step(now, i, f, pc, vlenb)
    return now


def step(now, i, f, pc, vlenb):
    """An instruction: changes the effect. Ways out of a block change nothing but a link."""
    rd = f.get('rd', 0)
    terms, constant = sum_of(now, i, f, pc, vlenb)
    if i.shape == 'vset':
        if f.get('rs1', 1) or rd:
            now.free(VL)
        if rd:
            now.assign(rd, [(VL, 1)])
    elif terms is not None and rd:
        now.assign(rd, terms, constant)
    elif rd:
        now.free(rd)


def sum_of(now, i, f, pc, vlenb):
    """The sum that an instruction puts into rd: places with factors, and a constant; or None."""
    one, two = f.get('rs1', 0), f.get('rs2', 0)
    if i.name == 'lui':
        return [], f['imm']
    if i.name == 'auipc':
        return [], pc + f['imm']
    if i.shape in ('jal', 'jalr'):
        return [], pc + 4
    if i.name == 'addi':
        return [(one, 1)], f['imm']
    if i.name in ('add', 'sub'):
        return [(one, 1), (two, 1 if i.name == 'add' else -1)], 0
    if i.name == 'slli':
        return [(one, 1 << f['imm'])], 0
    if i.name in ('mul', 'sll'):
        factor, other = now.constant(two), one
        if factor is None and i.name == 'mul':
            factor, other = now.constant(one), two
        if factor is not None:
            return [(other, factor if i.name == 'mul' else 1 << int(factor) % 32)], 0
    if i.shape == 'csr' and f['csr'] == 0xc20:
        return [(VL, 1)], 0
    if i.shape == 'csr' and f['csr'] == 0xc22:
        return [], vlenb
    return None, 0
