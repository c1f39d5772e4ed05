"""Budgets: how many instructions a run may still take, for each block, by longest paths.

In a loop a register is looked for that falls on some of the ways round and rises on none. Without those ways what is left is
walked again, with another register where a loop is left; so a budget names as many registers as loops stand within one another.
"""
from collections import namedtuple

import flow
from outside import checker, model

ROOM = 2
LIFTS = 4           # how often a loop's constants may grow, by the number of its ways
NOTHING_FALLS = 'no register falls on any way round this loop and rises on none'
TOO_DEEP = 'more than two loops stand within one another'
TOO_GREAT = 'its numbers are above 2^32'
NOT_SHOWN = 'on some way both ends and sums are needed to show that it is paid'


class NoBudget(Exception):
    """Why there is none: a loop's blocks, and what is wrong with it."""

    def __init__(self, loop, why):
        super().__init__(why)
        self.loop, self.why = loop, why


class Budget(namedtuple('Budget', 'constant factors')):
    """A constant and multiples of registers."""

    def more(self, constant=0, register=None, factor=0):
        factors = dict(self.factors)
        if register:
            factors[register] = factors.get(register, 0) + factor
        return Budget(self.constant + constant, {r: k for r, k in factors.items() if k})

    def is_written(self):
        """Whether its numbers have 32 bits each."""
        return max(self.constant, *self.factors.values(), 0) <= checker.M32

    def most(self, other):
        both = self.factors.keys() | other.factors.keys()
        return Budget(max(self.constant, other.constant),
                      {r: max(self.factors.get(r, 0), other.factors.get(r, 0)) for r in both})


NOTHING = Budget(0, {})


def at_least(edge, constant, parts):
    """The least that a sum of forms is on a way, in whole numbers; None where the forms do not say it."""
    total = checker.whole_sum(edge.known, constant, parts)
    return None if total is None else checker.interval_of(*total, edge.known.atoms)[0]


def fall(edge, register):
    """By how much a register falls at least from the block's start to the end of this way; below 0 where it may rise."""
    before, after = edge.start[register], edge.known.x[register]
    by_ends = before.range[0] - after.range[1]
    if before.form is after.form and before.form.only_atom() is not None:
        return max(by_ends, 0)
    by_forms = at_least(edge, 0, ((1, before.form), (-1, after.form)))
    return by_ends if by_forms is None else max(by_ends, by_forms)


def spare(edge, have, need):
    """What is left of a budget behind the words of a way and the budget of its end."""
    ends = have.constant - edge.words - need.constant
    by_ends = (ends + sum(k * edge.start[r].range[0] for r, k in have.factors.items())
               - sum(k * edge.known.x[r].range[1] for r, k in need.factors.items()))
    parts = [(k, edge.start[r].form) for r, k in have.factors.items()] + [(-k, edge.known.x[r].form) for r, k in need.factors.items()]
    by_forms = at_least(edge, ends, parts)
    return by_ends if by_forms is None else max(by_ends, by_forms)


def over(edge, need, room):
    """A budget at the start of a way that pays for its words and what is needed at its end."""
    state = edge.known
    by_ends = edge.words + need.constant + sum(k * state.x[r].range[1] for r, k in need.factors.items())
    total = checker.whole_sum(state, edge.words + need.constant, [(k, state.x[r].form) for r, k in need.factors.items()])
    if total is None:
        return lowered(edge, Budget(by_ends, {}), room)
    budget = Budget(total[0], {})
    for atom, k in total[1].items():
        register = next((r for r in range(1, 32) if edge.start[r].form.only_atom() == atom), None)
        if register and k > 0:
            budget = budget.more(0, register, k)
        else:
            budget = budget.more(max(k * end for end in state.atoms[atom]))
    if by_ends <= checker.M32 < budget.constant + sum(k * edge.start[r].range[1] for r, k in budget.factors.items()):
        return Budget(by_ends, {})      # (the way tells how great a register is; what comes before its block need not)
    return lowered(edge, narrowed(edge, budget, room) if budget.factors else Budget(min(by_ends, budget.constant), {}), room)


def narrowed(edge, budget, room):
    """At most so many registers: those that weigh least become what they are at most."""
    if len(budget.factors) <= room:
        return budget
    register = min(budget.factors, key=lambda r: budget.factors[r] * edge.start[r].range[1])
    return narrowed(edge, budget.more(budget.factors[register] * edge.start[register].range[1], register,
                                      -budget.factors[register]), room)


def lowered(edge, budget, room):
    """Pays what is above 32 bits of the constant by a register that holds one great number, as the address of a buffer."""
    numbers = {r: edge.start[r].range[0] for r in range(1, 32) if 0 < edge.start[r].range[0] == edge.start[r].range[1]}
    if budget.constant <= checker.M32 or not room or not numbers:
        return budget
    register = max(numbers, key=lambda r: (r in budget.factors, 10 <= r < 18, numbers[r]))
    if register not in budget.factors:
        budget = narrowed(edge, budget, room - 1)
    factor = -(-(budget.constant - checker.M32) // numbers[register])
    return budget.more(-factor * numbers[register], register, factor)


class Budgets:
    """edges: all ways; of: block -> its budget, which `solve` fills; watch: who looks on, if anyone."""

    def __init__(self, edges, watch=None):
        self.edges, self.of, self.watch, self.falls = edges, {}, watch, {}

    def fall(self, edge, register):
        """By how much a register falls at least on a way, which is asked for again at each loop around it."""
        key = id(edge), register
        if key not in self.falls:
            self.falls[key] = fall(edge, register)
        return self.falls[key]

    def need(self, edge):
        return NOTHING if edge.target == model.EXIT else self.of[edge.target]

    def solve(self, blocks, edges, room=ROOM):
        """Budgets for these blocks, of which these ways count; all others to where they lead are known."""
        leads, ways = {}, {}
        for edge in edges:
            ways.setdefault(edge.source, []).append(edge)
            if edge.target in blocks:
                leads.setdefault(edge.source, set()).add(edge.target)
        for part in flow.components(blocks, leads):
            out_of = [e for block in part for e in ways.get(block, ())]
            inner = [e for e in out_of if e.target in part]
            if inner:
                self.loop(part, out_of, inner, room)
                continue
            block, = part
            out = NOTHING
            for edge in out_of:
                out = out.most(over(edge, self.need(edge), room))
            if not out.is_written():
                raise NoBudget(part, TOO_GREAT)
            self.of[block] = out

    def loop(self, part, edges, inner, room):
        if self.watch:
            self.watch.check()
        counters = self.counters(part, inner)
        if not counters:
            raise NoBudget(part, NOTHING_FALLS)
        if not room:
            raise NoBudget(part, TOO_DEEP)
        trouble = None
        for register in counters:
            falling = [e for e in inner if self.fall(e, register) > 0]
            paid = set(map(id, falling))
            try:
                self.solve(part, [e for e in edges if id(e) not in paid], room - 1)
                self.raised(part, edges, falling, register)
                return
            except NoBudget as e:
                trouble = trouble or e
        raise trouble

    def counters(self, part, inner):
        """The registers that fall somewhere in a loop and never rise, those first that leave no loop behind."""
        def loops_left(register):
            leads = {}
            for e in inner:
                if self.fall(e, register) <= 0:
                    leads.setdefault(e.source, set()).add(e.target)
            return any(len(p) > 1 or set(p) & leads.get(next(iter(p)), set()) for p in flow.components(part, leads))
        good = [r for r in range(1, 32) if self.is_falling(r, inner)]
        width = lambda r: max(e.start[r].range[1] for e in inner)
        return sorted(good, key=lambda r: (loops_left(r), width(r), r))

    def is_falling(self, register, inner):
        """Whether a register falls on one of these ways and rises on none."""
        most = 0
        for edge in inner:
            by = self.fall(edge, register)
            if by < 0:
                return False
            most = max(most, by)
        return most > 0

    def factor(self, falling, register):
        """The multiple of a register that pays for the ways on which it falls."""
        return max(1, *(-(spare(edge, self.of[edge.source], self.of[edge.target]) // self.fall(edge, register)) for edge in falling))

    def lift(self, inner, paid):
        """Leaves to the ways within a loop that a multiple pays for no more than that, as {id of a way: it}: all else stands in the constants, so
        that what comes behind the loop is not paid for in each round. As it was, where that does not settle."""
        comes, older, left = {}, dict(self.of), LIFTS * len(inner)
        for edge in inner:
            comes.setdefault(edge.target, []).append(edge)
        todo = [edge for edge in inner if id(edge) in paid]
        while todo:
            edge = todo.pop()
            short = -spare(edge, self.of[edge.source], self.of[edge.target]) - paid.get(id(edge), 0)
            if short > 0:
                self.of[edge.source] = self.of[edge.source].more(short)
                todo += comes.get(edge.source, ())
                left -= 1
            if left < 0:
                self.of = older
                return

    def raised(self, part, edges, falling, register):
        """Adds the multiple of the register that pays for the ways on which it falls. Where what comes behind the loop asks for a multiple of
        another register, that stands in all blocks, if it can: else the ways back would pay for it anew."""
        others = {r for block in part for r in self.of[block].factors if r != register}
        older = {block: self.of[block] for block in part}
        for other in others if len(others) == 1 else ():
            self.spread(part, other)
            self.raise_by(part, edges, falling, register)
            if self.trouble(part, edges) is None:
                return
            self.of.update(older)
        self.raise_by(part, edges, falling, register)
        if why := self.trouble(part, edges):
            raise NoBudget(part, why)

    def trouble(self, part, edges):
        """Why the budgets of a loop do not do, or None."""
        if not all(self.of[block].is_written() for block in part):
            return TOO_GREAT
        return None if all(spare(edge, self.of[edge.source], self.need(edge)) >= 0 for edge in edges) else NOT_SHOWN

    def spread(self, part, register):
        """Gives all blocks the greatest multiple of a register that one of them has."""
        most = max(self.of[block].factors.get(register, 0) for block in part)
        for block in part:
            self.of[block] = self.of[block].more(0, register, most - self.of[block].factors.get(register, 0))

    def raise_by(self, part, edges, falling, register):
        """Adds the multiple of the register, and takes away what is too much. What comes behind the loop may ask for a multiple of it, which
        then stands in all blocks."""
        self.spread(part, register)
        factor = self.factor(falling, register)
        inner = [edge for edge in edges if edge.target in part]
        words = sum(edge.words for edge in inner)
        if factor > words:
            self.lift(inner, {id(edge): words * self.fall(edge, register) for edge in falling})
            factor = self.factor(falling, register)
        for block in part:
            self.of[block] = self.of[block].more(0, register, factor)
        less = min(self.of[block].constant for block in part)
        for edge in edges:
            if edge.target not in part:
                less = min(less, spare(edge, self.of[edge.source], self.need(edge)))
        for block in part:
            self.of[block] = self.of[block].more(-max(less, 0))
