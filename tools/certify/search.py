"""The search for a certificate: guesses of what holds where each block begins, made weaker until they hold on every way in.

Sums of registers come from `affine`; intervals, the vector type and facts on vector registers from a fixpoint over the second
checker's own steps, with widening, and then taken back; orders are guessed and dropped where a way in does not show them;
budgets come from `budgets`. Nothing here is trusted: what comes out is judged by a checker.
"""
import heapq
from collections import Counter, namedtuple

import advice
import affine
import budgets
import flow
import quick
from outside import certificates, checker, model

FULL, VL, PASSED = certificates.FULL, checker.VL, checker.PASSED
BEFORE_WIDENING, MOST_MARKS, ROUNDS_BACK, MOST_ROUNDS = 4, 8, 4, 400

# One way to search: which registers are to stay free in sums, whether registers that are not read any more count, which orders,
# and whether blocks begin at branches and computed lengths as well.
Plan = namedtuple('Plan', 'free dead orders cuts')
PLANS = [Plan('lengths', False, 'none', False), Plan('lengths', False, 'lengths', False), Plan('lengths', False, 'none', True),
         Plan('counters', False, 'branches', True), Plan('lengths', True, 'none', False), Plan('pointers', False, 'branches', False),
         Plan('lengths', False, 'all', True), Plan('lengths', True, 'all', True)]


class OutOfTime(Exception):
    """The time that was allowed for a search has passed."""


class Watch:
    """What looks on while a search works: this one tells nothing and never stops it."""

    def tell(self, text):
        """What the search does now."""

    def check(self):
        """Raises OutOfTime where the search is to stop."""


# What came out. certificate: the best that was found. answer: what the second checker says of it. trouble: why there is no budget.
Found = namedtuple('Found', 'certificate answer trouble plan finder')


class Guess:
    """What is guessed of a block's start. edges: the ways out, until the guess changes."""

    def __init__(self, known, sums, orders, wanted):
        self.x = [value.range if n in wanted else FULL for n, value in enumerate(known.x)]
        self.vtype, self.vectors = known.vtype, list(known.facts)
        self.sums, self.orders, self.wanted, self.visits, self.edges = sums, orders, wanted, 0, None
        self.bounded = [n for n in wanted if self.x[n] != FULL]
        self.times = {}                 # register -> how often its interval was made wider than it had to be
        self.counted = None, None       # how many sums there are, which only go, and their number below

    def widened(self, n):
        """How often a register's interval has been made wider than it had to be, with this time."""
        self.times[n] = self.times.get(n, 0) + 1
        return self.times[n]

    def key(self, numbers):
        """What the guess states, for look-ups: equal keys of one block state the same. numbers: of sums that were met before, as a number is
        looked up faster."""
        if self.counted[0] != len(self.sums):
            self.counted = len(self.sums), numbers.setdefault(tuple(self.sums.items()), len(numbers))
        return tuple(self.x), self.vtype, tuple(self.vectors), self.counted[1], self.orders, self.wanted


class Shared:
    """What the searches of one image share: walks, and what was settled of equal guesses."""

    def __init__(self, image, frame, walks=None):
        self.image, self.frame, self.walks = image, frame, walks
        self.explorers, self.flows, self.spaces, self.settled, self.judgements, self.numbers = {}, {}, {}, {}, {}, {}

    def explorer(self, starts):
        """The explorer of blocks that begin here."""
        key = frozenset(starts)
        if key not in self.explorers:
            self.explorers[key] = flow.Explorer(self.image, self.frame, self.walks)
            self.explorers[key].blocks = dict.fromkeys(key)
        return self.explorers[key]


def hull(a, b):
    """The least interval around two."""
    return min(a[0], b[0]), max(a[1], b[1])


class Finder:
    """One search by one plan. shared: what other searches of this image have found; watch: who looks on; walks: those of other images."""

    def __init__(self, image, params, vlen, plan, shared=None, watch=None, walks=None):
        self.image, self.plan, self.vlenb = image, plan, vlen // 8
        params = list(params) + [certificates.Param('none')] * (8 - len(params))
        self.frame = certificates.Certificate(vlen, params, [], 1)
        self.shared, self.watch = shared or Shared(image, self.frame, walks), watch or Watch()
        self.starts = flow.starts_of(image, [image.entry])
        if plan.cuts:
            self.starts |= flow.cuts_of(image, self.starts)
        self.guesses, self.sums, self.orders, self.shown = {}, {}, {}, {}
        self.marks, self.explorer = marks_of(image, params), self.shared.explorer(self.starts)
        self.at_entry = checker.at_entry(self.frame, self.vlenb)

    # ---- Intervals, vector types and facts ------------------------------------------------------------------------------

    def wanted(self, start):
        """The registers of which a block states something."""
        return frozenset(self.live[start] | self.sums.get(start, {}).keys() | {n for o in self.orders.get(start, ()) for n in o})

    def block(self, start, budget=budgets.NOTHING):
        """What is guessed of a block, as a certificate states it."""
        guess = self.guesses[start]
        facts = [certificates.RegisterFact(n, *guess.x[n], guess.sums.get(n)) for n in range(1, 33)
                 if n in guess.wanted and (guess.x[n] != FULL or n in guess.sums)]
        factors = sorted(budget.factors.items()) + 2 * [(0, 0)]
        (r, k), (r2, k2) = factors[:2]
        return certificates.Block(start, budget.constant, k, r, guess.vtype, tuple(facts), tuple(sorted(guess.vectors)[:32]), k2, r2,
                                  guess.orders)

    def edges(self, start):
        """The ways out of a block by its guess."""
        guess = self.guesses[start]
        if guess.edges is None:
            self.watch.check()
            key = start, guess.key(self.shared.numbers)
            guess.edges = self.explorer.known.get(key)
            if guess.edges is None:
                guess.edges = self.explorer.known[key] = self.explorer.edges(self.block(start))
        return guess.edges

    def intervals(self):
        """The fixpoint, from the entry on. Whether all targets are blocks; where one is not, it is added."""
        self.explorer = self.shared.explorer(self.starts)
        self.guesses = {}
        self.enter(self.at_entry, self.image.entry)
        todo, waiting, rounds = [self.image.entry], {self.image.entry}, 0
        while todo and rounds < MOST_ROUNDS * len(self.starts):
            rounds += 1
            start = heapq.heappop(todo)
            waiting.discard(start)
            for edge in self.edges(start):
                if edge.target in (None, model.EXIT):
                    continue
                if edge.target not in self.starts:
                    self.starts.add(edge.target)
                    return False
                if self.enter(edge.known, edge.target) and edge.target not in waiting:
                    waiting.add(edge.target)
                    heapq.heappush(todo, edge.target)
        seen = {}
        for _ in range(ROUNDS_BACK):
            if not self.take_back(seen):
                break
        return True

    def enter(self, s, target):
        """Makes the guess of a block hold on this way in too: whether that changed it."""
        guess = self.guesses.get(target)
        if guess is None:
            orders = self.orders.get(target, ())
            self.guesses[target] = Guess(s, self.sums.get(target, {}), orders, self.wanted(target))
            return True
        guess.visits += 1
        is_wide = guess.visits > BEFORE_WIDENING
        is_changed = False
        for n in guess.bounded:
            old, new = guess.x[n], s.x[n].range
            if new[0] < old[0] or new[1] > old[1]:
                guess.x[n], is_changed = self.widened(old, hull(old, new), is_wide and guess.widened(n)), True
        if is_changed:
            guess.bounded = [n for n in guess.bounded if guess.x[n] != FULL]
        vtype = guess.vtype if guess.vtype == s.vtype else None
        vectors = [fact for fact in (met_fact(s, fact, is_wide) for fact in guess.vectors) if fact]
        if is_changed or (vtype, vectors) != (guess.vtype, guess.vectors):
            guess.vtype, guess.vectors, guess.edges = vtype, vectors, None
            return True
        return False

    def widened(self, old, new, times):
        """A wider interval: to the next marks where it has been made wider often, and to all numbers where that did not end it. times: how often
        it was made so."""
        if not times:
            return new
        if times > MOST_MARKS:
            return old[0] if new[0] == old[0] else 0, old[1] if new[1] == old[1] else checker.M32
        lo = new[0] if new[0] == old[0] else max(mark for mark in self.marks if mark <= new[0])
        hi = new[1] if new[1] == old[1] else min(mark for mark in self.marks if mark >= new[1])
        return lo, hi

    def take_back(self, seen):
        """Narrows intervals to what the ways in give, where one has changed since it was seen: whether that changed any."""
        ways = {self.image.entry: [self.at_entry]}
        for edge in self.all_edges():
            ways.setdefault(edge.target, []).append(edge.known)
        is_changed = False
        for target, guess in self.guesses.items():
            known = ways.get(target, [])
            if not known or seen.get(target) == (ids := [id(s) for s in known]):
                continue
            seen[target] = ids
            for n in guess.wanted:
                ranges = [s.x[n].range for s in known]
                lo, hi = min(r[0] for r in ranges), max(r[1] for r in ranges)
                now = checker.meet(guess.x[n], (lo, hi)) or guess.x[n]
                if now != guess.x[n]:
                    guess.x[n], guess.edges, is_changed = now, None, True
        return is_changed

    def all_edges(self):
        """The ways out of all blocks, in the order of their addresses."""
        return [edge for start in sorted(self.guesses) for edge in self.edges(start)]

    # ---- Sums and orders -------------------------------------------------------------------------------------------------

    def settle_flow(self):
        """The words of each block, where they lead, and which registers matter."""
        if self.plan.cuts not in self.shared.flows:
            self.live = EveryRegister()
            self.settle_blocks()
            self.shared.flows[self.plan.cuts] = self.starts, self.words, self.targets, Uses(self.words), self.loops_around()
        starts, self.words, self.targets, self.uses, self.loops = self.shared.flows[self.plan.cuts]
        self.starts, self.moved = set(starts), {}
        self.live = EveryRegister(flow.live_at(self.words, self.targets))
        if self.plan.dead:
            self.live = EveryRegister((start, set(range(1, 33))) for start in self.live)

    def settle_blocks(self):
        """The fixpoint, with as many blocks as it takes."""
        while not self.intervals():
            pass
        self.words = {start: flow.words_of(self.image, start, self.starts) for start in self.guesses}
        self.targets = {start: {e.target for e in self.edges(start)} for start in self.guesses}

    def loops_around(self):
        """The loops, each with the registers that its blocks set."""
        leads = {start: to & self.words.keys() for start, to in self.targets.items()}
        wrote = {start: set().union(*(flow.used_and_set(i, f)[1] for _, i, f in words)) for start, words in self.words.items()}
        return [(loop, set().union(*(wrote[block] for block in loop))) for loop in flow.loops(self.words, leads)]

    def spaces(self):
        """The affine hull at each block's start."""
        key = self.plan.dead, frozenset(self.starts), frozenset((start, frozenset(to)) for start, to in self.targets.items())
        if key not in self.shared.spaces:
            self.shared.spaces[key] = self.hulls()
        return self.shared.spaces[key]

    def hulls(self):
        """The affine hull at each block's start, from the entry on."""
        spaces, todo, effects = {self.image.entry: affine.at_entry(self.frame)}, [self.image.entry], {}
        while todo:
            self.watch.check()
            start = heapq.heappop(todo)
            if start not in effects or not effects[start].is_fixed:
                effects[start] = affine.effect(self.words[start], spaces[start], self.vlenb)
            targets = self.targets.get(start, set()) & self.words.keys()
            space = effects[start].on(spaces[start], {*range(PASSED, affine.PLACES)}.union(*(self.live[target] for target in targets)))
            for target in targets:
                if target in spaces and (not self.live[target] or spaces[target].holds(space)):
                    continue
                spaces[target] = spaces[target].joined(space) if target in spaces else space.copy()
                if target not in todo:
                    heapq.heappush(todo, target)
        return spaces

    def find_sums(self):
        """Guesses the sums of each block."""
        self.shown = {}
        self.sums = {start: {} for start in self.words}
        self.sums.update((start, self.sums_at(start, space.copy())) for start, space in self.spaces().items())

    def sums_at(self, start, space):
        """The sums at a block's start, with those registers free that the plan names."""
        live = self.live[start]
        space.free(set(range(1, 33)) - live)
        rank = lambda n: (n not in live, *self.rank_at(start, n))
        return space.sums(list(range(PASSED, PASSED + 8)) + sorted(range(1, 33), key=rank))

    def rank_at(self, start, n):
        """How soon a register is to stay free in sums at a block's start."""
        if start not in self.moved:
            self.moved[start] = Counter(n for loop, wrote in self.loops if start in loop for n in wrote)
        return self.uses.rank(self.plan, n, self.moved[start][n])

    def guess_orders(self):
        """For each block the orders that may hold: of a register at most one in which it is the greater."""
        pairs = []
        if self.plan.orders in ('lengths', 'all'):
            pairs += [(f['rs1'], VL) for i, f in self.uses.words if i.shape == 'vset' and f.get('rs1')]
        if self.plan.orders in ('branches', 'all'):
            both = [(f['rs1'], f['rs2']) for i, f in self.uses.words if i.shape == 'branch' and f['rs1'] and f['rs2']]
            pairs += both + [(two, one) for one, two in both]
        for start in self.words:
            live, sums, orders = self.live[start], self.sums[start], {}
            for greater, lesser in pairs:
                if {greater, lesser} <= live - sums.keys() and greater not in orders and greater != lesser:
                    orders[greater] = certificates.OrderFact(greater, lesser)
            self.orders[start] = tuple(orders[greater] for greater in sorted(orders))

    def drop_what_fails(self):
        """Drops the sums and orders that a way in does not show. Whether all stood. Each way is asked once, since sums and orders only go."""
        is_all, asked = True, [e for e in self.all_edges() if e.target in self.guesses and id(e) not in self.shown]
        ways = [(checker.at_entry(self.frame, self.vlenb), self.image.entry, ())]
        ways += [(e.known, e.target, e.told) for e in asked]
        self.shown.update((id(e), e) for e in asked)
        for known, target, told in ways:
            for number, equal in list(self.sums.setdefault(target, {}).items()):
                if not quick.is_equal(known, number, equal):
                    del self.sums[target][number]
                    self.guesses[target].edges, is_all = None, False
            for order in self.orders.get(target, ()):
                if order not in told and not checker.is_in_order(known, known.x[order.s], known.x[order.r]):
                    self.guesses[target].orders = self.orders[target] = tuple(o for o in self.orders[target] if o != order)
                    self.guesses[target].edges, is_all = None, False
        return is_all

    # ---- The whole ---------------------------------------------------------------------------------------------------------

    def find(self):
        """The search by this plan."""
        self.settle_flow()
        for _ in range(2):
            self.find_sums()
            self.guess_orders()
            self.settle()
        key = id(self.guesses)
        if key not in self.shared.judgements:
            self.shared.judgements[key] = self.judgement()
        self.edge_list, self.budgets, certificate, answer, trouble = self.shared.judgements[key]
        return Found(certificate, answer, trouble, self.plan, self)

    def judgement(self):
        """The ways, the budgets, the certificate, what the second checker says of it, and why there is no budget."""
        self.edge_list = self.all_edges()
        self.budgets, trouble = budgets.Budgets(self.edge_list, self.watch), None
        try:
            self.budgets.solve(set(self.guesses), [e for e in self.edge_list if e.target is not None])
        except (budgets.NoBudget, KeyError) as e:
            trouble = e
        certificate = self.certificate()
        return self.edge_list, self.budgets, certificate, judged(self.image, certificate), trouble

    def settle(self):
        """The fixpoint with the sums and orders, as often as one of them has to go; at once where these guesses were settled before."""
        parts = (self.starts, {start: tuple(sums.items()) for start, sums in self.sums.items()}, self.orders,
                 {start: frozenset(live) for start, live in self.live.items()})
        key = tuple(frozenset(part.items() if isinstance(part, dict) else part) for part in parts)
        if key not in self.shared.settled:
            is_settled = False
            while not is_settled:
                self.settle_blocks()
                is_settled = self.drop_what_fails()
                while not is_settled and not self.drop_what_fails():
                    pass    # what fails without what has just gone goes at once, before intervals are asked for again
            self.shared.settled[key] = self.starts, self.guesses, self.words, self.targets, self.sums, self.orders
        starts, self.guesses, self.words, self.targets, self.sums, orders = self.shared.settled[key]
        self.starts, self.orders = set(starts), dict(orders)
        self.explorer = self.shared.explorer(self.starts)

    def certificate(self):
        """What was guessed, as a certificate."""
        budget_of = {start: budget for start, budget in self.budgets.of.items() if budget.is_written()}
        blocks = [self.block(start, budget_of.get(start, budgets.NOTHING)) for start in sorted(self.guesses)]
        version = 2 if any(b.orders or b.k2 for b in blocks) else 1
        return self.frame._replace(blocks=blocks, version=version)


class Uses:
    """What a kernel does with its registers."""

    def __init__(self, words):
        self.words = [(i, f) for block in words.values() for _, i, f in block]
        self.lengths = {f['rs1'] for i, f in self.words if i.shape == 'vset' and 'rs1' in i.syntax}
        self.counters = {f[name] for i, f in self.words if i.shape == 'branch' for name in ('rs1', 'rs2')}
        self.pointers = {f['rs1'] for i, f in self.words if i.shape.lstrip('v').startswith(('load', 'store'))}
        self.falls = {f['rd'] for i, f in self.words if i.name == 'sub' or i.name == 'addi' and f['imm'] < 0}

    def rank(self, plan, n, moves):
        """How soon a register is to stay free in sums, which is moved in so many of the loops around."""
        if plan.free == 'counters':
            return n not in self.counters, n not in self.lengths, n == VL, moves, n in self.pointers, n
        if plan.free == 'pointers':
            return n not in self.pointers, n == VL, moves, n
        return n != VL, n not in self.lengths, n not in self.falls, moves, n in self.pointers, n not in self.counters, n


class EveryRegister(dict):
    """What counts before anything is known of it: all registers."""

    def __missing__(self, start):
        return set(range(1, 33))


def met_fact(s, fact, is_wide):
    """A fact on vector registers, as far as it holds on this way too."""
    for held in s.facts:
        if (held.register, held.width, held.registers) != (fact.register, fact.width, fact.registers):
            continue
        count = fact.count
        if not checker.implies(s, held, fact._replace(lo=held.lo, hi=held.hi)):
            count = held.count or s.vl[0]
            if not count or fact.count and count > fact.count:
                return None
        lo, hi = hull((fact.lo, fact.hi), (held.lo, held.hi))
        if is_wide and (lo, hi) != (fact.lo, fact.hi) or (lo, hi) == (0, (1 << fact.width) - 1):
            return None
        return fact._replace(count=count, lo=lo, hi=hi)
    return None


def marks_of(image, params):
    """The numbers at which intervals rest when they are widened."""
    marks = {0, 1, (1 << 31) - 1, 1 << 31, checker.M32, 0x2fff0000, 0x30000000, model.EXIT}
    for segment in image.segments:
        marks |= {segment.first, segment.end}
    for _, address, size, _ in checker.buffers(params):
        marks |= {address, address + size}
    for param in params:
        if param.kind == 'scalar':
            marks |= {param.a, param.b}
    return sorted(marks)


def judged(image, certificate):
    """What the second checker says: 'accepted', or its refusal."""
    try:
        certificates.read_certificate(certificates.certificate_bytes(certificate))
        checker.Walk(image, certificate).run()
    except certificates.Refused as e:
        return e.text
    return 'accepted'


def find(image, params, vlen, watch=None):
    """The first certificate that the second checker accepts, else the one with which the search came furthest."""
    best, least, shared, seen = None, None, None, set()
    for number, plan in enumerate(PLANS):
        if watch:
            watch.tell(f'search at VLEN {vlen}, plan {number + 1} of {len(PLANS)}')
        finder = Finder(image, params, vlen, plan, shared, watch)
        shared = finder.shared
        found = finder.find()
        if found.answer == 'accepted':
            return found
        if id(finder.guesses) in seen:
            continue
        seen.add(id(finder.guesses))
        wrong = len(list(advice.misfits(image, found.certificate))), found.trouble is not None
        if best is None or wrong < least:
            best, least = found, wrong
    return best
