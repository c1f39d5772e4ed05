"""What makes a loop end: counters beside it, or fuel, and tests before it of where its pointers will stand."""
import budgets
import counters
import flow
from guided import Walked
from kinds import COUNT, End, NoRegister, Test
from outside import model, table
from program import ZERO, Branch, word

UNKNOWN = (1 << 32) - (1 << 12)     # how great a number may be of which nothing is known
LITTLE = 1 << 12, 1 << 10       # fuel of which a run tells later whether it is enough
GREAT = 1 << 24         # rounds that no loop is taken to have
LONGEST = 1 << 38       # steps of half an hour
PATIENCE = 8            # rounds in which loops around one get fuel one after another, as in recursions there are many of them


class Pace:
    """What a maker puts in for a budget."""

    def settle_counters(self):
        """Gives each counter its registers; one for which none are left goes."""
        wanted = sorted([*self.counters.items(), *self.rests.items()], key=lambda item: -self.loop_of[self.head_of(item[0])].depth)
        older, self.counters, self.rests = (self.counters, self.rests), {}, {}
        for name, counter in wanted:
            need = counters.needs(counter)
            free = self.free(self.loop_of[self.head_of(name)].nodes, need)
            if len(free) == need:
                (self.rests if counter.kind in (counters.REST, counters.END) else self.counters)[name] = counter._replace(registers=tuple(free))
            elif not self.is_ending:
                self.counters, self.rests = older
                raise NoRegister('no register is spare for a counter')

    def head_of(self, name):
        return name if name in self.loop_of else name[0]

    def put_counters(self):
        for head, counter in list(self.counting()):
            if counter.kind == counters.END:
                continue
            pc = head[1]
            division, start, late, fails = None, (), None, None
            if counter.kind == counters.LEFT and (counter.step > 1 or counter.is_tested) and not self.is_only_way_out(self.loop_of[head], counter.exits):
                fails = self.failed('division' if counter.step > 1 else 'count', pc, 'a count does not meet its end')
                late = ('misses', head), ('meets', head)
            elif counter.kind == counters.LEFT and counter.step > 1:
                division = self.failed('division', pc, 'a count is no multiple of its step')
            if counter.kind == counters.REST and counter.exits:
                start = self.failed('count', pc, 'a count is above its end'),
            if counter.is_tested and not late:
                start = self.failed('count', pc, 'a count is 0'), self.failed('count', pc, f'a count is above {self.most_rounds}')
            self.enter(head, counters.on_entering(counter, division, start, self.most_rounds, late))
            for move in counter.moves:
                self.edits.after.setdefault(move.key, []).extend(counters.on_move(counter, move))
            for key in counter.exits:
                self.edits.instead[key] = counters.in_place(counter, self.graph, key, fails)

    def put_ends_of_pointers(self):
        """Tests of where pointers will stand at the end of a loop, on the ways into it."""
        for (head, register), counter in self.rests.items():
            if counter.kind != counters.END:
                continue
            end, k = counter.end, counter.registers[0]
            rounds = counters.rounds_of(self.graph, self.loop_of[head], self.counters.get(head))
            if rounds is None:          # (the loop's own counter has gone)
                continue
            label = self.failed('span', head[1], end.zone)
            more = 1 << register | 1 << rounds | 1 << k
            out = self.compared(head, register, end.least, True, label, more, None, True)
            out += self.compared(head, register, end.most, False, label, more, None, True)
            out += self.compared(head, rounds, end.rounds, False, label, more, None, True)
            out += self.times(head, k, rounds, counter.step, more) + [word('add', rd=k, rs1=k, rs2=register)]
            self.enter(head, out + self.compared(head, k, end.most, False, label, more, None, True))

    def ends_that_are_tested(self):
        """The numbers at which pointers are known to stand before loops and behind them."""
        for counter in self.rests.values():
            if counter.kind == counters.END:
                end = counter.end
                yield from (end.least, end.most, end.rounds, end.most - counter.step & table.M32, end.least + counter.step & table.M32)

    def give_end(self, misfit, register, zone):
        """A test of where a pointer will stand when the loop around an access ends, where each round of it has that access. Whether it was
        given."""
        for loop in sorted(filter(self.graph.is_natural, self.graph.inside[misfit.key]), key=lambda loop: -loop.depth)[:1]:
            name, step = (loop.head, register), counters.step_of(self.graph, loop, register)
            span = self.sure[loop.head].get(register)
            if self.tried.get(name) == self.round:
                return True
            if not self.hoists or name in self.tried or step is None or span is None:
                return False
            if counters.rounds_of(self.graph, loop, self.counters.get(loop.head)) is None:
                return False
            self.tried[name] = self.round
            end = End(zone[3], zone[0] - span[0] & table.M32, (zone[1] - zone[0]) // step + 1, zone[1] - span[1] + step & table.M32)
            self.rests[name] = counters.Counter(counters.END, (), register, end, step, True, (), (), False)
            return True
        return False

    def give_rest(self, misfit):
        """A counter of what is left of the elements in the loop around an access, once, with a test that keeps the index in its interval.
        Whether it was given."""
        for loop in sorted(filter(self.graph.is_natural, self.graph.inside[misfit.key]), key=lambda loop: -loop.depth)[:1]:
            for counter in counters.rest_counters(self.graph, loop):
                name, most = (loop.head, counter.x), misfit.known.x[counter.end].range[1]
                if self.tried.get(name) == self.round:
                    return True
                if name not in self.tried and most < 1 << 31:
                    self.tried[name] = self.round
                    self.rests[name] = counter
                    if not counter.exits:
                        self.tests[loop.head, counter.x] = Test(loop.head, False, counter.x, 0, most, False, True, COUNT)
                    return True
                if name in self.rests and (loop.head, counter.x) not in self.tests:
                    self.tried[name] = self.round
                    self.tests[loop.head, counter.x] = Test(loop.head, False, counter.x, 0, most, False, True, COUNT)
                    return True
        return False

    def enter(self, head, operations):
        nodes, older = self.edits.entering.get(head, (self.loop_of[head].nodes, []))
        self.edits.entering[head] = nodes, older + operations

    def put_fuel(self):
        """Fuel is paid on the ways back to a loop's head, but at the head itself where loops around rely on it or a return leads to it; before
        one node it is paid once, for all loops that go through it."""
        heads, relied = self.paying_heads()
        paying = set()
        for head in sorted(heads):
            loop, f = self.loop_of[head], self.fuel_register
            is_at_head = head in relied or any(self.code.is_return(self.code.nodes[latch]) for latch in loop.latches)
            before = {head} if is_at_head else loop.latches if self.is_paid_at_latches(loop) else ()
            if before and paying.issuperset(before):
                continue
            ends = self.failed('fuel', head[1], 'the fuel is used up')
            paid = [Branch('beq', f, ZERO, ends), word('addi', rd=f, rs1=f, imm=-1)]
            for key in before - paying if before else ():
                self.edits.before[key] = paid + self.edits.before.get(key, [])
            if not before:
                self.edits.rounds[head] = loop.nodes, paid
            paying |= set(before)

    def is_paid_at_latches(self, loop):
        """Whether the nodes that lead back to a loop's head always do, or are not come to where it is left elsewhere: then no jump is needed past
        what the way back takes."""
        others = [key for key in loop.nodes - loop.latches if not self.graph.leads[key] or any(to not in loop.nodes for to in self.graph.leads[key])]
        return bool(others) or all(len(self.graph.leads[latch]) == 1 for latch in loop.latches)

    def paying_heads(self):
        """The heads at which fuel is paid: not that of a loop of which each way round comes to another one that pays; and those of the others.
        Those of inner loops are settled first, since outer ones rely on them."""
        heads, relied = set(self.fuelled), set()
        for head in sorted(heads, key=lambda head: -self.loop_of[head].depth):
            loop, others = self.loop_of[head], (heads - {head}) & self.loop_of[head].nodes
            is_enough = lambda some: counters.is_on_each_way(self.graph, loop, some)
            if self.graph.is_natural(loop) and is_enough(others):
                heads.remove(head)
                relied |= next(({one} for one in sorted(others) if is_enough([one])), others)
        return heads, relied

    def count(self, found, kinds):
        """Gives the loops on which no number falls a counter of these kinds, or fuel where all kinds were tried."""
        edges = [e for e in found.finder.edge_list if e.target is not None]
        leads = {}
        for e in edges:
            leads.setdefault(e.source, set()).add(e.target)
        solver, nodes, done = found.finder.budgets, set(found.finder.guesses), set()
        for part in flow.loops(nodes, {n: to & nodes for n, to in leads.items()}):
            inner = [e for e in edges if e.source in part and e.target in part]
            if not solver.counters(part, inner):
                self.give_counter(part, found, kinds, done)

    def heads_of(self, part):
        """The heads of the kernel's loops whose heads these blocks are, outer ones first."""
        keys = {self.key_at.get(start) if self.laid else ((), start) for start in part}
        loops = [loop for loop in self.graph.loops if loop.head in keys]
        return [loop.head for loop in sorted(loops, key=lambda loop: loop.depth)]

    def give_counter(self, part, found, kinds, done):
        """A counter for the outermost loop of these blocks, else fuel."""
        for head in self.heads_of(part)[:1]:
            loop, tried = self.loop_of[head], self.tried.setdefault(head, [])
            if head in self.fuelled or head in done or self.is_paid_around(loop):
                return
            if kinds == self.possible and self.bound_count(loop):
                done.add(head)
                return
            for counter in kinds(loop, found) if self.graph.is_natural(loop) and (self.counts or loop.depth == 1) else ():
                name = counter.kind, counter.x, counter.end, counter.is_tested, counter.more
                if name not in tried:
                    tried.append(name)
                    self.counters[head] = counter
                    done.add(head)
                    return
            if kinds == self.possible and (self.give_limit(loop, found) or self.bound_before(loop, found)):
                done.add(head)
                return
            if kinds == self.possible:
                self.counters.pop(head, None)
                self.fuelled.add(head)
                done.add(head)

    def give_limit(self, loop, found, x=None):
        """A limit of a loop, of one register where it is given, once, where it does not fail but where the loop would not end. Whether it was
        given."""
        for limit in counters.limits(self.graph, loop) if self.graph.is_natural(loop) else ():
            name, most = (loop.head, limit.x), self.most_before(loop, limit.end, found)
            if x not in (None, limit.x) or name in self.limits or most >= GREAT:
                continue
            is_known = self.is_low_before(loop, limit, found)
            if is_known or self.is_left_at_end(loop, counters.Counter(counters.LEFT, (), limit.x, limit.end, 1, True, (), limit.exits, False)):
                self.limits[name] = limit._replace(is_tested=not is_known)
                self.marks.add(max(most - 1, 0))
                if self.counters.get(loop.head, limit).exits == limit.exits:
                    self.counters.pop(loop.head, None)
                return True
        return False

    def ways_into(self, loop, found):
        """What registers are on the ways into a loop; where nothing stands on these, those from outside."""
        place, head = [self.laid.places[label, loop.head] for label in ('enter', 'at')] if self.laid else 2 * [loop.head[1]]
        if place != head:
            known = Walked(found, self.seen, self.vlen).known_at(place)
            return [known.x] if known else []
        node_of = lambda pc: self.key_at.get(pc) if self.laid else ((), pc)
        return [edge.known.x for edge in found.finder.edge_list if edge.target == head and node_of(edge.pc) not in loop.nodes]

    def most_before(self, loop, register, found):
        """What a register is at most on the ways into a loop."""
        return max((x[register].range[1] for x in self.ways_into(loop, found)), default=table.M32)

    def is_low_before(self, loop, limit, found):
        """Whether a branch or intervals on the ways into a loop say that a register is at most its end, or below it."""
        if counters.is_told_before(self.graph, loop, limit):
            return True
        ways = self.ways_into(loop, found)
        return bool(ways) and all(x[limit.x].range[1] + limit.is_below <= x[limit.end].range[0] for x in ways)

    def unknown_limits(self, found):
        """The limits that are not tested, where what said that they hold has gone."""
        return [name for name, limit in self.limits.items() if not limit.is_tested and not self.is_low_before(self.loop_of[name[0]], limit, found)]

    def test_limits(self, found):
        """Tests those. Whether there was one."""
        unknown = self.unknown_limits(found)
        self.limits.update((name, self.limits[name]._replace(is_tested=True)) for name in unknown)
        return bool(unknown)

    def put_limits(self):
        for (head, x), limit in sorted(self.limits.items()):
            if limit.is_tested:
                label = self.failed('count', head[1], 'a count is above its end')
                self.enter(head, [Branch('bgeu', x, limit.end, label) if limit.is_below else Branch('bltu', limit.end, x, label)])
            for key in limit.exits:
                name = counters.LIMIT_BRANCHES[self.graph.nodes[key].i.name]
                self.edits.instead[key] = [Branch(name, x, limit.end, ('way', key, self.graph.leads[key][0]), key)]

    def bound_count(self, loop):
        """A test, before a loop, of a count that falls by one to 0, where that alone ends the loop: then it needs no counter. Whether there
        was one."""
        if not self.graph.is_natural(loop) or not self.counts:
            return False
        for counter in counters.left_counters(self.graph, loop, {}):
            name = loop.head, counter.x, 'entering'
            falls_by_one = not counter.end and not counter.rises and counter.step == 1 and len(counter.moves) == 1
            if falls_by_one and name not in self.tests and self.is_left_at_end(loop, counter):
                self.tests[name] = Test(loop.head, True, counter.x, 1, self.most_rounds, True, True, COUNT)
                self.counters.pop(loop.head, None)
                return True
        return False

    def bound_before(self, loop, found):
        """Tests pointers that rise in a loop before it as well, where each round is sure to test them, so that it is known how far they may
        rise. Whether there was one."""
        if not self.graph.is_natural(loop):
            return False
        most, is_changed = self.most_at(loop.head, found), False
        for test in [test for test in self.tests.values() if test.high and test.key in loop.nodes and not test.is_entering]:
            x, span, name = test.register, self.sure[loop.head].get(test.register), (loop.head, test.register, 'entering')
            own = self.sure[test.key].get(x)
            if name in self.tests or not span or not own or most.get(x, 0) < UNKNOWN or not counters.only_rises(self.graph, loop, x):
                continue
            self.tests[name] = Test(loop.head, True, x, 0, test.most + own[1] - span[1] & table.M32, False, True, test.zone)
            is_changed = True
        return is_changed

    def is_paid_around(self, loop):
        """Whether the counter of a loop around this one falls on each way round this one too."""
        for head, counter in self.counters.items():
            keys = {move.key for move in counter.moves if move.sign != counters.ANEW} & loop.nodes
            if counter.kind == counters.MIRROR and loop.nodes < self.loop_of[head].nodes and counters.is_on_each_way(self.graph, loop, keys):
                return True
        return False

    def simplest(self, loop, found):
        if loop.head not in self.counters:
            yield from self.left_counters(loop, found)

    def possible(self, loop, found):
        """Those that never fail first."""
        yield from counters.mirror_counters(self.graph, loop, self.most_at(loop.head, found))
        for counter in self.left_counters(loop, found):
            yield counter
            if self.is_left_at_end(loop, counter):
                yield counter._replace(is_tested=True)

    def left_counters(self, loop, found):
        """Those that take the place of branches which are as they were."""
        for counter in counters.left_counters(self.graph, loop, self.numbers_at(loop, found)):
            if (loop.head, counter.x) not in self.limits:
                yield counter

    def is_left_at_end(self, loop, counter):
        """Whether a loop that ends where x meets e is left in no other way, or x and e point into the same: else a run may be right that
        leaves it before, and never would meet e."""
        stems = self.bases.at(loop.head)
        return self.is_only_way_out(loop, counter.exits) or bool(stems.get(counter.x)) and stems.get(counter.x) == stems.get(counter.end)

    def is_only_way_out(self, loop, exits):
        """Whether a loop is left at these branches alone."""
        ways_out = {key for key in loop.nodes if not self.graph.leads[key] or any(to not in loop.nodes for to in self.graph.leads[key])}
        return ways_out <= set(exits)

    def lessen(self, found):
        """Tests counts of loops before them where they may be great numbers, else gives such loops other counters. Whether there was one."""
        is_changed = False
        less = [fuel for fuel in LITTLE if fuel < self.fuel]
        if self.fuelled and self.measures_later and less:
            self.fuel = less[0]
            return True
        for loop in filter(self.graph.is_natural, self.graph.loops):
            for x in counters.counts(self.graph, loop) if loop.head not in self.fuelled else ():
                name = loop.head, x, 'entering'
                if self.most_at(loop.head, found).get(x, 0) >= GREAT and name not in self.tests:
                    self.tests[name] = Test(loop.head, True, x, 0, self.most_rounds, False, True, COUNT)
                    is_changed = True
        if is_changed:
            return True
        for head, counter in sorted(self.counters.items(), key=lambda item: self.loop_of[item[0]].depth):
            if counter.kind != counters.LEFT or counter.is_tested or self.most_at(head, found).get(counter.registers[0], 0) < GREAT:
                continue
            if self.is_paid_around(self.loop_of[head]):
                del self.counters[head]
                is_changed = True
                continue
            is_changed = self.give_other(head, self.possible(self.loop_of[head], found)) or is_changed
        return is_changed

    def give_other(self, head, others):
        """The first of these counters that was not tried for a loop, in place of its own. Whether there was one."""
        tried = self.tried.setdefault(head, [])
        for other in others:
            name = other.kind, other.x, other.end, other.is_tested, other.more
            if name not in tried:
                tried.append(name)
                self.counters[head] = other
                return True
        return False

    def shorten(self, found):
        """Other counters, or fuel, for the loops whose own may be great numbers; where there are none, fuel for those that have neither. Whether
        there were some."""
        great = [head for head, counter in self.counters.items() if self.most_at(head, found).get(counter.registers[0], 0) >= GREAT]
        for head in great:
            if not self.give_other(head, (it for it in self.possible(self.loop_of[head], found) if it.kind == counters.LEFT)):
                del self.counters[head]
                self.fuelled.add(head)
        more = set() if great else self.loop_of.keys() - self.fuelled - self.counters.keys()
        self.fuelled |= more
        return bool(great or more)

    def guess_at(self, head, found):
        return found.finder.guesses.get(self.laid.places.get(('at', head)) if self.laid else head[1])

    def most_at(self, head, found):
        guess = self.guess_at(head, found)
        return {} if guess is None else {r: guess.x[r][1] for r in range(1, 32)}

    def numbers_at(self, loop, found):
        """The registers that hold one number throughout a loop, with that number as a signed one."""
        guess = self.guess_at(loop.head, found)
        if guess is None:
            return {}
        return {r: model.signed(guess.x[r][0], 32) for r in range(1, 32)
                if guess.x[r][0] == guess.x[r][1] and not self.graph.writers(loop.nodes, r)}

    def give_fuel(self, found):
        """Fuel for the outermost loop of those that are nested too deep, after many rounds for each of them, else for all loops."""
        inner = self.heads_of(found.trouble.loop)[:1] if found.trouble is not None else []
        around = [loop for loop in self.graph.loops for head in inner if head in loop.nodes and head != loop.head and loop.head not in self.fuelled]
        outer = {loop.head for loop in self.graph.loops if any(other.nodes < loop.nodes for other in self.graph.loops)}
        first = around if self.round >= PATIENCE else sorted(around, key=lambda loop: loop.depth)[:1]
        more = {loop.head for loop in first} if around else outer - self.fuelled
        more = more or {loop.head for loop in self.graph.loops} - self.fuelled
        self.fuelled |= more
        for head in more:
            if not any(name[0] == head for name in self.rests):
                self.counters.pop(head, None)


def is_too_long(found):
    """Whether a bound is above what any run would be allowed, even where the scalars are least."""
    budget, x = found.finder.budgets.of[found.finder.image.entry], found.finder.at_entry.x
    return budget.constant + sum(k * x[r].range[0] for r, k in budget.factors.items()) > LONGEST
