"""Tests of addresses before scalar accesses, and which buffer is meant."""
import bases
import counters
import graph
import program
import quick
from guided import Walked
from kinds import COUNT, NoRegister, Strip, Test
from outside import certificates, checker, table
from program import SP, ZERO, Branch, Jump, Label, Number, Run, Word, word

VL, PASSED = checker.VL, checker.PASSED
MOST_BETWEEN = 48       # how many nodes copies may have between accesses for which a buffer is chosen once
MOST_STEPS = 4          # how many shifts and sums may make an index of one that rises


class Addresses:
    """What a maker puts in for a scalar access."""

    def guard_scalar(self, misfit, node):
        """A test of the address, where one buffer is possible; else a choice among several."""
        register, offset, size, is_store = graph.access_of(node)
        zones = self.zones(misfit.key, register, is_store)
        if len(zones) > 1:
            self.choices[misfit.key] = tuple(zones)
            return
        zone, = zones
        if self.is_told_above(misfit.key, register):
            return
        first, end = self.sure[misfit.key].get(register, (offset, offset + size))
        before = dict(self.tests)
        if not self.give_end(misfit, register, zone) and not self.put_index_test(misfit, register, first, end, zone):
            self.put_test(misfit, register, first, end, zone)
        if self.tests != before:
            self.told_of.append((misfit.key, register))

    def put_index_test(self, misfit, register, first, end, zone):
        """A test of the number that is added to the zone's first address, where the address is such a sum: one comparison for both
        ends. Whether it is one."""
        made = self.maker_of(misfit.key, register)
        if made is None:
            return False
        at, written = made
        node = self.code.nodes[at]
        for base, index in ((node.f['rs1'], node.f['rs2']), (node.f['rs2'], node.f['rs1'])):
            number = checker.known(misfit.known.x[base].range)
            if base in written or number is None or number + first != zone[0] or not index:
                continue
            at, index, shift = self.before_shift(at, index)
            test = Test(at, False, index, 0, zone[1] - end - number >> shift, False, True, zone[3])
            if self.tests.get((at, index)) == test:
                return False
            if (at, index) not in self.tests and (self.is_told_above(at, index) or self.limits_index(at, index, test.most)):
                return True
            self.tests[at, index] = test
            self.told_of.append((at, index))
            return True
        return False

    def limits_index(self, key, index, most):
        """Whether a limit of the loop around keeps an index low enough, which then is put in; but of an outermost loop where the bound can
        speak of its end, as that was passed."""
        for loop in sorted(self.graph.inside[key], key=lambda loop: -loop.depth)[:1]:
            for limit in counters.limits(self.graph, loop):
                ends = [x[limit.end] for x in self.ways_into(loop, self.found)]
                is_passed = any(PASSED <= atom < PASSED + 8 for end in ends for atom in end.form.terms)
                if (limit.x == index and counters.setters_of(self.graph, loop, key, index) == {None} and (loop.depth > 1 or not is_passed)
                        and ends and max(end.range[1] for end in ends) <= most + 1):
                    return self.give_limit(loop, self.found, index)
        return False

    def before_shift(self, key, index):
        """Where an index stands before it is shifted for a sum, with by how much: there its test tells of the register that stays."""
        at, node = key, None
        while node is None or not graph.used_and_set(node)[1] >> index & 1:
            comes = self.graph.comes[at]
            if len(comes) != 1 or len(self.graph.leads[comes[0]]) != 1:
                return key, index, 0
            at, = comes
            node = self.code.nodes[at]
        if node.i.name != 'slli' or node.f['rs1'] in (0, index) or node.loads or node.stores:
            return key, index, 0
        return at, node.f['rs1'], node.f['imm']

    def maker_of(self, key, register):
        """The add that makes an address, where it stands before the access in one straight line, and what is written between."""
        written = set()
        while not (self.code.nodes[key].loads or self.code.nodes[key].stores):
            comes = self.graph.comes[key]
            if len(comes) != 1 or len(self.graph.leads[comes[0]]) != 1:
                return None
            key, = comes
            node = self.code.nodes[key]
            wrote = node.f.get('rd') if graph.used_and_set(node)[1] & ~(1 << VL) else None
            if wrote == register:
                written.add(wrote)
                return (key, written) if node.i.name == 'add' else None
            if wrote is not None:
                written.add(wrote)
        return None

    def zones(self, key, register, is_store):
        right = certificates.WRITE if is_store else certificates.READ
        known = self.bases.at(key).get(register, bases.NOTHING)
        access = graph.access_of(self.code.nodes[key])
        found = [zone for zone in self.bases.zones_of(known, access[1] if access else 0) if zone[2] & right]
        return found or [zone for zone in bases.all_zones(self.image, self.params) if zone[2] & right]

    def put_test(self, misfit, register, first, end, zone):
        known, key, is_entering = misfit.known.x[register].range, *self.place_of_test(misfit.key, register, first, end)
        if is_entering:
            first, end = self.sure[key][register]
        first, end = self.of_object(key, register, first, end, zone)
        least, most = zone[0] - first & table.M32, zone[1] - end & table.M32
        needs_low, needs_high = known[0] < least, known[1] > most
        name = (key, register, 'entering') if is_entering else (key, register)
        older = self.tests.get(name)
        if older is None and not is_entering and needs_low and needs_high:
            rises, falls = self.goes(misfit.key, register)
            needs_low, needs_high = not rises, not falls
        if older is None and not is_entering and needs_low and needs_high and self.put_base_test(misfit, register, first, end, zone):
            needs_low = False
        if older is not None and older.low != older.high and self.put_end_before(misfit.key, register, zone, older.high):
            return
        if older is not None:
            needs_low, needs_high = needs_low or older.low, needs_high or older.high
            if (needs_low, needs_high) == (older.low, older.high):
                needs_low = needs_high = True
        self.tests[name] = Test(key, is_entering, register, least, most, needs_low, needs_high, zone[3])

    def is_told_above(self, key, register):
        """Whether this round tests an access by a register already where each way to a node comes from, and it is only moved by numbers
        between: what that tells is waited for."""
        for other, tested in self.told_of:
            if tested == register and other != key and self.graph.dominates(other, key):
                writers = [self.code.nodes[at] for at in self.graph.writers(self.graph.between(other, key), register)]
                if all(node.i.name == 'addi' and node.f['rs1'] == register and not graph.is_moved(node, register) for node in writers):
                    return True
        return False

    def put_base_test(self, misfit, register, first, end, zone):
        """A test before the loop around an access whose address is there a number that stays, and an index that rises from a known one: of the
        lower end, and of the upper one where sums with the index could pass 2^32. Whether there was one."""
        made = self.maker_of(misfit.key, register)
        for loop in sorted(self.graph.inside[misfit.key], key=lambda loop: -loop.depth)[:1] if made and self.hoists else ():
            node = self.code.nodes[made[0]]
            for base, index in ((node.f['rs1'], node.f['rs2']), (node.f['rs2'], node.f['rs1'])):
                name = loop.head, base, 'entering'
                if not base or base == index or base in made[1] or index in made[1] - {register} or self.graph.writers(loop.nodes, base):
                    continue
                known = self.known_before(made[0]) if index == register else misfit.known
                low, high = known.x[index].range if known else checker.FULL
                if high >= 1 << 31:
                    continue
                if not self.graph.is_natural(loop) or name in self.tests or not self.begins_with(loop, made[0] if index == register else misfit.key, index, low):
                    continue
                may_wrap = misfit.known.x[base].range[1] + high > table.M32
                self.tests[name] = Test(loop.head, True, base, zone[0] - first - low & table.M32, (zone[1] - end - low if may_wrap else -1) & table.M32, True, may_wrap, zone[3])
                return True
        return False

    def known_before(self, key):
        """What is known before a node."""
        place = next(at for at, it in self.node_at.items() if it == key) if self.laid else key[1]
        return Walked(self.found, self.seen, self.vlen).known_at(place)

    def begins_with(self, loop, key, index, low):
        """Whether an access is sure to come in the first round of a loop, with an index that has its least number then."""
        register, at, steps = index, key, []
        if not self.is_in_first_round(loop, key):
            return False
        while (setters := counters.setters_of(self.graph, loop, at, register)) != {None}:
            if len(setters) != 1 or len(steps) == MOST_STEPS:
                return False
            at, = setters
            node = self.code.nodes[at]
            if node.i.name not in ('slli', 'srli', 'addi') or not node.f['rs1'] or node.loads or node.stores:
                return False
            register = node.f['rs1']
            steps.append((node.i.name, node.f['imm']))
        guess, moves = self.guess_at(loop.head, self.found), counters.moves_of(self.graph, loop, register)
        if not guess or not moves or not all(map(counters.is_rise, moves)):
            return False
        ends = guess.x[register]
        for name, by in reversed(steps):
            ends = [end << by if name == 'slli' else end >> by if name == 'srli' else end + by for end in ends]
            if not 0 <= ends[0] <= ends[1] < 1 << 31:
                return False
        return ends[0] == low and ends[1] < 1 << 31

    def is_in_first_round(self, loop, key):
        """Whether a node is sure to be come to in the first round of a loop."""
        return counters.is_on_each_way(self.graph, loop, [key]) and all(to in loop.nodes for at in self.graph.between(loop.head, key) - {key}
                                                                       if at in loop.nodes for to in self.graph.leads[at])

    def comes_first(self, loop, key, register):
        """The same, with a register as it is at the loop's head."""
        return self.is_in_first_round(loop, key) and counters.setters_of(self.graph, loop, key, register) == {None}

    def goes(self, key, register):
        """Whether a register only rises in the innermost loop around a node, and whether it only falls."""
        for loop in sorted(self.graph.inside[key], key=lambda loop: -loop.depth)[:1]:
            if self.graph.writers(loop.nodes, register):
                return counters.only_rises(self.graph, loop, register), counters.only_falls(self.graph, loop, register)
        return False, False

    def put_end_before(self, key, register, zone, is_low):
        """A test of one end of a zone before the loop around an access by a pointer that goes away from it. Whether there was one."""
        rises, falls = self.goes(key, register)
        for loop in sorted(self.graph.inside[key], key=lambda loop: -loop.depth)[:1]:
            span, name = self.sure[loop.head].get(register), (loop.head, register, 'entering')
            if span and (rises if is_low else falls) and self.hoists and self.graph.is_natural(loop) and name not in self.tests:
                self.tests[name] = Test(loop.head, True, register, zone[0] - span[0] & table.M32, zone[1] - span[1] & table.M32, is_low, not is_low, zone[3])
                return True
        return False

    def of_object(self, key, register, first, end, zone):
        """What a test speaks of: on the stack, where one object lies, of all accesses that may come by the register."""
        span = self.any[key].get(register) if zone == bases.stack_zone() else None
        return (min(first, span[0]), max(end, span[1])) if span else (first, end)

    def place_of_test(self, key, register, first, end):
        """Where a register is tested: before the access, or on the ways into the outermost loop that does not write it and from whose head
        on the access is sure to come; with whether it is that."""
        found = key, False
        for loop in sorted(self.graph.inside[key], key=lambda loop: -loop.depth):
            span = self.sure[loop.head].get(register)
            if not self.hoists or not self.graph.is_natural(loop) or span is None or self.graph.writers(loop.nodes, register):
                break
            if not span[0] <= first < end <= span[1]:
                break
            found = loop.head, True
        return found

    def test_words(self, test):
        label = self.failed('count' if test.zone == COUNT else 'address', test.key[1], test.zone)
        try:
            return self.compared_ends(test, label, {})
        except NoRegister:
            spilled = self.spilled(test.key, 1 << test.register) if self.may_spill else None
            if spilled is None:
                raise
        numbers = dict.fromkeys((test.least, test.most), spilled)
        return [word('sw', rs1=SP, rs2=spilled, imm=-4), *self.compared_ends(test, label, numbers), word('lw', rd=spilled, rs1=SP, imm=-4)]

    def compared_ends(self, test, label, given):
        """The comparisons of a test. given: the register for a number, where it is not to be looked for."""
        out = []
        for value, is_tested, is_least in ((test.least, test.low, True), (test.most, test.high, False)):
            if is_tested:
                words = self.compared(test.key, test.register, value, is_least, label, 0, given.get(value), test.is_entering)
                out += [program.counted_on(out[0], words[0]), *words[1:]] if out else words
        return out

    def compared(self, key, register, value, is_least, label, more, given=None, is_outside=False):
        """A branch to a label where a register is below a number, or above it. given: the register for the number, if it is chosen.
        is_outside: whether it stands on the ways into the loop of a head."""
        out, other, is_next = [], self.held(key, value, is_outside), False
        if other is None:
            is_next = not is_least and value < table.M32 and len(program.number_words(1, value + 1)) < len(program.number_words(1, value))
            other = given if given is not None else self.temporary([key], more | 1 << register)
            out.append(Number(other, value + is_next))
        if is_next:             # (the number above takes fewer words, as the end of whole pages does)
            return out + [Branch('bgeu', register, other, label)]
        return out + [Branch('bltu', *((register, other) if is_least else (other, register)), label)]

    def times(self, key, t, length, factor, more, given=None):
        """Puts a multiple of a length into a register. given: one for the factor, if it is chosen."""
        if factor & factor - 1 == 0:
            return [word('slli', rd=t, rs1=length, imm=factor.bit_length() - 1)] if factor else [Number(t, 0)]
        other = given or self.temporary([key], more | 1 << t)
        return [Number(other, factor), word('mul', rd=t, rs1=length, rs2=other)]

    def choice_words(self, key, choice):
        """An access of which several zones are possible: a copy for each, chosen by halves."""
        if isinstance(choice[0], Strip):
            return self.strip_choice_words(key, choice)
        label = self.failed('address', key[1], ' or '.join(dict.fromkeys(zone[3] for zone in choice)))
        return [*self.chosen_zone(key, sorted(choice), label, True), Label(('joined', key))]

    def chosen_zone(self, key, zones, label, needs_low, last=None):
        """The choice among zones in the order of their addresses, of which the last one's copy falls through to what is behind. last: the
        number that was compared with before, which the next one is counted on from."""
        register = self.accessed(key)[0]
        if len(zones) > 1:
            half = len(zones) // 2
            lower = 'lower', key, zones[half]
            words, last = self.compared_on(last, key, register, self.ends_of(key, zones[half])[0], True, lower)
            return [*words, *self.chosen_zone(key, zones[half:], label, False, last), Jump(ZERO, ('joined', key)),
                    Label(lower), *self.chosen_zone(key, zones[:half], label, needs_low, last)]
        low, high = self.ends_of(key, zones[0])
        first, last = self.compared_on(last, key, register, low, True, label) if needs_low else ([], last)
        own = Run(self.runs[key][0]) if key in self.runs else Word(self.code.nodes[key].word, key)
        return [*first, *self.compared_on(last, key, register, high, False, label)[0], own]

    def compared_on(self, last, key, register, value, is_least, label):
        """The same as `compared` behind another comparison before a node, whose number may still stand in its register, and the number."""
        words = self.compared(key, register, value, is_least, label, 0)
        if not isinstance(words[0], Number):
            return words, last
        return [program.counted_on(last, words[0]), *words[1:]], words[0]

    def accessed(self, key):
        """(register, offset, size) of what an access with a choice touches, or of all accesses that it is made for."""
        if key in self.runs:
            return self.runs[key][1]
        node = self.code.nodes[key]
        return (graph.access_of(node) or (node.f['rs1'], 0, self.sizes[key], None))[:3]

    def settle_runs(self):
        """The choices that are made once for several accesses: the first one's node -> (the nodes that each copy has, what they touch)."""
        self.runs, copied = {}, set()
        for key in sorted(self.choices, key=lambda key: self.graph.place[key]):
            if key not in copied and not isinstance(self.choices[key][0], Strip):
                keys, touched = self.run_from(key)
                if len(keys) > 1:
                    self.runs[key] = keys, touched
                    copied |= set(keys[1:])
        return copied

    def run_from(self, key):
        """The nodes from a choice to the last access that has the same one by the same number, in one straight line, and (register, offset, size)
        of what all of these accesses touch."""
        register, first, size = self.accessed(key)
        keys, between, end = [key], [], first + size
        while not self.graph.writers([key], register):
            leads = self.graph.leads[key]
            if len(leads) != 1 or len(self.graph.comes[leads[0]]) != 1 or leads[0][1] != key[1] + 4:
                break
            key, = leads
            between.append(key)
            if key in self.choices:
                other, offset, size = self.accessed(key)
                if self.choices[key] != self.choices[keys[0]] or other != register or self.code.nodes[key].loads:
                    break
                first, end = min(first, offset), max(end, offset + size)
                keys, between = keys + between, []
            elif not self.is_plain(key) or len(between) * len(self.choices[keys[0]]) > MOST_BETWEEN:
                break
        return tuple(keys), (register, first, end - first)

    def is_plain(self, key):
        """Whether a node may have copies, with all that is put in for it."""
        node = self.code.nodes[key]
        return (node.i.shape not in ('branch', 'jal', 'jalr', 'ecall') and key not in self.strips and key not in self.masks
                and key not in self.indices and key not in self.retyped)

    def ends_of(self, key, zone):
        """What the register of an access is at least and at most, where the access lies in a zone."""
        _, first, size = self.accessed(key)
        return zone[0] - first & table.M32, zone[1] - first - size & table.M32

    def numbers_of_zones(self, key, zones, weight, needs_low=True):
        """The numbers that a choice among zones compares with, each with its weight."""
        half = len(zones) // 2
        if half:
            yield self.ends_of(key, zones[half])[0], weight
            yield from self.numbers_of_zones(key, zones[half:], weight / 2, False)
            yield from self.numbers_of_zones(key, zones[:half], weight / 2, needs_low)
        else:
            low, high = self.ends_of(key, zones[0])
            yield from ((value, weight) for value in ([low, high] if needs_low else [high]))

    def cut(self, known, misfit):
        """Leaves of what is known behind an access what a test before it will tell of its address."""
        node = self.code.nodes.get(misfit.key)
        span = node and self.graph.span_of(misfit.key)
        if not span or node.loads or graph.used_and_set(node)[1] >> node.f['rs1'] & 1:
            return
        register, first, end = span
        zones = self.zones(misfit.key, register, 'store' in node.i.shape)
        if len(zones) == 1:
            first, end = self.of_object(misfit.key, register, *self.sure[misfit.key].get(register, (first, end)), zones[0])
            number = known.x[register]
            low, high = max(number.range[0], zones[0][0] - first & table.M32), min(number.range[1], zones[0][1] - end & table.M32)
            if low <= high:
                quick.cut(known, register, (low, high))

