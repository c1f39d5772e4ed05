"""Guards: what a kernel lacks for a certificate is put into its code, and nothing else.

Where a search is refused, this puts in counters of loops, tests of addresses before accesses, and fuel: a guard that fails ends the run
by a jump to one place that tells its number. The search goes on with the new code until it finds a certificate, or until nothing more
can be put in. Nobody has to trust this: a checker judges the image that comes out.
"""
import advice
import bases
import counters
import evict
import flow
import graph
import obstacles
import program
import quick
import reloads
import search
from addresses import Addresses
from guided import Guided
from jumps import Tables
from kinds import Misfit, NoRegister, Stuck, Told
from outside import certificates, checker, table
from pace import Pace, is_too_long
from program import ZERO, Branch, Jump, Label, Number, word
from registers import Registers
from strips import Strips

MOST_ROUNDS = 24
MOST_EVICTED = 6
FUEL = 1 << 16
MOST_SLIMMED, LEAST_SLIMMED = 1200, 2   # how many tests are tried to be left out: so many by the number of nodes, at least
LEAST_ROUNDS = 1 << 12      # what a tested count may be at least
PLANS = [search.Plan('lengths', False, 'none', False), search.Plan('lengths', False, 'none', True),
         search.Plan('counters', False, 'branches', True)]


class Maker(Registers, Pace, Addresses, Strips, Tables):
    """An image on the way to one with a certificate."""

    def __init__(self, data, image, params, vlen, fuel=FUEL, status=None, watch=None, hoists=True, counts=True, shares=True,
                 evicted=0):
        """fuel: how many rounds all loops with fuel may take. status: the place of a buffer of 4 bytes that gets a guard's number. hoists:
        whether pointers are tested before loops where that can be. counts: whether loops within others have counters before fuel. shares:
        whether large functions have one copy where copies make much code. evicted: how many registers of the kernel go to the stack from the start."""
        self.hoists, self.counts, self.shares, self.may_spill = hoists, counts, shares, False
        self.most_rounds = max(LEAST_ROUNDS, 2 << sum(param.a for param in params if param.kind == 'buffer').bit_length())
        self.data, self.image, self.params, self.vlen = data, image, params, vlen
        self.fuel, self.status, self.watch = fuel, status, watch
        self.measures_later = False             # whether runs tell how much fuel there will be
        self.round = 0
        self.status_address = None if status is None else self.address_of(status)
        self.measures_fuel = False              # whether it is what is left of the fuel that goes there
        self.tables, self.pointers, self.is_ending = {}, set(), False       # (pointers: the jumps by tables whose addresses were not told)
        self.evicted = evicted                  # how many registers are kept on the stack
        self.told, self.known_misfits, self.walks = [], None, flow.Walks()
        self.begin_anew()

    def begin_anew(self):
        """Reads the code, with nothing put into it."""
        self.counters, self.tried = {}, {}      # head -> counter; head -> the kinds that were tried
        self.rests = {}                         # (head, x) -> counter
        self.limits = {}                        # (head, x) -> limit
        self.marks = {param.b - 1 for param in self.params if param.kind == 'scalar' and param.b}      # numbers at which intervals may rest
        self.fuelled = set()                    # heads
        self.tests, self.choices, self.strips, self.sizes = {}, {}, {}, {}
        self.told_of, self.found = [], None     # of this round: which accesses are tested, by which registers, and what it has found
        self.masks, self.indices, self.retyped, self.runs = {}, {}, set(), {}
        self.begun = {}                         # node of a strip -> the test of its base before the loop
        self.read_code()

    def read_code(self):
        self.read_graph(program.read(self.image, self.tables, self.shares))
        if self.code.shared and self.code.reads_links:
            self.read_graph(program.Code(self.image, self.tables))
        if self.evicted:
            evict.evicted(self.code, self.graph, self.bases, self.params, self.evicted)
            self.graph = graph.Graph(self.code, self.vlen // 8)
            self.bases = bases.Bases(self.code, self.graph, self.params)
        self.sure, self.any, self.its_vectors = self.graph.sure_accesses(), self.graph.sure_accesses(True), None
        self.same_lengths = dict(self.graph.same_lengths(self.vlen // 8))
        self.reloads = reloads.reloads(self.code, self.graph, self.params, self.bases)
        self.loop_of = {loop.head: loop for loop in self.graph.loops}
        self.touched = self.graph.touched(self.graph.order)
        self.lengths = sorted({(node.f['rs1'], node.f['rd']) for node in self.code.nodes.values()
                               if node.i.shape == 'vset' and node.f.get('rs1') and node.f['rd'] not in (0, node.f['rs1'])})

    def read_graph(self, code):
        """The code as it came, its graph, and what its addresses are computed from."""
        self.code = code
        if code.entry not in code.nodes:
            raise Stuck(f'IllegalWord at {self.image.entry:#x}: {advice.ILLEGAL}')
        self.graph = graph.Graph(code, self.vlen // 8)
        if self.graph.alike:
            code.retype(self.graph.alike)
            self.graph = graph.Graph(code, self.vlen // 8)
        self.bases = bases.Bases(code, self.graph, self.params)
        code.reads_links = self.bases.reads_links()

    def build(self):
        """The image with all that is put in, without a certificate. Numbers stay in registers as far as enough are left for others."""
        try:
            return self.built(True)
        except NoRegister:
            self.is_ending = True           # (the register of the return address is spare then)
        for keeps_constants, reserved, may_spill in ((True, 0, False), (False, 0, False), (False, 0, True), (False, 1, True), (False, 2, True)):
            self.may_spill = may_spill
            try:
                return self.built(keeps_constants, reserved)
            except NoRegister:
                pass
        return self.built(False, 3)

    def built(self, keeps_constants, reserved=0):
        if not self.is_changed():
            self.laid, self.key_at, self.node_at = None, {}, {}
            self.strip_registers, self.told = {}, []
            return self.data, self.image
        self.settle_everywhere(reserved)
        self.settle_counters()
        self.edits, self.told, self.strip_temporaries = program.Edits(), [], {}
        self.constants, self.loop_constants, self.test_of = {}, {}, {}
        self.edits.copied = self.settle_runs()
        if keeps_constants:
            self.choose_constants()
        self.put_loop_constants()
        self.put_tables()
        self.put_types()
        self.edits.instead.update((key, [Number(self.code.nodes[key].f['rd'], number)]) for key, number in self.reloads.items())
        self.put_tests()
        self.put_counters()
        self.put_limits()
        self.put_ends_of_pointers()
        self.put_fuel()
        self.put_returns()
        self.put_ends()
        self.put_first()
        self.laid = program.Laid(program.layout(self.code, self.edits), program.place_for_code(self.image))
        self.node_at = self.laid.nodes_at()
        self.key_at = {**self.laid.nodes_before(), **self.node_at}
        self.strip_registers = {at: (self.strip_temporaries[key],) for at, key in self.node_at.items() if key in self.strip_temporaries}
        out = program.with_code(self.data, self.laid)
        return out, certificates.read_image(out)

    def is_hoisted(self):
        """Whether something is tested before a loop that could be tested within it."""
        return any(it.kind == counters.END for it in self.rests.values()) or any(test.is_entering for test in self.tests.values())

    def counts_within(self):
        """Whether a loop within another one has a counter."""
        return any(self.loop_of[head].depth > 1 for head, _ in self.counting())

    def is_changed(self):
        return bool(any(key[0] for key in self.code.nodes) or self.is_ending or self.evicted or self.tables or self.counters or self.rests or self.limits
                    or self.fuelled or self.tests or self.choices or self.strips or self.masks or self.indices or self.retyped or self.same_lengths or self.graph.entering or self.graph.early
                    or self.reloads)

    def failed(self, kind, pc, what):
        """The label of a guard that may fail, with a number of its own, which only a status asks for."""
        self.told.append(Told(kind, pc, what))
        number = len(self.told)
        if self.status_address is not None:
            self.edits.last += [Label(('fails', number)), Number(self.number_register, number), Jump(ZERO, ('end',))]
        return 'fails', number

    def put_first(self):
        """What stands before all: the status, and numbers that stay in registers."""
        first = []
        if self.status_address is not None:
            first = [Number(self.number_register, self.status_address), word('sw', rs1=self.number_register, rs2=0, imm=0),
                     Number(self.number_register, 0)]
        first += [program.given(r, value) for r, value in sorted((r, value) for value, r in self.constants.items())]
        if self.fuelled:
            first.append(Number(self.fuel_register, self.fuel))
        self.edits.first = first

    def address_of(self, place):
        return next(address for at, address, _, _ in checker.buffers(self.params) if at == place)

    def put_ends(self):
        """Returns that lead out of the kernel, and what every guard that fails leads to."""
        for key, node in self.code.nodes.items():
            if self.measures_fuel and self.code.is_exit(node):
                self.edits.instead[key] = [Jump(ZERO, ('end',))]
            elif self.is_ending and self.code.is_exit(node) and node.i.shape == 'jalr':
                self.edits.instead[key] = [word('ecall')]
        all_fail = [Label(('fails', number)) for number in range(1, len(self.told) + 1)] if self.status_address is None else []
        self.edits.last = [*self.edits.last, *all_fail, Label(('end',)), *self.last_words(), word('ecall')]

    def put_returns(self):
        """Returns that lead to one of several places, as in a function that calls itself."""
        for key, node in sorted(self.code.nodes.items()):
            if node.calls and self.code.is_return(node) and len(self.code.leads[key]) > 1:
                if self.code.reads_links:
                    raise Stuck(f'the return at {node.pc:#x} has several places, and the code reads where calls return to')
                label = self.failed('choice', key[1], 'a return to no place of a call')
                other, held = self.temporary([key], 1 << node.f['rs1']), lambda way: self.held(key, way)
                self.edits.instead[key] = program.returned(node, self.weights_of(key), other, label, held)

    def weights_of(self, key):
        """How often a return may lead to each of its places."""
        return {back: 8 ** self.graph.depth(back) for back in self.code.leads[key]}

    def last_words(self):
        """What is done where a guard failed: its number goes to the status."""
        if self.status_address is None:
            return []
        told = self.fuel_register if self.measures_fuel else self.number_register
        other = next(r for r in (5, 6) if r != told)
        return [Number(other, self.status_address), word('sw', rs1=other, rs2=told, imm=0)]

    def told_at(self, address, measures_fuel=False):
        """The image of a run that leaves the number of a guard that failed at an address, or what is left of 2^32 - 1 rounds of fuel."""
        kept = self.status_address, self.measures_fuel, self.fuel
        self.status_address, self.measures_fuel = address, measures_fuel
        if measures_fuel:
            self.fuel = table.M32
        try:
            return self.build()[0]
        finally:
            self.status_address, self.measures_fuel, self.fuel = kept

    def put_tests(self):
        for name, test in sorted(self.tests.items()):
            self.marks |= {test.least, test.most}
            operations = self.test_words(test)
            self.test_of.update((op.label, name) for op in operations if isinstance(op, Branch))
            if test.is_entering:
                self.enter(test.key, operations)
            else:
                self.edits.before.setdefault(test.key, []).extend(operations)
        for key, strip in sorted(self.strips.items()):
            self.edits.before.setdefault(key, []).extend(self.strip_words(strip))
            if strip.is_empty:
                self.edits.after[key] = [Label(('past', key)), *self.edits.after.get(key, [])]
        for key, choice in sorted(self.choices.items()):
            if key not in self.edits.copied:
                self.edits.instead[key] = self.choice_words(key, choice)
        for key, mask in sorted(self.masks.items()):
            self.edits.instead[key] = self.mask_words(key, *mask)
        for key, index in sorted(self.indices.items()):
            self.edits.instead[key] = self.index_words(key, index)

    def run(self):
        """Puts in what is missing until a certificate is found. The image's bytes, the image and what was found."""
        seen = set()
        for number in range(MOST_ROUNDS):
            self.round = number
            data, image = self.build_or_evict()
            found = self.search(image, PLANS[0], True)
            if found.answer == 'accepted':
                if not self.widen_tables(found, image) and not self.test_limits(found) and not (is_too_long(found) and self.shorten(found)):
                    return self.slimmer(found) or (data, image, found)
                continue
            if self.watch:
                self.watch.tell(self.state(number, found, image))
            if not self.mend(found, image):
                return data, image, self.search_on(image, found)
            if self.signature() in seen:
                break
            seen.add(self.signature())
        data, image = self.build_or_evict()         # (what was put in last)
        return data, image, self.search_on(image, self.search(image, PLANS[0]))

    def slimmer(self, found):
        """The same without what no certificate needs: counters of loops for which one around them pays, tests that never fail, as far as is
        known or is found out, and what counters of inner loops started from. None where all is needed."""
        best = self.with_bases(found)
        found = best[2] if best else found
        paid, idle = {head for head in self.counters if self.is_paid_around(self.loop_of[head])}, self.idle_tests(found)
        if paid:
            best = self.without('counters', {head: counter for head, counter in self.counters.items() if head not in paid}) or best
        if idle:
            best = self.without('tests', self.tests_without(idle)) or best
        for one in self.doubtful_tests()[:max(LEAST_SLIMMED, MOST_SLIMMED // len(self.code.nodes))]:
            best = self.without('tests', self.tests_without({one})) or best
        return self.without_starts() or best

    def without_starts(self):
        """The same without what counters of inner loops started from: of all together, else of some."""
        heads = [head for head, it in sorted(self.counters.items()) if it.kind == counters.LEFT and it.step == 1 and not it.is_tested and self.loop_of[head].depth > 1]
        best = None
        for some in [heads] * (len(heads) > 1) + [[head] for head in heads[:LEAST_SLIMMED]]:
            fewer = {head: it._replace(keeps=it.keeps and head not in some) for head, it in self.counters.items()}
            best = self.without('counters', fewer) or best
            if best and some == heads:
                break
        return best

    def doubtful_tests(self):
        """The ends of tests on the ways into a loop of registers that are tested elsewhere too, and of those: such as one may tell of the
        other. Those of inner loops come first."""
        registers = [test.register for test in self.tests.values()]
        ends = [(name, end) for name, test in self.tests.items() for end in ('low', 'high') if getattr(test, end)
                and (test.is_entering or any(other.is_entering and other.register == test.register for other in self.tests.values()))
                and registers.count(test.register) > 1]
        return sorted(ends, key=lambda it: (self.tests[it[0]].is_entering - self.graph.depth(self.tests[it[0]].key), it[1], str(it[0])))

    def idle_tests(self, found):
        """The ends of tests at which none is known to fail, as (test, end)."""
        ways, out, busy = {(edge.pc, edge.target) for edge in found.finder.edge_list}, set(), set()
        for k, op in enumerate(self.laid.operations if self.laid else ()):
            if isinstance(op, Branch) and op.label in self.test_of and k not in self.laid.long:
                name = self.test_of[op.label]
                end = name, 'low' if op.name == 'bltu' and op.rs1 == self.tests[name].register else 'high'
                (busy if (self.laid.at[k], self.laid.places[op.label]) in ways else out).add(end)
        return out - busy       # (where there are copies, those of which all are idle)

    def tests_without(self, ends):
        """The tests without some of their ends."""
        out = {name: test._replace(**{end: False for other, end in ends if other == name}) for name, test in self.tests.items()}
        return {name: test for name, test in out.items() if test.low or test.high}

    def with_bases(self, found):
        """The same with tests of strips' bases before their loops, where it has become known that strips have elements; None where that is not
        accepted."""
        before = self.with_bases_before(found) if self.strips else None
        return before and self.changed({'strips': before[0], 'tests': before[1]})

    def without(self, name, fewer):
        """What comes of fewer counters or tests; as it was, and None, where that is not accepted, or a limit relies on them."""
        return self.changed({name: fewer})

    def changed(self, others):
        """What comes of other counters, tests or strips; as it was, and None, where that is not accepted, or a limit relies on them."""
        kept, found = {name: getattr(self, name) for name in others}, None
        vars(self).update(others)
        try:
            data, image = self.build()
            found = self.search(image, PLANS[0])
        except NoRegister:
            pass
        if found and found.answer == 'accepted' and not self.unknown_limits(found):
            return data, image, found
        vars(self).update(kept)
        self.build()
        return None

    def with_fuel(self, fuel):
        """The same with other fuel and nothing else; as it was, and None, where that is not accepted."""
        kept, self.fuel = self.fuel, fuel
        data, image = self.build()
        found = self.search(image, PLANS[0])
        if found.answer == 'accepted' and not self.unknown_limits(found) and not is_too_long(found):
            return data, image, found
        self.fuel = kept
        self.build()
        return None

    def build_or_evict(self):
        """The same as `build`; where too few registers are spare, anew with more of them kept on the stack."""
        while True:
            try:
                return self.build()
            except NoRegister:
                if self.evicted == MOST_EVICTED:
                    raise
                self.evicted = max(2, self.evicted + 1)
                self.begin_anew()

    def search_on(self, image, found):
        """The search by other plans, where nothing more can be put in."""
        if found.answer == 'accepted':
            return found
        for plan in PLANS[1:]:
            other = self.search(image, plan)
            if other.answer == 'accepted':
                return other
        raise Stuck(': '.join([self.why(found, image), *self.help_of(found, image)]))

    def help_of(self, found, image):
        """What there is to say of the first thing that was refused, by the code as it came."""
        for misfit in self.misfits(found, image)[:1]:
            what = obstacles.Obstacles(self.image, self.params)
            i, _ = what.origins.words.get(misfit.key[1], (None, None))
            if misfit.rule == 'TargetNotABlock' and i and i.shape == 'jalr':
                return list(what.of_jump(misfit.key[1]))[:1]
            return [advice.HELP[misfit.rule]] if misfit.rule in advice.HELP else []
        return []

    def state(self, number, found, image):
        """Where the work stands, in words."""
        return (f'round {number}: {len(self.counters)} counters, {len(self.fuelled)} loops with fuel, '
                f'{len(self.tests) + len(self.choices) + len(self.strips)} tests; {self.why(found, image)}')

    def search(self, image, plan, is_draft=False):
        self.seen = image
        return Guided(image, self.params, self.vlen, plan, self, is_draft).find()

    def misfits(self, found, image):
        """All words of all blocks that are refused for something but budgets, each walked over."""
        return self.refused(found.finder, found.certificate, image)

    def refused(self, finder, certificate, image):
        """The same, once for each search."""
        if self.known_misfits is None or self.known_misfits[0] is not finder:
            walk = checker.Walk(image, certificate)
            zones = walk.zones
            self.known_misfits = finder, [it for block in certificate.blocks for it in self.misfits_of(block, walk, zones)]
        return self.known_misfits[1]

    def misfits_of(self, block, walk, zones):
        s, pc, goes_on = quick.at_block(walk.certificate, block, walk.vlenb), block.start, True
        while goes_on:
            i, _ = flow.decoded_at(walk.image, pc) or (None, None)
            is_access = i is not None and ('load' in i.shape or 'store' in i.shape)
            trial, walk.zones = quick.copied(s) if is_access else s, zones
            try:
                goes_on = walk.word(trial, None, pc)
            except certificates.Refused as e:
                misfit = Misfit(self.node_at.get(pc, ((), pc)), e.args[0], s, pc)
                yield misfit
                if not is_access or e.args[0] not in ('AccessNotProved', 'ReadOnly'):
                    return
                trial = self.walked_over(walk, s, misfit)
                goes_on = trial is not None and pc + 4 not in walk.blocks
            s, pc = trial, pc + 4

    def walked_over(self, walk, s, misfit):
        """What is known behind an access that is refused, with what a test will tell; None where nothing is, as of a stride."""
        walk.zones, known = flow.EVERYWHERE, quick.copied(s)
        known.words += 1
        try:
            walk.act(known, *walk.fetched(known, misfit.pc), misfit.pc)
        except certificates.Refused:
            return None
        self.cut(known, misfit)
        return known

    def mend(self, found, image):
        """Puts in more: counters that ask for no guard first, then guards, then other counters and fuel. Whether there was anything."""
        before, self.told_of, self.found = self.signature(), [], found
        if self.widen_tables(found, image):
            return True
        misfits = sorted((misfit for misfit in self.misfits(found, image) if misfit.key in self.code.nodes), key=lambda it: self.graph.place[it.key])
        for misfit in misfits:
            if misfit.rule == 'TargetNotABlock':
                self.lead(misfit, found, image)
        self.count(found, self.simplest)
        if self.signature() == before:
            for misfit in misfits:
                if misfit.rule in ('AccessNotProved', 'ReadOnly'):
                    self.guard(misfit)
                elif misfit.rule == 'VtypeUnknown':
                    self.give_type(misfit)
        if self.signature() == before and not self.lead_anywhere():
            self.count(found, self.possible)
        found = found.finder.whole(found) if self.signature() == before else found
        if self.signature() == before and (found.trouble is not None or found.answer.startswith('BudgetNotProved')):
            if not self.lessen(found):
                self.give_fuel(found)
        return self.signature() != before

    def signature(self):
        return (self.is_ending, self.fuel, str(sorted(self.tables.items())), str(sorted((h, c._replace(registers=())) for h, c in self.counting())),
                str(sorted(self.fuelled)), str(sorted(self.limits)), str(sorted(self.tests.items())), str(sorted(self.choices.items())), str(sorted(self.strips.items())),
                str(sorted(self.masks.items())), str(sorted(self.indices.items())), str(sorted(self.retyped)))

    def why(self, found, image):
        misfits = self.misfits(found, image)
        lines = [f'{m.rule} at {m.pc:#x} ({m.key[1]:#x})' for m in misfits[:4]]
        if found.trouble is not None:
            lines.append(str(found.trouble))
        return '; '.join(lines) or found.answer

    def guard(self, misfit):
        node = self.code.nodes[misfit.key]
        if node.i.is_vector:
            self.guard_vector(misfit, node)
        else:
            self.guard_scalar(misfit, node)
