"""Registers that are free: for what is put in at one place, in a loop, or everywhere."""
import counters
import graph
import program
from kinds import NEVER_GIVEN, ORDER, NoRegister, Strip
from program import RA, SP, Number

LEAST, WORTH = 10, 50       # what part of a kernel's instructions all numbers have to be that are to have registers, and one of them


class Registers:
    """What a maker knows of registers."""

    def kept_everywhere(self):
        """The registers of the fuel and of the number of a guard that failed."""
        kept = [self.number_register] if self.is_number_kept else []
        return kept + ([self.fuel_register] if self.fuel_register is not None else [])

    def settle_everywhere(self, reserved=0):
        """Chooses the registers that nothing else may use. reserved: how many are left for what tests need for a moment; where that is not
        0, or nothing asks for it, the number of a guard that failed has none."""
        free = [r for r in (3, 4, *reversed(ORDER)) if not self.touched >> r & 1 and not self.is_passed(r) and (r != 1 or self.is_ending)]
        free = list(dict.fromkeys(free))
        if self.fuelled and len(free) <= reserved:
            raise NoRegister('too few registers are spare for fuel: compile with -ffixed-x26 -ffixed-x27')
        self.reserved, free = free[:reserved], free[reserved:]
        self.is_number_kept = self.status is not None and not reserved and len(free) > bool(self.fuelled)
        number = free.pop(0) if self.is_number_kept else None
        self.fuel_register = free.pop(0) if self.fuelled else None
        self.number_register = number or (30 if self.fuel_register == 31 else 31)
        self.spare = self.reserved + free

    def is_passed(self, register):
        place = register - 10
        return 0 <= place < len(self.params) and self.params[place].kind != 'none'

    def busy(self, keys):
        """The registers that these nodes use or keep, or that something put in keeps there, as bits."""
        out = self.graph.touched(keys) | NEVER_GIVEN
        keys = set(keys)
        for register in self.kept_everywhere() + self.reserved:
            out |= 1 << register
        for head, counter in self.counting():
            if keys & self.loop_of[head].nodes:
                out |= sum(1 << r for r in counter.registers)
        return out

    def counting(self):
        """(head, counter) of each."""
        yield from self.counters.items()
        yield from ((head, counter) for (head, _), counter in self.rests.items())

    def free(self, keys, count, more=0):
        """So many registers that are free in all of these nodes, or fewer: those first that the code uses elsewhere."""
        busy = self.busy(keys) | more | (0 if self.is_ending else 2)
        order = sorted(ORDER, key=lambda r: not self.touched >> r & 1)
        return [r for r in order if not busy >> r & 1][:count]

    def kept_at(self, address):
        """The registers of counters that count at an address of the new code."""
        key = self.key_at.get(address)
        return set(self.strip_registers.get(address, ())) | {r for head, counter in self.counting() if key in self.loop_of[head].nodes for r in counter.registers}

    def ends_at(self, address):
        """(pointer, the register of its end, that of the rounds left, its step) of the pointers whose ends were tested."""
        key = self.key_at.get(address)
        for (head, pointer), counter in self.rests.items():
            if counter.kind == counters.END and counter.registers and key in self.loop_of[head].nodes:
                rounds = counters.rounds_of(self.graph, self.loop_of[head], self.counters.get(head))
                if rounds is not None:
                    yield pointer, counter.registers[0], rounds, counter.step

    def ranks_at(self, address):
        """The registers that are to stay free in sums at an address, and those that are not."""
        key, first, last = self.key_at.get(address), set(self.strip_registers.get(address, ())), set()
        for head, counter in self.counting():
            if counter.registers and key in self.loop_of[head].nodes:
                (last if counter.kind == counters.MIRROR else first).add(counter.registers[0])
                first |= {counter.x} if counter.kind == counters.MIRROR else set()     # (what is known of it tells of its counter)
        first |= {x for head, x in self.limits if key in self.loop_of[head].nodes}     # (its branch tells of it)
        return first, last

    def temporary(self, keys, more=0):
        """A register whose number is not needed before a node."""
        taken = sum(1 << r for r in self.held_registers(keys[0]))
        busy = self.graph.live[keys[0]] | NEVER_GIVEN | more | taken | (0 if self.is_ending else 2)
        for register in self.kept_everywhere():
            busy |= 1 << register
        for head, counter in self.counting():
            if keys[0] in self.loop_of[head].nodes:
                busy |= sum(1 << r for r in counter.registers)
        free = [r for r in ORDER if not busy >> r & 1]
        if not free:
            raise NoRegister(f'no register is spare at {keys[0][1]:#x}: compile with -ffixed-x26 -ffixed-x27')
        return free[0]

    def spilled(self, key, more):
        """A register whose number goes to the stack while a test is made: one that no address is computed from. None where there is none, or
        where the kernel itself uses what lies below the stack pointer."""
        nodes = self.code.nodes.values()
        if any(access and access[0] == SP and access[1] < 0 for access in map(graph.access_of, nodes)):
            return None
        computing = {node.f[name] for node in nodes if node.i.shape in ('load', 'store', 'branch', 'jalr', 'vset') or node.i.is_vector
                     or node.i.name in ('add', 'addi', 'sub', 'slli', 'mul') for name in ('rs1', 'rs2')
                     if name in node.f and not (name == 'rs2' and node.i.shape == 'store')}
        taken = NEVER_GIVEN | more | sum(1 << r for r in (*self.kept_everywhere(), *self.held_registers(key)))
        for _, counter in self.counting():
            taken |= sum(1 << r for r in counter.registers)
        stems = self.bases.at(key)
        free = [r for r in ORDER if r != RA and not taken >> r & 1 and not stems.get(r)]
        return next((r for r in sorted(free, key=lambda r: r in computing)), None)

    def taken(self, key, more, spilled):
        """A register whose number is not needed before a node, else one that goes to the stack, and then stands in `spilled` too."""
        try:
            return self.temporary([key], more)
        except NoRegister:
            found = self.spilled(key, more) if self.may_spill else None
            if found is None:
                raise
            spilled.append(found)
            return found

    def compared_numbers(self):
        """(node, whether on the ways into its loop, number, weight) of all that is compared with; in the place of a number the way whose address
        it is."""
        words = lambda value: len(program.number_words(1, value))
        for test in self.tests.values():
            for value, is_tested in ((test.least, test.low), (test.most, test.high)):
                if is_tested:
                    yield test.key, test.is_entering, value, words(value)
        for strip in self.strips.values():
            for value in filter(None, self.strip_numbers(strip) if strip.most is None else [strip.most]):
                yield strip.key, False, value, words(value)
        for key, index in self.indices.items():
            for value in (index.most, *(2 * [index.first] if index.first is not None else [])):
                yield key, False, value, words(value)
        for key, choice in self.choices.items():
            if not isinstance(choice[0], Strip) and key not in self.edits.copied:
                yield from ((key, False, value, words(value) * weight) for value, weight in self.numbers_of_zones(key, sorted(choice), 1))
        for key, node in self.code.nodes.items():
            if node.pc in self.tables and node.i.shape == 'jalr':
                yield from ((key, False, value, weight) for value, weight in self.numbers_of_choice(node, self.targets_of(key), 2))
            elif node.calls and self.code.is_return(node) and len(self.code.leads[key]) > 1:
                weights = self.weights_of(key)
                for way, weight in program.ways_compared(sorted(weights, key=program.standing), weights):
                    yield key, False, way, weight * (2 if weight == 1 else 1)

    def wanted(self):
        """How many numbers would stand in registers if more of them were free; 0 where that would save little."""
        missing = {}
        for key, is_entering, value, weight in self.compared_numbers() if self.laid else ():
            if self.held(key, value, is_entering) is None:
                missing[value] = missing.get(value, 0) + weight * 8 ** (self.graph.depth(key) - is_entering)
        whole = sum(8 ** self.graph.depth(key) for key in self.graph.order)
        return sum(weight * WORTH > whole for weight in missing.values()) if sum(missing.values()) * LEAST > whole else 0

    def choose_constants(self):
        """Numbers that are compared with stay in registers: in spare ones throughout, those of the innermost loops first, and in such as are
        free in a loop."""
        numbers, weights = list(self.compared_numbers()), {}
        for key, is_entering, value, weight in numbers:
            weights[value] = weights.get(value, 0) + weight * 8 ** (self.graph.depth(key) - is_entering)
        taken = {r for _, counter in self.counting() for r in counter.registers}
        spare = [r for r in self.spare if r not in taken]
        best = sorted(weights, key=lambda value: -weights[value])
        self.constants = dict(zip(best, spare[1:] if len(spare) < 4 else spare[2:]))
        for loop in sorted(filter(self.graph.is_natural, self.graph.loops), key=lambda loop: loop.depth):
            inside = {value for key, is_entering, value, _ in numbers
                      if key in loop.nodes and not (is_entering and key == loop.head) and self.held(key, value) is None}
            free = self.free(loop.nodes, 32, sum(1 << r for r in self.held_registers(loop.head)))
            if inside and len(free) > 1:
                self.loop_constants[loop.head] = dict(zip(sorted(inside, key=lambda value: -weights[value]), free[1:]))

    def held(self, key, value, is_outside=False):
        """The register that holds a number at a node, or on the ways into the loop of that head; else None."""
        for loop in self.graph.inside[key]:
            held = self.loop_constants.get(loop.head, {})
            if value in held and not (is_outside and loop.head == key):
                return held[value]
        return self.constants.get(value)

    def held_registers(self, key):
        """The registers that hold numbers at a node."""
        return {*self.constants.values(), *(r for loop in self.graph.inside[key] for r in self.loop_constants.get(loop.head, {}).values())}

    def put_loop_constants(self):
        for head, held in self.loop_constants.items():
            self.enter(head, [program.given(r, value) for r, value in sorted((r, value) for value, r in held.items())])
