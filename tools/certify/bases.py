"""Which buffers an address may have been computed from, over all ways: what each register may stem from before each node.

An origin is the place of a buffer, STACK with an offset, an address of the image, or LINK, where some call returns to. Of the image, AT is one
address, NEAR what lies an unknown number above one that lui made, and IN somewhere in a segment. A sum stems from what both of its parts stem
from; a load from what was stored where it reads, or stands there from the start; what any other instruction makes stems from nothing. A
function's own slots are told apart from those of functions that use the same stack before or after it.
"""
import heapq
import struct

import graph
from outside import certificates, checker, model, table

STACK, LINK = 'stack', 'link'
AT, NEAR, IN = 'at', 'near', 'in'
NOTHING = frozenset()
MOST = 12       # offsets of the stack that are told apart
MOST_AT = 4     # addresses of the image that are told apart; more of them are somewhere in their segments
PAGE = 0x1000   # how far an address may lie from a segment that it is computed for


class Bases:
    """What registers stem from. before: node -> {register: origins}."""

    def __init__(self, code, its_graph, params):
        self.code, self.graph, self.image = code, its_graph, code.image
        self.slots, self.own, self.others, self.before = {}, {}, {}, {}
        self.cells, self.strewn = {}, {}        # what is stored at addresses of the image, and somewhere in a buffer, segment or the stack
        self.passed = list(checker.buffers(params))
        self.segments = {s.first: s for s in self.image.segments}
        self.pointers, self.merges = {}, {}
        self.settle_frames()
        self.settle_kept()
        self.written = {self.own_slot(node) for node in code.nodes.values() if node.i.name == 'sw'}     # (by their functions, maybe with plain numbers)
        start = {10 + place: frozenset([place]) for place, *_ in self.passed}
        start[2] = frozenset([(STACK, 0)])
        self.start = start
        self.solve()

    def solve(self):
        order = self.graph.order
        is_changed = True
        while is_changed:
            is_changed = False
            behind = {}
            self.before = {order[0]: dict(self.start)}
            todo, waiting = list(range(len(order))), set(order)
            while todo:
                key = order[heapq.heappop(todo)]
                waiting.discard(key)
                known = self.before.get(key)
                if known is None:
                    continue
                now = self.stepped(key)
                if behind.get(key) == now:
                    continue
                behind[key] = now
                for to, part in self.ways_on(key, now):
                    if self.join(to, part) and to not in waiting:
                        waiting.add(to)
                        heapq.heappush(todo, self.graph.place[to])
            is_changed = self.store_slots()

    def ways_on(self, key, now):
        """(node, what registers stem from) of each way. Registers that a function leaves as they were stem from what they did before its
        call: so they are told apart behind several calls of it, and the stack pointer is known behind a recursion."""
        node, leads = self.code.nodes[key], self.graph.leads[key]
        if self.code.is_return(node) and node.calls in self.balanced:
            kept = self.kept[node.calls]
            now = {register: origins for register, origins in now.items() if register not in kept}
        out = [(to, now) for to in leads]
        after = node.calls, node.pc + 4
        if node.i.shape in ('jal', 'jalr') and node.f['rd'] and leads and leads[0][0] in self.balanced and after in self.graph.place:
            kept = frozenset.intersection(*(self.kept[to[0]] for to in leads if to[0] in self.kept))
            out.append((after, {register: now.get(register, NOTHING) for register in kept}))
        return out

    def at(self, key):
        """What registers stem from before a node, behind the loads that lead it."""
        known, loads = self.before.get(key, {}), self.code.nodes[key].loads
        return {**known, **{t: known[r] for t, r in loads if r in known}} if loads else known

    def depth(self, key):
        """Where the stack pointer stands before a node, from where a run starts; None where that is not one number."""
        stems = self.before.get(key, {}).get(2, ())
        known = [it[1] for it in stems if isinstance(it, tuple) and it[0] == STACK]
        return known[0] if len(known) == len(stems) == 1 else None

    def bottom(self):
        """How far down the kernel uses the stack, as far as that is known."""
        def lowest(key):
            access = graph.access_of(self.code.nodes[key])
            return (self.depth(key) or 0) + (min(access[1], 0) if access and access[0] == 2 else 0)
        return min(map(lowest, self.graph.order))

    def join(self, key, now):
        old = self.before.get(key)
        if old is None:
            self.before[key] = dict(now)
            return True
        is_changed = False
        for register, origins in now.items():
            known = old.get(register, NOTHING)
            if not origins <= known and (both := self.merged(known, origins)) != known:
                old[register], is_changed = both, True
        return is_changed

    def store_slots(self):
        """What is stored to memory, by place. Whether that is more than was known."""
        is_changed = False
        for key in self.before:
            node, known = self.code.nodes[key], self.at(key)
            if node.i.name != 'sw':
                continue
            stored = known.get(node.f['rs2'], NOTHING)
            for part, place in self.stored_to(node, known.get(node.f['rs1'], NOTHING)) if stored else ():
                both = self.merged(part.get(place, NOTHING), stored)
                if both != part.get(place, NOTHING):
                    part[place], is_changed = both, True
        return is_changed

    def stored_to(self, node, origins):
        """(where it is kept, the place) of all that a store may write."""
        own, offset = self.own_slot(node), node.f['imm']
        for slot in slots_of(origins, offset):
            yield self.slots, slot
            if not own:
                yield self.others, slot
        if own:
            yield self.own, own
        for address in self.addresses_of(origins, offset):
            yield self.cells, address
        for part in self.parts_of(origins, offset):
            if not own:
                yield self.strewn, part

    def loaded(self, node, origins):
        """What a load gives."""
        own, offset, out = self.own_slot(node), node.f['imm'], NOTHING
        known = [(self.own, own)] if own else []
        known += [(self.others if own else self.slots, slot) for slot in slots_of(origins, offset)]
        for address in self.addresses_of(origins, offset):
            known.append((self.cells, address))
            known += [(self.strewn, first) for first in self.nearest(address)]
            out = self.merged(out, self.initially(address))
        for part, place in known:
            out = self.merged(out, part.get(place, NOTHING))
        if any(isinstance(o, tuple) and o[0] == STACK for o in origins) and not (own and (out or own in self.written)):
            out = self.merged(out, self.strewn.get(STACK, NOTHING))
        for part in self.parts_of(origins, offset):
            for stems in self.all_of(part):
                out = self.merged(out, stems)
        return out

    def all_of(self, part):
        """What all places of a buffer, a segment or the stack hold, one after another."""
        yield self.strewn.get(part, NOTHING)
        if part == STACK:
            yield from (stems - {(LINK, None)} for stems in self.slots.values())
        elif part in self.segments:
            yield from (stems for address, stems in self.cells.items() if part in self.nearest(address))
            if part not in self.pointers:
                self.pointers[part] = self.pointers_in(self.segments[part])
            yield self.pointers[part]

    def addresses_of(self, origins, offset):
        """The addresses of the image that an access means, as far as they are known."""
        return [o[1] + offset & table.M32 for o in origins if isinstance(o, tuple) and o[0] == AT]

    def parts_of(self, origins, offset):
        """The buffers, and the segments, by their first addresses, and the stack, somewhere in which an access is."""
        for o in origins:
            if not isinstance(o, tuple):
                yield ('buffer', o)
            elif o == (STACK, None):
                yield STACK
            elif o[0] in (NEAR, IN):
                yield from self.nearest(o[1] + offset * (o[0] == NEAR) & table.M32)

    # ---- Addresses of the image ----------------------------------------------------------------------------------------------

    def nearest(self, address):
        """The first addresses of the segments in which an address lies, else of those at less than a page from it."""
        inside = [s.first for s in self.image.segments if s.first <= address < s.end]
        return inside or [s.first for s in self.image.segments if s.first - PAGE <= address < s.end + PAGE]

    def initially(self, address):
        """What the word at an address of the image stems from, before a run."""
        for s in self.image.segments:
            if s.first <= address <= s.end - 4:
                number, = struct.unpack_from('<I', s.data, address - s.first)
                is_code = s.rights & certificates.EXECUTE and number & 1
                return frozenset((IN, first) for first in self.inside(number) if not is_code)
        return NOTHING

    def inside(self, number):
        """The segment in which a number of the image lies, if it is the address of something."""
        return [s.first for s in self.image.segments if s.first <= number < s.end]

    def pointers_in(self, segment):
        """What the words of a segment stem from, before a run."""
        return frozenset().union(*(self.initially(at) for at in range(segment.first + -segment.first % 4, segment.end - 3, 4)))

    def merged(self, one, two):
        """What is in one or the other: where one of a kind is not known, no others of it, so that merging ends."""
        if two <= one:
            return one
        if (one, two) not in self.merges:
            self.merges[one, two] = self.merge(one, two)
        return self.merges[one, two]

    def merge(self, one, two):
        """The same, computed."""
        both = one | two
        if sum(isinstance(o, tuple) and o[0] in (AT, NEAR) for o in both) > MOST_AT:
            both = frozenset(it for o in both for it in self.somewhere(o))
        segments = {o[1] for o in both if isinstance(o, tuple) and o[0] == IN}
        if segments:
            both = frozenset(o for o in both if not (isinstance(o, tuple) and o[0] in (AT, NEAR) and segments >= set(self.nearest(o[1]))))
        is_vague = sum(isinstance(o, tuple) and o[0] == STACK for o in both) > MOST or (STACK, None) in both
        return frozenset((STACK, None) if isinstance(o, tuple) and o[0] == STACK else o for o in both) if is_vague else both

    def somewhere(self, origin):
        """An origin of which no more is known than its segments."""
        is_near = isinstance(origin, tuple) and origin[0] in (AT, NEAR)
        return [(IN, first) for first in self.nearest(origin[1])] if is_near else [origin]

    def moved(self, origins, by):
        """A sum with a number."""
        out = []
        for o in origins:
            if not isinstance(o, tuple) or o[0] in (LINK, IN) or o[1] is None:
                out.append(o)
            elif o[0] == STACK:
                out.append((STACK, o[1] + by))
            else:
                out += self.image_address(o[1] + by & table.M32) if o[0] == AT else [(IN, first) for first in self.nearest(o[1] + by & table.M32)]
        return frozenset(out)

    def image_address(self, number):
        """A number as an address of the image, if it lies near to it."""
        return [(AT, number)] if self.nearest(number) else []

    def loose(self, origins):
        """Origins at an offset that is not known: of a number out of lui what it was stays, since a part of an address may be still to come."""
        out = []
        for o in origins:
            if not isinstance(o, tuple) or o[0] in (LINK, IN, NEAR):
                out.append(o)
            elif o[0] == STACK:
                out.append((STACK, None))
            else:
                out += [(NEAR, o[1])] if o[1] % PAGE == 0 else self.somewhere(o)
        return frozenset(out)

    def summed(self, one, two):
        """A sum of two registers. A number of the image may be a plain one: what is a buffer or the stack counts first."""
        both = one | two if one and two else one or two
        strong = frozenset(o for o in both if not is_of_image(o)) if one and two else both
        return self.loose(strong or both)

    def zones_of(self, origins, offset=0):
        """(first, end, rights, name) of what an access by a register of these origins, at an offset, lies in."""
        out, buffers = [], {place: (address, address + size, mode, f'a{place}') for place, address, size, mode in self.passed}
        for origin in origins:
            if not isinstance(origin, tuple):
                out.append(buffers[origin])
            elif origin[0] == STACK:
                out.append(stack_zone())
            elif origin[0] != LINK:
                found = self.nearest(origin[1] + offset * (origin[0] != IN) & table.M32)
                out += [(first, self.segments[first].end, self.segments[first].rights, 'the image') for first in found]
        return sorted(set(out))

    def settle_frames(self):
        """Where the stack pointer stands in functions, and which of them, as chains of calls, leave it as it was."""
        returns = [node for node in self.code.nodes.values() if node.calls and self.code.is_return(node)]
        self.balanced, older = {node.calls for node in returns}, None
        while self.balanced != older:
            self.frames, older = self.depths_in_functions(), self.balanced
            self.balanced = older - {node.calls for node in returns if self.frames.get(node.key) != 0}

    def depths_in_functions(self):
        """node -> where the stack pointer stands, from where the function of the node began; None where that is not one number."""
        known, todo = {self.code.entry: 0}, [self.code.entry]
        while todo:
            key = todo.pop()
            for to, now in self.depths_behind(self.code.nodes[key], known[key]):
                both = now if to not in known or known[to] == now else None
                if to in self.code.nodes and (to not in known or known[to] != both):
                    known[to] = both
                    todo.append(to)
        return known

    def depths_behind(self, node, now):
        """(node, where the stack pointer stands) of each way: within the function, and where one that is called begins."""
        leads = self.code.leads[node.key]
        if node.i.shape in ('jal', 'jalr') and node.f['rd'] and leads:
            return [((node.calls, node.pc + 4), now if leads[0][0] in self.balanced else None), *((to, 0) for to in leads)]
        if self.code.is_return(node):
            return []
        if graph.used_and_set(node)[1] >> 2 & 1:
            by = node.f['imm'] if node.i.name == 'addi' else self.added(node)
            now = now + by if None not in (now, by) and node.f['rs1'] == 2 else None
        return [(to, now) for to in leads]

    def settle_kept(self):
        """The registers that each function with a known frame leaves as they were: not written, or kept on the stack and loaded again."""
        self.kept, older = {calls: frozenset(range(2, 32)) for calls in self.balanced}, None
        firsts = {to for node in self.code.nodes.values() if node.i.shape in ('jal', 'jalr') and node.f['rd'] for to in self.code.leads[node.key]}
        while self.kept != older:
            older = dict(self.kept)
            for first in firsts:
                if first[0] in self.kept:
                    self.kept[first[0]] &= self.kept_by(first)

    def kept_by(self, first):
        """The registers that are the same at all returns as where a function began."""
        known, todo, out = {first: {r: r for r in range(2, 32)}}, [first], frozenset(range(2, 32))
        while todo:
            key = todo.pop()
            node, now = self.code.nodes[key], known[key]
            if self.code.is_return(node):
                out &= frozenset(r for r in range(3, 32) if now.get(r) == r) | {2}
                continue
            for to, behind in self.kept_behind(node, now):
                both = behind if to not in known else {place: r for place, r in known[to].items() if behind.get(place) == r}
                if to in self.code.nodes and known.get(to) != both:
                    known[to] = both
                    todo.append(to)
        return out

    def kept_behind(self, node, now):
        """(node, what registers and slots still hold of what registers held) of each way within a function."""
        leads, own = self.code.leads[node.key], self.own_slot(node) if node.i.name in ('lw', 'sw') else None
        if node.i.shape in ('jal', 'jalr') and node.f['rd'] and leads:
            kept = frozenset.intersection(*(self.kept.get(to[0], NOTHING) for to in leads))
            return [((node.calls, node.pc + 4), {place: r for place, r in now.items() if place in kept or isinstance(place, tuple)})]
        wrote = {node.stores[0][1] if node.stores else node.f.get('rd')} if graph.used_and_set(node)[1] & ~(1 << 32) else set()
        wrote |= {own} if own and node.i.name == 'sw' else set()
        now = {place: r for place, r in now.items() if place not in wrote}
        if own and not node.loads and not node.stores:
            to, source = (own, node.f['rs2']) if node.i.name == 'sw' else (node.f['rd'], own)
            now |= {to: now[source]} if source in now else {}
        return [(to, now) for to in leads]

    def added(self, node):
        """The known number that an add adds, or a sub takes away, as a signed one; None where there is none."""
        if node.i.name not in ('add', 'sub'):
            return None
        number = self.code.constant(node.f['rs2'], node)
        number = self.of_vlenb(node.f['rs2'], node) if number is None else number
        return None if number is None else model.signed(number, 32) * (1 if node.i.name == 'add' else -1)

    def of_vlenb(self, register, node):
        """vlenb, maybe shifted, which is put into a register right before a node, as for a frame of vector registers."""
        shift, before = 0, self.code.nodes.get((node.calls, node.pc - 4))
        if before and before.i.name == 'slli' and before.f['rd'] == before.f['rs1'] == register:
            shift, before = before.f['imm'], self.code.nodes.get((node.calls, node.pc - 8))
        is_it = before and before.f.get('csr') == 0xc22 and before.f.get('rd') == register and before.i.name == 'csrrs'
        return self.graph.vlenb << shift if is_it else None

    def own_slot(self, node):
        """The slot of its function's own frame that a load or store by the stack pointer means, else None."""
        now = self.frames.get(node.key)
        is_own = now is not None and node.f['rs1'] == 2 and now + node.f['imm'] < 0
        return (node.calls, now + node.f['imm']) if is_own else None

    def stepped(self, key):
        node = self.code.nodes[key]
        now = dict(self.at(key))
        if graph.used_and_set(node)[1] & ~(1 << 32):
            rd = node.stores[0][1] if node.stores else node.f['rd']
            made = self.made(node, now)
            if made:
                now[rd] = made
            else:
                now.pop(rd, None)
        return now

    def reads_links(self):
        """Whether where a call returns to may be read, but to return or to be kept on the stack."""
        for key, known in self.before.items():
            node = self.code.nodes[key]
            links = {r for r, origins in known.items() if (LINK, None) in origins and graph.used_and_set(node)[0] >> r & 1}
            is_kept = node.i.name == 'sw' and links == {node.f['rs2']} and any(o[0] == STACK for o in known.get(node.f['rs1'], ()) if isinstance(o, tuple))
            if links and not self.code.is_return(node) and not is_kept:
                return True
        return False

    def made(self, node, known):
        i, f = node.i, node.f
        one, two = known.get(f.get('rs1', 0), NOTHING), known.get(f.get('rs2', 0), NOTHING)
        if i.shape in ('jal', 'jalr'):
            return frozenset([(LINK, None)])
        if i.name in ('lui', 'auipc'):
            return frozenset(self.image_address(f['imm'] + (node.pc if i.name == 'auipc' else 0) & table.M32))
        if i.name == 'addi':
            return self.moved(one, f['imm']) if f['rs1'] else NOTHING
        if i.name in ('add', 'sub') and is_stack(one) and self.added(node) is not None:
            return self.moved(one, self.added(node))    # (a frame that is larger than an addi reaches, or one of vector registers)
        if i.name in ('add', 'or'):
            return self.summed(one, two)
        if i.name == 'sub':
            return NOTHING if not all(map(is_of_image, two)) else self.loose(one)
        if i.name == 'andi' and f['imm'] < 0 or i.name == 'ori' and f['imm'] >= 0:
            return self.loose(one)
        return self.loaded(node, one) if i.name == 'lw' else NOTHING


def is_stack(origins):
    """Whether there are only addresses of the stack."""
    return bool(origins) and all(isinstance(o, tuple) and o[0] == STACK for o in origins)


def is_of_image(origin):
    """Whether an origin is a number of the image, which may be a plain number."""
    return isinstance(origin, tuple) and origin[0] in (AT, NEAR, IN)


def slots_of(origins, offset):
    """The slots of the stack that an access means, as far as they are known."""
    return [o[1] + offset for o in origins if isinstance(o, tuple) and o[0] == STACK and o[1] is not None]


def stack_zone():
    return 0x2fff0000, 0x30000000, 6, 'the stack'


def all_zones(image, params):
    """All that an address out of memory may mean: buffers first, then the image's data and the stack."""
    out = [(address, address + size, mode, f'a{place}') for place, address, size, mode in checker.buffers(params)]
    out += [(s.first, s.end, s.rights, 'the image') for s in image.segments if not s.rights & 1]
    return out + [stack_zone()]
