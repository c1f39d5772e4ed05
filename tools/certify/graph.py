"""What the graph of a kernel's instructions tells: which dominate which, the loops, which registers are still read, and which accesses
are sure to come."""
import functools
import operator
from collections import namedtuple

import flow
from outside import model, table

VL = flow.VL
FARTHEST = 1 << 12      # how far accesses lie from a register that are tested with it
ALL = (1 << 33) - 1
LIKE = 0x3f             # the bits of a vector type that say which elements there are

# head: its first node. nodes: all of it. latches: the nodes from which it goes back to its head. depth: how many loops it stands in, itself too.
Loop = namedtuple('Loop', 'head nodes latches depth')
# What is known of vl, which vector types are possible (None: others too), VLMAX, where it is one number, and the registers that hold vl.
Setting = namedtuple('Setting', 'length types most holders')


class Graph:
    """The graph of `program.Code`."""

    def __init__(self, code, vlenb=16):
        self.code, self.nodes, self.leads, self.known = code, code.nodes, code.leads, {}     # (known: what `counters` asks for again)
        self.vlenb = vlenb
        self.order = reversed_postorder(code.entry, code.leads)
        self.place = {key: k for k, key in enumerate(self.order)}
        self.comes = {key: [] for key in self.order}
        for key in self.order:
            for to in self.leads[key]:
                self.comes[to].append(key)
        self.above = self.dominators()
        self.loops = self.natural_loops()
        self.inside = {key: [loop for loop in self.loops if key in loop.nodes] for key in self.order}
        self.live = self.live_at()
        self.entering, self.early = {}, {}      # head of a loop, or a node before it -> the vector type that is set on the ways into it, or behind it
        self.settings = self.vectors_before(vlenb)
        self.alike = self.alike_types()
        self.set_types_early(vlenb)
        self.lengths = {key: it.length for key, it in self.settings.items()}
        self.types = {key: min(it.types) for key, it in self.settings.items() if len(it.types) == 1 and None not in it.types}

    # ---- Dominators and loops -------------------------------------------------------------------------------------------

    def dominators(self):
        """The next dominator of each node (K. Cooper, T. Harvey, K. Kennedy, "A simple, fast dominance algorithm", 2001)."""
        above, is_changed = {self.order[0]: self.order[0]}, True
        while is_changed:
            is_changed = False
            for key in self.order[1:]:
                new = None
                for come in self.comes[key]:
                    if come in above:
                        new = come if new is None else self.both_above(above, new, come)
                if above.get(key) != new:
                    above[key], is_changed = new, True
        return above

    def both_above(self, above, one, two):
        while one != two:
            while self.place[one] > self.place[two]:
                one = above[one]
            while self.place[two] > self.place[one]:
                two = above[two]
        return one

    def dominates(self, one, two):
        while self.place[two] > self.place[one]:
            two = self.above[two]
        return one == two

    def natural_loops(self):
        """The loops, inner ones first. A way back to a node that does not dominate it makes one of all between, too."""
        latches = {}
        for key in self.order:
            for to in self.leads[key]:
                if self.place[to] <= self.place[key]:
                    latches.setdefault(to, set()).add(key)
        found = []
        for head, ends in latches.items():
            nodes, todo = {head}, [end for end in ends if end != head]
            while todo:
                key = todo.pop()
                if key not in nodes:
                    nodes.add(key)
                    todo += self.comes[key]
            found.append((head, frozenset(nodes), frozenset(ends)))
        depth = lambda nodes: sum(nodes <= other for _, other, _ in found)
        return sorted((Loop(*loop, depth(loop[1])) for loop in found), key=lambda loop: -loop.depth)

    def is_natural(self, loop):
        """Whether the loop is come into at its head alone."""
        return all(self.dominates(loop.head, latch) for latch in loop.latches)

    def depth(self, key):
        return len(self.inside[key])

    def between(self, one, two):
        """The nodes on the ways from a node to one that it dominates, the first one among them."""
        found, todo = {one}, [two]
        while todo:
            for come in self.comes[todo.pop()]:
                if come not in found:
                    found.add(come)
                    todo.append(come)
        return found

    # ---- Registers that are still read -----------------------------------------------------------------------------------

    def live_at(self):
        """node -> the registers whose numbers may still be read there, as bits, behind the loads that lead it. Where a run ends a0 and a1 are
        read."""
        uses = {key: self.used_and_set(key) for key in self.order}
        loaded = {key: sum(1 << t for t, _ in self.nodes[key].loads) for key in self.order}
        live, todo = {key: 0 for key in self.order}, list(self.order)
        waiting = set(todo)
        while todo:
            key = todo.pop()
            waiting.discard(key)
            used, wrote = uses[key]
            behind = 0
            for to in self.leads[key]:
                behind |= live[to] & ~loaded[to]
            if self.code.is_exit(self.nodes[key]):
                behind |= 3 << 10
            now = behind & ~wrote | used
            if now != live[key]:
                live[key] = now
                for come in self.comes[key]:
                    if come not in waiting:
                        waiting.add(come)
                        todo.append(come)
        return live

    def used_and_set(self, key):
        """As `used_and_set`; a return that ends the run reads no register, since ecall may stand in its place."""
        return (0, 0) if self.code.is_exit(self.nodes[key]) else used_and_set(self.nodes[key])

    def touched(self, keys):
        """The registers that these nodes read, write or keep for later, as bits."""
        out = 0
        for key in keys:
            used, wrote = self.used_and_set(key)
            out |= used | wrote | self.live[key] | sum(1 << t for t, _ in self.nodes[key].loads)
        return out

    def writers(self, keys, register):
        return [key for key in keys if used_and_set(self.nodes[key])[1] >> register & 1 or is_moved(self.nodes[key], register)]

    # ---- Accesses that are sure to come --------------------------------------------------------------------------------------

    def sure_accesses(self, is_any=False):
        """node -> {register: (first, end)}: offsets from the register's number there between which accesses are sure to come. What lies
        between the lowest and the highest on every way. is_any: on some way, as far as that ends."""
        sure, todo = {}, list(self.order)
        for _ in range(8 * len(self.order)):
            if not todo:
                return sure
            key = todo.pop()
            known = [without_loaded(self.nodes[to], sure[to]) for to in self.leads[key] if to in sure]
            now = self.before_access(key, (joined if is_any else met)(known) if known else {}, not is_any)
            if sure.get(key) != now:
                sure[key] = now
                todo += self.comes[key]
        return {key: self.before_access(key, {}) for key in self.order}

    def before_access(self, key, behind, moves=True):
        """What is sure before a node, from what is sure behind it. moves: whether accesses by a register that it computes from another one
        count for that."""
        node = self.nodes[key]
        now = behind
        if used_and_set(node)[1] or node.stores:
            now = {register: span for register, span in behind.items() if not used_and_set(node)[1] >> register & 1}
        if moves and node.i.name == 'addi' and node.f['rs1'] not in (0, 2) and node.f['rd'] in behind and not node.stores:
            first, end = behind[node.f['rd']]
            now = with_span(now, node.f['rs1'], first + node.f['imm'], end + node.f['imm'])
        span = self.span_of(key)
        return with_span(now, *span) if span else now

    def span_of(self, key):
        """(register, first, end): what an access touches, as offsets from a register's number; None where it is not known, or nothing."""
        node, length = self.nodes[key], self.lengths.get(key)
        access = access_of(node)
        if access:
            register, offset, size, _ = access
            return register, offset, offset + size
        if node.i.shape in ('vload', 'vstore') and length and node.f['vm']:
            return node.f['rs1'], 0, length * node.i.width // 8
        return None

    # ---- Lengths of vectors ------------------------------------------------------------------------------------------------------

    def same_lengths(self, vlenb):
        """The nodes that ask for vl as it is, by a register that holds it, and get no other, with whether the vector type before is known."""
        for key, before in self.settings.items():
            node = self.nodes[key]
            if node.i.shape == 'vset' and node.f.get('rs1') in before.holders and node.f['rd'] in (0, node.f['rs1']) and before.types:
                if 'imm' in node.f and before.most == table.vlmax_of(node.f['imm'], vlenb) and not node.loads:
                    yield key, key in self.types

    def vectors_before(self, vlenb):
        """node -> what the words alone say of vl and the vector type there."""
        known, todo = {self.order[0]: Setting(None, frozenset(), None, frozenset())}, [self.order[0]]
        loops = {loop.head: loop for loop in self.loops if loop.head in self.entering}
        while todo:
            key = todo.pop()
            behind = setting_behind(self.nodes[key], known[key], vlenb)
            if key in self.early:
                behind = behind._replace(types=frozenset([self.early[key]]))
            for to in self.leads[key]:
                is_entering = to in loops and key not in loops[to].nodes
                now = behind._replace(types=frozenset([self.entering[to]])) if is_entering else behind
                both = now if to not in known else met_settings(known[to], now)
                if known.get(to) != both:
                    known[to] = both
                    todo.append(to)
        return known

    def set_types_early(self, vlenb):
        """The vector types that are to be set before loops, which leave vl as it is: where a loop sets another type before anything in it asks
        for one, so that it has one type on the ways into it and another one on the ways back."""
        for loop in self.loops:
            before = self.settings[loop.head]
            if len(before.types) != 2 or None in before.types or before.most is None or not self.is_natural(loop) or not self.sets_type_first(loop):
                continue
            ways = [{it for come in self.comes[loop.head] if (come in loop.nodes) == is_back
                     for it in setting_behind(self.nodes[come], self.settings[come], vlenb).types} for is_back in (False, True)]
            if len(ways[0]) == len(ways[1]) == 1:
                last = self.last_of_type(loop)
                (self.entering if last is None else self.early)[loop.head if last is None else last], = ways[1]
                self.settings = self.vectors_before(vlenb)

    def last_of_type(self, loop):
        """The node on the one way into a loop behind which nothing asks for a vector type on any way before one is set; None where there is none."""
        key = loop.head
        while not (needs_type(self.nodes[key]) or self.nodes[key].i.shape == 'vset') or key == loop.head:
            comes = [come for come in self.comes[key] if key != loop.head or come not in loop.nodes]
            if len(comes) != 1 or key in self.early or self.nodes[key].loads or self.nodes[key].stores:
                return None
            key, = comes
        todo, seen = list(self.leads[key]), set()
        while todo:
            at = todo.pop()
            if at not in seen and self.nodes[at].i.shape != 'vset':
                if needs_type(self.nodes[at]):
                    return None
                todo += self.leads[at]
            seen.add(at)
        return key

    def sets_type_first(self, loop):
        """Whether a vector type is set in a loop before the loop is left and before anything asks for the type, but for a setting that keeps vl."""
        todo, seen, asks = [loop.head], {loop.head}, False
        while todo:
            key = todo.pop()
            node = self.nodes[key]
            if node.i.shape == 'vset':
                asks = asks or is_keep(node) or node.f.get('rs1') in self.settings[key].holders
                continue
            if key not in loop.nodes or not self.leads[key] or needs_type(node):
                return False
            todo += [to for to in self.leads[key] if to not in seen]
            seen |= set(self.leads[key])
        return asks

    def alike_types(self):
        """node -> the vector type that it is to set: where types that differ from way to way in nothing but what elements become that are left
        to the machine, the one type that keeps these elements wherever one of them does."""
        groups, out = [], {}
        for key, before in self.settings.items():
            node = self.nodes[key]
            asks = needs_type(node) or is_keep(node) or node.i.shape == 'vset' and node.f.get('rs1') in before.holders
            if asks and len(before.types) > 1 and None not in before.types and len({vtype & LIKE for vtype in before.types}) == 1:
                groups.append(self.type_setters(key))
        while True:
            older = dict(out)
            for group in groups:
                vtype = functools.reduce(operator.and_, (out.get(key, self.nodes[key].f['imm']) for key in group))
                out.update(dict.fromkeys(group, vtype))
            if out == older:
                return {key: vtype for key, vtype in out.items() if vtype != self.nodes[key].f['imm']}

    def type_setters(self, key):
        """The nodes by which the vector type is set that a node finds."""
        found, todo, seen = set(), [key], {key}
        while todo:
            for come in self.comes[todo.pop()]:
                if self.nodes[come].i.shape == 'vset':
                    found.add(come)
                elif come not in seen:
                    seen.add(come)
                    todo.append(come)
        return found


def met_settings(one, two):
    """What holds of both."""
    return Setting(one.length if one.length == two.length else None, one.types | two.types, one.most if one.most == two.most else None,
                   one.holders & two.holders)


def setting_behind(node, before, vlenb):
    """What is known behind a node."""
    wrote = {node.f.get('rd')} | {t for t, _ in node.loads}
    if node.i.shape != 'vset':
        holders = before.holders - wrote
        if node.i.name == 'addi' and not node.f['imm'] and node.f['rs1'] in before.holders or node.f.get('csr') == 0xc20:
            holders |= {node.f['rd']} - {0}
        return before._replace(holders=holders)
    f, vtype = node.f, node.f.get('imm')
    if vtype is None or not model.is_supported(vtype):
        return Setting(None, frozenset([None]), None, frozenset())
    most, holders = table.vlmax_of(vtype, vlenb), wrote - {0, None}
    if 'avl' in f:
        return Setting(min(f['avl'], most), frozenset([vtype]), most, frozenset(holders))
    if f['rs1'] == 0 and f['rd']:
        return Setting(most, frozenset([vtype]), most, frozenset(holders))
    if (is_keep(node) or f['rs1'] in before.holders) and before.most == most:
        return Setting(before.length, frozenset([vtype]), most, before.holders | holders)
    return Setting(None, frozenset([vtype]), most, frozenset(holders))


def needs_type(node):
    """Whether a vector instruction means other elements by other vector types."""
    return node.i.is_vector and node.i.shape not in ('vset', 'vload_whole', 'vstore_whole', 'mvr')


def is_keep(node):
    """Whether an instruction sets the vector type and keeps vl."""
    return node.i.shape == 'vset' and node.f.get('rs1') == 0 and node.f.get('rd') == 0


def with_span(spans, register, first, end):
    """Spans with one more; one that lies far away is left out."""
    own = spans.get(register, (first, end))
    first, end = min(own[0], first), max(own[1], end)
    return spans if max(-first, end) > FARTHEST else {**spans, register: (first, end)}


def reversed_postorder(entry, leads):
    """The nodes that are come to, each before those to which it leads, but for ways back."""
    out, seen, stack = [], {entry}, [(entry, iter(leads[entry]))]
    while stack:
        key, ways = stack[-1]
        for to in ways:
            if to not in seen:
                seen.add(to)
                stack.append((to, iter(leads[to])))
                break
        else:
            out.append(key)
            stack.pop()
    return out[::-1]


def used_and_set(node):
    """The registers that an instruction reads and writes, as bits, vl as the 32nd."""
    used, wrote = flow.used_and_set(node.i, node.f)
    bits = lambda numbers: sum(1 << n for n in numbers)
    return bits(used), bits(wrote - {0})


def is_moved(node, register):
    """Whether a register holds one here that is kept on the stack."""
    return any(t == register for t, _ in node.loads + node.stores)


def without_loaded(node, spans):
    """What is sure before the loads that lead a node."""
    return {r: span for r, span in spans.items() if not any(t == r for t, _ in node.loads)} if node.loads else spans


def access_of(node):
    """(register, offset, size, is a store) of a scalar load or store, else None."""
    i, f = node.i, node.f
    if i.shape not in ('load', 'store'):
        return None
    return f['rs1'], f['imm'], i.width // 8, i.shape == 'store'


def met(ways):
    """What each of the ways is sure of."""
    out = dict(ways[0])
    for way in ways[1:]:
        for register in list(out):
            if register in way:
                first, end = max(out[register][0], way[register][0]), min(out[register][1], way[register][1])
                if first < end:
                    out[register] = first, end
                    continue
            del out[register]
    return out


def joined(ways):
    """What lies on any of the ways."""
    out = {}
    for way in ways:
        for register, (first, end) in way.items():
            own = out.get(register, (first, end))
            out[register] = min(own[0], first), max(own[1], end)
    return out
