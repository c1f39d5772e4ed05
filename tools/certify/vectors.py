"""Which vector registers are still read at a node, which are free there, and what the addresses in them stem from."""
from outside import model, table

WHOLE = {'vload', 'vload_strided', 'vload_indexed', 'vload_whole', 'int', 'mv', 'ext', 'narrow', 'widen', 'mvr', 'cmp', 'iota', 'fixed', 'gather'}
TAIL_AGNOSTIC = 0x40
# By stem what makes an address out of others, and what also does out of the number in rs1.
MOVING = {'vadd', 'vsub', 'vrsub', 'vor', 'vmv', 'vmv.s', 'vmv1r', 'vmv2r', 'vmv4r', 'vmv8r', 'vzext', 'vsext', 'vmerge', 'vwaddu', 'vwadd', 'vmacc', 'vmadd',
          'vnmsac', 'vnmsub', 'vslide1down', 'vslide1up', 'vslidedown', 'vslideup', 'vrgather'}
TAKING = {'vadd', 'vrsub', 'vor', 'vmv', 'vmv.s', 'vmerge', 'vwaddu', 'vwadd', 'vslide1down', 'vslide1up'}


class Vectors:
    """Of a graph: node -> the vector registers whose elements may still be read there."""

    def __init__(self, its_graph, vlenb):
        self.graph = its_graph
        nodes = its_graph.nodes
        sets = [node.f for node in nodes.values() if node.i.shape == 'vset']
        self.all_types = {f['imm'] for f in sets} if all('imm' in f for f in sets) else set(table.VTYPES)
        self.types = its_graph.types
        self.uses = {key: self.used_and_set(nodes[key]) for key in its_graph.order if nodes[key].i.is_vector}
        self.live = self.live_at()

    def used_and_set(self, node):
        """The vector registers that a node may read, and those that it sets as a whole."""
        vtype = self.types.get(node.key)
        used, wrote = set(), None
        for vtype in {vtype} if vtype is not None else self.all_types | {0}:
            if not model.is_legal(vtype, node.word):
                continue
            dest, sources = model.operands(node.i, node.f, vtype)
            own = set(dest.registers) if dest else set()
            used.update(*(operand.registers for operand in sources))
            is_whole = node.i.shape in WHOLE and node.f.get('vm', 1) and (vtype & TAIL_AGNOSTIC or node.i.shape in ('vload_whole', 'mvr'))
            if not is_whole:
                used |= own
            wrote = own if wrote is None else wrote & own
            if not is_whole:
                wrote = set()
        if not node.f.get('vm', 1) or node.i.shape in ('carry', 'carry_mask', 'merge'):
            used.add(0)
        return frozenset(used), frozenset(wrote or ())

    def live_at(self):
        live = {key: frozenset() for key in self.graph.order}
        todo, waiting = list(self.graph.order), set(self.graph.order)
        while todo:
            key = todo.pop()
            waiting.discard(key)
            behind = self.behind(key, live)
            used, wrote = self.uses.get(key, (frozenset(), frozenset()))
            now = behind - wrote | used
            if now != live[key]:
                live[key] = now
                for come in self.graph.comes[key]:
                    if come not in waiting:
                        waiting.add(come)
                        todo.append(come)
        return live

    def behind(self, key, live):
        return frozenset().union(*(live[to] for to in self.graph.leads[key]))

    def free(self, key):
        """The registers that nothing reads before or behind a node, nor the node itself."""
        busy = self.live[key] | self.behind(key, self.live)
        node = self.graph.nodes[key]
        for vtype in {self.types.get(key)} - {None} or self.all_types:
            if model.is_legal(vtype, node.word):
                dest, sources = model.operands(node.i, node.f, vtype)
                busy |= frozenset().union(*(operand.registers for operand in [*filter(None, [dest]), *sources]))
        return set(range(32)) - busy - {0}

    # ---- What addresses in them stem from -----------------------------------------------------------------------------------

    def stems_of_indices(self, key, bases):
        """What the indices of an access stem from, over all ways: the numbers of registers that were put into them. What was kept in memory by
        whole registers may be what any such store kept."""
        nodes, out, seen, todo = self.graph.nodes, frozenset(), set(), list(self.setters_before(key, self.registers_of(key)))
        while todo:
            at = todo.pop()
            node = nodes[at]
            if at in seen:
                continue
            seen.add(at)
            if node.i.shape == 'vload_whole':
                kept = [other for other in self.uses if nodes[other].i.shape == 'vstore_whole']
                todo += [setter for other in kept for setter in self.setters_before(other, self.uses[other][0])]
            elif getattr(node.i, 'stem', None) in MOVING and not node.i.shape.startswith(('vload', 'vstore')):
                if node.i.stem in TAKING and 'rs1' in node.f:
                    out |= bases.at(at).get(node.f['rs1'], frozenset())
                todo += self.setters_before(at, self.uses[at][0] - {0})
        return bases.loose(out)

    def registers_of(self, key):
        """The vector registers of an access's indices."""
        node, out = self.graph.nodes[key], set()
        for vtype in {self.types.get(key)} - {None} or self.all_types:
            if model.is_legal(vtype, node.word):
                out.update(*(operand.registers for operand in model.operands(node.i, node.f, vtype)[1] if operand.role == 'vs2'))
        return frozenset(out)

    def setters_before(self, key, registers):
        """The nodes that may have set one of these registers last before a node."""
        nodes, seen, todo = self.graph.nodes, {(key, registers)}, [(key, registers)]
        while todo:
            at, wanted = todo.pop()
            for come in self.graph.comes[at]:
                left = wanted
                if come in self.uses and wanted & self.may_set(nodes[come]):
                    yield come
                    left = wanted - self.uses[come][1]
                if left and (come, left) not in seen:
                    seen.add((come, left))
                    todo.append((come, left))

    def may_set(self, node):
        """The vector registers of which a node may set some elements."""
        out = set()
        for vtype in {self.types.get(node.key)} - {None} or self.all_types:
            dest = model.operands(node.i, node.f, vtype)[0] if model.is_legal(vtype, node.word) else None
            out.update(dest.registers if dest else ())
        return out
