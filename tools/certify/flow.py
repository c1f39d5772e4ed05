"""The kernel's blocks, and the ways between them by the checker's own steps.

A block begins at the entry, where a jump or branch leads, and behind each branch. Which registers matter where (liveness) is
known from the words alone.
"""
import struct
from collections import namedtuple

import quick
from outside import certificates, checker, model

EVERYWHERE = [checker.Zone(-1 << 60, 1 << 60, certificates.READ | certificates.WRITE)]
VL = checker.VL

# known: what is known on the way. start: the values where the source begins. told: the orders that the branch tells.
Edge = namedtuple('Edge', 'source target known start told words pc')


def decoded_at(image, pc):
    """What the word at pc means, or None."""
    segment = certificates.code_segment(image.segments, pc)
    if segment is None:
        return None
    return model.decode(struct.unpack_from('<I', segment.data, pc - segment.first)[0])


def leads_to(i, f, pc):
    """The addresses to which a word leads, as far as it says so, and whether a block ends behind it."""
    if i.shape == 'branch':
        return [pc + f['to'], pc + 4], True
    if i.shape == 'jal':
        return [pc + f['to']] + ([pc + 4] if f['rd'] else []), True
    if i.shape == 'jalr':
        return ([pc + 4] if f['rd'] else []), True
    return [], i.shape == 'ecall'


def starts_of(image, first):
    """Where blocks begin that can be reached from these addresses."""
    starts, seen, todo = set(first), set(), list(first)
    while todo:
        pc = todo.pop()
        while pc not in seen:
            seen.add(pc)
            decoded = decoded_at(image, pc)
            if decoded is None:
                break
            targets, is_end = leads_to(*decoded, pc)
            todo += [target for target in targets if target not in starts]
            starts.update(targets)
            if is_end:
                break
            pc += 4
    return {pc for pc in starts if decoded_at(image, pc) is not None}


def words_of(image, start, starts):
    """The instructions of a block: (pc, instruction, fields), up to the first one that is none."""
    out, pc = [], start
    while len(out) < checker.WORDS:
        decoded = decoded_at(image, pc)
        if decoded is None:
            return out
        out.append((pc, *decoded))
        pc += 4
        if leads_to(*decoded, pc - 4)[1] or pc in starts:
            return out
    return out


def cuts_of(image, starts):
    """Where a block may begin as well: at a branch, where what is compared is then a number of its own, and at a vset whose length
    the block computes, which can then be split."""
    out = set()
    for start in starts:
        wrote = set()
        for pc, i, f in words_of(image, start, starts):
            if i.shape == 'branch' or i.shape == 'vset' and f.get('rs1') in wrote:
                out.add(pc)
            wrote.add(f.get('rd'))
    return out


def blocks_of(image, more=()):
    """start -> the words of each block, and start -> where it leads, as far as the words alone say. more: other starts that are known."""
    starts = starts_of(image, [image.entry, *more])
    blocks = {start: words_of(image, start, starts) for start in starts}
    targets = {}
    for start, words in blocks.items():
        pc, i, f = words[-1]
        ways, is_end = leads_to(i, f, pc)
        targets[start] = {*ways} & starts if is_end else {pc + 4} & starts
    return blocks, targets


def content_of(image, start, starts):
    """What a block does wherever it lies: its words, but for how far the last one leads, and its address, where one tells of that. And the
    addresses that its ways have to do with: where the last word leads, what is behind it, and its own."""
    words = words_of(image, start, starts)
    if not words:
        return start, (start,)
    pc, i, f = words[-1]
    data = certificates.code_segment(image.segments, start)
    plain, last = (data.data[at - data.first:to - data.first] for at, to in ((start, pc), (pc, pc + 4)))
    leads = i.shape in ('branch', 'jal')
    is_told = any(i.name == 'auipc' or i.shape == 'jalr' or i.shape == 'jal' and f['rd'] for _, i, f in words)
    return ((plain, (i.name, f.get('rs1'), f.get('rs2')) if leads else last, pc * is_told),
            (*([pc + f['to']] if leads else []), pc + 4, pc))


class Walks:
    """The ways out of blocks as they were walked, for other images of the same parameters: two blocks with the same words of which the same
    is stated have the same ways, wherever they lie. Kept are those that the last image asked for, and this one."""

    def __init__(self):
        self.older, self.now = {}, {}

    def turn(self):
        """Another image comes."""
        self.older, self.now = self.now, {}

    def kept(self, key):
        """What was kept of a block, or None."""
        if key not in self.now and key in self.older:
            self.now[key] = self.older[key]
        return self.now.get(key)


class Explorer(checker.Walk):
    """The checker's walk without its refusals: the ways out of a block, whatever is accessed on them."""

    def __init__(self, image, certificate, walks=None):
        super().__init__(image, certificate)
        self.zones, self.walked, self.legal, self.known = EVERYWHERE, {}, {}, {}
        self.walks, self.contents = walks or Walks(), {}

    def edges(self, block):
        """The ways out of a block as far as it can be followed."""
        if block not in self.walked:
            if block.start not in self.contents:
                self.contents[block.start] = content_of(self.image, block.start, self.blocks)
            words, places = self.contents[block.start]
            key = words, block._replace(start=0)
            ways = self.walks.kept(key)
            if ways is None:
                self.walked[block] = self.ways_out(block)
                self.walks.now[key] = [(places.index(edge.target) if edge.target in places else None, edge) for edge in self.walked[block]]
            else:
                self.walked[block] = [Edge(block.start, edge.target if at is None else places[at], *edge[2:-1], places[-1]) for at, edge in ways]
        return self.walked[block]

    def fetched(self, s, pc):
        """The instruction at pc, where it is one that is legal."""
        if (pc, s.vtype) not in self.legal:
            self.legal[pc, s.vtype] = super().fetched(s, pc)
        return self.legal[pc, s.vtype]

    def ways_out(self, block):
        """The same, walked."""
        s = quick.at_block(self.certificate, block, self.vlenb)
        start, pc = list(s.x), block.start
        try:
            while True:
                i, f = self.fetched(s, pc)
                s.words += 1
                ways = self.ways(s, i, f, pc)
                if ways is not None or s.words == checker.WORDS:
                    return [Edge(block.start, target, known, start, told, s.words, pc) for known, target, told in ways or ()]
                pc += 4
        except certificates.Refused:
            return []

    def ways(self, s, i, f, pc):
        """(known, target, orders told) of each way where a block ends behind this word, else None."""
        after = pc + 4
        if i.shape == 'branch':
            both = ((taken, pc + f['to'] if taken else after) for taken in (True, False))
            known = ((quick.refined(s, i, f, taken), target, checker.told_orders(i, f, taken)) for taken, target in both)
            return [way for way in known if way[0]]
        if i.shape in ('jal', 'jalr'):
            to = pc + f['to'] if i.shape == 'jal' else checker.known(checker.offset_sum(s, f['rs1'], f['imm']).range)
            s.set_x(f['rd'], s.constant(after))
            return [(s, None if to is None else to & ~1 & checker.M32, ())]
        if i.shape == 'ecall':
            return [(s, model.EXIT, ())]
        self.act(s, i, f, pc)
        return [(s, after, ())] if after in self.blocks else None


def used_and_set(i, f):
    """The registers that an instruction reads and writes, vl as 32."""
    used = {f[name] for name in ('rs1', 'rs2') if name in f and name in i.syntax}
    wrote = {f['rd']} if 'rd' in f else set()
    if i.shape == 'vset':
        wrote.add(VL)
        if f.get('rs1') == 0 and f.get('rd') == 0:
            used.add(VL)
    if i.is_vector or f.get('csr') == 0xc20:
        used.add(VL)
    return used - {0}, wrote


def live_at(blocks, targets):
    """block -> the registers whose numbers may still be read. blocks: start -> instructions; targets: start -> where it leads."""
    read, kept, comes = {}, {}, {start: set() for start in blocks}
    for start, words in blocks.items():
        read[start], wrote = set(), set()
        for _, i, f in words:
            used, sets = used_and_set(i, f)
            read[start] |= used - wrote
            wrote |= sets
        kept[start] = wrote
        for target in targets.get(start, ()):
            comes.setdefault(target, set()).add(start)
    live, todo = {start: set(read[start]) for start in blocks}, list(blocks)
    while todo:
        target = todo.pop()
        for start in comes[target]:
            more = live[target] - kept[start] - live[start]
            if more:
                live[start] |= more
                todo.append(start)
    return live


def components(nodes, leads):
    """The strongly connected parts, those that are led to first. leads: node -> nodes."""
    order, low, stack, out = {}, {}, [], []
    for first in sorted(nodes):
        walk = [(first, iter(leads.get(first, ())))] if first not in order else []
        while walk:
            node, ways = walk[-1]
            if node not in order:
                order[node] = low[node] = len(order)
                stack.append(node)
            to = next(ways, None)
            if to is not None:
                if to not in order:
                    walk.append((to, iter(leads.get(to, ()))))
                elif to in low:
                    low[node] = min(low[node], low[to])
                continue
            walk.pop()
            if walk:
                low[walk[-1][0]] = min(low[walk[-1][0]], low[node])
            if low[node] == order[node]:
                out.append(taken_off(stack, node, low))
    return out


def taken_off(stack, node, low):
    """The part of the stack from a node on, which is done: it has no `low` any more."""
    part = set()
    while node not in part:
        part.add(stack.pop())
    for other in part:
        del low[other]
    return part


def loops(blocks, leads):
    """The loops, each as its blocks: what is strongly connected, and what still is when no way leads to its first block."""
    def around(blocks, leads):
        """The outermost loops, and their ways without those to their first blocks."""
        for part in components(blocks, leads):
            inner = {node: set(leads.get(node, ())) & part for node in part}
            if any(node in inner[node] for node in part) or len(part) > 1:
                yield part, {node: to - {min(part)} for node, to in inner.items()}

    walk = [around(blocks, leads)]
    while walk:
        part, inner = next(walk[-1], (None, None))
        if part is None:
            walk.pop()
            continue
        yield part
        walk.append(around(part, inner))
