"""A kernel's code as a graph of instructions, and its layout as a new segment with more instructions between them.

A node is an instruction at an address, for one chain of calls: a function that is called from two places has a copy for each, so
that each return leads to one place; but where that makes too much code, large functions have one copy. Registers keep their numbers,
data stay where they are, and the old code stays as data that may be read. What is put between the nodes is a list of
operations, which `layout` turns into words with all branches in range.
"""
import struct
from collections import namedtuple

import flow
import notes
from outside import certificates, model, table

WORDS_AT_MOST = 1 << 16
MOST_COPIED = 600           # nodes up to which each call has a copy of its function
MOST_READ = 1 << 12         # nodes that are read before some functions have one copy
LARGE = 24                  # words from which on a function is a large one
LINKS = (1, 5)              # the registers that the calling convention leaves return addresses in
LOAD = 1
PAGE = 0x1000
ZERO, RA, SP = 0, 1, 2
STACK_TOP = 0x30000000      # where the stack ends, and the stack pointer begins

INS = {i.name: i for rows in model.TABLE.values() for _, _, i in rows}
OPPOSITE = {'beq': 'bne', 'bne': 'beq', 'blt': 'bge', 'bge': 'blt', 'bltu': 'bgeu', 'bgeu': 'bltu'}
SMALL, NEAR, FAR = 1 << 11, 1 << 12, 1 << 20

# An instruction: its address, the return addresses of the calls around it (each with its link register), and what its word means. loads,
# stores: (register, the kernel's register that it holds here) where that is kept on the stack, right before it and right behind it.
Node = namedtuple('Node', 'key pc calls i f word loads stores', defaults=((), ()))

# What is put between instructions.
Word = namedtuple('Word', 'word key', defaults=(None,))
Label = namedtuple('Label', 'name')
Branch = namedtuple('Branch', 'name rs1 rs2 label key', defaults=(None,))
Jump = namedtuple('Jump', 'rd label key', defaults=(None,))
Number = namedtuple('Number', 'rd value')           # one word or two
Address = namedtuple('Address', 'rd label')         # always two
Run = namedtuple('Run', 'keys')                     # a copy of nodes that follow one another, with all that is put between them
Away = namedtuple('Away', 'rd label base')          # the address of a label, where the register holds that of another one: one word or two


def word(name, **fields):
    """The operation of one instruction that is no branch or jump."""
    return Word(INS[name].encode(**fields))


def number_words(rd, value):
    """The words that put a number into a register."""
    low = model.signed(value, 12)
    high = value - low & table.M32
    words = [INS['lui'].encode(rd=rd, imm=high)] if high else []
    if low or not high:
        words.append(INS['addi'].encode(rd=rd, rs1=rd if high else 0, imm=low))
    return words


def counted_on(one, two):
    """What comes to the same as `two` where `one` was done before: a number that lies near the one in the same register takes one word."""
    if not (isinstance(one, Number) and isinstance(two, Number)) or one.rd != two.rd or len(number_words(two.rd, two.value)) == 1:
        return two
    away = two.value - one.value
    return word('addi', rd=two.rd, rs1=one.rd, imm=away) if -1 << 11 <= away < 1 << 11 else two


class Code:
    """The instructions that can be reached from the entry, and where each leads."""

    def __init__(self, image, tables=(), shared=(), most=WORDS_AT_MOST):
        """tables: the addresses to which indirect jumps may lead, by the address of the jump. shared: functions that have one copy. most: how
        many nodes there may be."""
        self.image, self.tables, self.shared, self.most = image, dict(tables), frozenset(shared), most
        self.nodes, self.returns, self.lost, self.recursive = {}, {}, set(), set()
        self.first, self.before, self.behind = [], {}, {}       # what moves registers that are kept on the stack
        self.entry = (), image.entry
        self.leads, self.reads_links = {}, False        # (reads_links: whether calls leave the addresses that they left in the old code)
        self.reach()

    def reach(self):
        todo = [self.entry]
        while todo:
            key = todo.pop()
            if self.read(key):
                todo += self.ways(self.nodes[key])
            if not todo:            # (where a return leads is known once each call of its chain is)
                todo = [to for node in self.nodes.values() if self.is_return(node) for to in self.ways(node)
                        if to not in self.nodes and to not in self.lost]
        for key in self.nodes:
            self.leads[key] = [to for to in self.ways(self.nodes[key]) if to in self.nodes]

    def read(self, key):
        """Makes the node of an address, once. Whether that was now."""
        if key in self.nodes or key in self.lost:
            return False
        decoded = flow.decoded_at(self.image, key[1])
        if decoded is None or len(self.nodes) >= self.most:
            self.lost.add(key)
            return False
        segment = certificates.code_segment(self.image.segments, key[1])
        here, = struct.unpack_from('<I', segment.data, key[1] - segment.first)
        self.nodes[key] = Node(key, key[1], key[0], *decoded, here)
        return True

    def retype(self, types):
        """Gives nodes that set a vector type other ones."""
        for key, vtype in types.items():
            node = self.nodes[key]
            f = {**node.f, 'imm': vtype}
            self.nodes[key] = node._replace(f=f, word=node.i.encode(**f))

    def ways(self, node):
        """The nodes to which an instruction leads, of a branch the one where it is taken first."""
        after = node.calls, node.pc + 4
        shape = node.i.shape
        if shape == 'branch':
            return [(node.calls, node.pc + node.f['to'] & table.M32), after]
        if shape in ('jal', 'jalr'):
            return self.jumps(node)
        return [] if shape == 'ecall' else [after]

    def jumps(self, node):
        target = self.target(node)
        link = node.f['rd']
        if target is None:
            if self.is_return(node):
                return sorted(self.returns.get(node.calls, ()))
            targets = self.tables.get(node.pc, ())
        else:
            targets = target,
        if not link:
            return [(node.calls, to) for to in dict.fromkeys(targets)]
        ways = [(self.calls_in(node, to), to) for to in dict.fromkeys(targets)]
        for calls, _ in ways:
            self.returns.setdefault(calls, set()).add((node.calls, node.pc + 4))
        return ways

    def calls_in(self, node, target):
        """The chain of calls in a function that a node calls."""
        frame = node.pc + 4, node.f['rd']
        if target in self.shared:
            return (target, node.f['rd'], 'shared'),
        if frame in node.calls:                     # a recursion: its chain is cut at the first call from here
            self.recursive.add(target)
            return node.calls[:node.calls.index(frame) + 1]
        return node.calls + (frame,)

    def copied(self):
        """The functions of which there are several copies, of those that are large or call themselves."""
        copies = {}
        for key, node in self.nodes.items():
            if node.i.shape in ('jal', 'jalr') and node.f['rd']:
                for calls, to in self.leads[key]:
                    copies.setdefault(to, set()).add(calls)
        return {to for to, chains in copies.items() if len(chains) > 1 and (to in self.recursive or size_of(self.image, to) >= LARGE)}

    def is_return(self, node):
        return (node.i.shape == 'jalr' and not node.f['rd'] and not node.f['imm']
                and node.f['rs1'] == (node.calls[-1][1] if node.calls else RA))

    def is_exit(self, node):
        """Whether a run ends here: an ecall, or the return of the entry's function."""
        return node.i.shape == 'ecall' or not node.calls and self.is_return(node)

    def is_call(self, node):
        return node.i.shape in ('jal', 'jalr') and node.f['rd'] and self.target(node) is not None

    def target(self, node):
        """Where a jump leads, as far as the words before it say."""
        if node.i.shape == 'jal':
            return node.pc + node.f['to'] & table.M32
        base = self.constant(node.f['rs1'], node)
        return None if base is None else base + node.f['imm'] & table.M32 & ~1

    def constant(self, register, node):
        """The number that lui or auipc, and addi, put into a register right before a node."""
        total, pc = 0, node.pc
        for _ in range(2):
            pc -= 4
            before = self.nodes.get((node.calls, pc))
            if before is None or before.f.get('rd') != register:
                return None
            if before.i.name in ('lui', 'auipc'):
                return total + before.f['imm'] + (pc if before.i.name == 'auipc' else 0) & table.M32
            if before.i.name != 'addi' or before.f['rs1'] != register:
                return None
            total += before.f['imm']
        return None


def read(image, tables, shares=True):
    """The code of an image: where copies make too much of it, with one copy of some functions. shares: whether it is less that is too much."""
    code, least = Code(image, tables, most=MOST_READ), MOST_COPIED if shares else MOST_READ - 1
    while len(code.nodes) > least and not code.copied() <= code.shared:
        code = Code(image, tables, code.shared | code.copied(), MOST_READ)
    return code if len(code.nodes) < MOST_READ else Code(image, tables, code.shared)


def size_of(image, first):
    """How many words a function has, without those that it calls."""
    seen, todo = set(), [first]
    while todo:
        pc = todo.pop()
        i, f = (None, {}) if pc in seen else flow.decoded_at(image, pc) or (None, {})
        if i:
            seen.add(pc)
            targets, is_end = flow.leads_to(i, f, pc)
            is_call = i.shape in ('jal', 'jalr') and f['rd']
            todo += [pc + 4] if is_call or not is_end else targets
    return len(seen)


class Edits:
    """What is put into the code. Each is a list of operations."""

    def __init__(self):
        self.first = []         # before all
        self.before = {}        # node -> whenever the node is come to
        self.after = {}         # node -> behind the node, which is no branch or jump
        self.entering = {}      # head of a loop -> (the loop's nodes, operations on the ways in from outside)
        self.rounds = {}        # head of a loop -> (the loop's nodes, operations on the ways back to it)
        self.instead = {}       # node -> in its place
        self.copied = set()     # nodes that stand in copies, in the place of one before them
        self.last = []          # behind all


def layout(code, edits):
    """All operations in the order in which they stand: an instruction falls through to the one that it leads to."""
    out, late = [*code.first, *edits.first], []
    order = sorted(code.nodes, key=standing)
    out.append(Jump(ZERO, ('way', None, code.entry)))
    before = None
    for key in order:
        node = code.nodes[key]
        falls = before is not None and falls_to(code, before) == key
        if before is not None and not falls:
            out += way_on(code, before)
        enter_node(code, edits, key, before if falls else None, out, late)
        if key not in edits.copied:
            out += node_words(code, edits, key)
        before = key
    if before is not None:
        out += way_on(code, before)
    out += late + edits.last
    return without_idle(resolved(code, edits, out))


def node_words(code, edits, key):
    """A node with what is put before it, in its place and behind it; where its place has copies of more nodes, what is behind it stands in
    these."""
    out = code.before.get(key, []) + edits.before.get(key, [])
    instead = edits.instead[key] if key in edits.instead else own_words(code, code.nodes[key])
    if not any(isinstance(op, Run) for op in instead):
        return out + instead + edits.after.get(key, []) + code.behind.get(key, [])
    for op in instead:
        out += run_words(code, edits, op.keys) if isinstance(op, Run) else [op]
    return out


def run_words(code, edits, keys):
    """A copy of nodes that follow one another."""
    first, *others = keys
    out = [*own_words(code, code.nodes[first]), *edits.after.get(first, []), *code.behind.get(first, [])]
    return out + [op for key in others for op in node_words(code, edits, key)]


def standing(key):
    """By what nodes are ordered."""
    return key[0] != (), *key


def falls_to(code, key):
    """The node that has to stand behind a node, or None where it does not go on."""
    node = code.nodes[key]
    if node.i.shape in ('jal', 'jalr', 'ecall'):
        return (node.calls, node.pc + 4) if code.is_call(node) and (node.calls, node.pc + 4) in code.nodes else None
    return node.calls, node.pc + 4


def way_on(code, key):
    """What stands behind a node whose next one is not laid out there."""
    to = falls_to(code, key)
    if to is None:
        return []
    return [Jump(ZERO, ('way', key, to))] if to in code.nodes else [Word(0)]


def enter_node(code, edits, key, falls_from, out, late):
    """The labels before a node, and what is done on the ways into its loop and back to its head."""
    loop, back = edits.rounds.get(key, ((), []))
    loop, operations = edits.entering.get(key, (loop, []))
    enters = [Label(('enter', key)), *operations]
    if falls_from is not None and falls_from in loop:
        late += [*enters, Jump(ZERO, ('at', key))]
    else:
        out += [*enters, Jump(ZERO, ('at', key))] if back else enters
    out += [Label(('round', key)), *back, Label(('at', key))]


def own_words(code, node):
    """A node's own instruction, with its targets by label."""
    i, f, key = node.i, node.f, node.key
    if i.shape == 'branch':
        to = node.calls, node.pc + f['to'] & table.M32
        return [Branch(i.name, f['rs1'], f['rs2'], ('way', key, to), key)]
    if i.name == 'auipc':
        return [Number(f['rd'], node.pc + f['imm'] & table.M32)]
    if i.shape == 'jal' or i.shape == 'jalr' and code.target(node) is not None:
        if not code.leads[key]:
            return [Word(0)]
        if f['rd'] and code.reads_links:
            return [Number(f['rd'], node.pc + 4), Jump(ZERO, ('way', key, code.leads[key][0]), key)]
        return [Jump(f['rd'], ('way', key, code.leads[key][0]), key)]
    if code.is_return(node) and node.calls:
        return [Jump(ZERO, ('way', key, code.leads[key][0]), key)] if code.leads[key] else [Word(0)]
    return [Word(node.word, key)]


def returned(node, weights, other, fails, held):
    """A return to one of several places: to the one whose address the link register holds, else to a label. weights: place -> how often it
    may be meant. other: a spare register. held: what tells of the address of a way in which register it stands, if it does."""
    out = one_of(node, sorted(weights, key=standing), weights, other, fails, held)
    last = max(k for k, op in enumerate(out) if isinstance(op, Branch))
    return [*out[:last], out[last]._replace(key=node.key), *out[last + 1:], Jump(ZERO, fails)]


def one_of(node, places, weights, other, fails, held, before=None):
    """A branch to each of these places in the order in which they stand. before: the way whose address the spare register holds."""
    at = middle(places, weights)
    back, below, above = places[at], places[:at], places[at + 1:]
    way, register, out = way_back(back), held(way_back(back)), []
    if register is None:
        out.append(Address(other, way) if before is None else Away(other, way, before))
        register, before = other, way
    out.append(Branch('beq', node.f['rs1'], register, way))
    rest = [some and one_of(node, some, weights, other, fails, held, before) for some in (above, below)]
    if not below or not above:
        return out + rest[0] + rest[1]
    lower = 'below', node.key, back
    return [*out, Branch('bltu', node.f['rs1'], register, lower), *rest[0], Jump(ZERO, fails), Label(lower), *rest[1]]


def middle(places, weights):
    """Which of some places is compared with first: the one in their midst, by their weights."""
    half, total, at = sum(weights[back] for back in places) / 2, 0, 0
    while total + weights[places[at]] < half:
        total += weights[places[at]]
        at += 1
    return at


def way_back(back):
    """The way to where a call returns to, whose address it left in the link register."""
    return 'way', (back[0], back[1] - 4), back


def ways_compared(places, weights):
    """(way, weight) of all that a return compares with, of what it all weighs 1."""
    todo, whole = [places], sum(weights.values())
    while todo:
        some = todo.pop()
        at = middle(some, weights)
        yield way_back(some[at]), sum(weights[back] for back in some) / whole
        todo += [part for part in (some[:at], some[at + 1:]) if part]


def given(rd, value):
    """What puts a number into a register, or the address of a way."""
    return Address(rd, value) if isinstance(value, tuple) else Number(rd, value)


def resolved(code, edits, operations):
    """Each way by its label: through what is done before a loop where it comes from outside of it, or on the way back to its head."""
    def name(label):
        if label[0] != 'way':
            return label
        _, source, to = label
        if to not in code.nodes:
            return 'nowhere',
        if to in edits.rounds and source in edits.rounds[to][0]:
            return 'round', to
        if to in edits.entering and (source is None or source not in edits.entering[to][0]):
            return 'enter', to
        return 'at', to
    out = [op._replace(label=name(op.label)) if hasattr(op, 'label') else op for op in operations]
    out = [op._replace(base=name(op.base)) if isinstance(op, Away) else op for op in out]
    if any(getattr(op, 'label', None) == ('nowhere',) for op in out):
        out += [Label(('nowhere',)), Word(0)]
    return out


def without_idle(operations):
    """Without the jumps to what stands right behind them."""
    out = []
    for k, op in enumerate(operations):
        if isinstance(op, Jump) and op.rd == ZERO:
            ahead = k + 1
            while ahead < len(operations) and isinstance(operations[ahead], Label):
                if operations[ahead].name == op.label:
                    break
                ahead += 1
            if ahead < len(operations) and isinstance(operations[ahead], Label):
                continue
        out.append(op)
    return out


class Laid:
    """Operations as words at addresses."""

    def __init__(self, operations, first):
        self.operations, self.first = operations, first
        self.long = set()
        while self.grown():
            pass
        self.words = self.encoded()

    def size(self, k, op):
        if isinstance(op, Label):
            return 0
        if isinstance(op, Number):
            return 4 * len(number_words(op.rd, op.value))
        if isinstance(op, Address):
            return 8
        return 8 if k in self.long else 4

    def grown(self):
        """Lays all out, and makes long the branches that don't reach their labels, and the numbers of one word that don't. Whether there was one."""
        at, self.places, self.at = self.first, {}, []
        for k, op in enumerate(self.operations):
            self.at.append(at)
            if isinstance(op, Label):
                self.places[op.name] = at
            at += self.size(k, op)
        more = {k for k, op in enumerate(self.operations) if isinstance(op, Branch) and k not in self.long
                and not -NEAR <= self.places[op.label] - self.at[k] < NEAR}
        more |= {k for k, op in enumerate(self.operations) if isinstance(op, Away) and k not in self.long and not -SMALL <= self.away(op) < SMALL}
        self.long |= more
        return bool(more)

    def away(self, op):
        """How far a label lies behind the one whose address is known."""
        return self.places[op.label] - self.places[op.base]

    def encoded(self):
        words = []
        for k, op in enumerate(self.operations):
            words += self.words_of(k, op)
        return words

    def words_of(self, k, op):
        if isinstance(op, Label):
            return []
        if isinstance(op, Word):
            return [op.word]
        if isinstance(op, Number):
            return number_words(op.rd, op.value)
        to = self.places[op.label]
        if isinstance(op, Away) and k not in self.long:
            return [INS['addi'].encode(rd=op.rd, rs1=op.rd, imm=self.away(op))]
        if isinstance(op, (Address, Away)):
            low = model.signed(to, 12)
            return [INS['lui'].encode(rd=op.rd, imm=to - low & table.M32), INS['addi'].encode(rd=op.rd, rs1=op.rd, imm=low)]
        away = to - self.at[k]
        if isinstance(op, Jump):
            if not -FAR <= away < FAR:
                raise notes.Trouble('the code is larger than a jump reaches')
            return [INS['jal'].encode(rd=op.rd, to=0x10000 + away)]
        if k in self.long:
            return [INS[OPPOSITE[op.name]].encode(rs1=op.rs1, rs2=op.rs2, to=0x10008),
                    INS['jal'].encode(rd=0, to=0x10000 + away - 4)]
        return [INS[op.name].encode(rs1=op.rs1, rs2=op.rs2, to=0x10000 + away)]

    def nodes_at(self):
        """The address of each word that is an instruction of the kernel, to its node."""
        return {self.at[k]: op.key for k, op in enumerate(self.operations) if getattr(op, 'key', None)}

    def nodes_before(self):
        """The address of each word that was put in, to the node that stands behind it, or None."""
        out, key = {}, None
        for k in range(len(self.operations) - 1, -1, -1):
            op = self.operations[k]
            if getattr(op, 'key', None):
                key = op.key
            elif not isinstance(op, Label):
                for at in range(self.at[k], self.at[k] + self.size(k, op), 4):
                    out[at] = key
        return out


def place_for_code(image):
    """Where the new segment begins: behind all segments that lie below the stack, on a page of its own."""
    ends = [segment.end for segment in image.segments if segment.first < 0x20000000]
    return (max(ends, default=PAGE) + 2 * PAGE - 1) // PAGE * PAGE


def with_code(data, laid):
    """The image's file with new code: its headers say that old code is data, and the entry is the new segment's first word. Labels of
    functions that moved have their new addresses."""
    first, = struct.unpack_from('<I', data, 28)
    count, = struct.unpack_from('<H', data, 44)
    headers = [list(struct.unpack_from('<8I', data, first + 32 * k)) for k in range(count)]
    headers = [h for h in headers if not notes.is_certificate(data, struct.pack('<8I', *h))]
    for header in headers:
        if header[0] == LOAD:
            header[6] = header[6] & ~certificates.EXECUTE | certificates.READ
    body = notes.padded(data)
    code = b''.join(struct.pack('<I', w) for w in laid.words)
    place = len(body) + 32 * (len(headers) + 1)
    headers.append([LOAD, place, laid.first, laid.first, len(code), len(code), certificates.READ | certificates.EXECUTE, 4])
    out = bytearray(body + b''.join(struct.pack('<8I', *h) for h in headers) + code)
    struct.pack_into('<I', out, 24, laid.first)
    struct.pack_into('<I', out, 28, len(body))
    struct.pack_into('<H', out, 44, len(headers))
    notes.move_labels(out, moved(laid))
    return bytes(out)


def moved(laid):
    """Old addresses to new ones, for the copies that no call made."""
    return {name[1][1]: at for name, at in laid.places.items() if name[0] == 'at' and name[1][0] == ()}
