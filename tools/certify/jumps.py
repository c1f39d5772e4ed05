"""Indirect jumps: through a table in data that may only be read, whose index the code has cut to the table's length, else to any code whose
address the image names, as pointers to functions do."""
import struct

import flow
import notes
from guided import Before
from outside import certificates, checker, table
from program import ZERO, Address, Branch, Jump, Label, Number

ENTRIES = 1024      # the most of a table
POINTED = 32        # the most places that a jump by a pointer may lead to
BACK = 24           # how many words before a jump may compute its address


def targets(image, walk, pc):
    """The addresses to which the jump at pc may lead, by the table that its address was loaded from; () where there is none. image: the
    kernel as it came. walk: the code that pc stands in, with what is known before each word."""
    _, f = walk.decoded(pc)
    register, added = f['rs1'], f['imm']
    for at in range(pc - 4, pc - 4 * BACK - 4, -4):
        decoded = walk.decoded(at)
        if decoded is None or decoded[0].shape in ('branch', 'jal', 'jalr'):
            return ()
        i, f = decoded
        if f.get('rd') != register:
            continue
        s = walk.known_at(at) if i.name in ('lw', 'add') else None
        if s is None:
            return ()
        if i.name == 'lw':
            return entries(image, s, f, added)
        one, two = (checker.known(s.x[f[name]].range) for name in ('rs1', 'rs2'))
        if (one is None) == (two is None):
            return ()
        register, added = (f['rs2'], added + one) if one is not None else (f['rs1'], added + two)
    return ()


def entries(image, s, f, added):
    """What the words of a table give, with a number added."""
    lo, hi = (end + f['imm'] for end in s.x[f['rs1']].range)
    segment = next((it for it in image.segments if it.first <= lo and hi + 4 <= it.end and not it.rights & certificates.WRITE), None)
    if segment is None or hi - lo > 4 * ENTRIES or (hi - lo) % 4:
        return ()
    words = [struct.unpack_from('<I', segment.data, at - segment.first)[0] for at in range(lo, hi + 1, 4)]
    found = tuple(dict.fromkeys(word + added & checker.M32 & ~1 for word in words))
    return found if all(flow.decoded_at(image, to) for to in found) else ()


def pointed(image, data, is_call):
    """The addresses of code that words of the image hold, or that its code makes by two instructions: for a call those of functions, where
    the symbols are there."""
    found = set()
    for segment in image.segments:
        away = -segment.first % 4
        found.update(struct.unpack_from(f'<{(len(segment.data) - away) // 4}I', segment.data, away))
        if segment.rights & certificates.EXECUTE:
            found |= made_in(image, range(segment.first + away, segment.end - 3, 4))
    found = {at for at in found if at % 4 == 0 and flow.decoded_at(image, at)}
    functions = {value for _, _, value in notes.symbols(data)} if is_call else set()
    return tuple(sorted(found & functions or found))


def made_in(image, addresses):
    """The numbers that lui or auipc, and addi, make of nothing else in the words at these addresses."""
    out, upper = set(), {}
    for pc in addresses:
        i, f = flow.decoded_at(image, pc) or (None, {})
        if i and i.name == 'addi' and f['rs1'] in upper:
            out.add(upper[f['rs1']] + f['imm'] & table.M32)
        upper.pop(f.get('rd'), None)
        if i and i.name in ('lui', 'auipc'):
            upper[f['rd']] = f['imm'] + (pc if i.name == 'auipc' else 0) & table.M32
    return out


class Tables:
    """What a maker puts in for a jump to an address that is not known."""

    def lead(self, misfit, found, image):
        """What is put in where a jump leads to no known place: the kernel's return ends the run, and a table tells all targets."""
        node = self.code.nodes[misfit.key]
        if self.code.is_exit(node):
            self.is_ending = True
        elif node.i.shape == 'jalr' and not self.code.is_return(node):
            self.widen_table(node, found, image)

    def widen_table(self, node, found, image):
        """Adds the targets of a jump through a table that can be told now. Where there are more, all else is put in anew, since it was
        chosen for the code that could be reached before. Whether there are."""
        older = self.tables.get(node.pc, ())
        if node.pc in self.pointers:
            return False
        more = tuple(to for to in targets(self.image, Before(self, node.calls, found, image), node.pc) if to not in older)
        if more:
            self.tables[node.pc] = older + more
            self.begin_anew()
        return bool(more)

    def lead_anywhere(self):
        """Takes jumps by pointers to lead to any code whose address the image names, where nothing else is known of them, and calls that can
        be reached then as well. Whether there were some."""
        is_changed = False
        while True:
            nodes = [node for node in self.code.nodes.values() if node.i.shape == 'jalr' and node.pc not in self.tables
                     and not self.code.is_return(node) and self.code.target(node) is None and (node.f['rd'] or not is_changed)]
            places = {node.pc: pointed(self.image, self.data, node.f['rd'] != 0) for node in nodes}
            found = {pc: some for pc, some in places.items() if 0 < len(some) <= POINTED}
            if not found:
                return is_changed
            is_changed = True
            self.tables.update(found)
            self.pointers |= found.keys()
            self.begin_anew()

    def widen_tables(self, found, image):
        """The same for all jumps through tables: code that a jump leads to may give its index other numbers."""
        return any([self.widen_table(node, found, image) for node in list(self.code.nodes.values())
                    if node.pc in self.tables and node.i.shape == 'jalr'])

    def put_tables(self):
        """The jumps through tables, as a choice among all targets by the number that the table gave."""
        for key, node in self.code.nodes.items():
            if node.pc in self.tables and node.i.shape == 'jalr':
                label = self.failed('choice', node.pc, 'a jump to no code whose address the image names') if node.pc in self.pointers else None
                self.edits.instead[key] = self.chosen(key, node, self.targets_of(key), label)

    def targets_of(self, key):
        """The addresses to which a jump leads, in their order."""
        return sorted({to for _, to in self.code.leads[key]})

    def numbers_of_choice(self, node, targets, weight):
        """The numbers that a choice among targets compares with, each with its weight."""
        half = len(targets) // 2
        if half:
            yield targets[half] - node.f['imm'] & table.M32, weight
            yield from self.numbers_of_choice(node, targets[half:], weight / 2)
            yield from self.numbers_of_choice(node, targets[:half], weight / 2)
        elif node.pc in self.pointers:
            yield targets[0] - node.f['imm'] & table.M32, weight

    def chosen(self, key, node, targets, label, last=None):
        """A choice among targets, by halves. label: where a jump to none of them leads, if there may be one. last: the number that was compared
        with before."""
        if len(targets) == 1:
            to = next(way for way in self.code.leads[key] if way[1] == targets[0])
            return [*self.compared_target(key, node, targets[0], label), *self.gone_to(key, node, to)]
        half = len(targets) // 2
        lower = 'lower', key, targets[half]
        words, last = self.compared_on(last, key, node.f['rs1'], targets[half] - node.f['imm'] & table.M32, True, lower)
        return [*words, *self.chosen(key, node, targets[half:], label, last), Label(lower), *self.chosen(key, node, targets[:half], label, last)]

    def compared_target(self, key, node, target, label):
        """A test that a jump leads to a target, where it may not."""
        number, register = target - node.f['imm'] & table.M32, node.f['rs1']
        if label is None:
            return []
        held = self.held(key, number)
        other = held or self.temporary([key], 1 << register)
        return [*([] if held else [Number(other, number)]), Branch('bne', register, other, label)]

    def gone_to(self, key, node, to):
        """The jump to a target, with what a call leaves in its link register."""
        rd, back = node.f['rd'], ('way', key, (node.calls, node.pc + 4))
        go = Jump(ZERO, ('way', key, to), key)
        if not rd:
            return [go]
        if self.code.reads_links:
            return [Number(rd, node.pc + 4), go]
        if any(it.calls == to[0] and self.code.is_return(it) and len(self.code.leads[it.key]) > 1 for it in self.code.nodes.values()):
            return [Address(rd, back), go]          # (its returns compare where they lead)
        return [go._replace(rd=rd), Jump(ZERO, back)]
