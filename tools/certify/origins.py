"""Where numbers of registers come from: which words may have set a register that a word reads, and what those words read in turn."""
from collections import namedtuple

import flow
from outside import certificates, checker

PASSED = -1         # what a run starts with stands where the address of a word would

# The words that a number is computed by, as address -> (instruction, fields); the registers whose first numbers are in it.
Slice = namedtuple('Slice', 'words passed')


class Origins:
    """Reaching definitions of a whole image. A slice ends at loads, and where a number is cut to an interval."""

    def __init__(self, image, starts=()):
        self.image = image
        self.blocks, self.targets = flow.blocks_of(image, starts)
        self.targets = with_returns(self.blocks, self.targets)
        self.words = {pc: (i, f) for words in self.blocks.values() for pc, i, f in words}
        self.block_of = {pc: start for start, words in self.blocks.items() for pc, _, _ in words}
        self.loops = list(flow.loops(self.blocks, self.targets))
        self.reaching = self.reached()
        self.setters, self.found = self.fed(), {}

    def reached(self):
        """block -> for each register the addresses of the words that may have set it last."""
        last = {start: {f['rd']: pc for pc, _, f in words if f.get('rd')} for start, words in self.blocks.items()}
        reaching = {start: [set() for _ in range(32)] for start in self.blocks}
        reaching[self.image.entry] = [{PASSED} for _ in range(32)]
        todo = [self.image.entry] if self.image.entry in self.blocks else []
        while todo:
            start = todo.pop()
            out = [{last[start][r]} if r in last[start] else reaching[start][r] for r in range(32)]
            for target in self.targets[start]:
                if any(not out[r] <= reaching[target][r] for r in range(32)):
                    reaching[target] = [out[r] | reaching[target][r] for r in range(32)]
                    todo.append(target)
        return reaching

    def fed(self):
        """(address, register) -> the addresses of the words that may have set a register before the word at an address that reads it."""
        out = {}
        for start, words in self.blocks.items():
            last = {}
            for pc, i, f in words:
                for register in reads(i, f):
                    out[pc, register] = {last[register]} if register in last else self.reaching[start][register]
                if f.get('rd'):
                    last[f['rd']] = pc
        return out

    def slice(self, pc, registers, within=None):
        """What these registers are computed by before the word at pc; of a loop (the addresses of its words) alone where it is given."""
        words, passed, todo = {}, set(), [(pc, register) for register in registers if register]
        seen = set(todo)
        while todo:
            at, register = todo.pop()
            for setter in self.setters.get((at, register), ()):
                if setter == PASSED:
                    passed.add(register)
                    continue
                if within is not None and setter not in within:
                    continue
                i, f = words[setter] = self.words[setter]
                if not is_end(i, f):
                    more = {(setter, number) for number in reads(i, f)} - seen
                    seen |= more
                    todo += more
        return Slice(words, passed)

    def cycles(self, loop):
        """What a loop computes anew from itself on each way round: parts, each a set of addresses of words."""
        key = frozenset(loop)
        if key not in self.found:
            leads = {pc: set() for pc in key}
            for pc in key:
                for register in () if self.words[pc][0].shape == 'vset' else reads(*self.words[pc]):
                    for setter in self.setters[pc, register] & key:
                        leads[setter].add(pc)
            self.found[key] = [part for part in flow.components(key, leads) if len(part) > 1 or leads[min(part)] & part]
        return self.found[key]

    def loops_at(self, pc):
        """The loops around a word, the innermost last, each as the addresses of its words."""
        start = self.block_of.get(pc)
        return [{at for block in loop for at, _, _ in self.blocks[block]} for loop in self.loops if start in loop]

    def exits(self, loop):
        """The branches that lead out of a loop, which is given as the addresses of its words."""
        leads = {pc: [pc + f['to'], pc + 4] for pc in loop for i, f in [self.words[pc]] if i.shape == 'branch'}
        return [pc for pc, ways in sorted(leads.items()) if any(way not in loop for way in ways)]

    def regions(self, part, params):
        """What a computed address may be in: `a0's 4096 bytes`, `the stack`, `the data at 0x12000`."""
        part = self.through_stack(part)
        out = [f"a{place}'s {size} bytes" for place, _, size, _ in checker.buffers(params) if 10 + place in part.passed]
        out += ['the stack'] if 2 in part.passed else []
        for pc, (i, f) in sorted(part.words.items()):
            if i.name in ('lui', 'auipc'):
                address = f['imm'] + (pc if i.name == 'auipc' else 0) & checker.M32
                out += [f'the data at {s.first:#x}' for s in self.image.segments
                        if s.first - 4096 < address < s.end + 4096 and not s.rights & certificates.EXECUTE]
        return list(dict.fromkeys(out))


    def through_stack(self, part):
        """A slice with what was kept on the stack: where it loads from there, what is stored at that place."""
        words, passed, todo = dict(part.words), set(part.passed), list(part.words)
        while todo:
            i, f = words[todo.pop()]
            if i.shape == 'load' and f['rs1'] == 2:
                for pc, (j, g) in self.words.items():
                    if j.shape == 'store' and g['rs1'] == 2 and g['imm'] == f['imm']:
                        more = self.slice(pc, [g['rs2']])
                        todo += more.words.keys() - words.keys()
                        words, passed = more.words | words, passed | more.passed
        return Slice(words, passed - ({2} - part.passed))


def reads(i, f):
    """The registers that a word reads."""
    return {f[name] for name in ('rs1', 'rs2') if name in f and name in i.syntax} - {0}


def is_end(i, f):
    """Whether a slice ends at a word: at a load, a length, and at an `and` with a number that is not negative."""
    return i.shape in ('load', 'count', 'tox', 'vset') or i.name == 'andi' and f['imm'] >= 0


def with_returns(blocks, targets):
    """The ways between blocks with those of returns: from a `ret` of a function to behind each of its calls."""
    targets = {start: set(to) for start, to in targets.items()}
    calls = {}
    for words in blocks.values():
        pc, i, f = words[-1]
        if i.shape == 'jal' and f['rd'] and pc + 4 in blocks:
            calls.setdefault(pc + f['to'], []).append(pc + 4)
    own = {first: body(blocks, targets, first) for first in calls}
    for first, behind in calls.items():
        for start in own[first]:
            _, i, f = blocks[start][-1]
            if i.shape == 'jalr' and not f['rd']:
                targets[start].update(behind)
    return targets


def body(blocks, targets, first):
    """The blocks of a function that begins here: those that it leads to, calls left out."""
    seen, todo = set(), [first]
    while todo:
        start = todo.pop()
        if start in seen or start not in blocks:
            continue
        seen.add(start)
        pc, i, f = blocks[start][-1]
        is_call = i.shape == 'jal' and f['rd']
        todo += [pc + 4] if is_call else targets[start]
    return seen
