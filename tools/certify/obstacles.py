"""What stands in the way of a certificate, obstacle by obstacle: why a word or a loop resists, what would help, what guards would do.

An obstacle is found from what the register in question is computed by (`origins`); `reasons` has its texts. What fits first is told.
"""
from collections import namedtuple

import flow
import names
from origins import PASSED, Origins, body, reads
from outside import checker
from reasons import told

LITTLE = 16     # bytes past the end of an area that are told before anything else
CUTS = ('and', 'andi', 'srli', 'srl', 'srai', 'sra', 'divu', 'div', 'remu', 'rem')
NO_SUMS = {'xor', 'xori', 'or', 'ori', 'and', 'andi', 'srl', 'srli', 'sra', 'srai', 'div', 'divu', 'rem', 'remu', 'mulh', 'mulhu',
           'mulhsu', 'mul', 'sll'}


def shown(words):
    """Some words with their addresses: `srli a1, a1, 2 at 0x10010`."""
    some = [f'{names.instruction(i, f, pc)} at {pc:#x}' for pc, (i, f) in sorted(words.items())]
    return ', '.join(some[:2]) + (f' and {len(some) - 2} more' if len(some) > 2 else '')


class Obstacles:
    """What resists in one image with these parameters."""

    def __init__(self, image, params, starts=()):
        self.image, self.params, self.origins = image, params, Origins(image, starts)

    # ---- Accesses and jumps ------------------------------------------------------------------------------------------------

    def of_access(self, pc, s):
        """The lines for an access whose address is not shown to be in an area."""
        i, f = self.origins.words[pc]
        part = self.origins.slice(pc, [f['rs1']])
        kind, found = self.kind_of_access(pc, i, f, part, s)
        regions = self.origins.regions(part, self.params)
        text = ' or '.join(regions[:3]) + (', whichever it is in' if len(regions) > 1 else '') if regions else 'each buffer'
        return told(kind, base=names.ABI[f['rs1']], regions=text, **found)

    def kind_of_access(self, pc, i, f, part, s):
        """The reason, and what was found of it."""
        around = self.origins.loops_at(pc)
        loop = around[-1] if around else set()
        if i.shape.endswith('indexed'):
            return 'indices', {}
        if i.shape.endswith('strided') and checker.known(s.x[f['rs2']].range) is None:
            return 'stride', {'stride': names.ABI[f['rs2']]}
        if i.shape.endswith('whole') and self.moves(loop):
            return 'whole', {}
        lengths = lengths_made({at: self.origins.words[at] for at in loop}) if i.is_vector else set()
        if 'sub' in lengths or 'srli' in lengths:
            return ('difference' if 'sub' in lengths else 'anew'), {}
        beyond = self.beyond(i, f, s)
        if beyond and beyond['past'] <= LITTLE:
            return 'beyond', beyond
        from_memory = self.kind_of_memory(part)
        if from_memory:
            return from_memory
        shifts = self.shifted_counts(around)
        if shifts:
            return 'shifted', {'setters': shown(shifts)}
        if i.is_vector and self.is_index(pc, f['rs1']):
            return 'index', {}
        return self.kind_of_sum(part, beyond, around)

    def kind_of_memory(self, part):
        """The same where the address is computed of what is loaded, or of a mask; else None."""
        loads = {at: word for at, word in part.words.items() if word[0].shape in ('load', 'tox')}
        kept = {at: word for at, word in loads.items() if word[1].get('rs1') == 2}
        counts = {at: word for at, word in part.words.items() if word[0].shape == 'count'}
        if loads:
            return ('kept in memory' if kept else 'out of memory'), {'setters': shown(kept or loads)}
        return ('counted', {'setters': shown(counts)}) if counts else None

    def kind_of_sum(self, part, beyond, around):
        """The same where the address is computed of registers alone."""
        odd = {at: word for at, word in part.words.items() if word[0].name in NO_SUMS and not self.is_scaled(at)}
        if odd:
            return 'no sum', {'setters': shown(odd)}
        if beyond:
            return 'beyond', beyond
        for loop in reversed(around):
            moves = [move for move in self.moves(loop) if move.words & part.words.keys()]
            falls = [move for move in self.moves(loop) if move.step < -1 and not move.words & part.words.keys()]
            if moves and falls and moves[0].step and moves[0].step % falls[0].step:
                return 'ratio', {'step': moves[0].step, 'count': falls[0].name, 'fall': -falls[0].step}
            if moves:
                return 'moves', {'setters': shown({pc: self.origins.words[pc] for pc in moves[0].words & part.words.keys()})}
        return 'access', {}

    def is_scaled(self, pc):
        """Whether a product or shift has a known factor, so that it is a sum."""
        i, f = self.origins.words[pc]
        if i.name not in ('mul', 'sll'):
            return False
        setters = [self.origins.words[at] for r in reads(i, f) for at in self.origins.setters[pc, r] if at != PASSED]
        return any(j.name == 'lui' or j.name == 'addi' and not g['rs1'] or j.shape == 'csr' for j, g in setters)

    def shifted_counts(self, around):
        """The words that shift, in its own register, a count on which a loop around ends or by which vl is set there."""
        out = {}
        for loop in around:
            counts = [(pc, [self.origins.words[pc][1][name] for name in ('rs1', 'rs2')]) for pc in self.origins.exits(loop)]
            counts += [(pc, [f['rs1']]) for pc in loop for i, f in [self.origins.words[pc]] if i.shape == 'vset' and 'rs1' in i.syntax]
            for pc, registers in counts:
                for at, (i, f) in self.origins.slice(pc, registers).words.items():
                    if i.name in ('srli', 'srai') and f['rd'] == f['rs1'] and at not in loop and not self.is_loaded(at):
                        out[at] = i, f
        return out

    def is_index(self, pc, register):
        """Whether a block computes an address of a pointer and an index, each of which stays as it is."""
        return any(j.name == 'add' and g['rd'] == register and register not in (g['rs1'], g['rs2'])
                   for at, j, g in self.origins.blocks[self.origins.block_of[pc]] if at < pc)

    def is_loaded(self, pc):
        """Whether a word computes from what comes out of memory."""
        return any(i.shape == 'load' for i, _ in self.origins.slice(pc, reads(*self.origins.words[pc])).words.values())

    def beyond(self, i, f, s):
        """How many bytes an access reaches past the end of the area in which it begins, where that is at most a page; else None."""
        lo, hi = (end + (f['imm'] if i.shape in ('load', 'store') else 0) for end in s.x[f['rs1']].range)
        sizes = {at: f"a{place}'s {size} bytes" for place, at, size, _ in checker.buffers(self.params)}
        for zone in checker.zones_of(self.image, self.params):
            past = hi + (i.width // 8 if i.shape in ('load', 'store') else 1) - zone.end
            if zone.first <= lo < zone.end and 0 < past <= 4096:
                return {'past': past, 'bytes': f'{past} bytes' if past > 1 else '1 byte', 'area': sizes.get(zone.first, f'the area at {zone.first:#x}')}
        return None

    def moves(self, loop):
        """What a loop moves by sums alone on each way round."""
        out = []
        for part in self.origins.cycles(loop):
            words = {pc: self.origins.words[pc] for pc in part}
            if all(i.name in ('addi', 'add', 'sub') for i, _ in words.values()):
                out.append(Move(part, *moved(words)))
        return out

    def of_jump(self, pc):
        """The lines for a jump that leads to where no block is known."""
        i, f = self.origins.words[pc]
        part = self.origins.slice(pc, [f.get('rs1', 0)])
        loads = {at: word for at, word in part.words.items() if word[0].shape == 'load'}
        is_return = f.get('rs1') == 1 and not f['rd']
        if is_return and loads:
            return told('return kept' if self.is_of_entry(pc) else 'call kept', setters=shown(loads))
        if is_return and any(word[0].shape in ('jal', 'jalr') for word in part.words.values()):
            return told('called')
        return told('table', setters=shown(loads)) if loads else told('pointer')

    def is_of_entry(self, pc):
        """Whether a word is of the function at the entry, which its calls are left out of."""
        _, targets = flow.blocks_of(self.image)
        return self.origins.block_of[pc] in body(self.origins.blocks, {**self.origins.targets, **targets}, self.image.entry)

    # ---- Loops ----------------------------------------------------------------------------------------------------------------

    def of_loop(self, loop):
        """The lines for a loop without a budget, which is given as the addresses of its words."""
        loop = {pc for pc in loop if pc in self.origins.words}
        kind, found = self.kind_of_loop(loop)
        return told(kind, **found)

    def kind_of_loop(self, loop):
        """The reason, and what was found of it."""
        words = {pc: self.origins.words[pc] for pc in sorted(loop)}
        if any(i.shape in ('vload_whole', 'vstore_whole') for i, _ in words.values()):
            return 'strips', {}
        if 'sub' in lengths_made(words):
            return 'difference', {}
        exits = self.origins.exits(loop)
        if not exits:
            return 'endless', {}
        ends = {pc: self.origins.slice(pc, reads(*words[pc]), loop).words for pc in exits}
        read = {at: word for part in ends.values() for at, word in part.items()}
        moves = self.moves(loop)
        ending = [move for move in moves if move.words & read.keys()]
        for found in (joined(ends, ending), falling(ending), self.halved(read, loop), rising(ending, moves, words),
                      self.growing(read, loop), on_data(read), beside(moves, ending, words)):
            if found:
                return found
        return 'loop', {}

    def halved(self, read, loop):
        """Whether a loop ends on a number that is shifted or cut on each way round."""
        for part in self.origins.cycles(loop):
            cuts = {pc: self.origins.words[pc] for pc in part & read.keys() if self.origins.words[pc][0].name in CUTS}
            if cuts and not any(self.origins.words[pc][0].shape == 'load' for pc in part):
                return 'falls little', {'base': names.ABI[cuts[min(cuts)][1]['rd']], 'setters': shown(cuts)}
        return None

    def growing(self, read, loop):
        """Whether a loop ends on a number that it computes from itself otherwise."""
        for part in self.origins.cycles(loop):
            made = {pc: self.origins.words[pc] for pc in part & read.keys()}
            if made and not any(i.shape == 'load' for i, _ in made.values()):
                odd = {pc: word for pc, word in made.items() if word[0].name not in ('addi', 'add')} or made
                return 'grows', {'base': names.ABI[made[min(made)][1]['rd']], 'setters': shown(odd)}
        return None


# words: their addresses. name: of the register. step: by how much it moves each time, 1 or -1 where a register says so. by: the same
# as text.
Move = namedtuple('Move', 'words name step by')


def moved(words):
    """What words that add to themselves move: the register's name, and by how much."""
    adds = {pc: word for pc, word in words.items() if word[0].name != 'addi' or word[1]['imm']} or words
    i, f = adds[min(adds)]
    if i.name == 'addi':
        step = sum(g['imm'] for j, g in adds.values() if j.name == 'addi') if len(adds) == 1 else f['imm']
        return names.ABI[f['rd']], step, str(abs(step))
    other = f['rs2'] if i.name == 'sub' or f['rd'] == f['rs1'] else f['rs1']
    return names.ABI[f['rd']], -1 if i.name == 'sub' else 1, names.ABI[other]


def joined(ends, ending):
    """Whether a loop ends on one number of two conditions, of which one would be enough."""
    for part in ends.values():
        both = {pc: word for pc, word in part.items() if word[0].name in ('and', 'or')}
        if both and any(i.name.startswith('slt') for i, _ in part.values()) and any(move.step < 0 for move in ending):
            return 'joined', {'setters': shown(both)}
    return None


def falling(ending):
    """Whether a loop ends on a count that falls, so that its interval is what is missing."""
    for move in ending:
        if move.step < 0:
            return ('stepped' if move.step < -1 else 'unbounded'), {'count': move.name, 'fall': move.by}
    return None


def rising(ending, moves, words):
    """Whether a loop ends on a number that rises; what falls by the same beside it."""
    for move in ending:
        if move.step > 0:
            falls = [other.name for other in moves if other.step < 0 and other.by == move.by and is_count(other, words)]
            return ('beside', {'count': falls[0]}) if falls else ('rises', {'base': move.name})
    return None


def is_count(move, words):
    """Whether nothing else in a loop sets a register that it moves."""
    return {pc for pc, (_, f) in words.items() if f.get('rd') and names.ABI[f['rd']] == move.name} <= move.words


def beside(moves, ending, words):
    """Whether a count falls on which the loop does not end, and which nothing else sets."""
    for move in moves:
        if move.step < 0 and move not in ending and is_count(move, words):
            return 'beside', {'count': move.name}
    return None


def on_data(read):
    """Whether a loop ends on what it loads."""
    loads = {at: word for at, word in read.items() if word[0].shape in ('load', 'tox', 'count')}
    is_kept = all(f.get('rs1') == 2 for _, f in loads.values())
    return ('count kept' if is_kept else 'data', {'setters': shown(loads)}) if loads else None


def lengths_made(words):
    """What computes the lengths of strips among these words, each of which sets vl by a register that one before it computed."""
    out, by = set(), {}
    for pc, (i, f) in sorted(words.items()):
        if i.shape == 'vset' and f.get('rs1') in by:
            out.add(by[f['rs1']])
        if f.get('rd'):
            by[f['rd']] = i.name
    return out
