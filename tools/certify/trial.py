"""What a run of the kernel itself refutes: a certificate speaks of all runs, so that one of them may show that there is none.

A run that meets a fault shows it. So does one that comes back to a place where a block has to begin, if the budget there would have
to rise: a budget names two registers at most, and no multiples of any two fall from each visit to the next.
"""
from collections import namedtuple
from itertools import combinations

import flow
from outside import certificates, checker, model

STEPS, VISITS = 12_000, 40
LOOK = 64        # steps between two looks at the clock
RIGHTS = ((certificates.READ, 'r'), (certificates.WRITE, 'w'), (certificates.EXECUTE, 'x'))

# pc: where a run showed it. fault: its name and address, or None. arguments: the scalars that were passed, by name.
Refuted = namedtuple('Refuted', 'pc fault arguments')


class Run(model.Machine):
    """A run on the greatest scalars, with buffers full of one byte."""

    def __init__(self, image, params, vlen, fill):
        x = [0] * 32
        x[1], x[2] = model.EXIT, 0x30000000
        areas = [(s.first, s.data, rights(s.rights)) for s in image.segments] + [(0x2fff0000, bytes(65536), 'rw')]
        for place, address, size, mode in checker.buffers(params):
            x[10 + place] = address
            areas.append((address, bytes([fill]) * size, rights(mode)))
        self.arguments = {f'a{place}': p.b for place, p in enumerate(params) if p.kind == 'scalar'}
        for place, p in enumerate(params):
            x[10 + place] = p.b if p.kind == 'scalar' else x[10 + place]
        super().__init__(vlen // 8, False, image.entry, x, bytes(4 * vlen), model.VILL, 0, 0, 0, model.Memory(areas))
        self.image, self.words, self.visits = image, {}, {}

    def refuted(self, watch=None):
        """What the run refutes, or None. watch: who looks on, if anyone."""
        for step in range(STEPS):
            if self.pc == model.EXIT:
                break
            if watch and step % LOOK == 0:
                watch.check()
            pc = self.pc
            try:
                self.step(self.fetched(pc))
            except model.Fault as fault:
                return Refuted(pc, fault.args, self.arguments)
            if flow.leads_to(*model.decode(self.words[pc]), pc)[1]:
                seen = self.visits.setdefault(self.pc, [])
                seen += [list(self.x)] if len(seen) < VISITS else []
        rising = [pc for pc, seen in self.visits.items() if not is_paid(seen)]
        return Refuted(min(rising), None, self.arguments) if rising else None

    def fetched(self, pc):
        if pc not in self.words:
            segment = certificates.code_segment(self.image.segments, pc)
            if segment is None:
                raise model.Fault('FetchFault', pc)
            self.words[pc] = int.from_bytes(segment.data[pc - segment.first:pc - segment.first + 4], 'little')
        return self.words[pc]


def rights(bits):
    return ''.join(letter for bit, letter in RIGHTS if bits & bit)


def is_paid(visits):
    """Whether multiples of one or two registers fall from each visit to the next."""
    falls = [[a - b for a, b in zip(one, two)] for one, two in zip(visits, visits[1:])]
    some = [r for r in range(1, 32) if any(fall[r] > 0 for fall in falls)]
    return (not falls or any(all(fall[r] > 0 for fall in falls) for r in some)
            or any(is_paid_by([(fall[a], fall[b]) for fall in falls]) for a, b in combinations(some, 2)))


def is_paid_by(falls):
    """Whether a * k + b * l > 0 for all of these pairs with some k, l > 0: whether k / l may lie above all it has to, and below."""
    if any(a <= 0 and b <= 0 for a, b in falls):
        return False
    lowest = max(((-b, a) for a, b in falls if b < 0), key=lambda f: f[0] / f[1], default=(0, 1))
    return all(lowest[0] * -a < b * lowest[1] for a, b in falls if a < 0)


def refuted(image, params, vlen, watch=None):
    """What a run refutes, on buffers of zeros and on full ones; else None."""
    for fill in (0, 255):
        found = Run(image, params, vlen, fill).refuted(watch)
        if found:
            return found
    return None
