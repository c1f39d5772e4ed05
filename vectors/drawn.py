"""What steps.txt draws at random: seeds, and operands of vector words that are legal."""
import random

import model
from table import VTYPES, vlmax_of

VILL = 0x80000000
rng = random.Random(1989)


def seed():
    return rng.getrandbits(32) or 1


def vl_of(k, vtype, vlenb):
    m = vlmax_of(vtype, vlenb)
    return (m, rng.randrange(1, m + 1), 1, m, max(1, rng.randrange(m)), 0)[k % 6]


def past_end(i, f, vtype, source):
    """How far from a source's first register vd's lies where both groups end at one register."""
    destination, sources = model.operands(i, f, vtype)
    other = next(o for o in sources if o.role == source)
    return max(-f[source], other.count - destination.count)


def registers(i, vtype, vm, place):
    """Fields for the registers such that the word is legal, with the wanted sharing where there is such a one; None where no word is."""
    names = [n for n in ('vd', 'vs3', 'vs2', 'vs1') if n in i.syntax]
    for attempt in range(400):
        f = {}
        for n in names:
            f[n] = rng.randrange(32)
            width = 1 << rng.randrange(4)
            if rng.random() < 0.9:
                f[n] -= f[n] % width
        for a, b in {'d2': (('vd', 'vs2'),), 'd1': (('vd', 'vs1'),), '21': (('vs2', 'vs1'),), 'all': (('vd', 'vs2'), ('vs1', 'vs2')), 'h2': (('vd', 'vs2'),),
                     'h1': (('vd', 'vs1'),), 'apart': ()}[place]:
            if a in f and b in f and attempt < 200:
                f[a] = f[b] + (past_end(i, f, vtype, b) if place[0] == 'h' else 0)
        for n in ('rs1', 'rs2', 'rd'):
            if n in i.syntax:
                f[n] = rng.randrange(1, 32)
        if 'vd' in f and i.eew and i.eew[0] == 'm' and vm == 0 and rng.random() < 0.2:
            f['vd'] = 0
        word = i.encode(vm=vm, **f)
        if model.decode(word) and model.is_legal(vtype, word):
            return f
    return None


def fields_of(i, vtype, vm, place):
    f = registers(i, vtype, vm, place)
    if f is not None and 'imm' in i.syntax:
        f['imm'] = rng.choice((0, 1, 2, 7, 8, 15, 16, 30, 31, rng.randrange(32)))
    return f


SHAPES_OF_LEGAL = sorted({v & 0x3f for v in VTYPES})
# How the groups of operands lie: apart, at one first register (d2, d1, 21, all), or ending at one register (h2, h1).
PLACES = ('apart', 'd2', 'd1', 'apart', '21', 'all', 'h2', 'h1')
