"""Single steps at 512 bits: each operation at lengths about 256, at the greatest and one below, and what vset gives about VLMAX. steps.py takes them last."""
import itertools

from drawn import fields_of, rng, seed
from table import ALL, VECTOR, VTYPES, vlmax_of

VLENB = 64
# Bits of SEW in vtype, and a length: of 512 elements of 8 bits there is one group, and of 16 and 32 bits one of half and of a quarter as many.
LENGTHS = (0, 257), (0, 512), (1, 256), (2, 128)
BELOW = 0, 1, 2


def forms_by_operation():
    stems = {}
    for i in VECTOR:
        if i.base & 0x7f == 0x57:
            stems.setdefault(i.stem, []).extend((i, vm) for vm in i.vms)
    return stems.values()


def operations():
    """Each operation at each of these lengths, its forms in turn; of 4 registers where it widens."""
    for forms in forms_by_operation():
        turn = itertools.cycle(forms)
        for sew_bits, length in LENGTHS:
            i, vm = next(turn)
            for low in (sew_bits << 3 | 3, sew_bits << 3 | 2):
                vtype = low | rng.randrange(4) << 6
                most = min(length, vlmax_of(vtype, VLENB))
                f = fields_of(i, vtype, vm, 'apart')
                if f is not None:
                    vxrm = rng.randrange(4) if i.shape in ('fixed', 'narrow') else 0
                    yield (VLENB, length % 2 == 0, vtype, most, seed(), i.encode(vm=vm, **f)), {'vxrm': vxrm}
                    break


def below_the_greatest():
    """Each operation with one element behind vl, of 511 of 8 bits, its forms in turn behind those above."""
    for forms in forms_by_operation():
        turn = itertools.islice(itertools.cycle(forms), len(LENGTHS), None)
        for sew_bits in BELOW:
            i, vm = next(turn)
            for low in (sew_bits << 3 | 3, sew_bits << 3 | 2):
                vtype = low | rng.randrange(4) << 6
                f = fields_of(i, vtype, vm, 'apart')
                if f is not None:
                    vxrm = rng.randrange(4) if i.shape in ('fixed', 'narrow') else 0
                    ones = rng.random() < 0.5
                    yield (VLENB, ones, vtype, vlmax_of(vtype, VLENB) - 1, seed(), i.encode(vm=vm, **f)), {'vxrm': vxrm}
                    break


def requests():
    """vsetvli and vsetivli of each type, for a length below, at and above VLMAX."""
    for vtype in VTYPES:
        most = vlmax_of(vtype, VLENB)
        for avl in (most - 1, most, most + 1, 2 * most - 1, 2 * most):
            yield (VLENB, False, 0xc0, 7, seed(), ALL['vsetvli'].encode(rd=5, rs1=6, imm=vtype)), {'x': {6: avl}}
        yield (VLENB, True, 0xc0, 7, seed(), ALL['vsetvli'].encode(rd=5, rs1=0, imm=vtype)), {}
        yield (VLENB, True, 0xc0, 7, seed(), ALL['vsetivli'].encode(rd=5, avl=31, imm=vtype)), {}


def cases():
    yield from operations()
    yield from requests()
    yield from below_the_greatest()
