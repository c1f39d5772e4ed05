"""Makes legality.txt: which vector words are legal at which vtype.

Usage: legality.py > legality.txt. A word is legal where qemu-riscv32 carries it out and raises no illegal instruction, at VLEN 128 and at VLEN 256; model.py
has to say the same, else the script stops. No row is by hand: qemu's rules are this profile's.
"""
import itertools
import random
import struct
import subprocess

import model
from qemu import EBREAK, TRAMPOLINE, Batch
from table import ALL, BUFFER, RW, VECTOR, VTYPES, lmul4_of

PC = 0x10000
VILL = 0x80000000
rng = random.Random(1967)
LOWS = sorted({v & 0x3f for v in VTYPES})
# At e8, m1: vwadd.vv v8,v9,v10 and v8,v8,v10. At e8, m2: vmseq.vi v8,v8,0 and v9,v8,0; vmv2r.v v9,v8.
NAMED = ((0x00, 0xc6952457), (0x00, 0xc6852457), (0x01, 0x62803457), (0x01, 0x628034d7), (0x01, 0x9e80b4d7))
# vrgatherei16.vv, at e8, m8, where its indices would fill 16 registers; at e8, m4, where they fill 8; and at e16, m8. vd, vs2, vs1.
WIDE_INDICES = ((8, 0, 16), (16, 24, 0), (8, 16, 24), (16, 0, 8), (24, 8, 16))


def drawn(names, count):
    """Registers for the operands: aligned to `count` or one of its neighbours, apart or related."""
    f = {}
    for n in names:
        how = rng.randrange(10)
        size = rng.choice((count, count, max(1, count // 2), min(8, 2 * count), max(1, count // 4)))
        r = rng.randrange(32) // size * size
        if f and how < 4:
            other = rng.choice(list(f.values()))
            r = other + rng.choice((0, 0, 0, 1, -1, count, -count, count - 1, count // 2, -(count // 2), 2 * count - 1, count * 2))
        elif how == 4:
            r = rng.choice((0, 1, 2, 3, 4, 6, 7, 8))
        elif how == 5:
            r += rng.choice((1, -1, 2, 3))
        f[n] = r % 32
    return f


def asked():
    for i in VECTOR:
        names = [n for n in ('vd', 'vs3', 'vs2', 'vs1') if n in i.syntax]
        if not names:
            continue
        differs = i.eew is not None and len(set(i.eew) - {'0'}) > 1 or i.shape.startswith(('vload', 'vstore'))
        for vm in i.vms:
            for low in LOWS + [VILL]:
                count = 1 if low == VILL else max(1, lmul4_of(low) // 4)
                for _ in range(2 if low == VILL else 13 if differs else 5):
                    vtype = low if low == VILL else low | rng.randrange(4) << 6
                    f = drawn(rng.sample(names, len(names)), count)
                    more = {n: v for n, v in (('rs1', 8), ('rs2', 9), ('rd', 10), ('imm', rng.randrange(32))) if n in i.syntax}
                    word = i.encode(vm=vm, **f, **more)
                    if model.decode(word):
                        yield vtype, word
    yield from NAMED
    for vtype, (vd, vs2, vs1), vm in itertools.product((0x03, 0xc3, 0x02, 0x0b), WIDE_INDICES, (1, 0)):
        yield vtype, ALL['vrgatherei16.vv'].encode(vm=vm, vd=vd, vs2=vs2, vs1=vs1)


def of_qemu(rows, vlenb):
    b = Batch(vlenb, False)
    b.map(PC, struct.pack('<I', EBREAK) * 1024, 7)
    b.map(TRAMPOLINE, bytes(4096), 7)
    b.map(RW, BUFFER, 3)
    x = [0] * 32
    x[8] = RW
    for vtype, word in rows:
        b.poke(PC, struct.pack('<I', word))
        # One element; indices are 0.
        b.run(PC, vtype, 0 if vtype == VILL else 1, 0, 0, x, bytes(32 * vlenb))
    for r, row in zip(b.answers(), rows):
        assert (r.signal, r.pc) in ((4, PC), (5, PC + 4)), (r.signal, '%x' % r.pc, '%x' % r.address, '%08x' % row[1])
        yield int(r.signal == 5)


def main():
    rows = list(dict.fromkeys(asked()))
    results = list(of_qemu(rows, 16))
    assert results == list(of_qemu(rows, 32))
    out, counts = [], [0, 0]
    for (vtype, word), legal in zip(rows, results):
        mine = int(model.is_legal(vtype, word))
        assert legal == mine, 'qemu and the model differ: %08x %08x qemu %d model %d: %s' % (vtype, word, legal, mine, model.text_of(word))
        counts[legal] += 1
        out.append('%08x %08x %d' % (vtype, word, legal))
    version = subprocess.run(['qemu-riscv32', '--version'], capture_output=True, text=True).stdout.split()[2]
    print('# Which vector words are legal at which vtype. Made by vectors/legality.py: qemu-riscv32 %s, at VLEN 128 and 256, which' % version)
    print('# vectors/model.py shares. %d rows: %d legal, %d not; none by hand.' % (len(out), counts[1], counts[0]))
    print('\n'.join(out))


if __name__ == '__main__':
    main()
