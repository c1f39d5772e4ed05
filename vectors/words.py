"""Makes words.txt: words, and what LLVM's disassembler reads them as.

Usage: words.py > words.txt
"""
import random
import re
import subprocess
import sys

import model
from table import ALL, CSRS, ORDER, READ_ONLY, SCALAR, VECTOR

LLVM = ['llvm-mc-16', '--disassemble', '-triple=riscv32', '-mattr=+m,+zve32x', '-M', 'numeric', '-M', 'no-aliases', '--show-encoding']
rng = random.Random(20221)


# ---- 1. The words that are asked about -----------------------------------------------------------------------------------------------------------

ENDS = {'rd': (0, 1, 31), 'vd': (0, 8, 31), 'vs3': (0, 8, 31), 'rs1': (0, 1, 31), 'rs2': (0, 1, 31), 'vs2': (0, 16, 31), 'vs1': (0, 24, 31),
        'avl': (0, 1, 31), 'csr': tuple(CSRS), 'vm': (0, 1)}


def imm_ends(i):
    if i.shape == 'upper':
        return (0, 0x1000, 0x7ffff000, 0x80000000, 0xfffff000)
    if i.shape == 'shift' or 'csr' in i.syntax:
        return (0, 1, 31)
    if i.name == 'vsetvli':
        return (0, 0xd0, 0xc5, 0x18, 0x3ff, 0x400, 0x7ff)
    if i.name == 'vsetivli':
        return (0, 0xd0, 0xc5, 0x18, 0x1ff, 0x200, 0x3ff)
    if i.is_vector:
        return (0, 1, 15, 16, 31)
    return (0, 1, 2047, -2048, -1)


def ends_of(i):
    """Every field at its ends, the others in the middle or at random; then all at random."""
    choices = {f: ENDS[f] for f in i.fields if f in ENDS and not (f == 'vm' and i.vm is not None)}
    if 'imm' in i.fields:
        choices['imm'] = imm_ends(i)
    if 'to' in i.fields:
        choices['to'] = [0x10000 + o for o in ((0, 2, 4, -2, 4094, -4096) if i.shape == 'branch' else (0, 2, 4, -2, 1048574, -1048576))]
    some = lambda f: rng.choice(choices[f]) if f in ('csr', 'to', 'vm') or f == 'imm' else rng.randrange(32)
    for f in choices:
        for value in choices[f]:
            yield i.encode(**{g: some(g) for g in choices} | {f: value})
    for _ in range(3):
        yield i.encode(**{g: some(g) for g in choices})


def asked():
    words = []
    for i in SCALAR + VECTOR:
        good = list(ends_of(i))
        words += good or [i.base]
        # One bit changed of a word that means something.
        w = rng.choice(good or [i.base])
        words += [w ^ 1 << b for b in range(32)]
    # Every opcode, 16-bit ones too.
    for op in range(128):
        words += [op, op | 0xffffff80] + [rng.getrandbits(25) << 7 | op for _ in range(8)]
    # Every f3, f7 of the register and shift forms; every f3 of the other scalar opcodes.
    for f7 in range(128):
        for f3 in range(8):
            words.append(f7 << 25 | rng.getrandbits(10) << 15 | f3 << 12 | rng.getrandbits(5) << 7 | 0x33)
        for f3 in (1, 5):
            words.append(f7 << 25 | rng.getrandbits(10) << 15 | f3 << 12 | rng.getrandbits(5) << 7 | 0x13)
    for op in (0x03, 0x13, 0x23, 0x63, 0x67, 0x0f):
        for f3 in range(8):
            words += [rng.getrandbits(17) << 15 | f3 << 12 | rng.getrandbits(5) << 7 | op for _ in range(6)]
    words += [0x0ff0000f, 0x0330000f, 0x8330000f, 0x0000000f, 0x0100000f, 0xfff0000f, 0x0ff00f8f, 0x0fff800f, 0x0000100f, 0xffff9f8f]
    # SYSTEM: ecall with other bits, what the privileged manual has, CSR forms on CSRs of this profile, of others, and next to them.
    words += [0x00000073, 0x00100073, 0x00200073, 0x30200073, 0x10200073, 0x10500073, 0x12000073, 0x7b200073, 0xc0001073, 0x000000f3, 0x00008073, 0x80000073,
              0x00004073, 0x00104073]
    words += [0x73 | 1 << b for b in range(7, 32)]
    others = [0x000, 0x001, 0x002, 0x003, 0x008, 0x00b, 0x00e, 0x010, 0x00d, 0x100, 0x300, 0x305, 0x340, 0xb00, 0xc00, 0xc01, 0xc02, 0xc1f, 0xc23, 0xc80, 0x420,
              0x820, 0xc2a, 0x80a, 0xfff]
    for csr in list(CSRS) + others:
        for f3 in (1, 2, 3, 5, 6, 7) + ((0, 4) if csr in (0x009, 0xc20) else ()):
            for rs1 in (0, 1, 31) if csr in CSRS else (0, 7):
                words.append(csr << 20 | rs1 << 15 | f3 << 12 | rng.choice((0, 5, 31)) << 7 | 0x73)
    # OP-V: every funct6, form and vm; every selector of the unary ones; vset forms of every kind.
    for f6 in range(64):
        for f3 in range(7):
            for vm in (0, 1):
                words.append(f6 << 26 | vm << 25 | rng.getrandbits(10) << 15 | f3 << 12 | rng.getrandbits(5) << 7 | 0x57)
                words.append(f6 << 26 | vm << 25 | rng.choice((0, 1, 2, 4, 8)) << 15 | f3 << 12 | rng.choice((0, 8)) << 7 | 0x57)
    for f6, f3 in ((0x10, 2), (0x12, 2), (0x14, 2)):
        for vs1 in range(32):
            for vm in (0, 1):
                for vs2 in (0, 8):
                    words.append(f6 << 26 | vm << 25 | vs2 << 20 | vs1 << 15 | f3 << 12 | 24 << 7 | 0x57)
    for vs2 in range(32):
        for vm in (0, 1):
            words.append(0x10 << 26 | vm << 25 | vs2 << 20 | 5 << 15 | 6 << 12 | 24 << 7 | 0x57)
            for f3 in (0, 3, 4):
                words.append(0x17 << 26 | vm << 25 | vs2 << 20 | 5 << 15 | f3 << 12 | 24 << 7 | 0x57)
                words.append(0x27 << 26 | vm << 25 | (vs2 & 8) << 20 | vs2 << 15 | f3 << 12 | 24 << 7 | 0x57)
    for top in range(32):
        for _ in range(4):
            words.append(top << 27 | rng.getrandbits(12) << 15 | 7 << 12 | rng.getrandbits(5) << 7 | 0x57)
    for f7 in range(64, 96):
        words.append(f7 << 25 | rng.getrandbits(10) << 15 | 7 << 12 | rng.getrandbits(5) << 7 | 0x57)
    # Vector loads and stores: every width and addressing form at each nf, mew and vm, with several unit kinds.
    for op in (0x07, 0x27):
        for nf in range(8):
            for mew in (0, 1):
                for mop in range(4):
                    for vm in (0, 1):
                        for width in range(8):
                            if rng.randrange(3) == 0 or (nf == 0 and mew == 0 and width in (0, 5, 6)):
                                kind = rng.choice((0, 0, 8, 0x0b, 0x10, 1, 31)) if mop == 0 else rng.getrandbits(5)
                                words.append(nf << 29 | mew << 28 | mop << 26 | vm << 25 | kind << 20 | rng.getrandbits(5) << 15 | width << 12
                                             | rng.choice((0, 8, 16, 24, rng.getrandbits(5))) << 7 | op)
        # Unit kinds, all 32, and whole-register forms on registers that are no multiple.
        for kind in range(32):
            for vm in (0, 1):
                words.append(vm << 25 | kind << 20 | 11 << 15 | 8 << 7 | op)
        for nf in range(8):
            for vd in (0, 1, 2, 4, 8, 12, 20, 31):
                words.append(nf << 29 | 1 << 25 | 8 << 20 | 11 << 15 | vd << 7 | op)
        # vle8.v and vse8.v with one of the bits 31:26 set.
        for b in range(26, 32):
            words.append(0x02058800 | op | 1 << b)
    return list(dict.fromkeys(words))


# ---- 2. What LLVM reads ----------------------------------------------------------------------------------------------------------------------------

def disassembled(words):
    text = '\n'.join('[' + ','.join('0x%02x' % (w >> 8 * k & 0xff) for k in range(4)) + ']' for w in words)
    out = subprocess.run(LLVM, input=text, capture_output=True, text=True).stdout
    found = {}
    for line in out.split('\n'):
        m = re.match(r'\s*(\S+)\s*(.*?)\s*# encoding: \[0x(..),0x(..),0x(..),0x(..)\]', line)
        if m:
            name, operands, a, b, c, d = m.groups()
            found[int(d + c + b + a, 16)] = (name, operands)
    return found


# ---- 3. Where LLVM's reading is not this table's ------------------------------------------------------------------------------------------------------

def left_out(name, word):
    """LLVM reads these words as instructions; this profile has no such instruction. The section named is the reason."""
    opcode = word & 0x7f
    # "Instruction-Fetch Fence" (Zifencei), "Environment Call and Breakpoints": docs/DECISIONS.md, Words (FENCE.I and EBREAK mean nothing).
    if name in ('fence.i', 'ebreak'):
        return True
    # "Integer Register-Immediate Instructions": the shift amount of RV32I is 5 bits, and bits 31:25 are 0 (or 0100000 for srai). LLVM takes bit 25 for a
    # sixth one.
    if name in ('slli', 'srli', 'srai') and word >> 25 & 1:
        return True
    # Privileged instructions, and cmo/debug ones: docs/MACHINE.md, Instructions (every other word means nothing).
    if opcode == 0x73 and not name.startswith('csrr') and name != 'ecall':
        return True
    # "Control and Status Register Instructions": docs/DECISIONS.md, Words (CSR forms): other CSRs, and forms that write vl, vtype or vlenb.
    if name.startswith('csrr'):
        csr, rs1, f3 = word >> 20, word >> 15 & 31, word >> 12 & 3
        return csr not in CSRS or csr in READ_ONLY and (f3 == 1 or rs1 != 0)
    # "Vector Load/Store Segment Instructions", "Unit-stride Fault-Only-First Loads": not in this profile (docs/MACHINE.md, Instructions).
    if re.match(r'v[ls](s|ux|ox)?seg', name) or name.endswith('ff.v'):
        return True
    # "Vector Integer Extension": the forms by 8 need SEW 64, which Zve32x has not.
    if name in ('vzext.vf8', 'vsext.vf8'):
        return True
    # "Vector Loads and Stores", EEW 64 of data: LLVM has none under zve32x. Of indices (vluxei64.v): Zve32x on RV32 has none.
    if 'ei64' in name or 'e64' in name:
        return True
    return False


def read_though_refused(word):
    """LLVM does not read these words; this profile does. The text is by hand."""
    # "Memory Ordering Instructions": "software shall zero these fields" of reserved fence words; docs/DECISIONS.md, Words: FENCE is every word of its opcode
    # with f3 0. LLVM reads those alone whose rd, rs1 and fm are 0 (and fence.tso).
    if word & 0x707f == 0x0f:
        return 'fence'
    # "Whole Vector Register Move": a vmv<nr>r.v on registers that are no multiple is reserved. It is decoded all the same, and is not legal at any vtype.
    if word & 0xfe00707f == 0x9e003057 and word >> 15 & 31 in (1, 3, 7):
        i = ALL['vmv%dr.v' % ((word >> 15 & 31) + 1)]
        return text_of(i, {'vd': word >> 7 & 31, 'vs2': word >> 20 & 31, 'vm': 1}, word)
    return None


# ---- 4. LLVM's text as this table's ------------------------------------------------------------------------------------------------------------------------

CSR_NUMBERS = {name: number for number, name in CSRS.items()}
VTYPE = re.compile(r'e(\d+), (mf?\d), (t[au]), (m[au])$')


def vtype_number(text):
    m = VTYPE.search(text)
    if not m:
        return int(text.split(', ')[-1], 0)
    sew, lmul, ta, ma = m.groups()
    return ({'8': 0, '16': 1, '32': 2, '64': 3}[sew] << 3 | {'m1': 0, 'm2': 1, 'm4': 2, 'm8': 3, 'mf8': 5, 'mf4': 6, 'mf2': 7}[lmul]
            | (ta == 'ta') << 6 | (ma == 'ma') << 7)


def value(field, text):
    if field in ('rd', 'rs1', 'rs2'):
        assert text[0] == 'x', text
        return int(text[1:])
    if field in ('vd', 'vs1', 'vs2', 'vs3'):
        assert text[0] == 'v', text
        return int(text[1:])
    if field == 'csr':
        return CSR_NUMBERS[text] if text in CSR_NUMBERS else int(text, 0)
    return int(text, 0)


def text_of(i, fields, word):
    shown = []
    for f in ORDER:
        if f in fields:
            v = fields[f]
            if f == 'csr':
                v = '%03x' % v
            elif f == 'to':
                v = '%08x' % ((0x10000 + v) & 0xffffffff)
            elif f == 'imm' and i.shape == 'upper':
                v = '%08x' % (v << 12)
            shown.append(' %s=%s' % (f, v))
    return i.name + ''.join(shown)


def converted(name, operands, word):
    if name == 'fence' or name == 'fence.tso':
        return 'fence'
    i = ALL.get(name)
    assert i is not None, (name, operands, '%08x' % word)
    fields = {}
    if i.shape == 'vset' and i.name != 'vsetvl':
        parts = operands.split(', ')
        fields = {'rd': value('rd', parts[0]), 'imm': vtype_number(operands)}
        fields['rs1' if i.name == 'vsetvli' else 'avl'] = value('rs1', parts[1]) if i.name == 'vsetvli' else int(parts[1], 0)
    else:
        parts = [p for p in re.split(r'[,\s()]+', operands) if p]
        if i.is_vector:
            if parts[-1] == 'v0.t' and i.vm is None:
                fields['vm'] = 0
                parts.pop()
            else:
                fields['vm'] = 1 if i.vm is None else i.vm
                if i.vm == 0:
                    assert parts.pop() == 'v0', operands
        syntax = [f for f in i.syntax if f != 'vm']
        assert len(parts) == len(syntax), (name, operands)
        for f, p in zip(syntax, parts):
            fields[f] = value(f, p)
    if 'csr' not in fields and i.shape not in ('fence', 'ecall', 'branch', 'jal', 'upper'):
        # The text's fields make the word again.
        assert i.encode(**fields) == word, (name, operands, '%08x' % word)
    return text_of(i, fields, word)


def main():
    words = asked()
    found = disassembled(words)
    rows, counts = [], {}
    for w in words:
        by_hand = False
        if w in found and not left_out(found[w][0], w):
            text = converted(found[w][0], found[w][1], w)
        elif w in found:
            text, by_hand = 'illegal', True
        else:
            text = read_though_refused(w) or 'illegal'
            by_hand = text != 'illegal'
        # A table made by hand from the manuals (table.py, model.py) says the same.
        mine = model.text_of(w)
        assert mine == text, ('%08x' % w, text, mine)
        rows.append('%08x %s' % (w, text))
        kind = ('illegal' if text == 'illegal' else 'with a meaning') + (', by hand' if by_hand else '')
        counts[kind] = counts.get(kind, 0) + 1
    print('# What words mean. Made by vectors/words.py from llvm-mc-16 --disassemble (LLVM %s, -mattr=+m,+zve32x);'
          % re.search(r'version (\S+)', subprocess.run(['llvm-mc-16', '--version'], capture_output=True, text=True).stdout).group(1))
    print('# by hand where the script says so. %d rows: %s.' % (len(rows), '; '.join('%s %d' % (k, counts[k]) for k in sorted(counts))))
    print('\n'.join(rows))
    names = {r.split()[1] for r in rows}
    missing = {i.name for i in SCALAR + VECTOR} - names
    print('missing: ' + ' '.join(sorted(missing)) if missing else 'every instruction is there; %s' % counts, file=sys.stderr)


main()
