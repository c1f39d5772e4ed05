"""The rows of checks.txt that were written by hand, with the answers that the rules give; checker.py has to say the same.

Ranges are tried exactly: as they are, which is accepted, and one narrower at each end, which is not.
"""
import certificates as c
from checker import buffers, check
from images import elf, note
from kernels import CODE, Kernel, code_bytes, file_of, kernel, params
from table import M32

A = 'accepted'
ROWS = []       # (name, vlenb, file, answer)


def row(name, file, vlenb, expected):
    answer = check(file, vlenb)
    assert answer == expected, '%s\n by hand %s\n model   %s' % (name, expected, answer)
    ROWS.append((name, vlenb, file, answer))


def case(name, expected, text, passed, blocks, vlenb=16, **more):
    row(name, file_of(kernel(text, passed, blocks, vlenb, **more)), vlenb, expected)


def straight(name, expected, text, passed='', facts='', vlenb=16, **more):
    """A kernel of one block, with a budget of just its words."""
    count = sum(1 for line in text.replace('\n', ';').split(';') if line.split(':')[-1].strip())
    stated = ''.join('; x%d %d..%d' % (10 + place, p.a, p.b) for place, p in scalars(passed)) + placed(passed)
    case(name, expected, text, passed, '0x10000 %d; R%s%s' % (count, stated, '; ' + facts if facts else ''), vlenb, **more)


def scalars(passed):
    return [(place, p) for place, p in enumerate(params(passed)) if p.kind == 'scalar' and (p.a, p.b) != c.FULL]


def placed(passed):
    return ''.join('; x%d %d..%d' % (10 + place, at, at) for place, at, _, _ in buffers(params(passed)))


# ---- Whole kernels ------------------------------------------------------------------------------------------------------------------

BYTE_ADD = 'vsetvli t0,a2,e8,m1,ta,ma; vle8.v v8,(a0); vle8.v v16,(a1); vadd.vv v8,v8,v16; vse8.v v8,(a0); ecall'
RAISE = '''beqz a1,end
    loop: vsetvli t0,a1,e32,m1,ta,ma; vle32.v v8,(a0); vadd.vi v8,v8,1; vse32.v v8,(a0); slli t1,t0,2; add a0,a0,t1; sub a1,a1,t0; bnez a1,loop
    end: ret'''
RAISE_BLOCKS = '''0x10000 2 8*x11; R; x10 is 0x40000000; x11 0..1024 = p1
    loop 1 8*x11; R; x10 0x40000000..0x40001000 = 0x40000000 - 4 x11 + 4 p1; x11 1..1024
    end 1; R'''
SUM = 'beqz a1,end; loop: lbu t0,0(a0); addi a0,a0,1; add a2,a2,t0; addi a1,a1,-1; bnez a1,loop; end: ret'
SUM_BLOCKS = '''0x10000 2 5*x11; R; x10 is 0x40000000; x11 0..1024 = p1
    loop 1 5*x11; R; x10 0x40000000..0x40000400 = 0x40000000 - 1 x11 + p1; x11 1..1024
    end 1; R'''
GATHER = 'vsetivli x0,16,e8,m1; vle8.v v8,(a1); vluxei8.v v9,(a0),v8; vse8.v v9,(a2); ret'
GATHER_127 = 'li t0,127; vsetivli x0,16,e8,m1; vle8.v v8,(a1); vand.vx v8,v8,t0; vluxei8.v v9,(a0),v8; vse8.v v9,(a2); ret'
TWO_GROUPS = '''li t0,127; vsetvli t1,x0,e8,m2; vle8.v v8,(a1); vand.vx v8,v8,t0; vmv1r.v v9,v12
    next: vluxei8.v v10,(a0),v8; vse8.v v10,(a2); ret'''


def whole_kernels():
    add = '0x10000 %d; R; x10 is 0x40000000; x11 is 0x40002000; x12 0..3 = p2'
    case('bytes are added', 'accepted 6 0 0', BYTE_ADD, 'rw 3, r 3, s 0 3', add % 6)
    case('a smaller budget', 'BudgetNotProved 00010014', BYTE_ADD, 'rw 3, r 3, s 0 3', add % 5)
    case('a larger one', 'accepted 7 0 0', BYTE_ADD, 'rw 3, r 3, s 0 3', add % 7)
    case('the first buffer is short', 'AccessNotProved 00010004', BYTE_ADD, 'rw 2, r 3, s 0 3', add % 6)
    case('the second buffer is short', 'AccessNotProved 00010008', BYTE_ADD, 'rw 3, r 2, s 0 3', add % 6)
    case('the first is to read', 'ReadOnly 00010010', BYTE_ADD, 'r 3, r 3, s 0 3', add % 6)
    case('4 bytes of 3', 'AccessNotProved 00010004', BYTE_ADD, 'rw 3, r 3, s 0 4',
         '0x10000 6; R; x10 is 0x40000000; x11 is 0x40002000; x12 0..4')
    none = '0x10000 6; R; x10 is 0x40000000; x11 is 0x40001000; x12 0..0 = p2'
    case('no bytes are added', 'accepted 6 0 0', BYTE_ADD, 'rw 0, r 0, s 0 0', none)
    case('one byte of none', 'AccessNotProved 00010004', BYTE_ADD, 'rw 0, r 0, s 0 1', none.replace('0..0 = p2', '0..1'))
    for vlenb in (16, 32):
        case('words are raised', 'accepted 2 8 11', RAISE, 'rw 4096, s 0 1024', RAISE_BLOCKS, vlenb)
    for name, expected, old, new in RAISE_CHANGES:
        assert (RAISE_BLOCKS + '|rw 4096, s 0 1024').count(old) == 1 or old == 'all', old
        blocks, passed = (RAISE_BLOCKS + '|rw 4096, s 0 1024').replace(old, new).split('|')
        case('words are raised: ' + name, expected, RAISE, passed, blocks)
    own = file_of(kernel(RAISE, 'rw 4096, s 0 1024', RAISE_BLOCKS, 32))
    row('words are raised: another length', own, 16, 'WrongVlen')
    row('words are raised: another length', file_of(kernel(RAISE, 'rw 4096, s 0 1024', RAISE_BLOCKS, 16)), 32, 'WrongVlen')
    for old, new, expected in (
            ('e32,m1,ta,ma', 'e32,m2,tu,mu', 'accepted 2 8 11'), ('vsetvli t0,a1,e32,m1,ta,ma', 'nop', 'VtypeUnknown 00010008'),
            ('e32,m1', 'e32,mf2', 'VtypeUnknown 00010008'), ('slli t1,t0,2', 'slli t1,t0,1', 'EqualityNotProved 00010020'),
            ('a1,e32,m1', 'a1,e8,m8', 'IllegalWord 00010008'), ('vadd.vi', 'vmv1r.v v9,v8; vadd.vi', 'BudgetNotProved 00010024'),
            ('sub a1,a1,t0', 'addi a1,a1,-1', 'EqualityNotProved 00010020'), ('bnez a1,loop', 'beqz a1,loop', 'IntervalNotProved 00010020'),
            ('vsetvli t0,a1,e32', 'vsetvli t0,x0,e32', 'AccessNotProved 00010008')):
        case('words are raised: %s for %s' % (new, old), expected, RAISE.replace(old, new), 'rw 4096, s 0 1024', RAISE_BLOCKS)
    inside = RAISE_BLOCKS.split('\n', 1)[1]
    case('entry in the loop', 'BudgetNotProved 00010020', RAISE, 'rw 4096, s 0 1024', inside.replace('1..1024', '0..1024'), entry=CODE + 4)
    case('entry in the loop, a count that is not 0', 'accepted 1 8 11', RAISE, 'rw 4096, s 1 1024', inside, entry=CODE + 4)
    case('entry in the loop, a budget that stays', 'BudgetNotProved 00010020', RAISE, 'rw 4096, s 1 1024', inside.replace('1 8*x11', '9'),
         entry=CODE + 4)
    case('bytes are summed', 'accepted 2 5 11', SUM, 'r 1024, s 0 1024', SUM_BLOCKS)
    case('bytes are summed: a buffer of 1023', 'AccessNotProved 00010004', SUM, 'r 1023, s 0 1024', SUM_BLOCKS)
    case('bytes are summed: a branch behind the last block', 'TargetNotABlock 00010000', SUM.replace('a1,end', 'a1,0x10010'),
         'r 1024, s 0 1024', SUM_BLOCKS)
    case('bytes are summed: in halves', 'AccessNotProved 00010004', SUM.replace('lbu', 'lhu'), 'r 1024, s 0 1024', SUM_BLOCKS)
    case('bytes are summed: by two', 'IntervalNotProved 00010014', SUM.replace('a0,a0,1', 'a0,a0,2'), 'r 1024, s 0 1024', SUM_BLOCKS)
    case('bytes are summed: the first one again', 'EqualityNotProved 00010014', SUM.replace('a0,a0,1', 'a0,a0,0'), 'r 1024, s 0 1024',
         SUM_BLOCKS)
    case('bytes are summed: up', 'IntervalNotProved 00010014', SUM.replace('a1,a1,-1', 'a1,a1,1'), 'r 1024, s 0 1024', SUM_BLOCKS)
    case('bytes are summed: no block behind the loop', 'TargetNotABlock 00010000', SUM, 'r 1024, s 0 1024', SUM_BLOCKS.split('    end')[0])
    case('bytes are summed: a store', 'ReadOnly 00010004', SUM.replace('lbu', 'sb'), 'r 1024, s 0 1024', SUM_BLOCKS)
    case('bytes are summed: a store that may be', 'accepted 2 5 11', SUM.replace('lbu', 'sb'), 'rw 1024, s 0 1024', SUM_BLOCKS)
    case('a sum that wraps', 'AccessNotProved 00010008', 'slli t0,a1,28; add a0,a0,t0; lbu t1,0(a0); ret', 'r 1, s 0 16',
         '0x10000 4; R; x10 is 0x40000000; x11 0..16')
    case('a sum that does not wrap', 'AccessNotProved 00010008', 'slli t0,a1,28; add a0,a0,t0; lbu t1,0(a0); ret', 'r 1, s 0 1',
         '0x10000 4; R; x10 is 0x40000000; x11 0..1')
    straight('a table at a scaled index', 'accepted 4 0 0', 'slli t0,a1,2; add a0,a0,t0; lw t1,0(a0); ret', 'r 68, s 0 16')
    straight('a table at a scaled index, a byte short', 'AccessNotProved 00010008', 'slli t0,a1,2; add a0,a0,t0; lw t1,0(a0); ret',
             'r 67, s 0 16')
    gathers()
    adjoining()


RAISE_CHANGES = [
    ('a short buffer', 'AccessNotProved 00010008', 'rw 4096', 'rw 4092'),
    ('a buffer one byte short', 'AccessNotProved 00010008', 'rw 4096', 'rw 4095'),
    ('a buffer to read', 'ReadOnly 00010010', 'rw 4096', 'r 4096'),
    ('a larger count', 'IntervalNotProved 00010000', 's 0 1024', 's 0 1025'),
    ('a smaller count', 'accepted 2 8 11', 's 0 1024', 's 5 1023'),
    ('a small budget', 'BudgetNotProved 00010000', '0x10000 2', '0x10000 1'),
    ('a high pointer', 'IntervalNotProved 00010000', '0x40000000..', '0x40000001..'),
    ('a low pointer', 'IntervalNotProved 00010020', '..0x40001000', '..0x40000fff'),
    ('a count from 2', 'IntervalNotProved 00010000', '1..1024', '2..1024'),
    ('a count from 0', 'BudgetNotProved 00010020', '1..1024', '0..1024'),
    ('another multiple', 'EqualityNotProved 00010000', '4 p1', '5 p1'),
    ('another multiple of the count', 'EqualityNotProved 00010000', '4 x11', '3 x11'),
    ('another constant', 'EqualityNotProved 00010000', '= 0x40000000 -', '= 0x40000004 -'),
    ('no word for the end', 'BudgetNotProved 00010020', 'loop 1', 'loop 0'),
    ('a small factor', 'BudgetNotProved 00010020', 'loop 1 8', 'loop 1 7'),
    ('a larger factor', 'BudgetNotProved 00010000', 'loop 1 8', 'loop 1 9'),
    ('another register', 'BudgetNotProved 00010000', 'loop 1 8*x11', 'loop 1 8*x10'),
    ('EXIT is not known', 'TargetNotABlock 00010024', 'end 1; R', 'end 1'),
    ('no end', 'TargetNotABlock 00010000', '\n    end 1; R', ''),
    ('a block in the loop', 'VtypeUnknown 00010008', 'end 1; R', '0x10008 0 8*x11; R; x11 1..1024\n    end 1; R'),
]


def gathers():
    facts = '; R; x10 is 0x40000000; x11 is 0x%x; x12 is 0x%x'
    case('gather', 'accepted 5 0 0', GATHER, 'r 256, r 16, rw 16', '0x10000 5' + facts % (0x40002000, 0x40004000))
    case('gather: a short table', 'AccessNotProved 00010008', GATHER, 'r 255, r 16, rw 16', '0x10000 5' + facts % (0x40002000, 0x40004000))
    case('gather: results to read', 'ReadOnly 0001000c', GATHER, 'r 256, r 16, r 16', '0x10000 5' + facts % (0x40002000, 0x40004000))
    case('gather: short indices', 'AccessNotProved 00010004', GATHER, 'r 256, r 15, rw 16', '0x10000 5' + facts % (0x40002000, 0x40004000))
    case('gather of 127', 'accepted 7 0 0', GATHER_127, 'r 128, r 16, rw 16', '0x10000 7' + facts % (0x40002000, 0x40004000))
    case('gather of 127: a short table', 'AccessNotProved 00010010', GATHER_127, 'r 127, r 16, rw 16',
         '0x10000 7' + facts % (0x40002000, 0x40004000))
    case('gather of 127, masked', 'AccessNotProved 00010010', GATHER_127.replace('v8,v8,t0', 'v8,v8,t0,v0.t'), 'r 128, r 16, rw 16',
         '0x10000 7' + facts % (0x40002000, 0x40004000))
    case('gather of two groups', 'AccessNotProved 00010014', TWO_GROUPS, 'r 128, r 32, rw 32',
         '0x10000 8' + facts % (0x40002000, 0x40004000))
    without = TWO_GROUPS.replace('; vmv1r.v v9,v12', '; vmv1r.v v7,v12')
    case('gather of two groups, that stay', 'accepted 8 0 0', without, 'r 128, r 32, rw 32', '0x10000 8' + facts % (0x40002000, 0x40004000))
    two = '0x10000 8%s\nnext 3 vtype=e8,m2%s; vl 32..32; v8*2 e8 0..%d'
    case('a fact that was overwritten', 'VectorFactNotProved 00010010', TWO_GROUPS, 'r 128, r 32, rw 32',
         two % ((facts % (0x40002000, 0x40004000),) * 2 + (127,)))
    case('a fact that stays', 'accepted 8 0 0', without, 'r 128, r 32, rw 32', two % ((facts % (0x40002000, 0x40004000),) * 2 + (127,)))
    case('a fact that stays, wider', 'AccessNotProved 00010014', without, 'r 128, r 32, rw 32',
         two % ((facts % (0x40002000, 0x40004000),) * 2 + (128,)))
    case('a fact that stays, narrower', 'VectorFactNotProved 00010010', without, 'r 128, r 32, rw 32',
         two % ((facts % (0x40002000, 0x40004000),) * 2 + (126,)))
    straight('a move of a group that is none', 'IllegalWord 00010000', 'vmv2r.v v9,v8; ret')


def adjoining():
    code = 'lui a1,0x20; addi a1,a1,8; vsetivli x0,16,e8,m1; vle8.v v8,(a1); ecall'
    second = lambda at, flags=4: [(0x20000, bytes(range(16)), 16, 4), (at, bytes(range(16, 32)), 16, flags)]
    straight('a load across two segments', 'AccessNotProved 0001000c', code, more=second(0x20010))
    straight('a load across two segments and a gap', 'AccessNotProved 0001000c', code, more=second(0x20014))
    straight('a load from one segment', 'accepted 5 0 0', code.replace('a1,a1,8', 'a1,a1,0'), more=second(0x20010))
    straight('a load from the second segment', 'accepted 5 0 0', code.replace('a1,a1,8', 'a1,a1,16'), more=second(0x20010))
    straight('a load a byte before a segment', 'AccessNotProved 0001000c', code.replace('a1,a1,8', 'a1,a1,-1'), more=second(0x20010))


# ---- Certificates and images ------------------------------------------------------------------------------------------------------------

def spellings():
    k = kernel(RAISE, 'rw 4096, s 0 1024', RAISE_BLOCKS)
    right = c.certificate_bytes(k.certificate)
    at = right.index(bytes.fromhex('2204000000'))       # the coefficient 4 of what was passed
    changes = [('Short', right[:260]), ('TrailingBytes', right + b'\0'), ('Equality', right[:at + 1] + bytes(4) + right[at + 5:]), ('Short', b'')]
    for name, place, value in (
            ('Budget', 0, 2), ('Version', 2, 0), ('Version', 2, 4), ('Version', 3, 1), ('Parameter', 4, 3), ('Parameter', 5, 2),
            ('Parameter', 6, 1), ('Parameter', 11, 1), ('Parameter', 12, 1), ('Parameter', 17, 1), ('Parameter', 21, 5),
            ('Parameter', 28, 4), ('Parameter', 29, 1), ('Parameter', 32, 1), ('Parameter', 36, 1), ('TooMany', 101, 5),
            ('TooMany', 102, 1), ('Short', 100, 4), ('TrailingBytes', 100, 2), ('BlockOrder', 104, 1), ('Budget', 116, 0),
            ('Budget', 116, 32), ('Fact', 117, 2), ('Fact', 118, 1), ('TooMany', 119, 33), ('TooMany', 120, 33), ('TooMany', 121, 1),
            ('TooMany', 123, 1), ('Fact', 124, 0), ('Fact', 124, 33), ('Fact', 125, 0xf1)):
        changes.append((name, right[:place] + bytes([value]) + right[place + 1:]))
    for name, descriptor in changes:
        row('a certificate that is none', file_of(k, descriptor), 16, 'certificate ' + name)
    # A vtype of 0 that is known is e8, m1: the block at the entry states it, and it is not.
    row('vtype known at the entry', file_of(k, right[:117] + b'\1' + right[118:]), 16, 'VtypeUnknown 00010000')
    texts = [
        ('Equality', 'x5 0..9 = x5'), ('Equality', 'x5 0..9 = x6; x6 0..9 = 3'), ('Equality', 'x5 0..9 = p0'), ('Fact', 'x5 9..8'), ('Fact', 'x5 0..0xffffffff'),
        ('Fact', 'v8*1 e8 0..255'), ('Fact', 'v8*1 e8 0..256'), ('Fact', 'v8*1 e8 9..8'), ('Fact', 'v9*2 e8 0..1'), ('Fact', 'v8*3 e8 0..1'),
        ('Fact', 'v8*1 e64 0..1'), ('Fact', 'v8*1 e8 #17 0..1'), ('Fact', 'v8*2 e8 0..1; v9*1 e8 0..1'), ('Fact', 'v9*1 e8 0..1; v8*1 e8 0..1'),
        ('Fact', 'v32*1 e8 0..1'), ('Fact', 'v8*1 e32 #5 0..1')]
    for name, text in texts:
        case('a fact that is none', 'certificate ' + name, 'nop; ret', '', '0x10000 2; R; ' + text)
    for text in ('v8*1 e8 #16 0..1', 'v8*2 e8 0..1; v10*1 e8 0..1', 'v8*1 e32 #4 0..0xfffffffe', 'v31*1 e16 #8 0..1'):
        case('a vector fact at the entry', 'VectorFactNotProved 00010000', 'nop; ret', '', '0x10000 2; R; ' + text)
    for limit, expected in ((17, 'certificate Fact'), (16, 'VectorFactNotProved 00010000')):
        case('as many elements as 128 bits have', expected, 'nop; ret', '', '0x10000 2; R; v8*1 e8 #%d 0..1' % limit)
    case('as many elements as 256 bits have', 'VectorFactNotProved 00010000', 'nop; ret', '', '0x10000 2; R; v8*1 e8 #17 0..1', 32)
    images(k)


def images(k):
    file = file_of(k)
    row('no file', b'', 16, 'image TooShort')
    row('51 bytes', file[:51], 16, 'image TooShort')
    for name, place, value in (
            ('BadMagic', 0, 0), ('BadClass', 4, 2), ('BadType', 16, 3), ('BadMachine', 18, 62), ('BadFlags', 36, 1),
            ('BadHeaderTable', 44, 0), ('NotStatic', 84, 2), ('SegmentOutOfFile', 102, 1), ('SegmentOutOfPlace', 63, 0x40),
            ('WriteAndExecute', 76, 7), ('EntryNotCode', 24, 2)):
        row('an image that is none', file[:place] + bytes([value]) + file[place + 1:], 16, 'image ' + name)
    code = k.segments[0]
    twice = [(c.LOAD, 0, code[0], len(code[1]), len(code[1]), 5)]
    row('no certificate', elf(twice, code[1]), 16, 'no certificate')
    row('a note of another type',
        elf(twice + [(c.NOTE, 40, 0, 284, 284, 4)], code[1] + note(b'RVVBOX\0', c.certificate_bytes(k.certificate), 2)), 16,
        'no certificate')
    both = note(b'RVVBOX\0', b'', 1) * 2
    row('two certificates', elf(twice + [(c.NOTE, 40, 0, len(both), len(both), 4)], code[1] + both), 16, 'image TwoCertificates')
    row('segments overlap', elf(twice * 2, code[1]), 16, 'image SegmentsOverlap')
    row('no block at the entry', file[:24] + b'\4\0\1\0' + file[28:], 16, 'IntervalNotProved 00010004')
    row('no block at the entry', file[:24] + b'\x08\0\1\0' + file[28:], 16, 'NoEntryBlock')
    # The length is looked at before the entry.
    row('neither length nor entry', file[:24] + b'\x08\0\1\0' + file[28:], 32, 'WrongVlen')


# ---- Results -----------------------------------------------------------------------------------------------------------------------------

def probe(text, passed, lo, hi, register='x5'):
    """The last instruction before `end` gives a number whose interval is known to be [lo, hi], exactly."""
    count = text.count(';') + 1
    stated = ''.join('; x%d %d..%d' % (10 + place, p.a, p.b) for place, p in scalars(passed)) + placed(passed)
    last = '%08x' % (CODE + 4 * count - 4)
    tried = [(lo, hi, 'accepted %d 0 0' % (count + 1))]
    for a, b in ((lo + 1, hi) if lo < hi else (lo + 1, lo + 1), (lo, hi - 1) if lo < hi else (lo - 1, lo - 1)):
        if 0 <= a <= b <= M32:
            tried.append((a, b, 'IntervalNotProved ' + last))
    for a, b, expected in tried:
        end = '' if (a, b) == c.FULL else '; %s %d..%d' % (register, a, b)
        case('%s in %d..%d' % (text, a, b), expected, text + '; end: ret', passed, '0x10000 %d; R%s\nend 1; R%s' % (count + 1, stated, end))


def scalar_results():
    two = 's 16 255, s 3 7'
    for text, passed, lo, hi in (
            ('lui t0,0x80000', '', 1 << 31, 1 << 31), ('auipc t0,1', '', 0x11000, 0x11000), ('auipc t0,0xfffff', '', 0xf000, 0xf000),
            ('li t0,-1', '', M32, M32), ('addi t0,a0,5', two, 21, 260), ('addi t0,a0,-16', two, 0, 239), ('addi t0,a0,-17', two, 0, M32),
            ('addi t0,a0,2047', 's 0 0xfffff800', 2047, M32), ('addi t0,a0,2047', 's 0 0xfffff801', 0, M32),
            ('addi t0,a0,-5', 's 0 4', (1 << 32) - 5, M32), ('addi t0,a0,-5', 's 0 5', 0, M32), ('add t0,a0,a1', two, 19, 262),
            ('add t0,a0,a0', two, 32, 510), ('add t0,a0,a0', 's 0 0x7fffffff', 0, M32 - 1), ('add t0,a0,a0', 's 0 0x80000000', 0, M32),
            ('add t0,a0,a0', 's 0x80000000 0x80000001', 0, 2), ('add t0,a0,x0', two, 16, 255), ('add t0,x0,a1', two, 3, 7),
            ('sub t0,a0,a1', two, 9, 252), ('sub t0,a1,a0', two, (1 << 32) - 252, (1 << 32) - 9), ('sub t0,a0,a0', two, 0, 0),
            ('sub t0,x0,a1', two, (1 << 32) - 7, (1 << 32) - 3), ('sub t0,x0,a1', 's 0 9, s 0 7', 0, M32), ('slli t0,a0,4', two, 256, 4080),
            ('slli t0,a0,24', two, 1 << 28, 255 << 24), ('slli t0,a0,25', two, 0, M32), ('slli t0,a0,0', two, 16, 255),
            ('slli t0,a0,31', 's 1 2', 0, 1 << 31), ('slli t0,a0,31', 's 2 3', 0, M32), ('li t1,36; sll t0,a0,t1', two, 256, 4080),
            ('sll t0,a0,a1', two, 0, M32), ('sll t0,a0,a1', 's 16 255, s 4 4', 256, 4080), ('li t1,10; mul t0,a0,t1', two, 160, 2550),
            ('li t1,10; mul t0,t1,a0', two, 160, 2550), ('li t1,-1; mul t0,a0,t1', two, (1 << 32) - 255, (1 << 32) - 16),
            ('mul t0,a0,a1', two, 0, M32), ('mul t0,a0,x0', two, 0, 0), ('mul t0,a0,a1', 's 6 6, s 7 7', 42, 42),
            ('and t0,a0,a1', two, 0, 7), ('and t0,a1,a0', two, 0, 7), ('andi t0,a0,15', two, 0, 15), ('andi t0,a0,-1', two, 0, 255),
            ('andi t0,a0,-16', 's 5 0xffffffff', 0, 0xfffffff0), ('andi t0,a0,0', two, 0, 0), ('srli t0,a0,2', two, 4, 63),
            ('srli t0,a0,0', two, 16, 255), ('li t1,34; srl t0,a0,t1', two, 4, 63), ('srl t0,a0,a1', two, 0, M32),
            ('srai t0,a0,2', two, 0, M32), ('li t1,10; divu t0,a0,t1', two, 1, 25), ('divu t0,a0,x0', two, 0, M32),
            ('divu t0,a0,a1', two, 0, M32), ('li t1,10; div t0,a0,t1', two, 0, M32), ('li t1,10; remu t0,a0,t1', two, 0, 9),
            ('li t1,300; remu t0,a0,t1', two, 0, 255), ('remu t0,a0,x0', two, 0, M32),
            ('li t1,-1; remu t0,a0,t1', 's 1 0xffffffff', 0, M32 - 1), ('li t1,10; rem t0,a0,t1', two, 0, M32),
            ('remu t0,a0,a1', two, 0, M32), ('slt t0,a0,a1', two, 0, 1), ('sltu t0,a0,a1', two, 0, 1), ('slti t0,a0,3', two, 0, 1),
            ('sltiu t0,a0,3', two, 0, 1), ('or t0,a0,a1', two, 0, M32), ('xor t0,a0,a0', two, 0, M32), ('ori t0,a0,0', two, 0, M32),
            ('xori t0,a0,0', two, 0, M32), ('mulhu t0,a0,a1', two, 0, M32), ('sra t0,a0,a1', two, 0, M32), ('lbu t0,0(a0)', 'r 9', 0, 255),
            ('lhu t0,0(a0)', 'r 9', 0, 65535), ('lb t0,0(a0)', 'r 9', 0, M32), ('lh t0,0(a0)', 'r 9', 0, M32),
            ('lw t0,0(a0)', 'r 9', 0, M32), ('csrrs t0,vxsat,x0', '', 0, 1), ('csrrs t0,vxrm,x0', '', 0, 3), ('csrrw t0,vcsr,x0', '', 0, 7),
            ('csrrs t0,vlenb,x0', '', 16, 16), ('csrrci t0,vtype,0', '', 0, M32), ('li t0,9; csrrwi x0,vxrm,2', '', 9, 9),
            ('li t0,9; fence', '', 9, 9), ('csrrs t0,vl,x0', '', 0, M32), ('li t0,9; addi x0,t0,9', '', 9, 9),
            ('li t0,9; li x0,5; add t0,t0,x0', '', 9, 9), ('andi t1,a0,0; mul t0,a0,t1', two, 0, 0),
            ('andi t1,a0,0; sll t0,a0,t1', two, 16, 255), ('andi t1,a0,0; srl t0,a0,t1', two, 16, 255),
            ('andi t1,a0,0; divu t0,a0,t1', two, 0, M32), ('add t1,a0,a1; sub t0,t1,a0', two, 3, 7),
            ('slli t1,a0,2; sub t2,t1,a0; sub t0,t2,a0', two, 32, 510), ('addi t1,a0,-255; addi t0,t1,255', two, 16, 255),
            ('slli t1,a0,31; slli t0,t1,1', two, 0, 0), ('sub t1,a0,a1; add t0,t1,a1', two, 16, 255)):
        probe(text, passed, lo, hi)
    probe('li a0,4; sub a0,a1,a0', 's 0 3, s 4 9', 0, 5, 'x10')
    probe('addi a0,a0,1', 's 0 3', 1, 4, 'x10')
    straight('ra is not EXIT any more', 'TargetNotABlock 00010004', 'li ra,4; ret')
    straight('ra is EXIT again', 'accepted 2 0 0', 'li ra,-16; ret')
    nine = '; '.join('lw x%d,0(a0)' % n for n in range(12, 21))
    eight_of_nine = '; '.join('add t0,t0,x%d' % n for n in range(12, 20))
    back = '; '.join('sub t0,t0,x%d' % n for n in range(12, 20))
    probe('%s; li t0,5; %s; %s' % (nine, eight_of_nine, back), 'r 4', 5, 5)
    probe('%s; li t0,5; %s; add t0,t0,x20; %s; sub t0,t0,x20' % (nine, eight_of_nine, back), 'r 4', 0, M32)
    bytes_ = nine.replace('lw', 'lbu')
    probe('%s; li t0,5; %s; add t0,t0,x20' % (bytes_, eight_of_nine), 'r 4', 5, 5 + 9 * 255)
    probe('%s; li t0,5; %s; add t0,t0,x20; sub t0,t0,x20' % (bytes_, eight_of_nine), 'r 4', 0, M32)


def equalities():
    """What is known as a sum, as the next block states it."""
    start = '0x10000 %d; R; x10 0..100 = p0; x11 0..50 = p1'
    loose = '0x10000 %d; R; x10 0..100; x11 0..50'
    for expected, text, first, stated in (
            ('accepted', 'add t0,a0,a1', start, 'x5 0..150 = p0 + p1'),
            ('EqualityNotProved', 'add t0,a0,a1', start, 'x5 0..150 = p0 + 2 p1'),
            ('EqualityNotProved', 'add t0,a0,a1', start, 'x5 0..150 = 1 + p0 + p1'),
            ('EqualityNotProved', 'add t0,a0,a1', start, 'x5 0..150 = p0'),
            ('EqualityNotProved', 'add t0,a0,a1', loose, 'x5 0..150 = p0 + p1'),
            ('accepted', 'add t0,a0,a1', loose, 'x5 0..150 = x10 + x11'), ('accepted', 'add t0,a0,a1', start, 'x5 0..150 = x10 + x11'),
            ('accepted', 'add t0,a0,a1', start, 'x5 0..150 = x10 + p1'),
            ('IntervalNotProved', 'add t0,a0,a1', start, 'x5 0..149 = x10 + x11'),
            ('accepted', 'sub t0,a0,a1', start, 'x5 0..0xffffffff = x10 - 1 x11'), ('accepted', 'slli t0,a0,3', start, 'x5 0..800 = 8 x10'),
            ('accepted', 'slli t0,a0,3; addi t0,t0,-8', loose, 'x5 0..0xffffffff = -8 + 8 x10'),
            ('EqualityNotProved', 'slli t0,a0,3; addi t0,t0,-8', loose, 'x5 0..0xffffffff = 8 + 8 x10'),
            ('accepted', 'mul t0,a0,x0', start, 'x5 0..0 = 0'), ('EqualityNotProved', 'andi t0,a0,0', start, 'x5 0..0 = 0'),
            ('accepted', 'li t0,7', start, 'x5 7..7 = 7'), ('accepted', 'mv t0,a0', loose, 'x5 0..100 = x10'),
            ('accepted', 'mv t0,a0; addi a0,a0,1', loose, 'x5 0..100 = -1 + x10'),
            ('EqualityNotProved', 'mv t0,a0; addi a0,a0,1', loose, 'x5 0..100 = x10'),
            ('accepted', 'mv t0,a0; mv a0,a1; mv a1,t0', start, 'x10 0..50 = p1; x11 0..100 = p0'),
            ('accepted', 'mv t0,a0; mv a0,a1; mv a1,t0', start, 'x5 0..100 = x11; x10 0..50 = p1'),
            ('EqualityNotProved', 'mv t0,a0; mv a0,a1; mv a1,t0', start, 'x10 0..50 = p0; x11 0..100 = p1'),
            ('IntervalNotProved', 'mv t0,a0; mv a0,a1; mv a1,t0', start, 'x10 0..50 = p0; x11 0..50 = p1'),
            ('EqualityNotProved', 'andi t1,a0,0; li t2,3; mul t0,t1,t2', start, 'x5 0..0 = 0'),
            ('accepted', 'andi t1,a0,0; li t2,3; mul t0,t2,t1', start, 'x5 0..0 = 0'),
            ('accepted', 'slli t0,a0,31; slli t0,t0,1', loose, 'x5 0..0 = 0'),
            ('accepted', 'li t1,-1; mul t0,a0,t1; add t0,t0,a0', loose, 'x5 0..0 = 0')):
        count = text.count(';') + 1
        told = 'accepted %d 0 0' % (count + 1) if expected == 'accepted' else '%s %08x' % (expected, CODE + 4 * count - 4)
        case('%s; then %s' % (text, stated), told, text + '; end: ret', 's 0 100, s 0 50', (first % (count + 1)) + '\nend 1; R; ' + stated)
    many = '\n'.join('add t0,t0,x%d' % n for n in range(10, 18)).replace('\n', '; ')
    params_ = ', '.join(['s 0 9'] * 8)
    facts = '; '.join('x%d 0..9 = p%d' % (n, n - 10) for n in range(10, 18))
    total = ' + '.join('p%d' % n for n in range(8))
    case('a sum of eight', 'accepted 10 0 0', 'li t0,0; ' + many + '; end: ret', params_,
         '0x10000 10; R; %s\nend 1; R; x5 0..72 = %s' % (facts, total))
    case('a sum of eight, by registers', 'accepted 10 0 0', 'li t0,0; ' + many + '; end: ret', params_,
         '0x10000 10; R; %s\nend 1; R; x5 0..72 = %s' % (facts, ' + '.join('x%d' % n for n in range(10, 18))))
    # Sixteen terms come between: eight registers of two terms each, of which one goes.
    pairs = '; '.join('add x%d,x%d,a7' % (n, n) for n in range(18, 25)) + '; li t0,0; ' + '; '.join('add t0,t0,x%d' % n for n in range(18, 25))
    facts = '; '.join('x%d 0..9' % n for n in range(18, 25))
    case('terms that come between', 'accepted 19 0 0', 'nop; second: ' + pairs.replace('a7', 's9') + '; sub t1,t0,s9; nop; end: ret', '',
         '0x10000 19; R; %s; x25 0..9\nsecond 18; R; %s; x25 0..9\nend 1; R; x6 = %s - 1 x25' % (facts, facts, ' + '.join('x%d' % n for n in range(18, 25))))


# ---- vset --------------------------------------------------------------------------------------------------------------------------------

def vset_rows():
    for text, passed, lo, hi in (
            ('vsetvli t0,a0,e8,m1', 's 3 9', 3, 9), ('vsetvli t0,a0,e8,m1', 's 3 99', 3, 16), ('vsetvli t0,a0,e8,m1', 's 20 99', 16, 16),
            ('vsetvli t0,a0,e32,m2', 's 0 99', 0, 8), ('vsetvli t0,a0,e8,mf4', 's 0 99', 0, 4), ('vsetvli t0,a0,e16,mf2', 's 1 99', 1, 4),
            ('vsetvli t0,a0,e8,m8,ta,ma', 's 1 0xffffffff', 1, 128), ('vsetvli t0,x0,e16,m4', '', 32, 32),
            ('vsetivli t0,3,e8,m1', '', 3, 3), ('vsetivli t0,31,e8,m1', '', 16, 16), ('vsetivli t0,0,e8,m1', '', 0, 0),
            ('li t1,5; vsetvli t0,t1,e8,m1', '', 5, 5), ('vsetvli t0,a0,e64,m1', 's 3 9', 0, 0), ('vsetvli t0,a0,e8,mf8', 's 3 9', 0, 0),
            ('vsetvli t0,a0,e32,mf2', 's 3 9', 0, 0), ('vsetvli t0,a0,0x100', 's 3 9', 0, 0),
            ('li t1,0xc0; vsetvl t0,a0,t1', 's 3 99', 3, 16), ('li t1,0x18; vsetvl t0,a0,t1', 's 3 99', 0, 0),
            ('vsetvl t0,a0,a1', 's 3 9, s 0 1', 0, 128), ('vsetvl t0,x0,a1', 's 3 9, s 0 1', 0, 128),
            ('li t1,1; vsetvl t0,x0,t1', '', 32, 32), ('andi t1,a0,0; vsetvl t0,a0,t1', 's 3 99', 3, 16),
            ('vsetivli x0,5,e8,m1; vsetvli x0,x0,e8,m1; csrrs t0,vl,x0', '', 5, 5),
            ('vsetivli x0,5,e8,m1; vsetvli x0,x0,e16,m2; csrrs t0,vl,x0', '', 5, 5),
            ('vsetivli x0,5,e8,m1; vsetvli x0,x0,e16,m1; csrrs t0,vl,x0', '', 0, 5), ('vsetvli x0,x0,e8,m1; csrrs t0,vl,x0', '', 0, M32),
            ('vsetivli x0,5,e8,m1; vsetvl x0,x0,a0; csrrs t0,vl,x0', 's 0 1', 0, 5),
            ('vsetivli x0,5,e8,m1; li t1,0; vsetvl x0,x0,t1; csrrs t0,vl,x0', '', 5, 5),
            ('vsetivli x0,5,e8,m1; li t1,-1; vsetvl x0,x0,t1; csrrs t0,vl,x0', '', 0, 0),
            ('vsetivli x0,5,e8,m1; vsetvli x0,x0,e64,m1; csrrs t0,vl,x0', '', 0, 0),
            ('vsetvli x0,a0,e8,m1; csrrs t0,vl,x0', 's 3 99', 3, 16), ('vsetvli x0,a0,e8,m1; vsetvli t0,a0,e8,m2', 's 3 99', 3, 32),
            ('vsetvli t1,a0,e8,m1; sub t0,a0,t1', 's 1 99', 0, 83), ('vsetvli t1,a0,e8,m1; sub t0,a0,t1', 's 20 99', 4, 83),
            ('vsetvli t1,a0,e8,m1; sub t0,a0,t1', 's 1 9', 0, 0), ('addi a1,a0,0; vsetvli t1,a1,e8,m1; sub t0,a0,t1', 's 1 99', 0, 83),
            ('addi a1,a0,1; vsetvli t1,a1,e8,m1; sub t0,a0,t1', 's 1 99', 0, M32),
            ('slli a1,a0,1; vsetvli t1,a1,e8,m1; sub t0,a1,t1', 's 1 99', 0, M32),
            ('vsetvli t1,a0,e8,m1; sub a0,a0,t1; vsetvli t1,a0,e8,m1; sub t0,a0,t1', 's 1 99', 0, M32),
            ('vsetvli t1,a0,e8,m1; vsetvli t2,a0,e8,m2; sub t0,a0,t1', 's 1 99', 0, M32),
            ('vsetvli t1,a0,e8,m1; vsetvli t2,a0,e8,m2; sub t0,a0,t2', 's 1 99', 0, 67),
            ('vsetvli t1,a0,e8,m1; slli t2,t1,2; slli a0,a0,2; sub t0,a0,t2', 's 1 99', 0, 332),
            ('vsetvli t1,a0,e8,m1; vsetvli t2,t1,e32,m1; sub t0,t1,t2', 's 1 99', 0, 12),
            ('vsetvli t1,a0,e8,m1; vsetvli t2,t1,e32,m1; sub t0,a0,t2', 's 1 99', 0, M32)):
        probe(text, passed, lo, hi)
    probe('vsetvli t0,x0,e8,m1', '', 16, 16)
    for text, lo, hi in (('vcpop.m t0,v8', 0, 5), ('vcpop.m t0,v8,v0.t', 0, 5), ('vfirst.m t0,v8', 0, M32), ('vmv.x.s t0,v8', 0, M32)):
        probe('vsetivli x0,5,e8,m1; ' + text, '', lo, hi)
    for vlenb, most in ((16, 16), (32, 32)):
        for lo, expected in ((most, 'accepted 2 0 0'), (most - 1, 'IntervalNotProved 00010000')):
            case('the greatest vl', expected, 'vsetvli t0,x0,e8,m1; end: ret', '', '0x10000 2; R\nend 1; R; x5 0..%d' % lo, vlenb)
    for text, vtype, expected in (
            ('vsetivli x0,5,e8,m1', 'e8,m1', 'accepted'), ('vsetivli x0,5,e8,m1', 'e8,m1,ta', 'VtypeUnknown'),
            ('vsetivli x0,5,e8,m1,ta,ma', '0xc0', 'accepted'), ('vsetivli x0,5,e8,m1', 'e16,m1', 'VtypeUnknown'),
            ('vsetivli x0,5,e64,m1', 'e8,m1', 'VtypeUnknown'), ('nop', 'e8,m1', 'VtypeUnknown'),
            ('vsetivli x0,5,e8,m1; vsetvli x0,x0,e16,m2,ta', 'e16,m2,ta', 'accepted'),
            ('vsetivli x0,5,e8,m1; vsetvli x0,x0,e16,m1', 'e16,m1', 'VtypeUnknown'), ('vsetvl t0,x0,a0', 'e8,m1', 'VtypeUnknown'),
            ('li t1,1; vsetvl t0,x0,t1', 'e8,m2', 'accepted'), ('vsetvli x0,x0,e8,m1', 'e8,m1', 'VtypeUnknown'),
            ('vsetivli x0,5,e8,m1; vsetvl x0,x0,a0', 'e8,m1', 'VtypeUnknown'),
            ('vsetivli x0,5,e8,m1; csrrs t0,vtype,x0', 'e8,m1', 'accepted')):
        count = text.count(';') + 1
        case('%s; then %s' % (text, vtype),
             'accepted %d 0 0' % (count + 1) if expected == 'accepted' else '%s %08x' % (expected, CODE + 4 * count - 4),
             text + '; end: ret', 's 0 1', '0x10000 %d; R; x10 0..1\nend 1 vtype=%s; R' % (count + 1, vtype))
    for text, stated, expected in (
            ('vsetvli x0,a0,e8,m1', 'vl 1..16', 'accepted 2 0 0'), ('vsetvli x0,a0,e8,m1', 'vl 2..16', 'IntervalNotProved 00010000'),
            ('vsetvli x0,a0,e8,m1', 'vl 1..15', 'IntervalNotProved 00010000'), ('vsetvli t0,a0,e8,m1', 'x5 1..16 = vl', 'accepted 2 0 0'),
            ('vsetvli t0,a0,e8,m1', 'vl 1..16 = x5', 'accepted 2 0 0'),
            ('vsetvli t0,a0,e8,m1', 'vl 1..16 = x10', 'EqualityNotProved 00010000'),
            ('vsetvli t0,x0,e8,m1', 'x5 16..16 = 16', 'EqualityNotProved 00010000'),
            ('vsetvli t0,x0,e8,m1', 'x5 16..16 = vl', 'accepted 2 0 0'),
            ('vsetivli t0,9,e8,m1', 'vl 9..9 = 9', 'EqualityNotProved 00010000'), ('vsetivli t0,9,e64,m1', 'vl 0..0 = 0', 'accepted 2 0 0'),
            ('nop', 'vl 0..0 = 0', 'accepted 2 0 0'), ('vsetvli t0,a0,e8,m1; sub t1,a0,t0', 'x6 0..83 = x10 - 1 vl', 'accepted 3 0 0')):
        count = text.count(';') + 1
        first = '0x10000 %d; R; x10 1..99%s' % (count + 1, '; vl is 0' if text == 'nop' else '')
        case('%s; then %s' % (text, stated), expected, text + '; end: ret', 's 1 99', first + '\nend 1; R; ' + stated)


# ---- Accesses -----------------------------------------------------------------------------------------------------------------------------

def access_rows():
    for text, sizes in (
            ('lb t0,0(a0)', 1), ('lh t0,0(a0)', 2), ('lw t0,0(a0)', 4), ('lw t0,5(a0)', 9), ('lbu t0,2047(a0)', 2048), ('lhu t0,1(a0)', 3),
            ('sb t0,0(a0)', 1), ('sh t0,0(a0)', 2), ('sw t0,0(a0)', 4), ('sw t0,100(a0)', 104), ('add a0,a0,a1; lw t0,0(a0)', 12),
            ('slli t1,a1,2; add a0,a0,t1; sw t0,0(a0)', 36), ('add a0,a0,a1; sub a0,a0,a1; sb t0,0(a0)', 1),
            ('addi a0,a0,16; lb t0,-16(a0)', 1), ('vsetvli x0,a1,e8,m1; vle8.v v8,(a0)', 8), ('vsetvli x0,a1,e32,m1; vle32.v v8,(a0)', 16),
            ('vsetvli x0,a1,e32,m1; vle8.v v8,(a0)', 4), ('vsetvli x0,a1,e8,m1; vle32.v v8,(a0)', 32),
            ('vsetvli x0,a1,e16,m1; vse16.v v8,(a0)', 16), ('vsetivli x0,0,e8,m1; vle8.v v8,(a0)', 0),
            ('vsetivli x0,0,e8,m1; vse8.v v8,(x0)', 0), ('vsetvli x0,a1,e8,m1; vle8.v v8,(a0),v0.t', 8),
            ('vsetvli x0,a1,e8,m1; add a0,a0,a1; vle8.v v8,(a0)', 16),
            ('vsetvli t0,a1,e8,mf4; sub t1,a1,t0; add a0,a0,t1; vle8.v v8,(a0)', 8), ('vsetvli x0,a1,e8,m1; vlm.v v8,(a0)', 1),
            ('vsetvli x0,x0,e8,m1; vsetvli x0,x0,e8,m1; nop', 0), ('vsetivli x0,9,e8,m1; vlm.v v8,(a0)', 2),
            ('vsetivli x0,16,e8,m1; vsm.v v8,(a0)', 2), ('vsetivli x0,0,e8,m1; vlm.v v8,(a0)', 0),
            ('vsetvli x0,x0,e8,m1; vl1re8.v v8,(a0)', 16), ('vl2re16.v v8,(a0)', 32), ('vl4re32.v v8,(a0)', 64), ('vl8re8.v v8,(a0)', 128),
            ('vs8r.v v8,(a0)', 128), ('vs1r.v v9,(a0)', 16), ('add a0,a0,a1; vl1re32.v v9,(a0)', 24),
            ('li t1,4; vsetvli x0,a1,e8,m1; vlse8.v v8,(a0),t1', 29), ('li t1,4; vsetvli x0,a1,e32,m2; vlse32.v v8,(a0),t1', 32),
            ('li t1,5; vsetvli x0,a1,e16,m1; vsse16.v v8,(a0),t1', 37), ('vsetvli x0,a1,e16,m1; vlse16.v v8,(a0),x0', 2),
            ('li t1,1; vsetvli x0,a1,e32,m2; vlse32.v v8,(a0),t1', 11), ('li t1,100; vsetivli x0,1,e8,m1; vlse8.v v8,(a0),t1', 1),
            ('addi a0,a0,28; li t1,-4; vsetvli x0,a1,e32,m2; vlse32.v v8,(a0),t1', 32),
            ('addi a0,a0,7; li t1,-1; vsetvli x0,a1,e8,m1; vsse8.v v8,(a0),t1', 8), ('vsetivli x0,0,e8,m1; vlse8.v v8,(a0),a1', 0),
            ('vsetivli x0,4,e8,m1; vmv.v.i v8,9; vluxei8.v v9,(a0),v8', 10),
            ('vsetivli x0,4,e8,m1; vmv.v.i v8,9; vsuxei8.v v9,(a0),v8', 10), ('vsetivli x0,4,e8,m1; vid.v v8; vloxei8.v v9,(a0),v8', 16),
            ('vsetivli x0,4,e16,m1; vmv.v.i v8,9; vluxei16.v v9,(a0),v8', 11),
            ('vsetivli x0,4,e32,m1; vmv.v.i v8,9; vsoxei32.v v9,(a0),v8', 13), ('vsetivli x0,4,e16,m1; vluxei8.v v9,(a0),v8', 257),
            ('vsetivli x0,4,e8,m1; vmv.v.i v8,9; vluxei8.v v9,(a0),v8,v0.t', 10),
            ('vsetivli x0,4,e8,mf2; vmv.v.i v8,9; vsetvli x0,x0,e16,m1; vluxei8.v v9,(a0),v8', 11),
            ('vsetivli x0,4,e8,mf2; vmv.v.i v8,9; vsetvli x0,x0,e32,m2; vluxei8.v v10,(a0),v8', 13),
            ('vsetivli x0,0,e8,m1; vluxei8.v v9,(a0),v8', 0), ('vsetivli x0,0,e8,m1; vsoxei8.v v9,(x0),v8', 0),
            ('vsetivli x0,4,e8,m1; vluxei16.v v10,(a0),v8', 65536),
            ('vsetivli x0,4,e8,m1; vmv.v.i v8,9; vsetivli x0,4,e8,m1; vluxei8.v v9,(a0),v8', 10),
            ('vsetivli x0,4,e8,m2; vmv.v.i v8,9; vsetivli x0,4,e8,m1; vluxei8.v v10,(a0),v8', 256),
            ('vsetivli x0,4,e8,m1; vmv.v.i v8,9; vsetivli x0,5,e8,m1; vluxei8.v v9,(a0),v8', 256),
            ('vsetvli x0,a1,e8,m1; vmv.v.i v8,9; vsetvli x0,a1,e8,m1; vluxei8.v v9,(a0),v8', 256)):
        last = CODE + 4 * text.count(';')
        loads = text.split(';')[-1].split()[0]
        is_store = loads[0] == 's' or loads[:2] == 'vs' and not loads.startswith('vset')
        count = text.count(';') + 2
        straight('%s of %d bytes' % (text, sizes), 'accepted %d 0 0' % count, text + '; ret', 'rw %d, s 0 8' % sizes)
        if sizes:
            straight('%s of %d bytes' % (text, sizes - 1), 'AccessNotProved %08x' % last, text + '; ret', 'rw %d, s 0 8' % (sizes - 1))
            straight('%s, to read' % text, 'ReadOnly %08x' % last if is_store else 'accepted %d 0 0' % count, text + '; ret',
                     'r %d, s 0 8' % sizes)
    for text, expected, more in (
            ('addi a0,a0,-1; lb t0,0(a0)', 'AccessNotProved 00010004', {}), ('lb t0,-1(a0)', 'AccessNotProved 00010000', {}),
            ('sb t0,-1(sp)', A, {}), ('sb t0,0(sp)', 'AccessNotProved 00010000', {}), ('lui t1,0xffff0; add sp,sp,t1; sw t0,0(sp)', A, {}),
            ('lui t1,0xffff0; add sp,sp,t1; sw t0,-1(sp)', 'AccessNotProved 00010008', {}), ('lw t0,0(x0)', 'AccessNotProved 00010000', {}),
            ('lui t1,0x10; lw t0,0(t1)', A, {}), ('lui t1,0x10; sw t0,0(t1)', 'ReadOnly 00010004', {}),
            ('lui t1,0x10; lw t0,12(t1)', 'AccessNotProved 00010004', {}), ('lui t1,0x10; sw t0,12(t1)', 'AccessNotProved 00010004', {}),
            ('lui t1,0x20; lw t0,0(t1)', A, {'more': [(0x20000, b'', 4, 6)]}),
            ('lui t1,0x20; sw t0,0(t1)', A, {'more': [(0x20000, b'', 4, 6)]}),
            ('lui t1,0x20; lw t0,0(t1)', 'AccessNotProved 00010004', {'more': [(0x20000, b'', 4, 2)]}),
            ('lui t1,0x20; sw t0,0(t1)', A, {'more': [(0x20000, b'', 4, 2)]}),
            ('lui t1,0x20; lw t0,0(t1)', 'AccessNotProved 00010004', {'more': [(0x20000, b'', 4, 1)]}),
            ('lui t1,0x20; sw t0,0(t1)', 'ReadOnly 00010004', {'more': [(0x20000, b'', 4, 0)]}),
            ('lui t1,0x20; lw t0,1(t1)', 'AccessNotProved 00010004', {'more': [(0x20000, b'', 4, 6)]}),
            ('lui t1,0x20; lw t0,2(t1)', 'AccessNotProved 00010004', {'more': [(0x20000, b'', 4, 4), (0x20004, b'', 4, 4)]}),
            ('lui t1,0x20; sw t0,2(t1)', 'AccessNotProved 00010004', {'more': [(0x20000, b'', 4, 6), (0x20004, b'', 4, 6)]}),
            ('lui t1,0xc0000; lw t0,-4(t1)', A, {'more': [(0xbffffffc, b'', 4, 4)]}),
            ('lui t1,0xc0000; lw t0,-3(t1)', 'AccessNotProved 00010004', {'more': [(0xbffffffc, b'', 4, 4)]}),
            ('li t1,-1; lb t0,0(t1)', 'AccessNotProved 00010004', {}),
            ('vsetvli x0,a1,e8,m1; vlse8.v v8,(a0),a1', 'AccessNotProved 00010004', {}),
            ('vsetvli x0,a1,e8,m1; vsse8.v v8,(a0),a1', 'AccessNotProved 00010004', {}),
            ('li t1,-1; vsetivli x0,2,e8,m1; vlse8.v v8,(a0),t1', 'AccessNotProved 00010008', {}),
            ('li t1,-1; vsetivli x0,1,e8,m1; vlse8.v v8,(a0),t1', A, {}),
            ('lui t1,0x80000; vsetivli x0,1,e8,m1; vlse8.v v8,(a0),t1', A, {}),
            ('lui t1,0x80000; vsetivli x0,2,e8,m1; vlse8.v v8,(a0),t1', 'AccessNotProved 00010008', {}),
            ('lb t0,0(a2)', 'AccessNotProved 00010000', {}), ('vle8.v v8,(a0)', 'VtypeUnknown 00010000', {}),
            ('vlm.v v8,(a0)', 'VtypeUnknown 00010000', {}),
            ('vsetivli x0,1,e8,m1; addi a0,a0,-1; vle8.v v8,(a0)', 'AccessNotProved 00010008', {}),
            ('vsetivli x0,1,e8,m1; vmv.v.i v8,1; addi a0,a0,-1; vluxei8.v v9,(a0),v8', A, {}),
            ('vsetivli x0,1,e8,m1; vmv.v.i v8,0; addi a0,a0,-1; vluxei8.v v9,(a0),v8', 'AccessNotProved 0001000c', {}),
            ('vsetivli x0,0,e8,m1; vl1re8.v v8,(x0)', 'AccessNotProved 00010004', {}),
            ('vsetivli x0,0,e8,m1; vs1r.v v8,(x0)', 'AccessNotProved 00010004', {})):
        straight(text, 'accepted %d 0 0' % (text.count(';') + 2) if expected == A else expected, text + '; ret', 'r 16, s 0 8',
                 'x2 0x30000000..0x30000000', **more)
    sums_of_addresses()


def sums_of_addresses():
    """Bounds by forms: what two intervals do not show."""
    start = '0x10000 %d; R; x10 is 0x40000000; x11 0..64 = p1\nsecond %d; R; x10 0x40000000..0x40000040 = 0x40000000 - %d x11 + %d p1; x11 0..64'
    text = 'nop; second: vsetvli t0,a1,e8,m1; vle8.v v8,(a0); ret'
    for size, factor, expected in ((64, 1, 'accepted 4 0 0'), (63, 1, 'AccessNotProved 00010008')):
        case('a pointer and a count', expected, text, 'r %d, s 0 64' % size, start % (4, 3, factor, factor))
    case('a pointer and a count, vl split twice', 'accepted 5 0 0', text.replace('second: ', 'second: vsetvli t1,a1,e8,m4; '),
         'r 64, s 0 64', start % (5, 4, 1, 1))
    # With nothing in the buffer the pointer is its end, and nothing is left of the count.
    for size, expected in ((0, 'accepted 4 0 0'),):
        case('an empty buffer and a count that is 0', expected, text, 'r %d, s 0 0' % size,
             '0x10000 4; R; x10 is 0x40000000; x11 0..0 = p1\nsecond 3; R; x10 0x40000000..0x40000000 = 0x40000000 - 1 x11 + p1; x11 0..16')
    strided = 'nop; second: li t1,2; vsetvli t0,a1,e8,m1; vlse8.v v8,(a0),t1; ret'
    for size, expected in ((127, 'accepted 5 0 0'), (126, 'AccessNotProved 0001000c')):
        case('a pointer, a count and a stride', expected, strided, 'r %d, s 1 64' % size,
             '0x10000 5; R; x10 is 0x40000000; x11 1..64 = p1\nsecond 4; R; x10 0x40000000..0x40000080 = 0x40000000 - 2 x11 + 2 p1; x11 1..64')
    back = 'addi a0,a0,63; second: li t1,-1; vsetvli t0,a1,e8,m1; vlse8.v v8,(a0),t1; ret'
    for size, base, expected in (
            (64, 63, 'accepted 5 0 0'), (63, 63, 'IntervalNotProved 00010000'), (64, 62, 'EqualityNotProved 00010000')):
        case('a pointer that goes back', expected if size == 64 else 'AccessNotProved 0001000c', back, 'r %d, s 1 64' % size,
             '0x10000 5; R; x10 is 0x40000000; x11 1..64 = p1\nsecond 4; R; x10 0x3fffffff..0x4000003f = %d + x11 - 1 p1; x11 1..64' % (0x40000000 + base))
    # A stride that is longer than the address: where vl may be 0 interval arithmetic goes below 0, and the form is not asked.
    low = 'lui a0,1; second: lui t1,2; vsetvli t0,a1,e8,m1; vlse8.v v8,(a0),t1; ret'
    for least, size, expected in (
            (1, 0x6001, 'accepted 5 0 0'), (1, 0x6000, 'AccessNotProved 0001000c'), (0, 0x6001, 'AccessNotProved 0001000c'),
            (0, 0x8001, 'AccessNotProved 0001000c')):
        case('a stride that is longer than the address', expected, low, '-, s %d 4' % least, """0x10000 5; R; x11 %d..4 = p1
            second 4; R; x10 0x1000..0x9000 = 0x1000 - 0x2000 x11 + 0x2000 p1; x11 %d..4""" % (least, least), more=[(0x1000, b'', size, 4)])
    for least, expected in ((1, 'accepted 5 0 0'), (0, 'AccessNotProved 0001000c')):
        case('a stride that is longer than the address, and a count that is known', expected, low, '-, s 4 4', """0x10000 5; R; x11 4..4 = p1
            second 4; R; x10 0x1000..0x9000 = 0x1000 - 0x2000 x11 + 0x2000 p1; x11 %d..4""" % least, more=[(0x1000, b'', 0x8001, 4)])
    # A sum that says that less than nothing is accessed.
    case('a stride over an empty buffer', 'accepted 5 0 0', strided, 'r 0, s 0 0', """0x10000 5; R; x10 is 0x40000000; x11 0..0 = p1
        second 4; R; x10 0x40000000..0x40000000 = 0x40000000 - 2 x11 + 2 p1; x11 0..16""")
    # The sum of pointer and vl has nine terms, or eight.
    for count, expected in ((6, 'AccessNotProved 00010008'), (5, 'accepted 4 0 0')):
        others = ['x%d' % n for n in range(18, 18 + count)]
        zeros = ''.join('; %s 0..0' % name for name in others)
        case('a pointer of %d terms' % (count + 2), expected, text, 'r 64, s 0 64', """0x10000 4; R; x10 is 0x40000000; x11 0..64 = p1%s
            second 3; R; x10 0x40000000..0x40000040 = 0x40000000 - 1 x11 + p1 + %s; x11 0..64%s""" % (
                ''.join('; %s is 0' % name for name in others), ' + '.join(others), zeros))


def many_splits():
    # Three counts are split; with as many other terms the sum after it has eight terms, or nine.
    for count, expected in ((3, 'accepted'), (4, 'IntervalNotProved')):
        others = ['x%d' % n for n in range(18, 18 + count)]
        zeros = ''.join('; %s 0..0' % name for name in others)
        text = 'vsetvli t0,a0,e8,m1; vsetvli t1,a1,e8,m1; vsetvli t2,a2,e8,m1; add t3,a0,a1; add t3,t3,a2; '
        text += ''.join('add t3,t3,%s; ' % name for name in others) + 'sub t3,t3,t0; end: ret'
        words = 7 + count
        case('a sum of three counts, split',
             'accepted %d 0 0' % words if expected == 'accepted' else '%s %08x' % (expected, CODE + 4 * words - 8), text,
             's 0 99, s 0 99, s 0 99', '0x10000 %d; R; x10 0..99; x11 0..99; x12 0..99%s\nend 1; R; x28 0..281' % (words, zeros))
    # Ten terms come between, of registers that are sums themselves.
    text = '; '.join('add x%d,x%d,x%d' % (5 + k, 18 + 2 * k, 19 + 2 * k) for k in range(5))
    text += '; add x10,x19,x21; add x10,x10,x23; add x10,x10,x25; add x10,x10,x27; add x11,x18,x20; add x11,x11,x22; add x11,x11,x24; add x11,x11,x26'
    for sum_of, expected in (
            ('x5 + x6 + x7 + x8 + x9 - 1 x10', 'accepted 14 0 0'), ('x5 + x6 + x7 + x8 + x9 - 2 x10', 'EqualityNotProved 00010030')):
        case('a sum of sums', expected, text + '; end: ret', '', '0x10000 14; R\nend 1; R; x11 = ' + sum_of)
    # What was passed is split as well, and vl itself.
    for passed, hi, expected in (('s 1 99', 83, 'accepted 3 0 0'), ('s 1 99', 82, 'IntervalNotProved 00010004')):
        case('what was passed is split', expected, 'vsetvli t0,a0,e8,m1; sub t1,a0,t0; end: ret', passed,
             '0x10000 3; R; x10 1..99 = p0\nend 1; R; x6 0..%d' % hi)
    case('vl is split', 'accepted 5 0 0', 'vsetvli x0,a0,e8,m8; csrrs a0,vl,x0; vsetvli t0,a0,e8,m1; sub t1,a0,t0; end: ret', 's 1 99',
         '0x10000 5; R; x10 1..99\nend 1; R; x6 0..83')
    # A branch on a number that is vl tells of vl.
    for stated, expected in (
            ('vl 1..16', 'accepted 3 0 0'), ('vl 2..16', 'IntervalNotProved 00010004'),
            ('vl 1..16; v8*1 e8 #1 5..5', 'VectorFactNotProved 00010004')):
        case('vl is not 0', expected, 'vsetvli t0,a0,e8,m1; beqz t0,yes; no: ret; yes: ret', 's 0 99',
             '0x10000 3; R; x10 0..99\nno 1; R; %s\nyes 1; R; vl 0..0' % stated)
    for count, expected in ((1, 'accepted 4 0 0'), (2, 'VectorFactNotProved 00010008')):
        case('vl is not 0, and elements', expected, 'vsetvli t0,a0,e8,m1; vmv.v.i v8,5; beqz t0,yes; no: ret; yes: ret', 's 0 99',
             '0x10000 4; R; x10 0..99\nno 1; R; v8*1 e8 #%d 5..5\nyes 1; R; vl 0..0; v8*1 e8 5..5' % count)


def contradictions():
    """A block that is not reached may state what can't be: each rule has an answer there too."""
    dead = 'ecall; dead: %s; no: ecall; yes: ecall'
    odd = 'x5 100..200 = x6; x6 0..9'
    for text, facts, first, no, yes, expected in (
            ('mv t2,t0', odd, '2', 'x7 100..200', '', A), ('mv t2,t0', odd, '2', 'x7 101..200', '', 'IntervalNotProved 00010004'),
            ('mv t2,t1', odd, '2', 'x7 0..9', '', A), ('nop', odd, '2', 'x5 100..200', '', A),
            ('addi t2,t0,-150', odd, '2', 'x7 0xffffff6a..0xffffff73', '', A), ('addi t2,t0,-90', odd, '2', 'x7 10..110', '', A),
            ('bne t0,t1,yes', odd, '2', 'x8 1..1', 'x8 1..1', A), ('bltu t1,t0,yes', odd, '2', 'x8 1..1', 'x8 1..1', A),
            ('bnez t0,yes', odd, '0 1*x6', 'x8 1..1', 'x5 100..200', A), ('bnez t0,yes', odd, '0 1*x6', 'x8 1..1', 'x6 0..9', A),
            ('bnez t0,yes', odd, '0 1*x5', 'x8 1..1', 'x6 1..9', 'IntervalNotProved 00010004')):
        case('what can not be: ' + text, 'accepted 1 0 0' if expected == A else expected, dead % text, '',
             '0x10000 1\ndead %s; %s\nno 1; %s\nyes 99; %s' % (first, facts, no, yes))
    for hi, expected in ((9, 'accepted 1 0 0'), (8, 'IntervalNotProved 00010004')):
        case('an interval that the sum cuts', expected, 'ecall; dead: nop; end: ecall', '',
             '0x10000 1\ndead 2; x5 0..100 = x6; x6 0..9\nend 1; x5 0..%d' % hi)
    for stated, expected in (('#16', 'accepted 1 0 0'), ('', 'VectorFactNotProved 00010004')):
        case('a fact of more elements than there are', expected, 'ecall; dead: vsetvl x0,x0,a0; end: ecall', '',
             '0x10000 1\ndead 2; vl 32..32; v8*1 e8 0..5\nend 1; v8*1 e8 %s 0..5' % stated)
    case('what can not be: an atom with the range of another register', 'BudgetNotProved 00010004', dead % 'bnez t0,yes', '',
         '0x10000 1\ndead 0 1*x6; %s\nno 1; x8 1..1\nyes 100' % odd)



# ---- Facts on vector registers ------------------------------------------------------------------------------------------------------------

def vector_probe(text, group, lo, hi, passed='', top=None, vlenb=16):
    """Behind the text it is known of a group that its first vl elements are in [lo, hi], exactly; of all of them where lo is None, nothing."""
    count = text.count(';') + 1
    stated = ''.join('; x%d %d..%d' % (10 + place, p.a, p.b) for place, p in scalars(passed)) + placed(passed)
    last = '%08x' % (CODE + 4 * count - 4)
    top = (1 << int(group.split()[1][1:])) - 1
    if lo is None:
        tried = [(0, top - 1, False)]
    else:
        others = ((lo + 1, hi), (lo, hi - 1)) if lo < hi else ((lo + 1, lo + 1), (lo - 1, lo - 1))
        tried = [(lo, hi, True)] + [(a, b, False) for a, b in others if 0 <= a <= b <= top]
    for a, b, holds in tried:
        case('%s; then %s %d..%d' % (text, group, a, b), 'accepted %d 0 0' % (count + 1) if holds else 'VectorFactNotProved ' + last,
             text + '; end: ret', passed, '0x10000 %d; R%s\nend 1; R; %s %d..%d' % (count + 1, stated, group, a, b), vlenb)


def vector_facts():
    two = 'vsetivli x0,4,e8,m1; vmv.v.x v8,a0; vmv.v.x v9,a1; '
    near = 's 10 20, s 5 15'
    for text, lo, hi in (
            ('vmv.v.v v10,v8', 10, 20), ('vand.vv v10,v8,v9', 0, 15), ('vand.vx v10,v8,a1', 0, 15), ('vand.vi v10,v8,3', 0, 3),
            ('vand.vi v10,v8,-1', 0, 20), ('vminu.vv v10,v8,v9', 5, 15), ('vmaxu.vv v10,v8,v9', 10, 20), ('vminu.vx v10,v8,a1', 5, 15),
            ('vmaxu.vx v10,v9,a0', 10, 20), ('vadd.vv v10,v8,v9', 15, 35), ('vadd.vx v10,v8,a1', 15, 35), ('vadd.vi v10,v8,5', 15, 25),
            ('vadd.vi v10,v8,-1', None, None), ('vadd.vv v10,v8,v8', 20, 40), ('vsll.vi v10,v8,3', 80, 160),
            ('vsll.vi v10,v8,4', None, None), ('vsll.vi v10,v8,0', 10, 20), ('vsll.vi v10,v8,9', 20, 40), ('vsll.vx v10,v8,a1', None, None),
            ('vsrl.vi v10,v8,2', 2, 5), ('vsrl.vi v10,v8,10', 2, 5), ('vsrl.vx v10,v8,a1', None, None), ('vsub.vv v10,v8,v9', None, None),
            ('vrsub.vi v10,v8,0', None, None), ('vor.vv v10,v8,v9', None, None), ('vxor.vv v10,v8,v8', None, None),
            ('vmin.vv v10,v8,v9', None, None), ('vmax.vx v10,v8,a1', None, None), ('vsra.vi v10,v8,0', None, None),
            ('vremu.vx v10,v8,a1', None, None), ('vremu.vv v10,v8,v9', None, None), ('vdivu.vx v10,v8,a1', None, None),
            ('vmul.vx v10,v8,a1', None, None), ('vid.v v10', 0, 15), ('viota.m v10,v8', 0, 15), ('vmv.v.i v10,7', 7, 7),
            ('vmv.v.i v10,-2', 254, 254), ('vmv.v.x v10,x0', 0, 0), ('vmerge.vvm v10,v8,v9,v0', None, None),
            ('vsaddu.vi v10,v8,0', None, None), ('vrgather.vv v10,v8,v9', None, None), ('vslidedown.vi v10,v8,0', None, None),
            ('vmv1r.v v10,v8', None, None), ('vmv.s.x v10,a0', None, None), ('vredmaxu.vs v10,v8,v9', None, None),
            ('vand.vi v10,v8,3,v0.t', None, None), ('vid.v v10,v0.t', None, None), ('viota.m v10,v8,v0.t', None, None),
            ('vadd.vi v10,v8,5,v0.t', None, None), ('vminu.vx v10,v12,a0', 0, 20), ('vmaxu.vx v10,v12,a0', 10, 255),
            ('vmaxu.vx v10,v12,x0', None, None), ('vand.vx v10,v12,a0', 0, 20), ('vsrl.vi v10,v12,3', 0, 31),
            ('vsrl.vi v10,v12,0', None, None), ('vcompress.vm v10,v8,v9', None, None), ('vssrl.vi v10,v8,0', None, None)):
        vector_probe(two + text, 'v10*1 e8', lo, hi, near)
    one = 'vsetivli x0,4,e8,m1; vmv.v.x v8,a0; '
    for text, passed, lo, hi in (
            ('nop', 's 10 20', 10, 20), ('nop', 's 0 254', 0, 254), ('nop', 's 0 255', None, None), ('nop', 's 10 256', None, None),
            ('nop', 's 300 300', None, None), ('nop', 's 1 255', 1, 255), ('li t0,7; vremu.vx v8,v8,t0', 's 0 200', 0, 6),
            ('li t0,250; vremu.vx v8,v8,t0', 's 0 200', 0, 200), ('li t0,256; vremu.vx v8,v8,t0', 's 0 200', None, None),
            ('li t0,255; vremu.vx v8,v9,t0', 's 0 200', 0, 254), ('vremu.vx v8,v8,x0', 's 0 200', None, None),
            ('li t0,1; vremu.vx v8,v8,t0', 's 0 200', 0, 0), ('li t0,11; vsll.vx v8,v8,t0', 's 1 2', 8, 16),
            ('li t0,259; vsll.vx v8,v8,t0', 's 1 2', None, None), ('vmv.v.i v9,3; vsll.vv v8,v8,v9', 's 1 2', 8, 16),
            ('vmv.v.i v9,1; vsrl.vv v8,v8,v9', 's 4 7', 2, 3), ('vmv.v.i v9,7; vremu.vv v8,v8,v9', 's 0 200', None, None),
            ('vadd.vx v8,v8,a0', 's 100 127', 200, 254), ('vadd.vx v8,v8,a0', 's 100 128', None, None),
            ('vadd.vi v8,v8,-1', 's 0 0', 255, 255), ('li t0,300; vand.vx v8,v8,t0', 's 0 200', 0, 200),
            ('li t0,300; vminu.vx v8,v8,t0', 's 7 200', 0, 200)):
        vector_probe(one + text, 'v8*1 e8', lo, hi, passed)
    widths()
    kept_facts()


def widths():
    """Groups of other widths and sizes."""
    for text, group, passed, lo, hi in (
            ('vsetivli x0,4,e16,m1; vmv.v.x v8,a0', 'v8*1 e16', 's 256 1000', 256, 1000),
            ('vsetivli x0,4,e32,m1; vmv.v.x v8,a0', 'v8*1 e32', 's 256 0xffffffff', 256, M32),
            ('vsetivli x0,4,e8,mf4; vmv.v.i v8,5; vsetvli x0,x0,e32,m1; vzext.vf4 v9,v8', 'v9*1 e32', '', 5, 5),
            ('vsetivli x0,4,e8,mf2; vmv.v.i v8,-1; vsetvli x0,x0,e16,m1; vzext.vf2 v9,v8', 'v9*1 e16', '', 255, 255),
            ('vsetivli x0,4,e16,m1; vzext.vf2 v9,v8', 'v9*1 e16', '', 0, 255),
            ('vsetivli x0,4,e16,m1; vsext.vf2 v9,v8', 'v9*1 e16', '', None, None),
            ('vsetivli x0,4,e32,m4; vzext.vf2 v12,v8', 'v12*4 e32', '', 0, 65535),
            ('vsetivli x0,4,e32,m8; vmv.v.x v8,a0; vsetvli x0,x0,e16,m4; vnsrl.wi v16,v8,4', 'v16*4 e16', 's 64 1000', 4, 62),
            ('vsetivli x0,4,e16,m2; vmv.v.x v8,a0; vsetvli x0,x0,e8,m1; vnsrl.wi v10,v8,1', 'v10*1 e8', 's 64 511', 32, 255),
            ('vsetivli x0,4,e16,m2; vmv.v.x v8,a0; vsetvli x0,x0,e8,m1; vnsrl.wi v10,v8,1', 'v10*1 e8', 's 64 512', None, None),
            ('vsetivli x0,4,e16,m2; vmv.v.x v8,a0; vsetvli x0,x0,e8,m1; vnsrl.wi v10,v8,17', 'v10*1 e8', 's 64 510', 32, 255),
            ('vsetivli x0,4,e16,m2; vmv.v.x v8,a0; vsetvli x0,x0,e8,m1; li t0,24; vnsrl.wx v10,v8,t0', 'v10*1 e8', 's 512 65535', 2, 255),
            ('vsetivli x0,4,e8,m1; vnsrl.wi v10,v8,8', 'v10*1 e8', '', None, None),
            ('vsetivli x0,4,e8,m1; vnsrl.wi v10,v8,9', 'v10*1 e8', '', 0, 127),
            ('vsetivli x0,4,e16,m2; vmv.v.x v8,a0; vsetvli x0,x0,e8,m1; vnsra.wi v10,v8,1', 'v10*1 e8', 's 64 100', None, None),
            ('vsetvli x0,x0,e8,m2; vsetivli x0,4,e8,m2; vid.v v8', 'v8*2 e8', '', 0, 31),
            ('vsetivli x0,4,e8,mf4; vid.v v8', 'v8*1 e8', '', 0, 3), ('vsetivli x0,4,e32,m8; vid.v v8', 'v8*8 e32', '', 0, 31),
            ('vsetivli x0,4,e8,m8; vid.v v8', 'v8*8 e8', '', 0, 127), ('vsetivli x0,4,e8,m2; vmv.v.i v8,5', 'v8*1 e8', '', None, None),
            ('vsetivli x0,4,e8,m2; vmv.v.i v8,5', 'v8*2 e16', '', None, None), ('vsetivli x0,4,e8,mf2; vmv.v.i v8,5', 'v8*1 e8', '', 5, 5),
            ('vsetivli x0,4,e8,m1; vmv.v.i v8,5; vsetvli x0,x0,e16,m2; vadd.vi v10,v8,1', 'v10*2 e16', '', None, None)):
        vector_probe(text, group, lo, hi, passed)
    vector_probe('vsetivli x0,4,e8,m8; vid.v v8', 'v8*8 e8', None, None, '', vlenb=32)
    vector_probe('vsetivli x0,4,e8,m4; vid.v v8', 'v8*4 e8', 0, 127, '', vlenb=32)
    vector_probe('vsetivli x0,4,e8,m8; viota.m v8,v0', 'v8*8 e8', None, None, '', vlenb=32)
    for size, expected in ((128, 'accepted 4 0 0'), (127, 'AccessNotProved 00010008')):
        straight('numbers of elements', expected, 'vsetvli t0,x0,e8,m8,ta,ma; vid.v v8; vse8.v v8,(a0); ecall', 'rw %d' % size)


def kept_facts():
    """What drops a fact, what keeps it, and how many elements it then speaks of."""
    made = 'vsetivli x0,4,e8,m2; vmv.v.i v8,5; '
    for text, stated, holds in (
            ('vmv1r.v v8,v12', 'v8*2 e8 5..5', False), ('vmv1r.v v9,v12', 'v8*2 e8 5..5', False), ('vmv1r.v v10,v12', 'v8*2 e8 5..5', True),
            ('vmv8r.v v8,v16', 'v8*2 e8 5..5', False), ('vmv8r.v v0,v16', 'v8*2 e8 5..5', True),
            ('vmseq.vi v9,v10,0', 'v8*2 e8 5..5', False), ('vmseq.vi v7,v8,0', 'v8*2 e8 5..5', True),
            ('vredsum.vs v9,v10,v12', 'v8*2 e8 5..5', False), ('vmv.s.x v9,x0', 'v8*2 e8 5..5', False),
            ('vmv.x.s t0,v9', 'v8*2 e8 5..5', True), ('vadd.vi v10,v8,1', 'v8*2 e8 5..5', True), ('vadd.vi v8,v8,1', 'v8*2 e8 6..6', True),
            ('vadd.vi v8,v8,1', 'v8*2 e8 5..5', False), ('vadd.vi v8,v8,0,v0.t', 'v8*2 e8 5..5', False),
            ('vwaddu.vv v8,v12,v14', 'v8*2 e8 5..5', False), ('vwaddu.vv v4,v12,v14', 'v8*2 e8 5..5', True),
            ('vl1re8.v v9,(a0)', 'v8*2 e8 5..5', False), ('vl1re8.v v10,(a0)', 'v8*2 e8 5..5', True),
            ('vle8.v v8,(a0)', 'v8*2 e8 5..5', False), ('vle8.v v10,(a0)', 'v8*2 e8 5..5', True), ('vse8.v v8,(a0)', 'v8*2 e8 5..5', True),
            ('vs2r.v v8,(a0)', 'v8*2 e8 5..5', True), ('vlm.v v9,(a0)', 'v8*2 e8 5..5', False), ('vlm.v v7,(a0)', 'v8*2 e8 5..5', True),
            ('vcpop.m t0,v8', 'v8*2 e8 5..5', True), ('vfirst.m t0,v8', 'v8*2 e8 5..5', True),
            ('vsetvli x0,x0,e16,m4', 'v8*2 e8 5..5', True), ('vsetvli x0,x0,e16,m4', 'v8*2 e8 #4 5..5', True),
            ('vsetvli x0,x0,e16,m4', 'v8*2 e8 #5 5..5', False), ('nop', 'v8*2 e8 #4 5..5', True), ('nop', 'v8*2 e8 #5 5..5', False),
            ('nop', 'v8*2 e8 #1 0..9', True), ('nop', 'v8*2 e16 5..5', False), ('nop', 'v8*1 e8 5..5', False),
            ('nop', 'v10*2 e8 5..5', False), ('vsetivli x0,0,e8,m2; nop', 'v8*2 e8 #4 5..5', True),
            ('vsetivli x0,0,e8,m2; vadd.vv v8,v10,v10', 'v8*2 e8 #4 5..5', False), ('vsetivli x0,4,e8,m2', 'v8*2 e8 #4 5..5', True),
            ('vsetivli x0,4,e8,m2', 'v8*2 e8 #5 5..5', False), ('vsetivli x0,4,e8,m2', 'v8*2 e8 5..5', True),
            ('vsetivli x0,5,e8,m2', 'v8*2 e8 5..5', False), ('vsetivli x0,5,e8,m2', 'v8*2 e8 #4 5..5', True),
            ('vsetivli x0,3,e8,m2', 'v8*2 e8 5..5', True), ('vsetivli x0,3,e8,m2', 'v8*2 e8 #4 5..5', True),
            ('vsetivli x0,3,e64,m2', 'v8*2 e8 #4 5..5', True), ('vsetivli x0,3,e64,m2', 'v8*2 e8 5..5', True),
            ('vsetvli x0,x0,e8,m1', 'v8*2 e8 #4 5..5', True), ('vsetvli x0,x0,e8,m1', 'v8*2 e8 #5 5..5', False),
            ('vsetvli x0,x0,e8,m1', 'v8*2 e8 5..5', True), ('vsetvli x0,a1,e8,m2', 'v8*2 e8 5..5', False),
            ('vsetvli x0,a1,e8,m2', 'v8*2 e8 #4 5..5', True), ('vsetvl x0,a1,a1', 'v8*2 e8 #4 5..5', True),
            ('vsetvl x0,x0,a1', 'v8*2 e8 #4 5..5', True), ('vsetvl x0,x0,a1', 'v8*2 e8 5..5', True),
            ('vsetivli x0,9,e8,m1; vmv.v.i v8,4', 'v8*2 e8 #4 5..5', False), ('vsetivli x0,9,e8,m1; vmv.v.i v8,4', 'v8*1 e8 4..4', True)):
        count = 2 + text.count(';') + 1
        case('%s%s; then %s' % (made, text, stated),
             'accepted %d 0 0' % (count + 1) if holds else 'VectorFactNotProved %08x' % (CODE + 4 * count - 4), made + text + '; end: ret',
             'rw 64, s 0 99', '0x10000 %d; R; x10 is 0x40000000; x11 0..99\nend 1; R; %s' % (count + 1, stated))
    some = 'vsetvli x0,a0,e8,m1; vmv.v.i v8,5; vsetivli x0,16,e8,m1; '
    for passed, count, holds in (
            ('s 3 99', 3, True), ('s 3 99', 4, False), ('s 0 99', 1, False), ('s 1 99', 1, True), ('s 99 99', 16, True)):
        case('as many as vl was at least', 'accepted 5 0 0' if holds else 'VectorFactNotProved 0001000c', some + 'nop; end: ret', passed,
             '0x10000 5; R; x10 %s\nend 1; R; v8*1 e8 #%d 5..5' % ('..'.join(passed.split()[1:]), count))
    # Facts that a block states, of vl and of a count, and indices that they speak of.
    text = 'vsetivli x0,8,e8,m1; vmv.v.i v8,5; nop; next: %svluxei8.v v9,(a0),v8; ret'
    blocks = '0x10000 %d; R; x10 is 0x40000000\nnext %d vtype=e8,m1; R; x10 is 0x40000000%s'
    for more, facts, size, expected in (
            ('', '; vl 8..8; v8*1 e8 0..5', 6, 'accepted 5 0 0'), ('', '; vl 8..8; v8*1 e8 0..6', 6, 'AccessNotProved 0001000c'),
            ('', '; vl 8..8; v8*1 e8 0..6', 7, 'accepted 5 0 0'), ('', '; v8*1 e8 0..5', 6, 'accepted 5 0 0'),
            ('', '; vl 8..8; v8*1 e8 #8 0..5', 6, 'accepted 5 0 0'), ('', '; vl 8..8; v8*1 e8 #7 0..5', 6, 'AccessNotProved 0001000c'),
            ('', '; v8*1 e8 #8 0..5', 6, 'AccessNotProved 0001000c'), ('', '; vl 8..8', 256, 'accepted 5 0 0'),
            ('', '; vl 8..8', 255, 'AccessNotProved 0001000c'), ('', '; vl 0..8; v8*1 e8 #8 5..5', 6, 'accepted 5 0 0'),
            ('vsetvli x0,x0,e8,m1; ', '; vl 8..8; v8*1 e8 0..5', 6, 'accepted 6 0 0'),
            ('vsetivli x0,8,e8,m1; ', '; vl 8..8; v8*1 e8 0..5', 6, 'accepted 6 0 0'),
            ('vsetivli x0,8,e8,m1; ', '; vl 1..8; v8*1 e8 0..5', 6, 'AccessNotProved 00010010'),
            ('vsetivli x0,1,e8,m1; ', '; vl 1..8; v8*1 e8 0..5', 6, 'accepted 6 0 0'),
            ('vsetivli x0,1,e8,m1; ', '; vl 0..8; v8*1 e8 0..5', 6, 'AccessNotProved 00010010'),
            ('vsetivli x0,1,e8,m1; ', '; v8*1 e8 #1 0..5', 6, 'accepted 6 0 0'),
            ('vmv.v.i v7,1; ', '; vl 8..8; v8*1 e8 0..5', 6, 'accepted 6 0 0'),
            ('vmv.v.i v8,1; ', '; vl 8..8; v8*1 e8 0..5', 2, 'accepted 6 0 0'),
            ('vadd.vi v8,v8,3,v0.t; ', '; vl 8..8; v8*1 e8 0..5', 9, 'AccessNotProved 00010010'),
            ('vadd.vi v8,v8,3; ', '; vl 8..8; v8*1 e8 0..5', 9, 'accepted 6 0 0'),
            ('vadd.vi v8,v8,3; ', '; vl 8..8; v8*1 e8 0..5', 8, 'AccessNotProved 00010010'),
            ('vadd.vi v8,v8,3; ', '; vl 8..8; v8*1 e8 #8 0..5', 9, 'accepted 6 0 0')):
        size_of = 5 + bool(more)
        case('indices: %s%s' % (more, facts[2:]), expected, text % more, 'r %d' % size, blocks % (size_of, size_of - 3, facts))


# ---- Words -------------------------------------------------------------------------------------------------------------------------------

def words():
    for text, expected in (
            ('.word 0', 'IllegalWord'), ('.word 0xffffffff', 'IllegalWord'), ('.word 0x00100073', 'IllegalWord'),
            ('.word 0x0000100f', 'IllegalWord'), ('.word 0x42848557', 'IllegalWord'), ('csrrw t0,vl,x0', 'IllegalWord'),
            ('csrrs t0,vtype,t1', 'IllegalWord'), ('csrrs t0,0xc00,x0', 'IllegalWord'), ('.word 0x00000003', 'AccessNotProved'),
            ('vadd.vv v8,v8,v8', 'VtypeUnknown'), ('vadd.vv v8,v8,v8,v0.t', 'VtypeUnknown'), ('vmv.x.s t0,v8', 'VtypeUnknown'),
            ('vcpop.m t0,v8', 'VtypeUnknown'), ('vmand.mm v8,v8,v8', 'VtypeUnknown'), ('vmv1r.v v8,v9', 'accepted'),
            ('vmv2r.v v8,v10', 'accepted'), ('vmv2r.v v8,v9', 'IllegalWord'), ('vmv4r.v v6,v8', 'IllegalWord'),
            ('vmv8r.v v24,v16', 'accepted'), ('vwadd.vv v8,v8,v9', 'VtypeUnknown'), ('vsm.v v8,(a0)', 'VtypeUnknown'),
            ('vsetvli t0,x0,e64,m1; vadd.vv v8,v8,v8', 'VtypeUnknown'), ('vsetvli t0,x0,e8,m1; vadd.vv v8,v8,v8', 'accepted'),
            ('vsetvli t0,x0,e8,m2; vadd.vv v8,v8,v9', 'IllegalWord'), ('vsetvli t0,x0,e8,m2; vadd.vv v8,v8,v10', 'accepted'),
            ('vsetvli t0,x0,e8,m1; vwadd.vv v8,v9,v10', 'accepted'), ('vsetvli t0,x0,e8,m1; vwadd.vv v8,v8,v10', 'IllegalWord'),
            ('vsetvli t0,x0,e32,m1; vwadd.vv v8,v10,v12', 'IllegalWord'), ('vsetvli t0,x0,e8,m8; vwadd.vv v8,v16,v24', 'IllegalWord'),
            ('vsetvli t0,x0,e8,m1; vadd.vv v0,v8,v8,v0.t', 'IllegalWord'), ('vsetvli t0,x0,e8,m1; vmseq.vv v0,v8,v8,v0.t', 'accepted'),
            ('vsetvli t0,x0,e8,m1; vslideup.vi v8,v8,1', 'IllegalWord'), ('vsetvli t0,x0,e8,m1; vslidedown.vi v8,v8,1', 'accepted'),
            ('vsetvli t0,x0,e8,m1; vzext.vf2 v8,v9', 'IllegalWord'), ('vsetvli t0,x0,e16,mf2; vzext.vf2 v8,v9', 'accepted'),
            ('vsetvli t0,x0,e16,mf2; vle8.v v8,(x0)', 'AccessNotProved'), ('vsetvli t0,x0,e8,m4; vle32.v v8,(x0)', 'IllegalWord'),
            ('vsetvli t0,x0,e8,m1; vsetvli x0,x0,e16,m1; vadd.vv v8,v8,v8', 'VtypeUnknown'),
            ('vsetvli t0,x0,e8,m1; vsetvli x0,x0,e16,m2; vadd.vv v8,v8,v8', 'accepted'),
            ('vsetvli t0,x0,e32,m1; vwredsum.vs v8,v9,v10', 'IllegalWord'), ('.word 0x22850487', 'IllegalWord')):
        count = text.count(';') + 2
        straight(text, 'accepted %d 0 0' % count if expected == 'accepted' else '%s %08x' % (expected, CODE + 4 * count - 8),
                 text + '; ret')
    straight('off the end', 'NotCode 00010004', 'nop')
    case('on to code in another segment', 'accepted 2 0 0', 'nop', '', '0x10000 2; R', more=[(CODE + 4, code_bytes([0x73]), 4, 5)])
    case('on to what may not be executed', 'NotCode 00010004', 'nop', '', '0x10000 2; R', more=[(CODE + 4, code_bytes([0x73]), 4, 4)])
    halves = [(0x20000, code_bytes([0x13]) + b'\x73\0', 6, 5), (0x20006, b'\0\0', 2, 5)]
    row('a word in two segments', file_of(Kernel(halves, 0x20000, kernel('nop', '', '0x20000 2; R').certificate)), 16, 'NotCode 00020004')
    zeros = [(0x20000, code_bytes([0x13]), 8, 5)]
    row('a word past the bytes of the file', file_of(Kernel(zeros, 0x20000, kernel('nop', '', '0x20000 2; R').certificate)), 16,
        'IllegalWord 00020004')
    case('a block in no code', 'NotCode 00020000', 'ret', '', '0x10000 1; R\n0x20000 1; R')
    case('a block that is not reached', 'BudgetNotProved 00010004', 'ret; other: ret', '', '0x10000 1; R\nother 0; R')
    case('a block that is not reached, in the middle of nothing', 'IllegalWord 00010004', 'ret; other: .word 0', '',
         '0x10000 1; R\nother 9; R')
    for count, expected in ((4096, 'accepted 4096 0 0'), (4097, 'BlockTooLong 00014000')):
        straight('%d words' % count, expected, '; '.join(['nop'] * (count - 1)) + '; ecall')
    long = '; '.join(['nop'] * 4096) + '; end: ecall'
    case('4096 words and another block', 'accepted 4097 0 0', long, '', '0x10000 4097; R\nend 1; R')
    case('4096 words and no code', 'BlockTooLong 00014000', '; '.join(['nop'] * 4096), '', '0x10000 4097; R')


# ---- Ways ---------------------------------------------------------------------------------------------------------------------------------

def jumps():
    for name, expected, text, blocks in (
            ('a jump over a word', 'accepted 2 0 0', 'j end; nop; end: ret', '0x10000 2; R\nend 1; R'),
            ('a jump into no block', 'TargetNotABlock 00010000', 'j end; nop; end: ret', '0x10000 2; R'),
            ('a jump into a block', 'TargetNotABlock 00010000', 'j 0x1000c; nop; end: nop; ret', '0x10000 3; R\nend 2; R'),
            ('a jump to half a word', 'TargetNotABlock 00010000', 'j 0x10006; nop; end: ret', '0x10000 2; R\nend 1; R'),
            ('a link', 'accepted 2 0 0', 'jal t0,end; nop; end: ret', '0x10000 2; R\nend 1; R; x5 0x10004..0x10004'),
            ('a link that is wrong', 'IntervalNotProved 00010000', 'jal t0,end; nop; end: ret', '0x10000 2; R\nend 1; R; x5 0x10008..0x10008'),
            ('a link in ra', 'IntervalNotProved 00010000', 'jal ra,end; nop; end: ret', '0x10000 2; R\nend 1; R'),
            ('jalr with an odd target', 'accepted 1 0 0', 'jalr x0,1(ra)', '0x10000 1; R'),
            ('jalr past EXIT', 'TargetNotABlock 00010000', 'jalr x0,2(ra)', '0x10000 1; R'),
            ('jalr to 1, bit 0 cleared', 'TargetNotABlock 00010000', 'jalr x0,1(x0)', '0x10000 1; R'),
            ('jalr to EXIT by a number', 'accepted 1 0 0', 'jalr t0,-16(x0)', '0x10000 1; R'),
            ('jalr to one of two, bit 0 cleared', 'TargetNotABlock 00010004', 'addi t0,a0,-16; jalr x0,0(t0)', '0x10000 2; R; x10 0..1'),
            ('jalr by its own link', 'accepted 3 0 0', 'auipc t0,0; jalr t0,8(t0); end: ret', '0x10000 3; R\nend 1; R; x5 is 0x10008'),
            ('jalr to a block', 'accepted 3 0 0', 'auipc t0,0; jalr x0,9(t0); end: ret', '0x10000 3; R\nend 1; R'),
            ('ecall', 'accepted 1 0 0', 'ecall', '0x10000 1'), ('ecall with no budget', 'BudgetNotProved 00010000', 'ecall', '0x10000 0'),
            ('a loop without end', 'BudgetNotProved 00010000', 'loop: j loop', 'loop 1'),
            ('a loop without end, of no cost', 'BudgetNotProved 00010000', 'loop: j loop', 'loop 0'),
            ('a loop without end, dear', 'BudgetNotProved 00010000', 'loop: j loop', 'loop 4294967295'),
            ('on to a block', 'accepted 2 0 0', 'nop; end: ret', '0x10000 2; R\nend 1; R'),
            ('on to a block that costs more', 'BudgetNotProved 00010000', 'nop; end: ret', '0x10000 2; R\nend 2; R'),
            ('on to a block that asks', 'IntervalNotProved 00010000', 'nop; end: ret', '0x10000 2; R\nend 1; R; x5 1..1'),
            ('a block at each word', 'accepted 3 0 0', 'nop; a: nop; b: ret', '0x10000 3; R\na 2; R\nb 1; R')):
        case(name, expected, text, 's 0 1', blocks)
    calls = '0x10000 5; R\nback 2; x31 EXIT..EXIT\ncall %d; x1 %s; x31 EXIT..EXIT'
    for name, expected, cost, back in (
            ('its way back', 'accepted 5 0 0', 3, 'is 0x10008'),
            ('a way back that is not known', 'TargetNotABlock 00010010', 3, '0x10008..0x1000c'),
            ('too little for the way back', 'BudgetNotProved 00010010', 2, 'is 0x10008')):
        case('a call and ' + name, expected, 'mv t6,ra; jal ra,call; back: mv ra,t6; ret; call: ret', '', calls % (cost, back))
    case('a jump round 0 to EXIT', 'accepted 1 0 0', '.word 0xff1fe06f', '', '0x1000 1', at=0x1000)
    case('a jump round 0, past EXIT', 'TargetNotABlock 00001000', '.word 0xff5fe06f', '', '0x1000 1', at=0x1000)
    case('a block at EXIT', 'NotCode fffffff0', 'ecall', '', '0x10000 1\n0xfffffff0 0')
    case('a block at EXIT, which is not entered', 'NotCode fffffff0', 'ecall', '', '0x10000 1\n0xfffffff0 9')
    both = '0x10000 2; x10 0..9\nno %s\nyes %s'
    for no, yes, expected in (
            ('1; x5 1..1', '2', 'BudgetNotProved 00010000'), ('2', '1; x5 1..1', 'IntervalNotProved 00010000'),
            ('2', '1', 'BudgetNotProved 00010000')):
        case('two ways, the one that is taken first: %s and %s' % (yes, no), expected, 'beqz a0,yes; no: ecall; yes: ecall', 's 0 9',
             both % (no, yes))
    for name, expected, facts in (
            ('what is so at the start', 'accepted 1 0 0', 'x1 EXIT..EXIT; x2 0x30000000..0x30000000 = 0x30000000; x3 is 0; x31 is 0; vl is 0; x10 is 0; x17 is 0'),
            ('x2 at the start', 'IntervalNotProved 00010000', 'x2 0x2fffffff..0x2fffffff'),
            ('x2 as another sum', 'EqualityNotProved 00010000', 'x2 0x30000000..0x30000000 = 0x30000001'),
            ('vl at the start', 'IntervalNotProved 00010000', 'vl 1..1'),
            ('intervals come first', 'IntervalNotProved 00010000', 'x2 0x30000000..0x30000000 = 1; x3 1..1')):
        case(name, expected, 'ecall', '', '0x10000 1; ' + facts)
    passed = 'rw 5, s 3 9, -, r 0, s 4 4, r 4097, rw 1, s 0 0xffffffff'
    for expected, facts in (
            ('accepted 1 0 0', 'x10 is 0x40000000; x11 3..9 = p1; x12 is 0; x13 is 0x40002000; x14 4..4 = p4; x15 is 0x40003000; x16 is 0x40006000; x17 = p7'),
            ('EqualityNotProved 00010000', 'x14 is 4'), ('IntervalNotProved 00010000', 'x16 is 0x40005000'),
            ('IntervalNotProved 00010000', 'x11 3..8'), ('IntervalNotProved 00010000', 'x11 4..9'), ('accepted 1 0 0', 'x11 2..10'),
            ('IntervalNotProved 00010000', 'x17 0..0xfffffffe')):
        case('arguments', expected, 'ecall', passed, '0x10000 1; ' + facts)


def branches():
    """What a branch tells: intervals of a0 and a1, and those that are known where it is taken and where not (None: that way can't be gone)."""
    for name, a, b, taken, other in (
            ('beq', (0, 9), (5, 20), ((5, 9), (5, 9)), ((0, 9), (5, 20))), ('beq', (0, 9), (10, 20), None, ((0, 9), (10, 20))),
            ('beq', (0, 9), (9, 9), ((9, 9), (9, 9)), ((0, 8), (9, 9))), ('beq', (0, 9), (0, 0), ((0, 0), (0, 0)), ((1, 9), (0, 0))),
            ('beq', (0, 9), (4, 4), ((4, 4), (4, 4)), ((0, 9), (4, 4))), ('beq', (4, 4), (4, 4), ((4, 4), (4, 4)), None),
            ('beq', (4, 4), (5, 5), None, ((4, 4), (5, 5))), ('bne', (7, 7), (7, 9), ((7, 7), (8, 9)), ((7, 7), (7, 7))),
            ('bne', (7, 7), (5, 7), ((7, 7), (5, 6)), ((7, 7), (7, 7))), ('bltu', (0, 9), (5, 20), ((0, 9), (5, 20)), ((5, 9), (5, 9))),
            ('bltu', (5, 20), (0, 9), ((5, 8), (6, 9)), ((5, 20), (0, 9))), ('bltu', (5, 20), (0, 5), None, ((5, 20), (0, 5))),
            ('bltu', (0, 4), (5, 20), ((0, 4), (5, 20)), None), ('bltu', (0, 5), (5, 20), ((0, 5), (5, 20)), ((5, 5), (5, 5))),
            ('bltu', (0, 9), (0, 0), None, ((0, 9), (0, 0))),
            ('bltu', (0xffffffff, 0xffffffff), (0, 0xffffffff), None, ((M32, M32), (0, M32))),
            ('bgeu', (0, 9), (5, 20), ((5, 9), (5, 9)), ((0, 9), (5, 20))), ('bgeu', (5, 20), (0, 9), ((5, 20), (0, 9)), ((5, 8), (6, 9))),
            ('bgeu', (0, 9), (10, 20), None, ((0, 9), (10, 20))), ('bgeu', (10, 20), (0, 10), ((10, 20), (0, 10)), None),
            ('blt', (0, 9), (5, 20), ((0, 9), (5, 20)), ((5, 9), (5, 9))), ('blt', (5, 20), (0, 9), ((5, 8), (6, 9)), ((5, 20), (0, 9))),
            ('blt', (5, 20), (0, 0x7fffffff), ((5, 20), (6, 0x7fffffff)), ((5, 20), (0, 20))),
            ('blt', (5, 20), (0, 0x80000000), ((5, 20), (0, 0x80000000)), ((5, 20), (0, 0x80000000))),
            ('blt', (5, 20), (0, 5), None, ((5, 20), (0, 5))),
            ('blt', (0, 5), (6, 0x80000000), ((0, 5), (6, 0x80000000)), ((0, 5), (6, 0x80000000))),
            ('bge', (0, 9), (5, 20), ((5, 9), (5, 9)), ((0, 9), (5, 20))), ('bge', (5, 20), (0, 9), ((5, 20), (0, 9)), ((5, 8), (6, 9))),
            ('bge', (0x80000000, 0x80000001), (0, 9), ((0x80000000, 0x80000001), (0, 9)), ((0x80000000, 0x80000001), (0, 9)))):
        for is_taken, told in ((True, taken), (False, other)):
            told_of(name, a, b, is_taken, told)
    same_registers()


def told_of(name, a, b, is_taken, told):
    """Rows in which the way that is looked at leads to a block that states the intervals, and the other one to ecall."""
    text = '%s a0,a1,yes; %s; yes: %s' % (name, *(('no: ecall', 'ecall') if is_taken else ('no: ecall', 'ecall')))
    start = '0x10000 2' + ''.join('; x%d %d..%d' % ((10 + place,) + ends) for place, ends in enumerate((a, b)) if ends != c.FULL)
    label, other = ('yes', 'no') if is_taken else ('no', 'yes')
    tried = []
    if told is None:
        tried.append(('x5 1..1', 'accepted 2 0 0'))
    else:
        for place, (lo, hi) in enumerate(told):
            ends = [(lo, hi, True)] + [(p, q, False) for p, q in ((lo + 1, hi), (lo, hi - 1)) if p <= q]
            tried += [('x%d %d..%d' % (10 + place, p, q), 'accepted 2 0 0' if holds else 'IntervalNotProved 00010000') for p, q, holds in ends if (p, q) != c.FULL]
        tried.append(('x5 1..1', 'IntervalNotProved 00010000'))
    for stated, expected in tried:
        lines = {label: '%s 1; %s' % (label, stated), other: '%s 1' % other}
        case('%s of %s and %s, %s: %s' % (name, a, b, 'taken' if is_taken else 'not taken', stated), expected, text,
             's %d %d, s %d %d' % (a + b), '\n'.join([start, lines['no'], lines['yes']]))


def same_registers():
    text = 'nop; second: %s; no: ecall; yes: ecall'
    for name, expected, branch, second, no, yes in (
            ('a register with itself', 'IntervalNotProved 00010004', 'bne a0,a0,yes', 'x10 0..9', '', 'x5 1..1'),
            ('a register with itself', 'IntervalNotProved 00010004', 'beq a0,a0,yes', 'x10 0..9', 'x5 1..1', ''),
            ('a register with itself', 'IntervalNotProved 00010004', 'bltu a0,a0,yes', 'x10 3..3', '', 'x5 1..1'),
            ('x0 with itself', 'IntervalNotProved 00010004', 'beq x0,x0,yes', 'x10 0..9', 'x5 1..1', ''),
            ('x0 below', 'accepted 3 0 0', 'bltu x0,a0,yes', 'x10 0..9', 'x10 0..0', 'x10 1..9'),
            ('x0 below what is 0', 'accepted 3 0 0', 'bltu x0,a0,yes', 'x10 0..0', '', 'x5 1..1'),
            ('not below x0', 'accepted 3 0 0', 'bgeu a0,x0,yes', 'x10 0..9', 'x5 1..1', 'x10 0..9'),
            ('another register of the same atom', 'accepted 3 0 0', 'beqz a0,yes', 'x10 0..9; x11 0..9 = x10', 'x11 1..9', 'x11 0..0'),
            ('another register of the same atom', 'IntervalNotProved 00010004', 'beqz a0,yes', 'x10 0..9; x11 0..9 = x10', 'x11 2..9', 'x11 0..0'),
            ('another register of that atom and more', 'accepted 3 0 0', 'bnez a0,yes', 'x10 0..9; x11 5..14 = 5 + x10', 'x11 5..5', 'x11 6..14'),
            ('another register of twice that atom', 'accepted 3 0 0', 'bnez a0,yes', 'x10 0..9; x11 0..18 = 2 x10', 'x11 0..0', 'x11 2..18'),
            ('a register that is no atom', 'accepted 3 0 0', 'bnez a0,yes', 'x10 0..9 = x11; x11 0..9', 'x11 0..0', 'x11 1..9'),
            ('a register that is a sum, and not 0', 'accepted 3 0 0', 'bnez a0,yes', 'x10 1..10 = 1 + x11; x11 0..9', 'x11 0..8', 'x11 0..9'),
            ('two registers of one atom', 'accepted 3 0 0', 'bne a0,a1,yes', 'x10 0..9; x11 0..9 = x10', 'x10 0..9', 'x10 0..9'),
            ('two registers of one atom, below', 'accepted 3 0 0', 'bltu a0,a1,yes', 'x10 0..9; x11 0..9 = x10', 'x10 0..9', 'x10 1..8'),
            ('two registers of one atom, below', 'IntervalNotProved 00010004', 'bltu a0,a1,yes', 'x10 0..9; x11 0..9 = x10', 'x10 0..9', 'x10 1..7'),
            ('two registers of one atom, none between', 'accepted 3 0 0', 'bltu a0,a1,yes', 'x10 0..1; x11 0..1 = x10', 'x10 0..1', 'x5 1..1')):
        start_text, passed = entry_for(second)
        case('%s: %s' % (name, branch), expected, text.replace('nop', start_text) % branch, passed,
             '0x10000 3; x10 %s\nsecond 2; %s\nno 1; %s\nyes 1; %s' % ( '..'.join(passed.split()[1:3]), second, no, yes))


def entry_for(second):
    """One word, and a parameter for a0, after which what `second` states of a0 and a1 is so."""
    parts = dict(part.split(None, 1) for part in second.split('; '))
    if 'x11' not in parts:
        return 'nop', 's ' + ' '.join(parts['x10'].split('..'))
    ends, _, equal = parts['x10'].partition(' = ')
    if equal == '1 + x11':
        return 'addi a1,a0,-1', 's ' + ' '.join(ends.split('..'))
    made = {'x10': 'mv a1,a0', '5 + x10': 'addi a1,a0,5', '2 x10': 'slli a1,a0,1', '': 'mv a1,a0'}[parts['x11'].partition(' = ')[2]]
    return made, 's ' + ' '.join(ends.split('..'))


def budgets():
    loop = 'beqz a1,end; loop: addi a1,a1,-1; bnez a1,loop; end: ret'
    blocks = '0x10000 %s; R; x11 0..9\nloop %s; R; x11 1..9\nend %s; R'
    for expected, first, second, last in (
            ('accepted 2 2 11', '2 2*x11', '1 2*x11', '1'), ('BudgetNotProved 00010000', '1 2*x11', '1 2*x11', '1'),
            ('BudgetNotProved 00010008', '2 2*x11', '0 2*x11', '1'), ('BudgetNotProved 00010008', '2 1*x11', '1 1*x11', '1'),
            ('accepted 2 3 11', '2 3*x11', '1 3*x11', '1'), ('BudgetNotProved 00010000', '2 2*x11', '1 3*x11', '1'),
            ('accepted 20 0 0', '20', '1 2*x11', '1'), ('BudgetNotProved 00010000', '19', '1 2*x11', '1'),
            ('BudgetNotProved 00010008', '20', '19', '1'), ('BudgetNotProved 00010000', '20', '1 2*x11', '20'),
            ('BudgetNotProved 00010000', '2 2*x11', '1 2*x11', '2'), ('BudgetNotProved 0001000c', '1 2*x11', '0 2*x11', '0'),
            ('accepted 3 2 11', '3 2*x11', '2 2*x11', '2'), ('BudgetNotProved 00010000', '9 9*x11', '1 2*x10', '1')):
        case('a count: %s, %s, %s' % (first, second, last), expected, loop, 's 0 9, s 0 9', blocks % (first, second, last))
    up = 'li t0,0; loop: addi t0,t0,1; bltu t0,a1,loop; end: ret'
    for expected, first, second in (('BudgetNotProved 00010008', '99', '1 2*x11'), ('BudgetNotProved 00010008', '99', '50')):
        case('a count that goes up', expected, up, 's 0 9, s 1 9',
             '0x10000 %s; R; x11 1..9\nloop %s; R; x5 0..8; x11 1..9\nend 1; R' % (first, second))
    left = 'li t0,0; sub t1,a1,t0; loop: addi t0,t0,1; sub t1,a1,t0; %s,loop; end: ret'
    case('a count that goes up, and what is left', 'accepted 3 3 11', left % 'bnez t1', 's 0 9, s 1 9',
         '0x10000 3 3*x11; R; x11 1..9\nloop 1 3*x6; R; x5 = x11 - 1 x6; x6 1..9; x11 1..9\nend 1; R')
    case('a count that goes up, and what is left as a sum', 'BudgetNotProved 00010010', left % 'bltu t0,a1', 's 0 9, s 1 9',
         '0x10000 3 3*x11; R; x11 1..9\nloop 1 3*x6; R; x5 0..8; x6 = x11 - 1 x5; x11 1..9\nend 1; R')
    half = 'beqz a1,end; loop: srli a1,a1,1; bnez a1,loop; end: ret'
    case('a count that is halved', 'BudgetNotProved 00010008', half, 's 0 9, s 0 9',
         '0x10000 2 2*x11; R; x11 0..9\nloop 1 2*x11; R; x11 1..9\nend 1; R')
    wide = 'second: addi a1,a1,%d; third: ret'
    for expected, step, first in (
            ('accepted 2 4 11', -3, '2 4*x11'), ('accepted 14 4 11', 3, '14 4*x11'), ('BudgetNotProved 00010000', 3, '13 4*x11'),
            ('accepted 38 0 0', 0, '38'), ('BudgetNotProved 00010000', 0, '37'), ('accepted 26 0 0', -3, '26'),
            ('BudgetNotProved 00010000', -3, '25')):
        case('a budget for x11 %+d: %s' % (step, first), expected, wide % step, 's 0 0, s 3 9',
             'second %s; R; x11 3..9\nthird 1 4*x11; R' % first)
    case('a budget of what wraps', 'BudgetNotProved 00010000', wide % -4, 's 0 0, s 3 9', 'second 99 4*x11; R; x11 3..9\nthird 1 4*x11; R')
    # What the branch makes known of an atom counts for the budget at the block's start too.
    text = 'bgeu a0,a1,yes; no: ecall; yes: ecall'
    case('a budget that the branch makes known', 'accepted 0 1 10', text, 's 2 20, s 3 9',
         '0x10000 0 1*x10; x10 2..20; x11 3..9\nno 1\nyes 2')
    case('a budget that the branch does not make known', 'BudgetNotProved 00010000', text, 's 2 20, s 3 9',
         '0x10000 0 1*x10; x10 2..20; x11 3..9\nno 1\nyes 3')
    # By the ends of an interval that the sum does not show, and by forms that are not taken apart.
    for last, expected in ((11, 'accepted 1 0 0'), (12, 'BudgetNotProved 00010004')):
        case('a budget by the ends alone', expected, 'ecall; dead: nop; end: ecall', '',
             '0x10000 1\ndead 0 4*x5; x5 3..9 = x6 + x7\nend %d' % last)
    for first, expected in (
            ('2 8*x11', 'BudgetNotProved 00010000'), ('122 8*x11', 'accepted 122 8 11'), ('121 8*x11', 'BudgetNotProved 00010000')):
        case('a budget of a count, paid for vl', expected, 'vsetvli t0,a1,e8,m1; end: ret', '-, s 1 1024',
             '0x10000 %s; R; x11 1..1024\nend 1 8*x5; R' % first)
    case('a budget of the greatest numbers', 'accepted 4294967295 4294967295 10', 'ecall', 's 0 0xffffffff',
         '0x10000 4294967295 4294967295*x10')
    case('a budget that 32 bits do not hold', 'BudgetNotProved 00010000', 'nop; end: ecall', 's 0 0xffffffff',
         '0x10000 4294967295\nend 1 4294967295*x10')
    case('a budget that 32 bits do not hold, twice', 'accepted 4294967295 4294967295 10', 'nop; end: ecall', 's 0 0xffffffff',
         '0x10000 4294967295 4294967295*x10\nend 4294967294 4294967295*x10')


# ---- What a stricter or a looser rule would tell too -----------------------------------------------------------------------------------------

def then(name, expected, text, passed, stated, vlenb=16):
    """Words, and a next block that states something; an error is told at the last of these words."""
    count = text.count(';') + 1
    known = ''.join('; x%d %d..%d' % (10 + place, p.a, p.b) for place, p in scalars(passed)) + placed(passed)
    told = 'accepted %d 0 0' % (count + 1) if expected == A else '%s %08x' % (expected, CODE + 4 * count - 4)
    case('%s: %s; then %s' % (name, text, stated), told, text + '; end: ret', passed,
         '0x10000 %d; R%s\nend 1; R; %s' % (count + 1, known, stated), vlenb)


def known_at_every_width():
    """What a vector instruction states at e8 it states at e16 and e32 too, of numbers that 8 and 16 bits do not hold."""
    for sew, lo, hi in ((16, 256, 1000), (32, 70000, 100000)):
        made = 'vsetivli x0,4,e%d,m1; vmv.v.x v8,a0; ' % sew
        for text, a, b in (
                ('vadd.vi v10,v8,5', lo + 5, hi + 5), ('vadd.vx v10,v8,a0', 2 * lo, 2 * hi), ('vsll.vi v10,v8,1', 2 * lo, 2 * hi),
                ('vsrl.vi v10,v8,1', lo // 2, hi // 2), ('vmv.v.v v10,v8', lo, hi), ('vand.vx v10,v8,a0', 0, hi),
                ('vminu.vx v10,v8,a0', lo, hi), ('vmaxu.vx v10,v8,a0', lo, hi), ('li t0,300; vremu.vx v10,v8,t0', 0, 299)):
            vector_probe(made + text, 'v10*1 e%d' % sew, a, b, 's %d %d' % (lo, hi))


def states_nothing():
    """Of what these compute no more is known, though more could be said of it."""
    near, two = 's 16 255, s 3 7', 'vsetivli x0,4,e8,m1; vmv.v.x v8,a0; vmv.v.x v9,a1; '
    for text in ('lui t1,0x80000; mulhu t0,a0,t1', 'or t0,a0,x0', 'xor t0,a0,x0', 'mulh t0,a0,a1', 'mulhsu t0,a0,a1', 'li t1,2; sra t0,a0,t1',
                 'vsetivli x0,5,e16,m1; csrrs t0,vtype,x0', 'vsetivli x0,0,e8,m1; vfirst.m t0,v8', two + 'vmv.x.s t0,v9'):
        probe(text, near, 0, M32)
    for text, group in (
            ('li t0,10; vdivu.vx v10,v8,t0', 'v10*1 e8'), ('li t0,2; vmul.vx v10,v9,t0', 'v10*1 e8'), ('vsub.vv v10,v8,v9', 'v10*1 e8'),
            ('vrsub.vx v10,v9,a0', 'v10*1 e8'), ('vmulhu.vv v10,v8,v9', 'v10*1 e8'), ('vwaddu.vv v10,v8,v9', 'v10*2 e16'), ('vwmulu.vv v10,v8,v9', 'v10*2 e16'),
            ('vslide1down.vx v10,v8,a1', 'v10*1 e8'), ('vslide1up.vx v10,v8,a1', 'v10*1 e8'), ('vmv.v.v v10,v9; vslideup.vi v10,v8,1', 'v10*1 e8'),
            ('vssubu.vv v10,v8,v9', 'v10*1 e8'), ('vaaddu.vv v10,v8,v9', 'v10*1 e8'), ('vasubu.vv v10,v8,v9', 'v10*1 e8')):
        vector_probe(two + text, group, None, None, 's 16 200, s 3 7')
    for name in ('vnclipu', 'vnclip'):
        vector_probe('vsetivli x0,4,e16,m2; vmv.v.x v8,a0; vsetvli x0,x0,e8,m1; %s.wi v10,v8,0' % name, 'v10*1 e8', None, None, 's 16 100')
    vector_probe('vsetivli x0,4,e8,mf2; vmv.v.i v8,5; vsetvli x0,x0,e16,m1; vsext.vf2 v9,v8', 'v9*1 e16', None, None)
    for text in ('srli t0,a0,0', 'li t1,1; divu t0,a0,t1', 'andi t0,a0,-1', 'or t0,a0,x0'):
        then('no copy', 'EqualityNotProved', text, near, 'x5 = x10')


def both_known():
    """Sums, splits and ranges that are kept where a stricter rule would drop them."""
    then('vl is read', A, 'vsetvli x0,a0,e8,m1; csrrs t0,vl,x0', 's 1 99', 'x5 = vl')
    for vlenb in (16, 32):
        then('vlenb is a number', A, 'csrrs t0,vlenb,x0', '', 'x5 is %d' % vlenb, vlenb)
    probe('mv a2,a1; vsetvli a1,a1,e8,m1; sub t0,a2,a1', '-, s 1 99', 0, 83)
    then('vl that is 0 is kept as a new number', 'EqualityNotProved', 'vsetivli x0,5,e64,m1; vsetvli x0,x0,e8,m1; nop', '', 'vl is 0')
    both = (0x80000000, 0x80000009), (0x80000005, 0x80000020)
    for name in ('blt', 'bge'):
        for is_taken in (True, False):
            told_of(name, *both, is_taken, both)
    for stride, load in ((300, 'li t1,300'), (0x80000, 'lui t1,0x80')):
        for size, expected in ((stride + 1, 'accepted 4 0 0'), (stride, 'AccessNotProved 00010008')):
            straight('a stride of %d in %d bytes' % (stride, size), expected, load + '; vsetivli x0,2,e8,m1; vlse8.v v8,(a0),t1; ret', 'r %d' % size)
    case('a branch on what was passed', 'accepted 3 0 0', 'mv a1,a0; beqz a0,yes; no: ecall; yes: ecall', 's 0 9',
         '0x10000 3; x10 0..9 = p0\nno 1; x11 1..9\nyes 1; x11 0..0')
    # What the branch tells of a number that is split it tells of no part, so the sum before the split says more than the one behind it.
    case('a branch on a number that is split', 'accepted 6 0 0', 'addi a2,a1,1; vsetvli t0,a1,e8,m1; li t1,6; bltu a1,t1,yes; no: ecall; yes: ecall',
         '-, s 1 99', '0x10000 6; x11 1..99\nno 1\nyes 1; x12 2..6')
    then('a fact of vl elements, and vl kept', A, 'vsetvli x0,a1,e8,m1; vmv.v.i v8,5; vsetvli x0,x0,e16,m2', '-, s 0 9', 'v8*1 e8 5..5')
    then('a fact of more elements than are asked for', A, 'vsetivli x0,4,e8,m2; vmv.v.i v8,5; vsetivli x0,9,e8,m1', '', 'v8*2 e8 #3 5..5')
    case('a budget by the ends alone, past 32 bits', 'accepted 1 0 0', 'ecall; dead: nop; end: ecall', '',
         '0x10000 1\ndead 0 0xffffffff*x5; x5 3..9 = x6 + x7\nend 0xffffffff')
    case('a fence counts', 'BudgetNotProved 00010004', 'fence; ret', '', '0x10000 1; R')
    for size, expected in ((16, 'accepted 3 0 0'), (15, 'AccessNotProved 00010004')):
        straight('whole registers, and vl is 3', expected, 'vsetivli x0,3,e8,m1; vl1re8.v v8,(a0); ret', 'r %d' % size)
    for size, expected in ((65537, 'accepted 5 0 0'), (65536, 'AccessNotProved 0001000c')):
        straight('indices of another width than their fact', expected, 'vsetivli x0,4,e8,m1; vmv.v.i v8,9; vsetivli x0,4,e16,m1; vluxei16.v v9,(a0),v8; ret', 'r %d' % size)


def orders():
    """Which of two faults is told."""
    case('a block before that of the entry', 'IllegalWord 00010000', '.word 0; ret', '', '0x10000 1; R\n0x10004 0; R', entry=CODE + 4)
    then('sums come before vector facts', 'EqualityNotProved', 'vsetivli t0,4,e8,m1; vmv.v.i v8,9', '', 'x5 4..4 = 4; v8*1 e8 0..1')


# ---- Certificates at their limits -----------------------------------------------------------------------------------------------------------

def spelled(name, expected, facts, old='', new='', passed='', ends_behind=False):
    """A certificate of one block with these facts, of whose bytes some are others, and which may end right behind them."""
    k = kernel('nop; ret', passed, '0x10000 2; R; ' + facts)
    data, old, new = c.certificate_bytes(k.certificate), bytes.fromhex(old), bytes.fromhex(new)
    if old:
        assert data.count(old) == 1, (name, data.hex())
        at = data.index(old)
        data = data[:at] + new + (b'' if ends_behind else data[at + len(old):])
    row(name, file_of(k, data), 16, expected)


def certificates_at_their_limits():
    two, known = 's 0 9, s 0 8', 'certificate '
    spelled('atoms that fall', known + 'Equality', 'x5 0..9 = p0 + p1', '2101000000 2201000000', '2201000000 2101000000', two)
    spelled('an atom twice', known + 'Equality', 'x5 0..9 = p0 + p1', '2101000000 2201000000', '2101000000 2101000000', two)
    spelled('atom 0', known + 'Equality', 'x5 0..9 = x6', '0601000000', '0001000000')
    spelled('atom 41', known + 'Equality', 'x5 0..9 = x6', '0601000000', '2901000000')
    spelled('a sum of nine', known + 'Equality', 'x5 0..9 = ' + ' + '.join('x%d' % n for n in range(10, 19)))
    spelled('byte 3 of a vector fact', known + 'Fact', 'v8*1 e8 0..5', '08080100', '08080101')
    for zeros in ('0100', '0001'):
        spelled('bytes 6 and 7 of a vector fact', known + 'Fact', 'v8*1 e8 #3 0..5', '0300 0000 00000000', '0300 %s 00000000' % zeros)
    spelled('an atom with a sum of its own, and a vector fact that is none', known + 'Fact', 'x5 0..9 = x6; x6 0..9 = 3; v9*2 e8 0..5')
    spelled('a vector fact of all numbers of 32 bits', known + 'Fact', 'v8*1 e32 0..0xffffffff')
    spelled('a group past v31', known + 'Fact', 'v28*8 e8 0..5')
    spelled('a mode of 0', known + 'Parameter', '', '0203 0000 10000000', '0200 0000 10000000', 'rw 16')
    spelled('no vtype that is supported', known + 'Fact', '', '02000000 00000000 00 0000 01', '02000000 00000000 00 0118 01')
    spelled('no vtype that is supported, of LMUL 1/8', known + 'Fact', '', '02000000 00000000 00 0000 01', '02000000 00000000 00 0105 01')
    spelled('32 register facts', 'IntervalNotProved 00010000', '; '.join('x%d 0..9' % n for n in range(2, 32)) + '; vl 0..9')
    spelled('32 vector facts', 'VectorFactNotProved 00010000', '; '.join('v%d*1 e8 0..5' % n for n in range(32)))
    spelled('a buffer of 16 MiB', 'accepted 2 0 0', '', passed='r 0x1000000')
    spelled('a larger buffer', known + 'Parameter', '', passed='r 0x1000001')
    # Where the bytes end behind the upper end of an interval, its order is told, and not that more is missing.
    spelled('lo above hi, and no more bytes', known + 'Fact', 'x5 2..9', '02000000 09000000', '02000000 01000000', ends_behind=True)
    spelled('lo below hi, and no more bytes', known + 'Short', 'x5 2..9', '02000000 09000000', '02000000 09000000', ends_behind=True)
    spelled('lo above hi of a group, and no more bytes', known + 'Fact', 'v8*1 e8 2..9', '02000000 09000000', '02000000 01000000', ends_behind=True)
    spelled('lo above hi of a scalar, and no more bytes', known + 'Parameter', '', '02000000 09000000', '02000000 01000000', 's 2 9', ends_behind=True)
    spelled('a fact of register 33', known + 'Fact', 'vl 0..9', '20 00000000 09000000', '21 00000000 09000000')
    for width in (0, 4, 12, 24, 64):
        spelled('a vector fact of width %d' % width, known + 'Fact', 'v8*1 e8 0..5', '08080100', '08%02x0100' % width)
    spelled('a version of two bytes', known + 'Version', '', '01000100 0000000000000000', '01010100 0000000000000000')
    spelled('a parameter of kind 3, and no more', known + 'Parameter', '', '01000100 0000000000000000', '01000100 0300000000000000')
    row('half of a version that is none', file_of(kernel('ret', '', '0x10000 1; R'), b'\2'), 16, known + 'Short')
    block = '%s 2; R'
    falling = [block % '0x10004', block % '0x10000']
    case('blocks that fall', known + 'BlockOrder', 'nop; ret', '', '\n'.join(falling))
    case('a block twice', known + 'BlockOrder', 'nop; ret', '', '\n'.join([block % '0x10000'] * 2))
    case('no block', 'NoEntryBlock', 'nop; ret', '', '')
    for count, expected in ((1024, 'BudgetNotProved 00010000'), (1025, known + 'TooMany')):
        case('%d blocks' % count, expected, 'nop; ret', '', '\n'.join(block % hex(CODE + 4 * n) for n in range(count)))


def hand_rows():
    whole_kernels()
    spellings()
    scalar_results()
    equalities()
    vset_rows()
    access_rows()
    many_splits()
    contradictions()
    vector_facts()
    words()
    jumps()
    branches()
    budgets()
    known_at_every_width()
    states_nothing()
    both_known()
    orders()
    certificates_at_their_limits()
    return ROWS
