"""Makes orders.txt: images with certificates of version 2, and what the check of each answers: orders of two registers, and budgets of two.

    python3 vectors/orders.py --drawn 600 1 > crates/conformance/data/orders.txt

The answers of the rows before the drawn ones were written by hand, and checker.py has to say the same. Those of the drawn rows are checker.py's: the
kernels of the rows by hand with a place or two changed, in the certificate, its bytes or the code, and small kernels with orders drawn at random.

A row is `VLENB FILE = ANSWER`, as in checks.txt. Where the budget of the block at the entry has a second register, the answer is `accepted C K R L S`.
"""
import argparse

import certificates as c
import checker
import model
from assembly import assembled
from checker import VL, check
from checks import shown
from drawn_checks import Draw, change_at, changed_code, changed_fact, changed_param, moved
from kernels import code_bytes, file_of, kernel
from table import M32, VTYPES

ROWS = []       # (name, vlenb, file, answer)
KERNELS = []    # (vlenb, kernel) of the rows by hand, which the drawn ones change
HERE = 0x10000
LENGTHS = (16, 32, 64)


def row(name, file, vlenb, expected):
    answer = check(file, vlenb)
    assert answer == expected, '%s\n by hand %s\n model   %s' % (name, expected, answer)
    ROWS.append((name, vlenb, file, answer))


def case(name, expected, text, passed, blocks, vlenb=16, version=2, **more):
    k = kernel(text, passed, blocks, vlenb, version=version, **more)
    KERNELS.append((vlenb, k))
    row(name, file_of(k), vlenb, expected)


def replaced(text, *changes):
    """A text with each of the changes (old, new), whose old text stands there once."""
    for old, new in changes:
        assert text.count(old) == 1, (old, text.count(old))
        text = text.replace(old, new)
    return text


# ---- Two kernels --------------------------------------------------------------------------------------------------------------------

# The store behind a branch: what the vset in another block told is an order of vl and the count.
RAISE = '''beqz a1,end
    loop: vsetvli t0,a1,e8,m1,ta,ma; vle8.v v8,(a0); beqz a2,skip
    one: vadd.vi v8,v8,1
    skip: vse8.v v8,(a0); add a0,a0,t0; sub a1,a1,t0; bnez a1,loop
    end: ret'''
RAISE_WORDS = '02058263 0c05f2d7 02050407 00060463 0280b457 02050427 00550533 405585b3 fe0592e3 00008067'
RAISE_PASSED = 'rw 1024, s 0 1024, s 0 1'
POINTER = 'R; x10 0x40000000..0x40000400 = 0x40000000 - 1 x11 + p1; x11 1..1024'
RAISE_BLOCKS = '''0x10000 5 8*x11; R; x10 is 0x40000000; x11 0..1024 = p1
    loop 4 8*x11; %s
    one 1 8*x11 vtype=0xc0; %s; x5 1..16 = vl; vl 1..16; vl <= x11
    skip 0 8*x11 vtype=0xc0; %s; x5 1..16 = vl; vl 1..16; vl <= x11
    end 1; R''' % (POINTER, POINTER, POINTER)

# A loop over rows with a loop over strips in it: two counts, and a budget of both.
FILL = '''beqz a1,end
    loop: mv t3,a0; li t2,64
    strip: vsetvli t0,t2,e8,m1,ta,ma; vmv.v.i v8,5; vse8.v v8,(t3); add t3,t3,t0; sub t2,t2,t0; bnez t2,strip
    next: addi a0,a0,64; addi a1,a1,-1; bnez a1,loop
    end: ret'''
FILL_WORDS = '02058863 00050e13 04000393 0c03f2d7 5e02b457 020e0427 005e0e33 405383b3 fe0396e3 04050513 fff58593 fc059ce3 00008067'
FILL_PASSED = 'rw 4096, s 0 64'
AT_ROW = 'R; x10 0x40000000..0x40001000 = 0x40000000 - 64 x11 + 64 p1; x11 1..64'
FILL_BLOCKS = '''0x10000 387 389*x11; R; x10 is 0x40000000; x11 0..64 = p1
    loop 386 389*x11; %s
    strip 0 6*x7 389*x11; x7 1..64; x28 0x40000000..0x40001000 = 0x40000040 - 1 x7 - 64 x11 + 64 p1; %s
    next 0 389*x11; %s
    end 1; R''' % (AT_ROW, AT_ROW, AT_ROW)


def of_length(blocks, vlenb):
    """The blocks of RAISE with the greatest vl of vector registers of so many bytes."""
    return blocks.replace('1..16', '1..%d' % vlenb)


def is_words(text, words):
    return assembled(text)[0] == [int(w, 16) for w in words.split()]


RAISE_CHANGES = [
    ('as it is', 'accepted 5 8 11'),
    ('no orders', 'AccessNotProved 00010014', ('vl 1..16; vl <= x11\n    skip', 'vl 1..16\n    skip'), ('vl <= x11\n    end', '\n    end')),
    ('an order in the first block alone', 'AccessNotProved 00010014', ('vl <= x11\n    end', '\n    end')),
    ('an order in the second block alone', 'OrderNotProved 00010010', ('; vl <= x11\n    skip', '\n    skip')),
    ('the orders turned', 'OrderNotProved 0001000c', ('vl <= x11\n    skip', 'x11 <= vl\n    skip'), ('vl <= x11\n    end', 'x11 <= vl\n    end')),
    ('the first order turned', 'OrderNotProved 0001000c', ('vl <= x11\n    skip', 'x11 <= vl\n    skip')),
    ('the second order turned', 'OrderNotProved 0001000c', ('vl <= x11\n    end', 'x11 <= vl\n    end')),
    ('an order of another register', 'OrderNotProved 0001000c', ('vl <= x11\n    skip', 'vl <= x12\n    skip')),
    ('an order of a register that is in a sum', 'certificate Order', ('vl <= x11\n    skip', 'x5 <= x11\n    skip')),
    ('an order to a register that is in a sum', 'certificate Order', ('vl <= x11\n    skip', 'vl <= x10\n    skip')),
    ('one more that holds', 'accepted 5 8 11', ('vl <= x11\n    skip', 'vl <= x11; x11 <= x1\n    skip')),
    ('one more that does not', 'OrderNotProved 0001000c', ('vl <= x11\n    skip', 'vl <= x11; x1 <= x12\n    skip')),
    ('a short buffer', 'AccessNotProved 00010008', ('rw 1024', 'rw 1023')),
    ('a larger one', 'accepted 5 8 11', ('rw 1024', 'rw 1025')),
    ('a buffer to read', 'ReadOnly 00010014', ('rw 1024', 'r 1024')),
    ('a larger count', 'IntervalNotProved 00010000', ('s 0 1024', 's 0 1025')),
    ('a smaller budget at the entry', 'BudgetNotProved 00010000', ('0x10000 5', '0x10000 4')),
    ('a larger budget at the entry', 'accepted 6 8 11', ('0x10000 5', '0x10000 6')),
    ('a smaller budget of the loop', 'BudgetNotProved 0001000c', ('loop 4', 'loop 3')),
    ('a larger budget of the loop', 'BudgetNotProved 00010000', ('loop 4', 'loop 5')),
    ('a smaller budget of the sum', 'BudgetNotProved 00010010', ('one 1', 'one 0')),
    ('a larger budget of the sum', 'BudgetNotProved 0001000c', ('one 1', 'one 2')),
    ('a larger budget of the store', 'BudgetNotProved 00010010', ('skip 0', 'skip 1')),
    ('a smaller factor of the store', 'BudgetNotProved 00010020', ('skip 0 8', 'skip 0 7')),
    ('a larger factor of the store', 'BudgetNotProved 0001000c', ('skip 0 8', 'skip 0 9')),
    ('vl may be 0', 'BudgetNotProved 00010020', ('vl 1..16; vl <= x11\n    end', 'vl 0..16; vl <= x11\n    end')),
    ('vl is less', 'IntervalNotProved 0001000c', ('vl 1..16; vl <= x11\n    end', 'vl 1..15; vl <= x11\n    end')),
    ('nothing is known of the type', 'VtypeUnknown 00010014', ('skip 0 8*x11 vtype=0xc0', 'skip 0 8*x11')),
    ('another type', 'VtypeUnknown 0001000c', ('skip 0 8*x11 vtype=0xc0', 'skip 0 8*x11 vtype=0xc1')),
    ('an order of the loop, which does not hold', 'OrderNotProved 00010000', ('x11 1..1024\n    one', 'x11 1..1024; vl <= x11\n    one')),
    ('an order at the entry', 'OrderNotProved 00010000', ('= p1\n    loop', '= p1; x1 <= x2\n    loop')),
    ('an order at the entry that holds', 'accepted 5 8 11', ('= p1\n    loop', '= p1; x2 <= x1\n    loop')),
    ('an order at the end', 'OrderNotProved 00010000', ('end 1; R', 'end 1; R; x1 <= x12')),
    ('an order at the end that holds', 'accepted 5 8 11', ('end 1; R', 'end 1; R; x11 <= x1')),
]
RAISE_CODE = [
    ('by halves', 'AccessNotProved 00010008', ('e8,m1', 'e16,m1'), ('vle8.v', 'vle16.v')),
    ('another branch', 'accepted 5 8 11', ('beqz a2', 'bnez a2')),
    ('a branch by a signed comparison', 'accepted 5 8 11', ('beqz a2,skip', 'blt x0,a2,skip')),
    ('the branch leads to what comes next', 'accepted 5 8 11', ('beqz a2,skip', 'beqz a2,one')),
    ('the count is less before the branch', 'IntervalNotProved 0001000c', ('vle8.v v8,(a0)', 'addi a1,a1,-1')),
    ('the count is less behind it', 'IntervalNotProved 00010010', ('vadd.vi v8,v8,1', 'addi a1,a1,-1')),
    ('the length is set again', 'VtypeUnknown 00010010', ('vadd.vi v8,v8,1', 'vsetvli x0,a1,e8,m2,ta,ma')),
    ('the same length again', 'OrderNotProved 00010010', ('vadd.vi v8,v8,1', 'vsetvli t0,x0,e8,m1,ta,ma')),
    ('the count asked for again', 'accepted 5 8 11', ('vadd.vi v8,v8,1', 'vsetvli t0,a1,e8,m1,ta,ma')),
    ('the length is kept', 'accepted 5 8 11', ('vadd.vi v8,v8,1', 'vsetvli x0,x0,e8,m1,ta,ma')),
    ('a length of 1', 'accepted 5 8 11', ('vadd.vi v8,v8,1', 'vsetivli t0,1,e8,m1,ta,ma')),
    ('a length of 2', 'OrderNotProved 00010010', ('vadd.vi v8,v8,1', 'vsetivli t0,2,e8,m1,ta,ma')),
    ('the store moved', 'AccessNotProved 00010018', ('vse8.v v8,(a0); add a0,a0,t0', 'add a0,a0,t0; vse8.v v8,(a0)')),
]
FILL_CHANGES = [
    ('as it is', 'accepted 387 389 11'),
    ('a smaller budget at the entry', 'BudgetNotProved 00010000', ('0x10000 387', '0x10000 386')),
    ('a larger one', 'accepted 388 389 11', ('0x10000 387', '0x10000 388')),
    ('a smaller factor at the entry', 'BudgetNotProved 00010000', ('387 389*x11', '387 388*x11')),
    ('a larger factor at the entry', 'accepted 387 390 11', ('387 389*x11', '387 390*x11')),
    ('a second factor at the entry', 'accepted 387 389 11 1 12', ('387 389*x11', '387 389*x11 1*x12')),
    ('a first factor at the entry', 'accepted 387 1 5 389 11', ('387 389*x11', '387 1*x5 389*x11')),
    ('the greatest factors at the entry', 'accepted 387 4294967295 11 4294967295 31', ('387 389*x11', '387 0xffffffff*x11 0xffffffff*x31')),
    ('a second factor of the loop', 'BudgetNotProved 00010000', ('386 389*x11', '386 389*x11 1*x12')),
    ('a second factor of the loop, of what is 0', 'BudgetNotProved 0001002c', ('386 389*x11', '386 389*x11 1*x12'), ('387 389*x11', '387 389*x11 1*x12')),
    ('a smaller budget of the loop', 'BudgetNotProved 00010008', ('loop 386', 'loop 385')),
    ('a larger budget of the loop', 'BudgetNotProved 00010000', ('loop 386', 'loop 387')),
    ('a smaller factor of strips', 'BudgetNotProved 00010020', ('6*x7', '5*x7')),
    ('a larger factor of strips', 'BudgetNotProved 00010008', ('6*x7', '7*x7')),
    ('a smaller second factor of strips', 'BudgetNotProved 00010020', ('6*x7 389*x11', '6*x7 388*x11')),
    ('a larger second factor of strips', 'BudgetNotProved 00010008', ('6*x7 389*x11', '6*x7 390*x11')),
    ('a larger budget of strips', 'BudgetNotProved 00010008', ('strip 0', 'strip 1')),
    ('another first register of strips', 'BudgetNotProved 00010008', ('6*x7', '6*x8')),
    ('another second register of strips', 'BudgetNotProved 00010008', ('6*x7 389*x11', '6*x7 389*x12')),
    ('no second register of strips', 'BudgetNotProved 00010020', ('6*x7 389*x11', '6*x7')),
    ('no first register of strips', 'BudgetNotProved 00010020', ('6*x7 389*x11', '389*x11')),
    ('a smaller factor of rows', 'BudgetNotProved 0001002c', ('next 0 389', 'next 0 388')),
    ('a larger factor of rows', 'BudgetNotProved 00010020', ('next 0 389', 'next 0 390')),
    ('a larger budget of rows', 'BudgetNotProved 00010020', ('next 0', 'next 1')),
    ('a second factor of rows', 'BudgetNotProved 00010020', ('next 0 389*x11', 'next 0 389*x11 1*x12')),
    ('a larger budget of the end', 'accepted 387 389 11', ('end 1', 'end 386')),
    ('more than the entry has left', 'BudgetNotProved 00010000', ('end 1', 'end 387')),
    ('more than rows have left', 'BudgetNotProved 0001002c', ('end 1', 'end 387'), ('0x10000 387', '0x10000 388')),
    ('no budget of the end', 'BudgetNotProved 00010030', ('end 1', 'end 0')),
    ('strips of nothing', 'BudgetNotProved 00010020', ('x7 1..64', 'x7 0..64')),
    ('an order', 'OrderNotProved 00010008', ('x7 1..64', 'x7 1..64; x7 <= x11')),
    ('an order that holds', 'accepted 387 389 11', ('x7 1..64', 'x7 1..64; x7 <= x1')),
    ('a short buffer', 'AccessNotProved 00010014', ('rw 4096', 'rw 4095')),
]


def two_kernels():
    assert is_words(RAISE, RAISE_WORDS) and is_words(FILL, FILL_WORDS)
    assert len(c.certificate_bytes(kernel(RAISE, RAISE_PASSED, RAISE_BLOCKS, version=2).certificate)) == 471
    for vlenb in LENGTHS:
        for name, expected, *changes in RAISE_CHANGES:
            passed, blocks = replaced(RAISE_PASSED + '|' + RAISE_BLOCKS, *changes).split('|')
            blocks = blocks.replace('1..15', '1..%d' % (vlenb - 1)).replace('0..16', '0..%d' % vlenb)
            case('bytes are raised: ' + name, expected, RAISE, passed, of_length(blocks, vlenb), vlenb)
        for name, expected, *changes in FILL_CHANGES:
            passed, blocks = replaced(FILL_PASSED + '|' + FILL_BLOCKS, *changes).split('|')
            case('rows are filled: ' + name, expected, FILL, passed, blocks, vlenb)
        # With 512 bits a row is one strip, and no way leads back.
        case('rows are filled: an order that the way back does not keep', 'accepted 387 389 11' if vlenb == 64 else 'OrderNotProved 00010020', FILL, FILL_PASSED,
             replaced(FILL_BLOCKS, ('x7 1..64', 'x7 1..64; x11 <= x7')), vlenb)
    for name, expected, *changes in RAISE_CODE:
        case('bytes are raised: ' + name, expected, replaced(RAISE, *changes), RAISE_PASSED, RAISE_BLOCKS)


# ---- How an order is shown ------------------------------------------------------------------------------------------------------------

FULL = 's 0 0xffffffff'


def shown_by(name, is_shown, text, passed, first, orders_, vlenb=16, more=''):
    """Straight code behind which a block states orders."""
    count = text.count(';') + 1
    told = 'accepted %d 0 0' % (count + 1) if is_shown else 'OrderNotProved %08x' % (HERE + 4 * count - 4)
    case('%s: %s; then %s' % (name, text, orders_), told, text + '; end: ret', passed, '0x10000 %d; R; %s\nend 1; R; %s%s' % (count + 1, first, orders_, more), vlenb)


def by_ends():
    for a, b, is_shown in (('3 7', '7 9', True), ('3 7', '6 9', False), ('7 7', '7 7', True), ('0 0', '0 0xffffffff', True), ('0 1', '0 0xffffffff', False),
                           ('0 0xffffffff', '0xffffffff 0xffffffff', True), ('0 0xffffffff', '0xfffffffe 0xffffffff', False), ('8 9', '0 7', False),
                           ('0x7fffffff 0x7fffffff', '0x80000000 0x80000000', True), ('0x80000000 0xffffffff', '0 0x7fffffff', False)):
        states = 'x10 %s; x11 %s' % tuple('..'.join(ends.split()) for ends in (a, b))
        states = states.replace('x10 0..0xffffffff; ', '').replace('; x11 0..0xffffffff', '')
        shown_by('ends', is_shown, 'nop', 's %s, s %s' % (a, b), states, 'x10 <= x11')
        told = 'accepted 1 0 0' if is_shown else 'OrderNotProved 00010000'
        case('ends at the entry: %s and %s' % (a, b), told, 'ret', 's %s, s %s' % (a, b), '0x10000 1; R; x10 <= x11')
    for passed, order, is_shown in (
            ('s 0 9', 'vl <= x10', True), ('s 0 0', 'x10 <= vl', True), ('s 0 1', 'x10 <= vl', False), ('', 'x5 <= x6', True), ('', 'x6 <= x5', True),
            ('', 'x2 <= x1', True), ('', 'x1 <= x2', False), ('', 'x5 <= vl', True), ('', 'vl <= x31', True), ('rw 1, rw 1', 'x10 <= x11', True),
            ('rw 1, rw 1', 'x11 <= x10', False), ('rw 1', 'x10 <= x2', False), ('rw 1', 'x2 <= x10', True), ('s 5 9, s 5 9', 'x10 <= x11', False)):
        case('an order at the entry: %s of %s' % (order, passed), 'accepted 1 0 0' if is_shown else 'OrderNotProved 00010000', 'ret', passed, '0x10000 1; R; ' + order)


def by_forms():
    some, more = 's 0 100, s 0 50', 'x10 0..100; x11 0..50'
    for text, passed, first, order, is_shown in (
            ('addi a2,a0,1', some, more, 'x10 <= x12', True), ('addi a2,a0,1', some, more, 'x12 <= x10', False), ('mv a2,a0', some, more, 'x10 <= x12', True),
            ('mv a2,a0', some, more, 'x12 <= x10', True), ('mv a2,a0', FULL, 'x11 0..0', 'x12 <= x10', True), ('mv a2,a0', FULL, 'x11 0..0', 'x10 <= x12', True),
            ('addi a2,a0,1', FULL, 'x11 0..0', 'x10 <= x12', False), ('addi a2,a0,1', 's 0 0xfffffffe', 'x10 0..0xfffffffe', 'x10 <= x12', True),
            ('addi a2,a0,-1', 's 1 100', 'x10 1..100', 'x12 <= x10', True), ('addi a2,a0,-1', 's 1 100', 'x10 1..100', 'x10 <= x12', False),
            ('addi a2,a0,-1', 's 0 100', 'x10 0..100', 'x12 <= x10', False), ('add a2,a0,a1', some, more, 'x10 <= x12', True),
            ('add a2,a0,a1', some, more, 'x11 <= x12', True), ('add a2,a0,a1', some, more, 'x12 <= x11', False),
            ('add a2,a0,a1', 's 0 0x80000000, s 0 0x7fffffff', 'x10 0..0x80000000; x11 0..0x7fffffff', 'x10 <= x12', True),
            ('add a2,a0,a1', 's 0 0x80000000, s 0 0x80000000', 'x10 0..0x80000000; x11 0..0x80000000', 'x10 <= x12', False),
            ('slli a2,a0,1', some, more, 'x10 <= x12', True), ('slli a2,a0,1', some, more, 'x12 <= x10', False),
            ('slli a2,a0,2; slli a3,a0,3', some, more, 'x12 <= x13', True), ('slli a2,a0,2; slli a3,a0,3', some, more, 'x13 <= x12', False),
            ('slli a2,a0,31', some, more, 'x10 <= x12', False), ('sub a2,a0,a1', 's 50 100, s 0 50', 'x10 50..100; x11 0..50', 'x12 <= x10', True),
            ('sub a2,a0,a1', 's 49 100, s 0 50', 'x10 49..100; x11 0..50', 'x12 <= x10', False), ('srli a2,a0,1', some, more, 'x12 <= x10', False),
            ('andi a2,a0,7', some, more, 'x12 <= x10', False), ('addi a2,a0,5; addi a3,a0,5', some, more, 'x12 <= x13', True),
            ('addi a2,a0,5; addi a3,a0,6', some, more, 'x13 <= x12', False), ('addi a2,a0,5; addi a3,a0,6', some, more, 'x12 <= x13', True),
            ('addi a2,a0,-5; addi a3,a0,-5', some, more, 'x12 <= x13', False), ('addi a2,a0,-5; mv a3,a2', 's 5 9', 'x10 5..9', 'x12 <= x13', True),
            ('addi a2,a0,-5; addi a3,a0,-4', 's 0 4', 'x10 0..4', 'x12 <= x13', False), ('addi a2,a0,-6; addi a3,a0,-5', 's 0 4', 'x10 0..4', 'x12 <= x13', True),
            ('addi a2,a0,-6; addi a3,a0,-5', 's 0 4', 'x10 0..4', 'x13 <= x12', False), ('addi a2,a0,-4', 's 0 3', 'x10 0..3', 'x10 <= x12', True),
            ('li a2,100', some, more, 'x10 <= x12', True), ('li a2,99', some, more, 'x10 <= x12', False), ('li a2,-1', FULL, 'x11 0..0', 'x10 <= x12', True),
            ('vsetvli t0,a0,e8,m1', some, more, 'vl <= x10', True), ('vsetvli t0,a0,e8,m1', some, more, 'x10 <= vl', False),
            ('vsetvli t0,a0,e8,m1', some, more, 'x5 <= x10', True), ('vsetvli t0,a0,e8,m1', some, more, 'x5 <= vl', True),
            ('vsetvli t0,a0,e8,m1', some, more, 'vl <= x5', True), ('vsetvli t0,a0,e8,m1', FULL, 'x11 0..0', 'vl <= x10', True),
            ('addi a2,a0,1; vsetvli t0,a2,e8,m1', some, more, 'vl <= x12', False), ('addi a2,a0,0; vsetvli t0,a2,e8,m1', some, more, 'vl <= x10', True),
            ('slli a2,a0,2; vsetvli t0,a0,e8,m1; slli t1,t0,2', some, more, 'x6 <= x12', True), ('vsetvli t0,a0,e8,m1; sub a2,a0,t0', some, more, 'x12 <= x10', True),
            ('vsetvli t0,a0,e8,m1; sub a2,a0,t0', some, more, 'x10 <= x12', False), ('vsetvli t0,a0,e8,m1; vsetvli t1,t0,e32,m1', some, more, 'x6 <= x5', True),
            ('vsetvli t0,a0,e8,m1; vsetvli t1,t0,e32,m1', some, more, 'x6 <= x10', False), ('vsetvli t0,a0,e8,m1; vsetvli t1,a0,e32,m1', some, more, 'x6 <= x10', True),
            ('vsetvli t0,a0,e8,m1; vsetvli t1,a0,e32,m1', some, more, 'x5 <= x10', False), ('vsetvli t0,a0,e8,m1; vsetivli x0,0,e8,m1', some, more, 'x5 <= x10', True)):
        for vlenb in LENGTHS if 'vset' in text else (16,):
            # 512 bits: all that is asked for is at most VLMAX or not, and 100 numbers of 8 bits are more.
            shown_by('forms', is_shown, text, passed, first, order, vlenb)
    # Intervals that are stated, of sums that may wrap: their ends show an order, the sums none.
    sums = 's 0 0xffffffff, s 0 0xffffffff, s 3 9'
    wrapping = 'ecall; second: %s; end: ret'
    for text, stated, order, expected in (
            ('nop', 'x10 0..5 = p0 + p1; x11 5..9', 'x10 <= x11', 'accepted'), ('nop', 'x10 0..6 = p0 + p1; x11 5..9', 'x10 <= x11', 'OrderNotProved'),
            ('addi a1,a0,1', 'x10 0..5 = p0 + p1', 'x10 <= x11', 'OrderNotProved'), ('mv a1,a0', 'x10 0..5 = p0 + p1', 'x10 <= x11', 'OrderNotProved'),
            ('mv a1,a0', 'x10 5..5 = p0 + p1', 'x10 <= x11', 'accepted'), ('addi a1,a0,1', 'x10 0..5 = p0', 'x10 <= x11', 'OrderNotProved'),
            ('addi a1,a0,1', 'x10 0..5 = p2', 'x10 <= x11', 'accepted'), ('mv a1,a0', 'x10 0..5 = p0', 'x10 <= x11', 'accepted'),
            ('mv a1,a0', 'x10 0..5 = 1 + p0', 'x10 <= x11', 'OrderNotProved')):
        told = 'accepted 1 0 0' if expected == 'accepted' else expected + ' 00010004'
        case('sums that may wrap: %s; %s' % (text, stated), told, wrapping % text, sums, '0x10000 1\nsecond 2; R; %s\nend 1; R; %s' % (stated, order))


# Which order of a0 and a1 a branch `NAME a0,a1` tells where it is taken, and where it is not.
LESSER_FIRST, GREATER_FIRST = 'x10 <= x11', 'x11 <= x10'
TOLD = {'beq': ((LESSER_FIRST, GREATER_FIRST), ()), 'bne': ((), (LESSER_FIRST, GREATER_FIRST)), 'blt': ((), ()), 'bge': ((), ()),
        'bltu': ((LESSER_FIRST,), (GREATER_FIRST,)), 'bgeu': ((GREATER_FIRST,), (LESSER_FIRST,))}


def by_branches():
    two_sides = '%s %s,far; near: ret; far: ret'
    for passed in (FULL + ', ' + FULL, 's 0 100, s 0 100', 's 0x80000000 0xffffffff, s 5 0x80000005'):
        a, b = ('..'.join(p.split()[1:]) for p in passed.split(', '))
        stated = '' if a == '0..0xffffffff' else '; x10 %s; x11 %s' % (a, b)
        for name, told in TOLD.items():
            for place, (side, other) in enumerate((('far', 'near'), ('near', 'far'))):
                for turned in (False, True):
                    for order in (LESSER_FIRST, GREATER_FIRST):
                        says = GREATER_FIRST if turned and order == LESSER_FIRST else LESSER_FIRST if turned else order
                        is_shown = says in told[place]
                        text = two_sides % (name, 'a1,a0' if turned else 'a0,a1')
                        case('%s: %s, %s' % (text, side, order), 'accepted 2 0 0' if is_shown else 'OrderNotProved 00010000', text, passed,
                             '\n'.join(['0x10000 2; R' + stated] + sorted(['%s 1; R; %s' % (side, order), '%s 1; R' % other], key=lambda s: s[0] == 'f')))
    # Both sides lead to one address, and each says its own.
    for name in TOLD:
        for order in (LESSER_FIRST, GREATER_FIRST):
            case('%s to what comes next, %s' % (name, order), 'OrderNotProved 00010000', '%s a0,a1,near; near: ret' % name, FULL + ', ' + FULL,
                 '0x10000 2; R\nnear 1; R; ' + order)
    for name in TOLD:
        case('%s to what comes next, by ends' % name, 'accepted 2 0 0', '%s a0,a1,near; near: ret' % name, 's 0 5, s 5 9',
             '0x10000 2; R; x10 0..5; x11 5..9\nnear 1; R; x10 <= x11')
    for text, order, passed, expected in (
            ('bltu a0,a0,far', 'x10 <= x11', FULL, 'OrderNotProved 00010000'), ('beq a0,a0,far', 'x10 <= x11', FULL, 'OrderNotProved 00010000'),
            ('bltu a0,a2,far', 'x10 <= x11', FULL, 'OrderNotProved 00010000'), ('bltu a2,a1,far', 'x10 <= x11', FULL, 'OrderNotProved 00010000'),
            ('bltu x0,a1,far', 'x10 <= x11', FULL, 'OrderNotProved 00010000'), ('beq a0,x0,far', 'x10 <= x11', FULL, 'accepted 2 0 0'),
            ('bltu a0,a1,far', 'x10 <= x11; x11 <= x12', FULL, 'OrderNotProved 00010000'), ('beq a0,a1,far', 'x10 <= x11; x11 <= x10', FULL, 'accepted 2 0 0'),
            ('blt a0,a1,far', 'x10 <= x11', 's 5 5', 'accepted 2 0 0'), ('blt a0,a1,far', 'x10 <= x11', 's 4 5', 'accepted 2 0 0'), ('blt a0,a1,far', 'x10 <= x11', 's 3 5', 'OrderNotProved 00010000'),
            ('bgeu a1,a0,far', 'x10 <= x11', 's 4 5', 'accepted 2 0 0'), ('bltu a1,a0,far', 'x10 <= x11', 's 0 0', 'accepted 2 0 0')):
        a = '..'.join(passed.split()[1:])
        stated = '' if a == '0..0xffffffff' else '; x10 %s; x11 0..9' % a
        case('%s and %s' % (text, order), expected, text + '; near: ret; far: ret', '%s, %s, %s' % (passed, 's 0 9' if stated else FULL, FULL),
             '0x10000 2; R%s\nnear 1; R\nfar 1; R; %s' % (stated, order))
    for order, expected in (('x5 <= x11', 'accepted 3 0 0'), ('vl <= x11', 'OrderNotProved 00010004'), ('x11 <= x5', 'OrderNotProved 00010004')):
        case('a branch by what vset gave, %s' % order, expected, 'vsetvli t0,a0,e8,m1; bltu t0,a1,far; near: ret; far: ret', FULL + ', ' + FULL,
             '0x10000 3; R\nnear 1; R\nfar 1; R; ' + order)
    # What a block states of other orders is no part of what a branch tells.
    for order, expected in (('x10 <= x11', 'accepted 2 0 0'), ('x11 <= x12', 'accepted 2 0 0'), ('x10 <= x12', 'OrderNotProved 00010000'), ('x12 <= x11', 'OrderNotProved 00010000')):
        case('a branch behind an order, %s' % order, expected, 'bltu a0,a1,far; near: ret; far: ret', 's 0 9, s 0 9, s 9 20',
             '0x10000 2; R; x11 <= x12\nnear 1; R\nfar 1; R; ' + order)
    # Jumps ask for orders too, and the end of a run for none.
    for text, cost in (('j end', 2), ('addi t0,ra,0; j end', 3), ('lui t0,0x10; jalr x0,t0,12', 3)):
        for order, told in (('x10 <= x11', 'accepted'), ('x11 <= x10', 'OrderNotProved')):
            last = HERE + 4 * (cost - 2)
            code = text + '; nop' * (4 - cost) + '; end: ret'
            case('%s, %s' % (text, order), 'accepted %d 0 0' % cost if told == 'accepted' else 'OrderNotProved %08x' % last, code.replace('jalr x0,t0,12', 'jalr x0,12(t0)'),
                 's 0 5, s 5 9', '0x10000 %d; R; x10 0..5; x11 5..9\nend 1; R; %s' % (cost, order))


# ---- What an order tells at the start of a block ----------------------------------------------------------------------------------------

# The second block is never reached, so that it may state anything.
APART = 'ecall; second: %s; end: ret'


def known_behind(name, text, stated, lo, hi, register='x5', vlenb=16):
    """Behind text, in a block that states so, the register's interval is known to be [lo, hi], exactly."""
    last = '%08x' % (HERE + 4 + 4 * text.count(';'))
    tried = [(lo, hi, 'accepted 1 0 0')]
    for a, b in ((lo + 1, max(hi, lo + 1)), (min(lo, hi - 1), hi - 1)):
        if 0 <= a <= b <= M32:
            tried.append((a, b, 'IntervalNotProved ' + last))
    for a, b, expected in tried:
        end = '' if (a, b) == c.FULL else '; %s %d..%d' % (register, a, b)
        case('%s: %s behind %s in %d..%d' % (name, text, stated, a, b), expected, APART % text, '', '0x10000 1\nsecond 9; R; %s\nend 1; R%s' % (stated, end), vlenb)


def starts_and_then(name, stated, order, is_shown, text='nop', vlenb=16):
    last = '%08x' % (HERE + 4 + 4 * text.count(';'))
    case('%s: %s behind %s; then %s' % (name, text, stated, order), 'accepted 1 0 0' if is_shown else 'OrderNotProved ' + last, APART % text, '',
         '0x10000 1\nsecond 40; R; %s\nend 1; R; %s' % (stated, order), vlenb)


def at_starts():
    for stated, lo, hi in (
            ('x10 10..100; x11 3..7; x11 <= x10', 3, 97), ('x10 0..100; x11 50..60; x11 <= x10', 0, 50), ('x10 0..100; x11 50..60', 0, M32),
            ('x11 5..0xffffffff; x11 <= x10', 0, M32 - 5), ('x10 0..9; x11 <= x10', 0, 9), ('x11 <= x10', 0, M32), ('x10 5..20; x11 0..5; x11 <= x10', 0, 20),
            ('x10 0..5; x11 5..20; x11 <= x10', 0, 0), ('x10 0..5; x11 6..20; x11 <= x10', M32 - 19, M32), ('x10 0..4; x11 5..20; x11 <= x10', M32 - 19, M32),
            ('x10 0..100; x11 50..60; x10 <= x11', 0, M32), ('x10 0..9; x11 0..9; x12 0..3; x12 <= x10', 0, M32), ('x10 0..100; x11 50..60; x11 <= x10; x12 <= x11', 0, M32),
            ('x10 0..100; x11 50..60; x11 <= x10; x10 <= x12', 0, 50), ('x10 7..7; x11 0..9; x11 <= x10', 0, 7), ('x10 0..0xfffffffe; x11 1..9; x11 <= x10', 0, M32 - 2)):
        known_behind('a difference', 'sub t0,a0,a1', stated, lo, hi)
    for text, stated, lo, hi in (
            ('slli t1,a1,1; sub t0,a0,t1', 'x10 0..5; x11 6..20; x11 <= x10', M32 - 39, M32 - 6), ('slli t1,a1,1; sub t0,a0,t1', 'x10 0..5; x11 5..20; x11 <= x10', M32 - 19, M32 - 4),
            ('sub t0,a1,a0', 'x10 0..100; x11 50..60; x11 <= x10', 0, M32), ('sub t0,a1,a0', 'x10 0..9; x11 0..9; x11 <= x10', 0, M32),
            ('sub t1,a0,a1; slli t0,t1,1', 'x10 0..100; x11 50..60; x11 <= x10', 0, 100), ('slli t1,a0,2; slli t2,a1,2; sub t0,t1,t2', 'x10 0..100; x11 50..60; x11 <= x10', 0, 200),
            ('sub t1,a0,a1; add t0,t1,a1', 'x10 0..100; x11 50..60; x11 <= x10', 50, 100), ('addi t1,a0,5; sub t0,t1,a1', 'x10 0..100; x11 50..60; x11 <= x10', 5, 55),
            ('addi t1,a0,-5; sub t0,t1,a1', 'x10 0..100; x11 50..60; x11 <= x10', 0, M32), ('add t0,a0,a1', 'x10 0..100; x11 50..60; x11 <= x10', 100, 160),
            ('mv t0,a0', 'x10 0..100; x11 50..60; x11 <= x10', 50, 100), ('nop', 'x5 0..100; x11 50..60; x11 <= x5', 50, 100), ('srli t0,a0,1', 'x10 0..100; x11 50..60; x11 <= x10', 25, 50),
            ('nop', 'x5 0..100; x11 30..60; x12 40..70; x11 <= x5; x12 <= x11', 30, 100),
            ('srli t0,a1,1', 'x10 0..10; x11 4..60; x11 <= x10', 2, 30), ('mv t0,a1', 'x10 0..10; x11 5..60; x11 <= x10', 5, 60),
            ('csrrs t1,vl,x0; sub t0,a0,t1', 'x10 0..100; vl 3..16; vl <= x10', 0, 97), ('csrrs t1,vl,x0; sub t0,t1,a0', 'x10 0..100; vl 3..16; x10 <= vl', 0, 16),
            ('mv t0,a2', 'x10 0..100; x11 50..60; x12 = x10 - 1 x11; x11 <= x10', 0, 50), ('mv t0,a2', 'x10 0..100; x11 50..60; x12 = x10 - 1 x11', 0, M32),
            ('mv t0,a2', 'x10 0..100; x11 50..60; x12 9..70 = x10 - 1 x11; x11 <= x10', 9, 50), ('mv t0,a2', 'x10 0..100; x11 50..60; x12 60..70 = x10 - 1 x11; x11 <= x10', 60, 70),
            ('mv t0,a2', 'x10 0..100; x11 50..60; x12 = 7 + 2 x10 - 2 x11; x11 <= x10', 7, 107)):
        known_behind('numbers', text, stated, lo, hi)
    for stated, lo, hi in (
            ('x10 0..100; x11 50..60; x12 = x10 - 1 x11; x11 <= x10', 0, 50), ('x10 0..100; x11 50..60; x12 = x10 - 1 x11', 0, M32), ('x10 0..100; x11 50..60; x12 9..70 = x10 - 1 x11; x11 <= x10', 9, 50),
            ('x10 0..100; x11 50..60; x12 60..70 = x10 - 1 x11; x11 <= x10', 60, 70), ('x10 0..100; x11 50..60; x12 0..200 = x10; x11 <= x10', 50, 100), ('x10 0..100; x11 50..60; x12 0..200 = x11; x11 <= x10', 50, 60)):
        known_behind('a sum of the start', 'nop', stated, lo, hi, 'x12')
    orders()
    with_vset()
    accesses()


def orders():
    some = 'x10 0..100; x11 0..100; x12 0..100'
    for stated, order, is_shown in (
            ('x11 <= x10; x12 <= x11', 'x11 <= x10; x12 <= x11', False), ('x11 <= x10; x12 <= x11', 'x11 <= x10', False), ('x11 <= x10; x12 <= x11', 'x12 <= x11', True),
            ('x11 <= x10; x12 <= x11', 'x12 <= x10', False), ('x12 <= x10; x12 <= x11', 'x12 <= x10; x12 <= x11', True), ('x12 <= x10; x12 <= x11', 'x11 <= x10', False),
            ('x10 <= x11; x11 <= x10', 'x10 <= x11; x11 <= x10', False), ('x10 <= x11; x11 <= x10', 'x10 <= x11', False), ('x10 <= x11; x11 <= x10', 'x11 <= x10', False),
            ('x10 <= x11; x11 <= x12; x12 <= x10', 'x10 <= x11', False), ('x10 <= x11; x11 <= x12; x12 <= x10', 'x11 <= x12', False),
            ('x11 <= x10', 'x11 <= x10', True), ('x11 <= x10', 'x10 <= x11', False), ('x11 <= x10', 'x12 <= x10', False), ('x11 <= x10', 'x11 <= x12', False),
            ('vl <= x10', 'vl <= x10', True), ('x10 <= vl', 'x10 <= vl', True), ('x10 <= vl', 'vl <= x10', False), ('vl <= x10; vl <= x11', 'vl <= x10; vl <= x11', True),
            ('x10 <= vl; x11 <= x10', 'x11 <= x10', True), ('x10 <= vl; x11 <= x10', 'x10 <= vl', False), ('x5 <= x31', 'x5 <= x31', True), ('x31 <= x1', 'x31 <= x1', True)):
        starts_and_then('an order that stays', stated, order, is_shown)
        # The same with what is known of the numbers.
        if 'x31' not in stated and 'vl' not in stated:
            starts_and_then('an order that stays', some + '; ' + stated, order, is_shown)
    for stated, order, is_shown in (
            ('x10 5..5; x11 5..5; x10 <= x11; x11 <= x10', 'x10 <= x11; x11 <= x10', True), ('x10 0..5; x11 5..9; x10 <= x11; x11 <= x10', 'x10 <= x11', True),
            ('x10 0..5; x11 5..9; x10 <= x11; x11 <= x10', 'x11 <= x10', False), ('x10 0..5; x11 6..9; x11 <= x10', 'x11 <= x10', False),
            ('x10 0..5; x11 5..9; x11 <= x10', 'x11 <= x10', True), ('x10 20..90; x11 10..20; x12 0..10; x11 <= x10; x12 <= x11', 'x11 <= x10; x12 <= x11', True),
            ('x10 20..90; x11 10..21; x12 0..10; x11 <= x10; x12 <= x11', 'x11 <= x10', False)):
        starts_and_then('an order that stays, by what is stated', stated, order, is_shown)
    for text, stated, order, is_shown in (
            ('addi a0,a0,1', some + '; x11 <= x10', 'x11 <= x10', True), ('addi a0,a0,1', 'x11 <= x10', 'x11 <= x10', False), ('addi a0,a0,-1', some + '; x11 <= x10', 'x11 <= x10', False),
            ('addi a0,a0,1; addi a1,a1,1', some + '; x11 <= x10', 'x11 <= x10', True), ('addi a1,a1,1', some + '; x11 <= x10', 'x11 <= x10', False),
            ('mv a0,a1', some + '; x11 <= x10', 'x10 <= x11', True), ('mv a2,a0', some + '; x11 <= x10', 'x11 <= x12', True), ('mv a2,a1; mv a1,a0', some + '; x11 <= x10', 'x12 <= x11', True),
            ('add a0,a0,a2; add a1,a1,a2', some + '; x11 <= x10', 'x11 <= x10', True), ('slli a0,a0,2; slli a1,a1,2', some + '; x11 <= x10', 'x11 <= x10', True),
            ('slli a0,a0,2; slli a1,a1,1', some + '; x11 <= x10', 'x11 <= x10', True), ('slli a0,a0,1; slli a1,a1,2', some + '; x11 <= x10', 'x11 <= x10', False),
            ('slli a0,a0,30; slli a1,a1,30', some + '; x11 <= x10', 'x11 <= x10', False), ('sub a0,a0,a1', some + '; x11 <= x10', 'x10 <= x13', False),
            ('mv a3,a0; sub a0,a0,a1', some + '; x11 <= x10', 'x10 <= x13', True), ('mv a3,a0; sub a0,a0,a1', some, 'x10 <= x13', False),
            ('sub a3,a2,a1; sub a4,a2,a0', 'x12 100..200; x10 0..100; x11 0..100; x11 <= x10', 'x14 <= x13', True), ('sub a3,a2,a1; sub a4,a2,a0', 'x12 100..200; x10 0..100; x11 0..100; x11 <= x10', 'x13 <= x14', False),
            ('srli a0,a0,1; srli a1,a1,1', some + '; x11 <= x10', 'x11 <= x10', False), ('lui a0,0x40000', some + '; x11 <= x10', 'x11 <= x10', True)):
        starts_and_then('an order behind a word', stated, order, is_shown, text)
    cut = 'ecall; second: add a3,a0,a2; add a4,a1,a2; li t0,40; bltu a0,t0,far; near: ret; far: ret'
    stated = 'x10 0..100; x11 50..60; x12 0..1000; x11 <= x10'
    for order in ('x11 <= x10', 'x10 <= x11', 'x14 <= x13', 'x13 <= x14'):
        # x10 is 50 at least, and its branch can't be taken.
        case('a branch that an order leaves out, %s' % order, 'accepted 1 0 0', cut, '', '0x10000 1\nsecond 9; R; %s\nnear 1; R\nfar 1; R; %s' % (stated, order))
    # A branch cuts the intervals of atoms, and then both sums of a difference need not meet: its own is taken.
    cut = 'ecall; second: add a3,a0,a2; add a4,a1,a2; li t0,56; bgeu a1,t0,far; near: ret; far: ret'
    stated = 'x10 0..55; x11 50..60; x12 0..1000; x11 <= x10'
    for order, told in (('x11 <= x10', 'OrderNotProved 00010010'), ('x10 <= x11', 'accepted 1 0 0'), ('x14 <= x13', 'OrderNotProved 00010010'), ('x13 <= x14', 'accepted 1 0 0')):
        case('sums that do not meet where the lesser number is cut, %s' % order, told, cut, '', '0x10000 1\nsecond 9; R; %s\nnear 1; R\nfar 1; R; %s' % (stated, order))
    # Nine terms after the splits.
    greater, lesser = [n for n in range(11, 19)], [n for n in range(21, 29)]
    pairs = '; '.join('x%d <= x%d' % both for both in zip(lesser, greater))
    known_ = '; '.join('x%d 0..100' % n for n in greater + lesser)
    added = lambda to, registers: '; '.join(['mv x%d,x%d' % (to, registers[0])] + ['add x%d,x%d,x%d' % (to, to, n) for n in registers[1:]])
    for count in range(4, 9):
        text = added(5, greater) + '; ' + added(6, lesser[:count])
        starts_and_then('%d terms behind splits' % (16 - count), known_ + '; ' + pairs, 'x6 <= x5', True, text)
        starts_and_then('%d terms behind splits' % (16 - count), known_ + '; ' + pairs, 'x5 <= x6', False, text)
    # As many orders as there are.
    zero = '; '.join('vl <= x%d' % n for n in range(1, 32))
    for more, told in (('', 'accepted 1 0 0'), ('; x5 <= vl', 'accepted 1 0 0'), ('; x1 <= vl', 'OrderNotProved 00010000')):
        case('%d orders at the entry' % (zero + more).count('<='), told, 'ret', '', '0x10000 1; R; ' + zero + more)
    starts_and_then('31 orders', zero, zero, True)
    starts_and_then('32 orders', zero + '; x5 <= vl', zero + '; x5 <= vl', False)
    starts_and_then('32 orders', zero + '; x5 <= vl', 'vl <= x6', False)
    starts_and_then('32 orders', zero + '; x5 <= vl', 'x5 <= vl', False)
    starts_and_then('32 orders', 'x5 0..0; vl 3..3; ' + zero + '; x5 <= vl', zero.replace('vl <= x5; ', '') + '; x5 <= vl', True)
    below = '; '.join('x10 <= x%d' % n for n in range(1, 32) if n != 10) + '; x10 <= vl'
    starts_and_then('31 orders of a register', below, below, True)
    starts_and_then('31 orders of a register', below, below + '; vl <= x10', False)


def with_vset():
    for vlenb in LENGTHS:
        for stated, order, is_shown, text in (
                ('x10 0..100; x11 0..100; x11 <= x10', 'x11 <= x10', False, 'vsetvli t0,a0,e8,m1'), ('x10 0..100; x11 0..100; x11 <= x10', 'x11 <= x10', False, 'vsetvli t0,a1,e8,m1'),
                ('x10 0..100; x11 0..100; x11 <= x10', 'vl <= x10', True, 'vsetvli t0,a0,e8,m1'), ('x10 0..100; x11 0..100; x11 <= x10', 'vl <= x11', True, 'vsetvli t0,a1,e8,m1'),
                ('x10 0..100; x11 0..100; x11 <= x10', 'vl <= x10', False, 'vsetvli t0,a1,e8,m1'), ('x10 0..100; x11 0..100; x11 <= x10', 'vl <= x11', False, 'vsetvli t0,a0,e8,m1'),
                ('x10 0..100; x11 0..100; x11 <= x10', 'x11 <= x10', True, 'vsetivli t0,9,e8,m1'), ('x10 0..100; x11 0..100; x11 <= x10', 'x11 <= x10', True, 'mv a2,a0; addi a2,a2,1; vsetvli t0,a2,e8,m1'),
                ('vl <= x10', 'vl <= x10', False, 'vsetivli t0,1,e8,m1'), ('x10 1..100; vl <= x10', 'vl <= x10', True, 'vsetivli t0,1,e8,m1'),
                ('x10 0..100; vl <= x10', 'vl <= x10', True, 'vsetivli t0,0,e8,m1'), ('x10 0..100; vl <= x10', 'vl <= x10', False, 'vsetvli t0,x0,e8,m1'),
                ('x10 0..100; vl <= x10', 'vl <= x10', True, 'vsetvli t0,a0,e8,m1'), ('vl <= x10', 'vl <= x10', False, 'vsetvli x0,x0,e8,m1'), ('vl <= x10', 'vl <= x10', True, 'vsetvli t0,x0,e64,m1'),
                ('x10 <= vl', 'x10 <= vl', False, 'vsetvli t0,x0,e8,m1'), ('x10 <= vl; x10 0..%d' % vlenb, 'x10 <= vl', True, 'vsetvli t0,x0,e8,m1'),
                ('x10 <= vl; x10 0..%d' % (vlenb + 1), 'x10 <= vl', False, 'vsetvli t0,x0,e8,m1'), ('x10 0..%d' % (8 * vlenb), 'x10 <= vl', True, 'vsetvli t0,x0,e8,m8'),
                ('x10 0..%d' % (8 * vlenb + 1), 'x10 <= vl', False, 'vsetvli t0,x0,e8,m8'), ('x10 0..%d; x11 0..9' % (vlenb // 4), 'x10 <= vl', True, 'vsetvli t0,a0,e32,m1'),
                ('x10 0..%d; x11 0..9' % (vlenb // 4 + 1), 'x10 <= vl', False, 'vsetvli t0,a0,e32,m1')):
            starts_and_then('vset', stated, order, is_shown, text, vlenb)
        # The greater number is split into vl and a rest in place of the lesser and a rest.
        for text, stated, lo, hi in (
                ('vsetvli t1,a0,e8,m1; sub t0,a0,t1', 'x10 1..100; x11 0..100; x11 <= x10', 0, 100 - vlenb), ('vsetvli t1,a0,e8,m1; sub t0,a0,a1', 'x10 1..100; x11 0..100; x11 <= x10', 0, M32),
                ('vsetvli t1,a1,e8,m1; sub t0,a0,a1', 'x10 1..100; x11 0..100; x11 <= x10', 0, M32), ('vsetvli t1,a1,e8,m1; sub t0,a1,t1', 'x10 1..100; x11 0..100; x11 <= x10', 0, 100 - vlenb),
                ('vsetvli t1,a2,e8,m1; sub t0,a0,a1', 'x10 1..100; x11 0..100; x11 <= x10', 0, 100), ('csrrs t1,vl,x0; sub t0,a0,t1', 'x10 1..100; vl 0..%d; vl <= x10' % vlenb, 0, 100)):
            known_behind('vset', text, stated, lo, hi, vlenb=vlenb)
    for stated, order, is_shown, text in (
            ('vtype=e8,m1', 'vl <= x10', True, 'vsetvli x0,x0,e8,m1'), ('vtype=e8,m1', 'vl <= x10', True, 'vsetvli x0,x0,e16,m2'), ('vtype=e8,m1', 'vl <= x10', False, 'vsetvli x0,x0,e16,m1')):
        case('a length that is kept: %s' % text, 'accepted 1 0 0' if is_shown else 'OrderNotProved 00010004', APART % text, '', '0x10000 1\nsecond 9 %s; R; vl <= x10\nend 1; R; %s' % (stated, order))


def accesses():
    """Stores of vl elements, by an order of vl."""
    for vlenb in LENGTHS:
        for size, order, expected in (
                (100, '; vl <= x11', 'accepted 1 0 0'), (99, '; vl <= x11', 'AccessNotProved 00010004'), (100, '', 'AccessNotProved 00010004'), (100, '; x11 <= vl', 'AccessNotProved 00010004'),
                (99 + vlenb, '', 'accepted 1 0 0'), (98 + vlenb, '', 'AccessNotProved 00010004'), (99 + vlenb, '; x11 <= vl', 'accepted 1 0 0')):
            # The pointer moves by what is gone of x11, which is 1 at least.
            case('a store of vl bytes%s, in %d' % (order, size), expected, APART % 'vse8.v v8,(a0)', 'rw %d' % size,
                 '0x10000 1\nsecond 9 vtype=e8,m1; R; x10 = 0x40000064 - 1 x11; x11 1..100; vl 0..%d%s\nend 1; R' % (vlenb, order), vlenb)
        for width in (8, 16, 32):
            for short in (0, 1):
                case('a load of vl elements of %d bits, %d short' % (width, short), 'AccessNotProved 00010004' if short else 'accepted 1 0 0', APART % ('vle%d.v v8,(a0)' % width),
                     'r %d' % (100 * width // 8 - short), '0x10000 1\nsecond 9 vtype=e%d,m1; R; x10 = %d - %d x11; x11 1..100; vl 0..%d; vl <= x11\nend 1; R'
                     % (width, 0x40000000 + 100 * width // 8, width // 8, 8 * vlenb // width), vlenb)


# ---- Edges, in their order --------------------------------------------------------------------------------------------------------------

def order_of_rules():
    for facts, expected in (
            ('x10 0..9; x11 0..9', 'accepted'), ('x10 0..9; x11 0..9; x11 <= x10', 'OrderNotProved'), ('x10 0..8; x11 <= x10', 'IntervalNotProved'), ('x12 0..9 = 3; x11 <= x10', 'EqualityNotProved'),
            ('x12 0..9 = 4; x11 <= x10', 'OrderNotProved'), ('v8*1 e8 0..5; x11 <= x10', 'OrderNotProved'), ('v8*1 e8 0..5; x10 <= x1', 'VectorFactNotProved'), ('x12 0..9 = 3; v8*1 e8 0..5', 'EqualityNotProved')):
        for cost in (2, 3):
            told = 'accepted 3 0 0' if expected == 'accepted' else expected + ' 00010004'
            told = 'BudgetNotProved 00010004' if expected == 'accepted' and cost == 3 else told
            case('rules in their order: %s, %d' % (facts, cost), told, 'li a2,4; nop; end: ret', 's 0 9, s 0 9', '0x10000 3; R; x10 0..9; x11 0..9\nend %d; R; %s' % (cost - 1, facts))
    for vtype, expected in (('e8,m1', 'OrderNotProved 00010000'), ('e8,m2', 'VtypeUnknown 00010000')):
        case('vtype comes before orders: ' + vtype, expected, 'vsetvli t0,a0,e8,m1; end: ret', 's 0 9, s 0 9', '0x10000 2; R; x10 0..9; x11 0..9\nend 1 vtype=%s; R; x11 <= x10' % vtype)
    case('no block comes before orders', 'TargetNotABlock 00010000', 'j 0x10008; end: ret', 's 0 9', '0x10000 2; R; x10 0..9\nend 1; R; x11 <= x10')
    case('the first order that is not shown', 'OrderNotProved 00010000', 'nop; end: ret', 's 0 9, s 0 9', '0x10000 2; R\nend 1; R; x10 <= x1; x11 <= x10; x10 <= x12')


# ---- Bytes ------------------------------------------------------------------------------------------------------------------------------

BLOCK = 104             # where the first block begins: start, c, k, k2, r, r2, vtype known, vtype, three counts, 0
K2, R, R2, REGISTERS, VECTORS, ORDERS, ZERO, FACTS = (BLOCK + at for at in (12, 16, 17, 20, 21, 22, 23, 24))
SMALL = '0x10000 2 3*x10 5*x12; R; x5 0..9 = x6; vl <= x10; x10 <= x12'
RIGHT = 'accepted 2 3 10 5 12'


def spelled(name, expected, changes, stated=SMALL, cut=None):
    """The bytes of a small certificate with some of them changed, perhaps up to `cut`."""
    k = kernel('nop; ret', '', stated, version=2)
    data = bytearray(c.certificate_bytes(k.certificate))
    for at, value in changes.items():
        data[at] = value
    row('%s: %s' % (name, ', '.join('%d at %d' % (value, at) for at, value in changes.items()) or stated), file_of(k, bytes(data[:cut])), 16,
        expected if ' ' in expected else 'certificate ' + expected)


def spellings():
    size = len(c.certificate_bytes(kernel('nop; ret', '', SMALL, version=2).certificate))
    pairs = size - 4
    spelled('as it is', RIGHT, {})
    # s and r, each told at its byte: whether bytes are missing behind it plays no part.
    for s in (0, 5, 33, 255):
        spelled('a wrong s', 'Order', {pairs: s})
        spelled('a wrong s, and no more', 'Order', {pairs: s}, cut=pairs + 1)
    for s in (0, 5, 9, 10, 33):
        spelled('a wrong second s', 'Order', {pairs + 2: s})
        spelled('a wrong second s, and no more', 'Order', {pairs + 2: s}, cut=pairs + 3)
    for r in (0, 5, 10, 33, 255):
        spelled('a wrong r', 'Order', {pairs + 1: r})
        spelled('a wrong r, and no more', 'Order', {pairs + 1: r}, cut=pairs + 2)
    for r in (0, 5, 12, 33):
        spelled('a wrong second r', 'Order', {pairs + 3: r})
    spelled('s and no more', 'Short', {}, cut=pairs + 1)
    spelled('one order and no more', 'Short', {}, cut=pairs + 2)
    spelled('one s and no more', 'Short', {pairs: 11}, cut=pairs + 1)
    for s, r in ((1, 32), (32, 1), (31, 30), (32, 31), (11, 6)):
        spelled('s and r at their ends', RIGHT if (s, r) in ((1, 32), (11, 6)) else 'Order', {pairs: s, pairs + 1: r})
    for s, r, told in ((12, 32, 'Order'), (11, 32, RIGHT), (32, 11, 'Order')):
        spelled('a first order before the second', told, {pairs: s, pairs + 1: r})
    spelled('an s of 32', RIGHT, {pairs + 2: 32})
    # An atom that has a sum of its own is told after the orders.
    equated = '0x10000 2; x5 0..9 = x6; x6 0..9 = 3; vl <= x10'
    spelled('an atom with a sum of its own', 'Equality', {}, equated)
    last = len(c.certificate_bytes(kernel('nop; ret', '', equated, version=2).certificate))
    spelled('an atom with a sum of its own, and a wrong s', 'Order', {last - 2: 0}, equated)
    spelled('an atom with a sum of its own, and a wrong r', 'Order', {last - 1: 6}, equated)
    spelled('an atom with a sum of its own, and no r', 'Short', {}, equated, cut=last - 1)
    spelled('an atom with a sum of its own, and a byte more', 'Equality', {REGISTERS: 2}, equated)
    # Counts.
    for count, told in ((3, 'Short'), (1, 'TrailingBytes'), (0, 'TrailingBytes'), (32, 'Short'), (33, 'TooMany'), (255, 'TooMany')):
        spelled('a count of orders', told, {ORDERS: count})
    for at, value, told in ((REGISTERS, 33, 'TooMany'), (VECTORS, 33, 'TooMany'), (ORDERS, 33, 'TooMany'), (ZERO, 1, 'TooMany'), (ORDERS, 32, 'Short'), (ZERO, 0, 'Short')):
        spelled('a count or a zero, and no more', told, {at: value}, cut=at + 1)
    # Budgets.
    for k, k2, r, r2, told in (
            (3, 5, 10, 12, None), (3, 5, 10, 11, None), (3, 5, 10, 10, 'Budget'), (3, 5, 10, 9, 'Budget'), (3, 5, 10, 31, None), (3, 5, 10, 32, 'Budget'), (3, 5, 10, 0, 'Budget'),
            (3, 5, 31, 32, 'Budget'), (3, 5, 31, 31, 'Budget'), (3, 5, 31, 0, 'Budget'), (3, 5, 30, 31, None), (3, 5, 1, 2, None), (3, 5, 0, 12, 'Budget'), (3, 5, 32, 12, 'Budget'),
            (3, 0, 10, 0, None), (3, 0, 10, 12, 'Budget'), (3, 0, 31, 0, None), (0, 0, 0, 0, None), (0, 0, 0, 12, 'Budget'), (0, 0, 10, 0, 'Budget'), (0, 5, 0, 12, 'Budget'),
            (0, 5, 0, 0, 'Budget'), (0, 5, 10, 12, 'Budget'), (3, 1, 10, 255, 'Budget'), (3, 1, 255, 12, 'Budget')):
        answer = 'accepted 2 %d %d' % (k, r) + (' %d %d' % (k2, r2) if k2 else '')
        spelled('a budget', told or answer, {K2 - 4: k, K2: k2, R: r, R2: r2})
    for at, value, told in (
            (K2 - 4, 0, 'Short'), (K2 + 3, 1, 'Short'), (R, 10, 'Short'), (R, 0, 'Budget'), (R, 32, 'Budget'), (R2, 12, 'Short'), (R2, 10, 'Budget'), (R2, 32, 'Budget'), (R2, 0, 'Budget')):
        spelled('a budget, and no more', told, {at: value}, cut=at + 1)
    for at in range(4):
        spelled('a k2 without k, and no more', 'Budget', {K2 - 4: 0, K2: 0, K2 + at: 1}, cut=K2 + 4)
        spelled('a k2 without k in part', 'Short', {K2 - 4: 0}, cut=K2 + at)
        spelled('a k2 in part', 'Short', {}, cut=K2 + at)
    spelled('a k2 without k, and a wrong r', 'Budget', {K2 - 4: 0, R: 99})
    spelled('no k2 and no k', 'Budget', {K2 - 4: 0, K2: 0}, cut=R + 1)
    spelled('a k and a k2 of their fourth bytes', 'accepted 2 16777216 10 33554432 12', {K2 - 4: 0, K2 - 1: 1, K2: 0, K2 + 3: 2})
    spelled('a vtype that is none', 'Fact', {R2 + 1: 2}, cut=R2 + 2)
    spelled('a vtype that is not known', 'Fact', {R2 + 2: 1}, cut=R2 + 3)
    # Versions and lengths.
    for at, value in ((0, 0), (0, 3), (1, 1), (1, 2), (2, 0), (2, 4), (2, 255), (3, 1)):
        spelled('a version or a length', 'Version', {at: value})
        spelled('a version or a length, and no more', 'Version' if at else 'Short', {at: value}, cut=at + 1)
    k = kernel('nop; ret', '', SMALL, version=2)
    data = c.certificate_bytes(k.certificate)
    for value in (2, 3):
        row('a length of %d' % value, file_of(k, data[:2] + bytes([value]) + data[3:]), 16, 'WrongVlen')
    # Bytes of one version under the number of the other.
    for version, text, passed, blocks, told in (
            (1, RAISE, RAISE_PASSED, RAISE_BLOCKS.replace('; vl <= x11', ''), 'Budget'), (2, RAISE, RAISE_PASSED, RAISE_BLOCKS, 'Budget'), (2, FILL, FILL_PASSED, FILL_BLOCKS, 'Budget'),
            (1, 'nop; ret', '', '0x10000 2; R', 'Budget'), (1, 'nop; ret', '', '0x10000 2', 'Short'), (2, 'nop; ret', '', '0x10000 2; R', 'TrailingBytes')):
        k = kernel(text, passed, blocks, version=version)
        row('bytes of version %d' % version, file_of(k, bytes([3 - version]) + c.certificate_bytes(k.certificate)[1:]), 16, 'certificate ' + told)
    # Every end of the bytes.
    whole = kernel('nop; ret', '', SMALL, version=2)
    for end in range(100, size):
        row('the first %d bytes' % end, file_of(whole, data[:end]), 16, 'certificate Short')
    row('a byte more', file_of(whole, data + b'\0'), 16, 'certificate TrailingBytes')
    # 32 orders and 33.
    for count in (31, 32, 33):
        all_ = tuple(c.OrderFact(n, 32 if n < 32 else 5) for n in range(1, min(count, 32) + 1))
        k = kernel('ret', '', '0x10000 1; R', version=2)
        block = k.certificate.blocks[0]._replace(orders=all_ + (c.OrderFact(33, 5),) * (count - len(all_)))
        k = k._replace(certificate=k.certificate._replace(blocks=[block]))
        row('%d orders' % count, file_of(k), 16, 'certificate TooMany' if count == 33 else 'accepted 1 0 0')


# ---- Budgets of two registers -----------------------------------------------------------------------------------------------------------

def pays(name, own, next_, least, text='nop', passed='s 2 10, s 3 20', first='x10 2..10; x11 3..20', second='x10 2..10; x11 3..20', vlenb=16):
    """`least` is the least constant that is enough."""
    last = '%08x' % (HERE + 4 * text.count(';'))
    for constant, told in ((least, None), (least - 1, 'BudgetNotProved ' + last), (least + 1, None)):
        if 0 <= constant <= M32:
            entry = ' '.join('%s %s' % tuple(part.split('*x')) for part in own.split())
            answer = 'accepted %d %s' % (constant, entry or '0 0')
            case('%s: %d %s for %s behind %s' % (name, constant, own, next_, text), told or answer, text + '; end: ret', passed,
                 '0x10000 %d %s; R; %s\nend %s; R; %s' % (constant, own, first, next_, second), vlenb)


def budgets():
    for vlenb in LENGTHS:
        for own, next_, least in (
                ('', '3', 4), ('5*x10 7*x11', '3 5*x10 7*x11', 4), ('4*x10 7*x11', '3 5*x10 7*x11', 14), ('5*x10 6*x11', '3 5*x10 7*x11', 24), ('4*x10 6*x11', '3 5*x10 7*x11', 34),
                ('6*x10 7*x11', '9 5*x10 7*x11', 8), ('5*x10 8*x11', '9 5*x10 7*x11', 7), ('6*x10 8*x11', '9 5*x10 7*x11', 5), ('6*x10 6*x11', '9 5*x10 7*x11', 28),
                ('4*x10 8*x11', '9 5*x10 7*x11', 17), ('5*x10', '3 5*x10 7*x11', 144), ('7*x11', '3 5*x10 7*x11', 54), ('', '3 5*x10 7*x11', 194), ('5*x10 7*x11', '40', 10),
                ('5*x10 7*x11', '40 5*x10', 20), ('5*x10 7*x11', '40 7*x11', 31), ('5*x10 7*x11', '40 6*x10', 30), ('1*x10 1*x11', '3 1*x10 1*x11', 4)):
            pays('products', own, next_, least, vlenb=vlenb)
    for text, second, own, next_, least in (
            ('addi a0,a0,-1', 'x10 1..9; x11 3..20', '5*x10 7*x11', '9 5*x10 7*x11', 5), ('addi a1,a1,-1', 'x10 2..10; x11 2..19', '5*x10 7*x11', '9 5*x10 7*x11', 3),
            ('addi a0,a0,1', 'x10 3..11; x11 3..20', '5*x10 7*x11', '9 5*x10 7*x11', 15), ('addi a0,a0,-1; addi a1,a1,-2', 'x10 1..9; x11 1..18', '5*x10 7*x11', '20 5*x10 7*x11', 3),
            ('mv t0,a0; mv a0,a1; mv a1,t0', 'x10 3..20; x11 2..10', '5*x10 7*x11', '9 7*x10 5*x11', 12), ('mv t0,a0; mv a0,a1; mv a1,t0', 'x10 3..20; x11 2..10', '5*x10 7*x11', '9 5*x10 7*x11', 26),
            ('mv a2,a0; mv a3,a1', 'x12 2..10; x13 3..20', '5*x10 7*x11', '9 5*x12 7*x13', 11), ('add a2,a0,a1', 'x12 5..30', '5*x10 5*x11', '9 5*x12', 10), ('add a2,a0,a1', 'x11 3..20; x12 5..30', '5*x10 7*x11', '9 2*x11 5*x12', 10),
            ('slli a2,a0,1', 'x11 3..20; x12 4..20', '6*x10 7*x11', '9 7*x11 3*x12', 10), ('slli a2,a0,1', 'x11 3..20; x12 4..20', '5*x10 7*x11', '9 7*x11 3*x12', 20),
            ('sub a1,a1,a0', 'x10 2..10', '5*x10 7*x11', '9 5*x10', 0), ('andi a2,a0,7', 'x11 3..20; x12 0..7', '5*x10 7*x11', '9 7*x11 1*x12', 7),
            ('andi a2,a0,7', 'x11 3..20; x12 0..7', '5*x10 7*x11', '50 7*x11 5*x12', 76), ('li a0,4', 'x10 4..4; x11 3..20', '5*x10 7*x11', '9 5*x10 7*x11', 20), ('li a0,2', 'x10 2..2; x11 3..20', '5*x10 7*x11', '9 5*x10 7*x11', 10)):
        pays('numbers that change', own, next_, least, text, second=second)
    # Sums that may wrap have no range, and then intervals alone count, of all of the numbers.
    wide = 'x10 0..100 = p0 + p1; x11 3..20'
    for vlenb in LENGTHS:
        for own, next_, c_, told in (
                ('3*x10 7*x11', '9 3*x10 7*x11', 10, False), ('3*x10 7*x11', '9 3*x10 7*x11', 428, False), ('3*x10 7*x11', '9 3*x10 7*x11', 429, True), ('7*x11', '9 7*x11', 10, True), ('7*x11', '9 7*x11', 9, False),
                ('3*x10 7*x11', '9 7*x11', 128, False), ('3*x10 7*x11', '9 7*x11', 129, True), ('7*x11', '9 3*x10 7*x11', 428, False), ('7*x11', '9 3*x10 7*x11', 429, True), ('3*x10 7*x11', '9', 0, True), ('3*x10 7*x11', '30', 9, False),
                ('3*x10 7*x11', '30', 10, True), ('3*x10', '9', 9, False), ('3*x10', '9', 10, True), ('3*x5 1*x11', '9 1*x11', 9, False), ('3*x5 1*x11', '9 1*x11', 10, True), ('1*x11 3*x12', '9 1*x11', 10, True),
                ('1*x11 3*x12', '9 1*x11', 9, False), ('1*x11 1*x12', '1 1*x11 1*x12', 2, True), ('1*x11 1*x12', '1 1*x11 1*x12', 1, False)):
            case('sums that may wrap: %d %s for %s' % (c_, own, next_), 'accepted 1 0 0' if told else 'BudgetNotProved 00010004', APART % 'nop', FULL + ', ' + FULL,
                 '0x10000 1\nsecond %d %s; R; %s\nend %s; R' % (c_, own, wide, next_), vlenb)
    # The greatest numbers.
    top = 4294967295
    for own, next_, c_, told in (
            ('%d*x10 %d*x11' % (top, top), '%d %d*x10 %d*x11' % (top, top, top), top, False), ('%d*x10 %d*x11' % (top, top), '%d %d*x10 %d*x11' % (top - 1, top, top), top, True),
            ('%d*x10 %d*x11' % (top, top), '%d %d*x11 %d*x12' % (top, top, top), top, False), ('1*x10 1*x11', '%d' % top, top, False), ('1*x10 1*x11', '%d' % (top - 1), top, True),
            ('1*x10 %d*x11' % top, '2 1*x10 %d*x11' % (top - 1), 3, True), ('1*x10 %d*x11' % (top - 1), '2 1*x10 %d*x11' % top, 3, False)):
        case('the greatest numbers: %d %s for %s' % (c_, own, next_), 'accepted 1 0 0' if told else 'BudgetNotProved 00010004', APART % 'nop', '', '0x10000 1\nsecond %d %s; R\nend %s; R' % (c_, own, next_))
    # Products and sums past 32 and 64 bits, by the ends of intervals alone: one of the sums may wrap.
    for own, c_, lo, told in (('1*x10 2*x11', 0, 0x80000000, True), ('1*x10 2*x11', 0, 0x7fffffff, False), ('1*x10 2*x11', 2, 0x7fffffff, True), ('2*x11 1*x12', 0, 0x80000000, True), ('2*x11 1*x12', 0, 0x7fffffff, False)):
        wrapping = 'x12' if '12' in own else 'x10'
        case('products past 32 bits: %d %s from %d' % (c_, own, lo), 'accepted 1 0 0' if told else 'BudgetNotProved 00010004', APART % 'nop', FULL + ', ' + FULL,
             '0x10000 1\nsecond %d %s; R; %s 0..100 = p0 + p1; x11 %d..0xffffffff\nend %d; R' % (c_, own, wrapping, lo, top))
    for k, k2 in ((top, 2), (top, 3), (top, 4), (top, top), (2, top), (3, top)):
        case('sums past 64 bits: %d and %d' % (k, k2), 'BudgetNotProved 00010004', APART % 'nop', '', '0x10000 1\nsecond %d; R\nend 0 %d*x10 %d*x11; R' % (top, k, k2))
        case('sums past 64 bits that pay: %d and %d' % (k, k2), 'accepted 1 0 0', APART % 'nop', '', '0x10000 1\nsecond 0 %d*x10 %d*x11; R; x10 %d..%d; x11 %d..%d\nend %d; R' % (k, k2, top, top, top, top, top))
        case('sums past 64 bits that stay: %d and %d' % (k, k2), 'accepted 1 0 0', APART % 'nop', '', '0x10000 1\nsecond 2 %d*x10 %d*x11; R\nend 1 %d*x10 %d*x11; R' % (k, k2, k, k2))
    for lo, told in ((2, True), (1, False)):
        # 2^32 - 1 and lo pay for one word, 1, and any number of 32 bits that is made anew.
        case('a number of 32 bits', 'accepted 1 0 0' if told else 'BudgetNotProved 00010004', APART % 'srai a2,a0,1', '', '0x10000 1\nsecond %d 1*x10; R; x10 %d..9\nend 1 1*x12; R' % (top, lo))
        case('a number of 32 bits, and one more', 'accepted 1 0 0' if told else 'BudgetNotProved 00010004', APART % 'srai a2,a0,1', '',
             '0x10000 1\nsecond %d 1*x10 1*x11; R; x10 %d..9; x11 5..7\nend 1 1*x11 1*x12; R' % (top, lo))
    # An order is no part of a budget: atoms are not replaced there.
    for order, own, next_, c_, told in (
            ('x11 <= x10', '1*x10', '1 1*x11', 2, False), ('x11 <= x10', '1*x10', '1 1*x11', 101, False), ('x11 <= x10', '1*x10', '1 1*x11', 102, True), ('x11 <= x10', '1*x10 1*x12', '1 1*x11 1*x12', 101, False),
            ('x11 <= x10', '1*x10 1*x12', '1 1*x11 1*x12', 102, True), ('x11 <= x10', '1*x10', '1 1*x10', 2, True)):
        case('a budget and an order: %d %s for %s' % (c_, own, next_), 'accepted 1 0 0' if told else 'BudgetNotProved 00010004', APART % 'nop', '',
             '0x10000 1\nsecond %d %s; R; x10 0..100; x11 0..100; x12 0..100; %s\nend %s; R' % (c_, own, order, next_))
    # A branch: each side pays on its own.
    for far, near, c_, told in (
            ('1 5*x10 7*x11', '1 5*x10 7*x11', 2, True), ('1 5*x10 7*x11', '1 5*x10 7*x11', 1, False), ('1 6*x10 7*x11', '1 5*x10 7*x11', 11, False), ('1 6*x10 7*x11', '1 5*x10 7*x11', 12, True),
            ('1 5*x10 8*x11', '1 5*x10 7*x11', 22, True), ('1 5*x10 8*x11', '1 5*x10 7*x11', 21, False), ('1 5*x10 7*x11', '1 5*x10 8*x11', 12, True), ('1 5*x10 7*x11', '1 5*x10 8*x11', 11, False)):
        case('sides of a branch: %d for %s and %s' % (c_, far, near), 'accepted %d 5 10 7 11' % c_ if told else 'BudgetNotProved 00010000', 'bltu a0,a1,far; near: ret; far: ret', 's 0 10, s 0 20',
             '0x10000 %d 5*x10 7*x11; R; x10 0..10; x11 0..20\nnear %s; R\nfar %s; R' % (c_, near, far))


# ---- 512 bits ---------------------------------------------------------------------------------------------------------------------------

def long_registers():
    for version in (1, 2):
        for vlenb in LENGTHS if version == 2 else (64,):
            for text, most in (('vsetvli t0,x0,e8,m1', vlenb), ('vsetvli t0,x0,e8,m8', 8 * vlenb), ('vsetvli t0,x0,e32,m1', vlenb // 4), ('vsetvli t0,x0,e16,mf2', vlenb // 4),
                               ('vsetvli t0,x0,e8,mf4', vlenb // 4), ('csrrs t0,vlenb,x0', vlenb), ('vsetivli t0,31,e8,m1', min(31, vlenb)), ('vsetivli t0,31,e8,m2', min(31, 2 * vlenb))):
                for ends, told in (('%d..%d' % (most, most), 'accepted 2 0 0'), ('0..%d' % (most - 1), 'IntervalNotProved 00010000'), ('%d..0xfffffffe' % (most + 1), 'IntervalNotProved 00010000')):
                    case('%s in %s' % (text, ends), told, text + '; end: ret', '', '0x10000 2; R\nend 1; R; x5 ' + ends, vlenb, version)
            for text, size in (('vl1re8.v v8,(a0)', vlenb), ('vs8r.v v8,(a0)', 8 * vlenb), ('vsetvli t0,x0,e8,m1; vle8.v v8,(a0)', vlenb), ('vsetvli t0,x0,e8,m8; vlm.v v8,(a0)', vlenb)):
                for short in (0, 1):
                    count = text.count(';') + 2
                    case('%s in %d bytes' % (text, size - short), 'AccessNotProved %08x' % (HERE + 4 * count - 8) if short else 'accepted %d 0 0' % count, text + '; ret', 'rw %d' % (size - short),
                         '0x10000 %d; R; x10 0x40000000..0x40000000' % count, vlenb, version)
            for registers, width in ((1, 8), (8, 8), (1, 32), (8, 16)):
                most = registers * 8 * vlenb // width
                for count, told in ((most, 'VectorFactNotProved 00010000'), (most + 1, 'certificate Fact')):
                    case('%d elements of %d bits in %d registers' % (count, width, registers), told, 'ret', '', '0x10000 1; R; v8*%d e%d #%d 0..1' % (registers, width, count), vlenb, version)
            for asked in LENGTHS:
                if asked != vlenb:
                    row('another length', file_of(kernel('ret', '', '0x10000 1; R', vlenb, version=version)), asked, 'WrongVlen')
            case('as passed', 'accepted 1 0 0', 'ret', '', '0x10000 1; R', vlenb, version)
        case('vid of 256 elements', 'accepted 3 0 0', 'vsetvli t0,x0,e16,m8; vid.v v8; end: ret', '', '0x10000 3; R\nend 1; R; vl 256..256; v8*8 e16 0..255', 64, version)
        case('vid of 256 elements, narrower', 'VectorFactNotProved 00010004', 'vsetvli t0,x0,e16,m8; vid.v v8; end: ret', '', '0x10000 3; R\nend 1; R; vl 256..256; v8*8 e16 0..254', 64, version)
        # 512 numbers have no room in 8 bits.
        case('vid of 512 bytes', 'VectorFactNotProved 00010004', 'vsetvli t0,x0,e8,m8; vid.v v8; end: ret', '', '0x10000 3; R\nend 1; R; v8*8 e8 0..254', 64, version)
        case('vid of 128 bytes', 'accepted 3 0 0', 'vsetvli t0,x0,e8,m2; vid.v v8; end: ret', '', '0x10000 3; R\nend 1; R; v8*2 e8 0..127', 64, version)


def hand_rows():
    two_kernels()
    by_ends()
    by_forms()
    by_branches()
    at_starts()
    order_of_rules()
    spellings()
    budgets()
    long_registers()
    return ROWS


# ---- Small kernels that are drawn ---------------------------------------------------------------------------------------------------------

NAMED = (10, 11, 12, 13, VL)


def some_interval(d):
    if d.is_in(0.15):
        return c.FULL
    lo = d.one((0, 0, 1, 5, 16, d.below(100)))
    return d.one(((lo, lo + d.one((0, 1, 9, 50, 100))), (lo, lo + d.below(200)), (M32 - lo - d.below(9), M32 - lo)))


def some_orders(d, count):
    """Orders of the numbers that are named."""
    out = {}
    for _ in range(count):
        s, r = d.one(NAMED), d.one(NAMED)
        if s != r:
            out[s] = c.OrderFact(s, r)
    return tuple(out[s] for s in sorted(out))


def some_line(d):
    a, b, to = d.one((10, 11, 12, 13)), d.one((10, 11, 12, 13)), d.one((10, 11, 12, 13, 5, 6))
    return d.one(('addi x%d,x%d,%d' % (to, a, d.one((0, 1, -1, 5, -5, 16))), 'add x%d,x%d,x%d' % (to, a, b), 'sub x%d,x%d,x%d' % (to, a, b), 'sub x%d,x%d,x%d' % (to, a, b),
                  'addi x%d,x%d,0' % (to, a), 'slli x%d,x%d,%d' % (to, a, d.one((1, 2, 30))), 'vsetvli x%d,x%d,e%d,m%d' % (to, a, d.one((8, 16, 32)), d.one((1, 2, 8))),
                  'vsetivli x%d,%d,e8,m1' % (to, d.below(20)), 'csrrs x%d,vl,x0' % to, 'li x%d,%d' % (to, d.below(100)), 'andi x%d,x%d,7' % (to, a), 'nop'))


def some_budget(d, most=5):
    """k, r, k2, r2."""
    r, r2 = sorted(d.r.sample((10, 11, 12, 13), 2))
    k, k2 = d.below(most) + 1, d.below(most) + 1
    return d.one(((0, 0, 0, 0), (k, r, 0, 0), (k, r, k2, r2), (k, r, k2, r2)))


def target(d, start, s, told):
    """A block that states what is known in s: orders that are shown and others, intervals as they are or a little less."""
    shown_ = [c.OrderFact(a, b) for a in NAMED for b in NAMED if a != b and (c.OrderFact(a, b) in told or checker.is_in_order(s, s.x[a], s.x[b]))]
    chosen = {}
    for _ in range(d.one((1, 1, 2, 3))):
        order = d.one(shown_) if shown_ and d.is_in(0.75) else next(iter(some_orders(d, 5)), c.OrderFact(10, 11))
        chosen[order.s] = order
    facts = [c.RegisterFact(1, model.EXIT, model.EXIT)]
    for n in (5, 6) + NAMED:
        lo, hi = s.x[n].range
        if d.is_in(0.3):
            if d.is_in(0.07):
                lo, hi = d.one(((min(lo + 1, hi), hi), (lo, max(lo, hi - 1))))
            if (lo, hi) != c.FULL:
                facts.append(c.RegisterFact(n, lo, hi))
    k, r, k2, r2 = some_budget(d)
    return c.Block(start, 1 + d.below(20), k, r, None, tuple(facts), (), k2, r2, tuple(chosen[n] for n in sorted(chosen)))


def small(d, vlenb):
    """A block that is apart, a few words, perhaps a branch, and blocks behind it."""
    lines, branch = [some_line(d) for _ in range(d.one((1, 1, 2, 3)))], ''
    if d.is_in(0.5):
        branch = '%s x%d,x%d,%s; ' % (d.one(('beq', 'bne', 'blt', 'bge', 'bltu', 'bgeu')), d.one((10, 11, 12)), d.one((10, 11, 12)), d.one(('far', 'far', 'far', 'near')))
    text = 'ecall; second: %s; %snear: ret; far: ret' % ('; '.join(lines), branch)
    k = kernel(text, '', '0x10000 1', vlenb, version=2)
    words, labels = assembled(text)
    facts = [c.RegisterFact(1, model.EXIT, model.EXIT)] + [c.RegisterFact(n, *ends) for n in NAMED for ends in [some_interval(d)] if ends != c.FULL and d.is_in(0.85)]
    orders_ = some_orders(d, d.one((0, 1, 1, 2, 2, 3, 4)))
    if d.is_in(0.2):
        named = {n for order in orders_ for n in order}
        equal = d.below(50), ((10, d.one((1, 1, 2, M32))), (11, d.one((1, M32, M32, M32 - 1))))
        facts = [fact for fact in facts if fact.number != 12] + ([c.RegisterFact(12, 0, M32, equal)] if 12 not in named else [])
    own = some_budget(d)
    second = c.Block(labels['second'], 0, own[0], own[1], d.one((None, 0, 0xc0)), tuple(sorted(facts, key=lambda fact: fact.number)), (), own[2], own[3], orders_)
    walk = checker.Walk(c.Image(HERE, [c.Segment(HERE, HERE + 4 * len(words), c.READ | c.EXECUTE, code_bytes(words))], None), k.certificate)
    s = checker.at_block(k.certificate, second, vlenb)
    start = checker.Start(0, second.k, s.x[second.r], second.k2, s.x[second.r2])
    for place, word in enumerate(words[1:1 + len(lines)]):
        walk.act(s, *model.decode(word), HERE + 4 + 4 * place)
    s.words = len(lines) + (1 if branch else 0)
    ways = [(s, (), labels['near'])]
    if branch:
        i, f = model.decode(words[1 + len(lines)])
        ways = [(checker.refined(s, i, f, taken), checker.told_orders(i, f, taken), to) for taken, to in ((True, HERE + 4 + 4 * len(lines) + f['to'] & M32), (False, labels['near']))]
    made = {labels['near']: None, labels['far']: None}
    for way, told, to in ways:
        if way and (made[to] is None or d.is_in(0.5)):
            made[to] = target(d, to, way, told)
    blocks = [made[to] or c.Block(to, 1, 0, 0, None, (c.RegisterFact(1, model.EXIT, model.EXIT),), ()) for to in sorted(made)]
    enough = lambda least: all(checker.is_paid(way, start._replace(c=least), made[to]) for way, _, to in ways if way)
    lo, hi = 0, M32
    while lo < hi:
        middle = (lo + hi) // 2
        lo, hi = (lo, middle) if enough(middle) else (middle + 1, hi)
    second = second._replace(c=min(M32, max(0, lo + d.one((0, 0, 0, 0, 1, -1)))))
    return k._replace(certificate=k.certificate._replace(blocks=k.certificate.blocks + [second] + blocks))


# ---- Changes --------------------------------------------------------------------------------------------------------------------------------

def changed_orders(d, orders_):
    """An order more, or one dropped, turned or of another register."""
    if not orders_ or d.is_in(0.3):
        return tuple(sorted(orders_ + (c.OrderFact(d.one((5, 7, 10, 11, 12, VL, d.below(34))), d.one((5, 7, 10, 11, 12, VL, d.below(34)))),)))
    place = d.below(len(orders_))
    s, r = orders_[place]
    new = d.one((None, (r, s), (r, s), (s, d.one((10, 11, 12, VL))), (d.one((10, 11, 12, VL)), r), (s, r + 1), (s + 1, r), (s - 1 & 255, r)))
    left = orders_[:place] + ((c.OrderFact(*new),) if new else ()) + orders_[place + 1:]
    return tuple(sorted(left)) if d.is_in(0.9) else left


def changed_block(d, b):
    kind = d.below(10)
    if kind < 5:
        return b._replace(orders=changed_orders(d, b.orders))
    if kind < 6 and b.facts:
        place = d.below(len(b.facts))
        return b._replace(facts=change_at(b.facts, place, changed_fact(d, b.facts[place])))
    if kind == 6 and b.facts:
        place = d.below(len(b.facts))
        return b._replace(facts=b.facts[:place] + b.facts[place + 1:])
    if kind == 7 and d.is_in(0.3):
        return b._replace(vtype=d.one((None, d.one(VTYPES))))
    return d.one((b._replace(c=moved(d, b.c)), b._replace(c=b.c + 1 & M32), b._replace(c=max(b.c, 1) - 1), b._replace(k=moved(d, b.k)), b._replace(k2=moved(d, b.k2)), b._replace(r=d.one((7, 10, 11))), b._replace(r2=d.one((11, 12, 31))),
                  b._replace(k=b.k2, k2=b.k), b._replace(k=b.k2, r=b.r2, k2=0, r2=0), b._replace(k2=0, r2=0)))


def changed(d, k):
    certificate, kind = k.certificate, d.below(20)
    if kind < 15:
        place = d.below(len(certificate.blocks))
        return k._replace(certificate=certificate._replace(blocks=list(change_at(certificate.blocks, place, changed_block(d, certificate.blocks[place])))))
    if kind < 17:
        place = d.one([n for n, p in enumerate(certificate.params) if p.kind != 'none'] or [0])
        return k._replace(certificate=certificate._replace(params=change_at(certificate.params, place, changed_param(d, certificate.params[place]))))
    address, code, _, flags = k.segments[0]
    if d.is_in(0.5):
        code = changed_code(d, code)
    else:
        # A branch of another kind, or of the other register first.
        words = [int.from_bytes(code[at:at + 4], 'little') for at in range(0, len(code), 4)]
        branches = [n for n, word in enumerate(words) if word & 127 == 0x63]
        if branches:
            n = d.one(branches)
            one, two = words[n] >> 15 & 31, words[n] >> 20 & 31
            words[n] = d.one((words[n] & ~0x7000 | d.one((0, 1, 4, 5, 6, 7)) << 12, words[n] & ~0x1ff8000 | two << 15 | one << 20))
            code = code_bytes(words)
    return k._replace(segments=[(address, code, len(code), flags)])


def changed_bytes(d, data):
    at = d.below(len(data))
    return d.one((data[:at], data[:at] + bytes([data[at] ^ 1 << d.below(8)]) + data[at + 1:], data[:at] + bytes([data[at] + d.one((1, 255)) & 255]) + data[at + 1:], data[:at] + data[at + 1:],
                  data[:at] + bytes([d.below(40)]) + data[at:], bytes([3 - data[0] & 255]) + data[1:], data[:104 + at % 40] + bytes([d.below(40)]) + data[105 + at % 40:], data[:-1] + bytes([d.below(40)])))


def one_row(d):
    """(vlenb, file) of one row."""
    kind = d.below(20)
    if kind < 11:
        vlenb = d.one(LENGTHS)
        k = small(d, vlenb)
        changes = d.one((0, 0, 0, 1))
    elif kind < 15:
        vlenb = d.one(LENGTHS)
        k = kernel(RAISE, RAISE_PASSED, of_length(RAISE_BLOCKS, vlenb), vlenb, version=2) if d.is_in(0.6) else kernel(FILL, FILL_PASSED, FILL_BLOCKS, vlenb, version=2)
        changes = d.one((1, 1, 2))
    else:
        vlenb, k = d.one(KERNELS)
        changes = d.one((1, 1, 2))
    k = k._replace(certificate=k.certificate._replace(version=2))
    for _ in range(changes):
        k = changed(d, k)
    data = c.certificate_bytes(k.certificate)
    if d.is_in(0.1):
        data = changed_bytes(d, data)
    if d.is_in(0.03):
        vlenb = d.one(LENGTHS)
    return vlenb, file_of(k, data)


def drawn(count, seed, most=900):
    """(vlenb, file, answer) of each row; files above so many bytes are passed over."""
    d, out, seen = Draw(seed), [], set()
    while len(out) < count:
        vlenb, file = one_row(d)
        if len(file) <= most and (vlenb, file) not in seen:
            seen.add((vlenb, file))
            out.append((vlenb, file, check(file, vlenb)))
    return out


def main():
    parser = argparse.ArgumentParser()
    parser.add_argument('--drawn', nargs=2, type=int, metavar=('N', 'SEED'), default=(0, 0))
    by_hand, by_draw = hand_rows(), drawn(*parser.parse_args().drawn)
    for line in __doc__.split('\n')[:-1]:
        print(('# ' + line).rstrip())
    print('# %d rows: %d by hand, each with its name in the line before it, and %d drawn.' % (len(by_hand) + len(by_draw), len(by_hand), len(by_draw)))
    for name, *row_ in by_hand:
        print('# %s\n%s' % (name, shown(*row_)))
    for row_ in by_draw:
        print(shown(*row_))


if __name__ == '__main__':
    main()
