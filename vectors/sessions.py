"""Makes sessions.txt: runs of images that the certificate in their note lets pass, and runs that are refused.

Usage: sessions.py > sessions.txt. Rows are as in runs.txt: the state after a run, memory included, is that of qemu-riscv32, the number of steps is that of
qemu's log, and model.py has to say the same. That an image passes, and why a run is refused, is written here by hand, by docs/CHECKER.md and docs/JOBS.md;
checker.py and opening.py have to say the same.
"""
import subprocess

import opening
import orders
from hand_checks import BYTE_ADD, GATHER, GATHER_127, RAISE, RAISE_BLOCKS, SUM, SUM_BLOCKS, placed, scalars
from images import elf
from kernels import CODE, code_bytes, file_of, kernel
from runs import Run, r, some, w

UNDER_A_MASK = 'vsetvli t0,a1,e8,m1,ta,ma; vle8.v v8,(a0); vmsgtu.vx v0,v8,a2; vadd.vx v8,v8,a2,v0.t; vse8.v v8,(a0),v0.t; csrrs a3,vl,x0; ret'
BACKWARDS = '''vsetivli t0,4,e16,m1,ta,ma; li t1,-4; addi a0,a0,12; vlse16.v v8,(a0),t1
    vsetvli x0,x0,e8,mf2,ta,ma; vnclipu.wi v9,v8,4; vse8.v v9,(a1); ret'''
WHOLE = 'vsetvli t0,x0,e8,m1,ta,ma; vl1re8.v v8,(a0); vmv1r.v v9,v8; vs1r.v v9,(a1); vlm.v v0,(a0); vcpop.m a2,v0; vfirst.m a3,v0; ret'
ON_THE_STACK = 'addi sp,sp,-16; sw a0,8(sp); sh a1,13(sp); lb a2,14(sp); addi sp,sp,16; ret'
CALL = 'jal t0,take; back: addi a0,a0,2; ret; take: addi a0,a0,1; jalr x0,0(t0)'
CALL_BLOCKS = '''0x10000 5; R
    back 2; R
    take 4; R; x5 is 0x10004'''


def straight(text, passed, steps, vlenb, facts=''):
    """The file of straight code with one block, which takes so many steps."""
    stated = ''.join('; x%d %d..%d' % (10 + place, p.a, p.b) for place, p in scalars(passed)) + placed(passed)
    return file_of(kernel(text, passed, '0x10000 %d; R%s%s' % (steps, stated, facts), vlenb))


def raising(vlenb):
    return file_of(kernel(RAISE, 'rw 4096, s 0 1024', RAISE_BLOCKS, vlenb))


class Refused(Run):
    """A run that is not opened, or an image that does not pass."""

    def __init__(self, name, image, answer, args=(), vlenb=16, most=100000):
        super().__init__(name, image, args, vlenb, False, most, by_hand='refused')
        self.answer = answer


def accepted_runs(vlenb):
    adding = straight(BYTE_ADD, 'rw 3, r 3, s 0 3', 6, vlenb)
    for n in (0, 2, 3):
        yield Run('add %d bytes' % n, adding, [w(b'\xff\1\2'), r(b'\1\1\xff'), n], vlenb, vlenb == 32)
    yield Run('add nothing', straight(BYTE_ADD, 'rw 0, r 0, s 0 0', 6, vlenb), [w(b''), r(b''), 0], vlenb)
    for n in (0, 1, 7, 1023, 1024):
        yield Run('raise %d words' % n, raising(vlenb), [w(some(4096, n)), n], vlenb, n == 7)
    for n in (0, 1, 1024):
        yield Run('sum of %d bytes' % n, file_of(kernel(SUM, 'r 1024, s 0 1024', SUM_BLOCKS, vlenb)), [r(some(1024, 3 + n)), n], vlenb)
    indices = bytes(255 - 17 * k % 256 for k in range(16))
    yield Run('gather', straight(GATHER, 'r 256, r 16, rw 16', 5, vlenb), [r(some(256, 5)), r(indices), w(bytes(16))], vlenb, vlenb == 16)
    yield Run('gather by masked indices', straight(GATHER_127, 'r 128, r 16, rw 16', 7, vlenb), [r(some(128, 7)), r(indices), w(bytes(16))], vlenb, vlenb == 16)
    yield Run('call and return', file_of(kernel(CALL, 's 0 0xffffffff', CALL_BLOCKS, vlenb)), [0xffffffff], vlenb)
    yield Run('on the stack', straight(ON_THE_STACK, 's 0 0xffffffff, s 0 0xffffffff', 6, vlenb, '; x2 is 0x30000000'), [0x12345678, 0xffff89ab], vlenb)
    under = straight(UNDER_A_MASK, 'rw 16, s 0 16, s 0 0xffffffff', 7, vlenb)
    yield Run('add under a mask', under, [w(some(16, 99)), 13, 0x80], vlenb, True)
    yield Run('add under a mask to nothing', under, [w(some(16, 99)), 0, 0x80], vlenb, True)
    yield Run('backwards, and clipped', straight(BACKWARDS, 'r 14, rw 4', 8, vlenb), [r(some(14, 201)), w(bytes(4))], vlenb)
    yield Run('whole registers', straight(WHOLE, 'r %d, rw %d' % (vlenb, vlenb), 8, vlenb), [r(some(vlenb, 9)), w(bytes(vlenb))], vlenb, vlenb == 16)
    # The most steps that are allowed are the bound, which need not be reached.
    yield Run('raise 1024 words', raising(vlenb), [w(some(4096)), 1024], vlenb, most=8194)


def refused_runs():
    words, fewer, own = w(some(4096)), w(some(4095)), raising(16)
    yield Refused('a scalar above its interval', own, 'ScalarOutOfInterval(1)', [words, 1025])
    yield Refused('a short buffer', own, 'WrongSize(0)', [fewer, 0])
    yield Refused('a scalar above its interval, and a short buffer', own, 'ScalarOutOfInterval(1)', [fewer, 1025])
    yield Refused('a scalar in place of a buffer', own, 'WrongKind(0)', [5, 1025])
    yield Refused('an argument too many', own, 'WrongKind(2)', [words, 0, 0])
    yield Refused('no argument', own, 'WrongKind(0)', [])
    yield Refused('one step fewer than the bound', own, 'BoundTooLarge', [words, 1024], most=8193)
    yield Refused('other vector registers', own, 'WrongVlen', [words, 1], 32)
    yield Refused('other vector registers', raising(32), 'WrongVlen', [words, 1], 16)
    for checked, ran in ((16, 64), (32, 64), (64, 16), (64, 32)):
        yield Refused('vector registers of %d bytes for %d' % (ran, checked), raising(checked), 'WrongVlen', [words, 1], ran)
    yield Refused('too many steps, and other vector registers', own, 'BoundTooLarge', [words, 1], 32, most=9)
    short = straight(GATHER, 'r 255, r 16, rw 16', 5, 16)
    yield Refused('an image that does not pass', short, 'AccessNotProved 00010008', [r(bytes(255)), r(bytes(16)), w(bytes(16))])


# A budget of each register that holds a number at the start: name, words, parameters, block, arguments, bound.
BUDGETS = [
    ('sp', 'ret', '', '0 1*x2; R; x2 0x30000000..0x30000000', [], 0x30000000),
    ('ra', 'ret', '', '0 1*x1; R', [], 0xfffffff0),
    ('a register that holds 0', 'ret', '', '1 7*x5; R', [], 1),
    ('a0, for which nothing is passed', 'ret', '', '1 7*x10; R', [], 1),
    ('a0', 'ret', 's 1 9', '0 1*x10; R; x10 1..9', [5], 5),
    ('a0, of the greatest number', 'ret', 's 1 9', '0 1*x10; R; x10 1..9', [9], 9),
    ('a7', 'ret', '-, -, -, -, -, -, -, s 1 9', '3 2*x17; R', [None] * 7 + [4], 11),
    ('a pointer', 'ret', 'r 4', '0 1*x10; R; x10 is 0x40000000', [r(b'abcd')], 0x40000000),
    ('the second pointer', 'ret', 'rw 4097, r 1', '5 2*x11; R; x11 is 0x40003000', [w(some(4097)), r(b'a')], 5 + 2 * 0x40003000),
    ('the greatest numbers', 'ret', 's 0 0xffffffff', '4294967295 4294967295*x10; R', [0x7fffffff], 0xffffffff * 0x80000000)]
# The same of two registers, in certificates of version 2.
BUDGETS_OF_TWO = [
    ('two scalars', 'ret', 's 1 9, s 0 7', '2 3*x10 5*x11; R; x10 1..9; x11 0..7', [4, 6], 44),
    ('a scalar and a pointer', 'ret', 's 1 9, r 4', '0 2*x10 1*x11; R; x10 1..9; x11 is 0x40000000', [9, r(b'abcd')], 18 + 0x40000000),
    ('two scalars, of the greatest numbers', 'ret', 's 0 0xffffffff, s 0 0xffffffff', '4294967295 4294967295*x10 4294967295*x11; R', [0xffffffff, 1], (1 << 64) - 1)]
MOST = (1 << 63) - 1
# What is passed for the greatest numbers, and most steps that are enough: the bound itself, and the greatest number of 64 bits.
BEYOND = [(0x80000000, 0xffffffff * 0x80000001), (0xffffffff, 0xffffffff << 32), (0xffffffff, (1 << 64) - 1)]
EVERY_WORD = '\n'.join('%#x %d; R' % (CODE + 4 * n, 1024 - n) for n in range(1024))
FAR_SEGMENTS = 'lui t0,0x21; lui t1,0x2f; lw t2,4(t0); sw t2,8(t1); lb t2,3(t1); sh t2,0(t0); ret'
INTO_WHAT_MAY_BE_WRITTEN_ALONE = 'lui t0,0x20; li t1,1638; sw t1,2(t0); sb t1,0(t0); ret'


def budgeted(name, vlenb=16):
    budget = next(b for b in BUDGETS + BUDGETS_OF_TWO if b[0] == name)
    _, text, passed, block, arguments, bound = budget
    return file_of(kernel(text, passed, '0x10000 ' + block, vlenb, version=2 if budget in BUDGETS_OF_TWO else 1)), arguments, bound


def later_runs(vlenb):
    """Bounds, and the most blocks and segments that there may be."""
    for name, *_ in BUDGETS:
        image, arguments, bound = budgeted(name, vlenb)
        yield Run('a budget in %s' % name, image, arguments, vlenb, most=bound)
    yield Run('the most steps that a job may have', raising(vlenb), [w(some(4096)), 9], vlenb, most=MOST)
    greatest, _, _ = budgeted('the greatest numbers', vlenb)
    for number, most in BEYOND:
        yield Run('a bound above 2^63 - 1', greatest, [number], vlenb, most=most)
    if vlenb == 16:
        yield Run('1024 blocks', file_of(kernel('; '.join(['nop'] * 1023) + '; ret', '', EVERY_WORD)), [])
        yield Run('500 blocks', file_of(kernel('; '.join(['nop'] * 499) + '; ret', '', '\n'.join(EVERY_WORD.split('\n')[:500]))), [])
        three = [(0x20000 + 4096 * n, some(16, n), 4096, 6) for n in (1, 7, 15)]
        yield Run('four segments', file_of(kernel(FAR_SEGMENTS, '', '0x10000 7; R', more=three)), [])
        fifteen = [(0x20000 + 4096 * n, some(16, n), 4096, 6) for n in range(1, 16)]
        yield Run('16 segments', file_of(kernel(FAR_SEGMENTS, '', '0x10000 7; R', more=fifteen)), [])
        # What a session shows of memory it shows whatever the rights; qemu reads no page that may be written alone.
        yield Run('a segment that may be written alone', file_of(kernel(
            INTO_WHAT_MAY_BE_WRITTEN_ALONE, '', '0x10000 5; R', more=[(0x20000, b'\1\2\3\4', 16, 2)])), [], by_hand='not read by qemu')


def later_refusals():
    three = straight('nop; ret', 's 3 9, r 3, s 3 9, r 3, -', 2, 16)
    right = [3, r(b'abc'), 9, r(b'def')]
    for name, answer, changes in (
            ('a scalar below its interval', 'ScalarOutOfInterval(0)', {0: 2}), ('a scalar above its interval', 'ScalarOutOfInterval(2)', {2: 10}),
            ('two scalars outside their intervals', 'ScalarOutOfInterval(0)', {0: 10, 2: 2}), ('a longer buffer', 'WrongSize(1)', {1: r(b'abcd')}),
            ('an empty buffer', 'WrongSize(3)', {3: w(b'')}), ('two buffers of other sizes', 'WrongSize(1)', {1: r(b'ab'), 3: r(b'abcd')}),
            ('a buffer for a scalar', 'WrongKind(0)', {0: r(b'abc')}), ('a scalar for a buffer', 'WrongKind(3)', {3: 3}),
            ('a buffer for none', 'WrongKind(4)', {4: r(b'')}), ('none for a scalar', 'WrongKind(2)', {2: None}), ('none for a buffer', 'WrongKind(3)', {3: None}),
            ('a scalar at the last place', 'WrongKind(7)', {7: 0}), ('two other kinds', 'WrongKind(1)', {1: 3, 2: r(b'')}),
            ('another kind behind an interval and a size', 'WrongKind(4)', {0: 2, 1: r(b''), 4: 0}),
            ('an interval behind a size', 'ScalarOutOfInterval(2)', {1: r(b''), 2: 10})):
        arguments = [changes.get(place, right[place] if place < 4 else None) for place in range(8)]
        yield Refused(name, three, answer, arguments)
        yield Refused(name + ', and too few steps and other vector registers', three, answer, arguments, 32, 0)
    for name, *_ in BUDGETS:
        image, arguments, bound = budgeted(name)
        yield Refused('one step fewer than a budget in %s' % name, image, 'BoundTooLarge', arguments, most=bound - 1)
    image, _, _ = budgeted('the greatest numbers')
    for number, most in BEYOND[:2]:
        yield Refused('one step fewer than a bound above 2^63 - 1', image, 'BoundTooLarge', [number], most=most - 1)
    yield Refused('a bound above the most steps that a job may have', image, 'BoundTooLarge', [0x80000000], most=MOST)
    yield Refused('an image that does not pass, and no argument', straight(GATHER, 'r 255, r 16, rw 16', 5, 16), 'AccessNotProved 00010008', [], most=0)
    code = code_bytes([0x8067])
    yield Refused('no certificate', elf([(1, 0, CODE, 4, 4, 5)], code), 'no certificate', [])
    yield Refused('a certificate that is none', file_of(kernel('ret', '', '0x10000 1; R'), b'\1\0'), 'certificate Short', [])
    yield Refused('an image that is none', elf([(1, 0, CODE, 4, 4, 5)], code)[:51], 'image TooShort', [])


def runs_of_version_2(vlenb):
    """A loop in which a branch leads round an instruction, a loop in a loop, and budgets of two registers."""
    choosing = file_of(kernel(orders.RAISE, orders.RAISE_PASSED, orders.of_length(orders.RAISE_BLOCKS, vlenb), vlenb, version=2))
    for n, is_raised in ((0, 1), (100, 1), (100, 0), (1024, 1)):
        yield Run('raise %d bytes by %d' % (n, is_raised), choosing, [w(some(1024, n)), n, is_raised], vlenb, n == 100)
    filling = file_of(kernel(orders.FILL, orders.FILL_PASSED, orders.FILL_BLOCKS, vlenb, version=2))
    for n in (0, 3, 64):
        yield Run('fill %d rows' % n, filling, [w(some(4096, n)), n], vlenb, most=387 + 389 * n)
    for name, *_ in BUDGETS_OF_TWO:
        image, arguments, bound = budgeted(name, vlenb)
        yield Run('a budget of %s' % name, image, arguments, vlenb, most=bound)


def refusals_of_version_2():
    for name, *_ in BUDGETS_OF_TWO:
        image, arguments, bound = budgeted(name)
        yield Refused('one step fewer than a budget of %s' % name, image, 'BoundTooLarge', arguments, most=bound - 1)
    image, _, _ = budgeted('two scalars, of the greatest numbers')
    for arguments in [0xffffffff, 2], [0xffffffff, 0xffffffff]:
        yield Refused('a bound above 2^64 - 1', image, 'BoundTooLarge', arguments, most=(1 << 64) - 1)


def accepted_rows():
    for more in (accepted_runs, later_runs, runs_of_version_2):
        for vlenb in (16, 32, 64):
            for run in more(vlenb):
                mine = run.of_model()
                theirs = mine if run.by_hand else run.of_qemu()
                assert mine == theirs and mine[0] == 'ended', '%s\n model %s\n qemu  %s' % (run.name, mine, theirs)
                refusal = opening.refusal(run.image, run.args, vlenb, run.most)
                assert refusal is None, '%s: %s' % (run.name, refusal)
                yield '# %s%s\n%s' % (run.name, ' (by hand)' if run.by_hand else '', run.row(*mine))


def main():
    rows, refused = list(accepted_rows()), list(refused_runs()) + list(later_refusals()) + list(refusals_of_version_2())
    for run in refused:
        mine = opening.refusal(run.image, run.args, run.vlenb, run.most)
        assert mine == run.answer, '%s\n by hand %s\n model   %s' % (run.name, run.answer, mine)
    version = subprocess.run(['qemu-riscv32', '--version'], capture_output=True, text=True).stdout.split()[2]
    print('# Runs of accepted images. Made by vectors/sessions.py: state and number of steps of qemu-riscv32 %s, which vectors/model.py shares.' % version)
    by_hand = sum('(by hand)' in row.split('\n')[0] for row in rows)
    print('# %d runs, %d of them by hand, and %d by hand that are refused.' % (len(rows), by_hand, len(refused)))
    print('\n'.join(rows + ['# %s (by hand)\n%s' % (run.name, run.row(run.answer)) for run in refused]))


if __name__ == '__main__':
    main()
