"""Makes monitors.txt: commands to the monitor of a run, and what each answers.

    python3 vectors/monitors.py --drawn 250 1 > crates/conformance/data/monitors.txt

A row is `VLENB SETTING MAX FILE A0 .. A7 = COMMAND ANSWER COMMAND ANSWER ..`: the run of an accepted image, as in sessions.txt, and commands in the
order in which they are given. COMMAND is the command's text in hexadecimal, `-` where it is empty. ANSWER is the text in hexadecimal, `quit`, or the name
of the error.

What the commands answer is this project's own: the scripts before the drawn ones were written by hand with their answers, and monitor.py has to say the same.
That an image is accepted, checker.py has to say; what a listing says of a word, words.txt, whose texts are LLVM's.
"""
import argparse
import functools
import random
import re
from pathlib import Path

import checker
import monitor
import opening
from certificates import read_certificate, read_image
from hand_checks import BYTE_ADD, GATHER, RAISE, RAISE_BLOCKS, SUM, SUM_BLOCKS
from kernels import CODE, code_bytes, file_of, kernel
from runs import Run, r, some, w
from sessions import BACKWARDS, CALL, CALL_BLOCKS, ON_THE_STACK, UNDER_A_MASK, WHOLE, straight
from table import M32

LENGTHS = (16, 32, 64)
LISTED = [line.rstrip('\n').split(' ', 1) for line in open(Path(__file__).parent.parent / 'crates/conformance/data/words.txt') if line[0] != '#']
TEXTS = {int(word, 16): text for word, text in LISTED}
ROWS = []       # (name or None, row)


# ---- Rows ---------------------------------------------------------------------------------------------------------------------------

def answered(watch, command):
    """A command's answer as by hand: its text, None for `q`, or the error's name with a `!`."""
    try:
        return watch.command(command)
    except monitor.MonError as e:
        return '!' + e.args[0]


def field(answer):
    return 'quit' if answer is None else answer[1:] if answer[0] == '!' else answer.encode().hex()


def texts_agree(answer):
    """What a listing says of words is what words.txt does, where it has them."""
    for at, word, text in re.findall('^([0-9a-f]{8}) ([0-9a-f]{8}) (.*)$', answer, re.M):
        told = TEXTS.get(int(word, 16))
        if told is not None:
            moved = lambda to: ' to=%08x' % (int(to.group(1), 16) - 0x10000 + int(at, 16) & M32)
            assert re.sub(' to=([0-9a-f]{8})', moved, told) == text, (at, word, text, told)


def put(name, run, commands, answers=None):
    assert opening.refusal(run.image, run.args, run.vlenb, run.most) is None, name
    watch, fields = monitor.Monitor(run), []
    for k, command in enumerate(commands):
        answer = answered(watch, command)
        assert answers is None or answer == answers[k], '%s\n command %r\n by hand %r\n model   %r' % (name, command, answers[k], answer)
        if answer and command[:2] == 'l ':
            texts_agree(answer)
        fields.append('%s %s' % (command.encode().hex() or '-', field(answer)))
    ROWS.append((name, run.row(*fields)))


def script(name, run, pairs):
    put(name, run, [command for command, _ in pairs], [answer for _, answer in pairs])


# ---- Runs that are watched ------------------------------------------------------------------------------------------------------------

def small(blocks):
    """The blocks of a loop over 1,024 elements for one over 16."""
    return blocks.replace('1024', '16').replace('0x40001000', '0x40000040').replace('0x40000400', '0x40000010')


def rights(vlenb):
    """Segments with each right alone, two that adjoin, and code in three that adjoin, of which the last two part in the middle of a word."""
    code = code_bytes([0x0000_0297, 0x0082_a303, 0x0000_8067])      # auipc t0,0; lw t1,8(t0); ret
    more = [(CODE + 12, code_bytes([0x13, 0x02056407])[:6], 6, 5), (CODE + 18, code_bytes([0x02056407, 0x8067])[2:], 6, 5),
            (0x1000, b'may be read', 11, 4), (0x2000, b'written', 8, 2), (0x3000, b'adjoins', 7, 6), (0x3007, b'this', 9, 4), (0x4000, code_bytes([0x0d05f2d7]), 8, 1), (0x5000, b'no right', 8, 0)]
    k = kernel('nop; nop; ret', '', '0x10000 3; R', vlenb, more=more)
    return file_of(k._replace(segments=[(CODE, code, len(code), 5)] + more))


def watched(vlenb):
    """(name, image, functions that draw each argument)"""
    number = lambda lo, hi: lambda rng: rng.choice((lo, hi, rng.randint(lo, hi)))
    read, write = lambda size: lambda rng: r(rng.randbytes(size)), lambda size: lambda rng: w(rng.randbytes(size))
    yield 'words are raised', file_of(kernel(RAISE, 'rw 64, s 0 16', small(RAISE_BLOCKS), vlenb)), [write(64), number(0, 16)]
    yield 'a sum of bytes', file_of(kernel(SUM, 'r 16, s 0 16', small(SUM_BLOCKS), vlenb)), [read(16), number(0, 16)]
    yield 'bytes are added', straight(BYTE_ADD, 'rw 3, r 3, s 0 3', 6, vlenb), [write(3), read(3), number(0, 3)]
    yield 'a gather', straight(GATHER, 'r 256, r 16, rw 16', 5, vlenb), [read(256), read(16), write(16)]
    yield 'a call', file_of(kernel(CALL, 's 0 0xffffffff', CALL_BLOCKS, vlenb)), [number(0, M32)]
    yield 'the stack', straight(ON_THE_STACK, 's 0 0xffffffff, s 0 0xffffffff', 6, vlenb, '; x2 is 0x30000000'), [number(0, M32), number(0, M32)]
    yield 'a mask', straight(UNDER_A_MASK, 'rw 16, s 0 16, s 0 0xffffffff', 7, vlenb), [write(16), number(0, 16), number(0, 255)]
    yield 'backwards', straight(BACKWARDS, 'r 14, rw 4', 8, vlenb), [read(14), write(4)]
    yield 'whole registers', straight(WHOLE, 'r %d, rw %d' % (vlenb, vlenb), 8, vlenb), [read(vlenb), write(vlenb)]
    yield 'each right', rights(vlenb), []


@functools.cache
def budget(image, vlenb):
    """The certificate's parameters, and C K R of the block at the entry."""
    answer, *numbers = checker.check(image, vlenb).split()
    assert answer == 'accepted' and len(numbers) == 3, answer
    return read_certificate(read_image(image).certificate).params, tuple(map(int, numbers))


def bound(image, args, vlenb):
    """The most steps of a run, by its certificate."""
    passed, (constant, factor, register) = budget(image, vlenb)
    return constant + factor * opening.at_start(passed, args)[register]


def run_of(image, args=(), vlenb=16, ones=False, most=None):
    run = Run('', image, args, vlenb, ones)
    run.most = bound(image, run.args, vlenb) if most is None else most
    return run


# ---- By hand ---------------------------------------------------------------------------------------------------------------------------

def raising(n, vlenb=16, **more):
    image = file_of(kernel(RAISE, 'rw 64, s 0 16', small(RAISE_BLOCKS), vlenb))
    return run_of(image, [w(b''.join(k.to_bytes(4, 'little') for k in range(9)) + bytes(28)), n], vlenb, **more)


REGISTERS = '''x00=00000000 x01=fffffff0 x02=30000000 x03=00000000
x04=00000000 x05=%08x x06=%08x x07=00000000
x08=00000000 x09=00000000 x10=%08x x11=%08x
x12=00000000 x13=00000000 x14=00000000 x15=00000000
x16=00000000 x17=00000000 x18=00000000 x19=00000000
x20=00000000 x21=00000000 x22=00000000 x23=00000000
x24=00000000 x25=00000000 x26=00000000 x27=00000000
x28=00000000 x29=00000000 x30=00000000 x31=00000000
'''
START = REGISTERS % (0, 0, 0x40000000, 9)
CSRS = 'pc=%08x vl=%d vtype=%08x vxrm=0 vxsat=0 vlenb=%d\n'
AT, ENDED = 'at %08x step %d\n', 'ended step %d\n'
UNCHANGED = [('x', START), ('csr', CSRS % (CODE, 0, 0x80000000, 16)), ('s 0', AT % (CODE, 0))]


def strips():
    script('strips of four words, with a breakpoint at the loop', raising(9), [
        ('b 10004', 'break 00010004\n'), ('c', AT % (0x10004, 1)), ('c', AT % (0x10004, 9)), ('c', AT % (0x10004, 17)),
        ('v 8', 'v08=05000000060000000700000008000000\n'), ('s 0', AT % (0x10004, 17)),
        ('l 10004 2', '00010004 0d05f2d7 vsetvli rd=5 rs1=11 imm=208\n00010008 02056407 vle32.v vd=8 rs1=10 vm=1\n'),
        ('m 40000000 16', '40000000=01000000020000000300000004000000\n'), ('csr', CSRS % (0x10004, 4, 0xd0, 16)), ('x', REGISTERS % (4, 16, 0x40000020, 1)),
        ('c', ENDED % 26), ('c', ENDED % 26), ('d 10008', '!NotThere'), ('s 1', ENDED % 26), ('csr', CSRS % (0xfffffff0, 1, 0xd0, 16)),
        ('x', REGISTERS % (1, 4, 0x40000024, 0)), ('q', None)])
    script('the same at 512 bits', raising(9, 64), [
        ('b 10004', 'break 00010004\n'), ('c', AT % (0x10004, 1)), ('c', ENDED % 10), ('csr', CSRS % (0xfffffff0, 9, 0xd0, 64)),
        ('v 8', 'v08=' + ''.join('%02x000000' % k for k in range(1, 10)) + 28 * '00' + '\n')])


def refused():
    """What is no command, and numbers that are none: each leaves all as it is."""
    for name, error, commands in (
            ('no command', '!Unknown', ['', ' ', 'x ', ' x', 'X', 'xx', 'x 1', 'C', 'c 1', 'csr ', 'csr 0', 'cs', 'CSR', 'q ', 'q q', 'Q', 'help', '?', '\t', 'x\t', 'x\r', 'x\n', '\n', '-', ';',
                                        'b', 'd', 's', 'v', 'm', 'l', 'b 10004 ', 'b  10004', ' b 10004', 'b\t10004', 'b 10004 1', 's 1 ', 's  1', 's 1 2', 'v 1 2', 'm 10000', 'm 10000 1 ',
                                        'm 10000 1 1', 'm  10000 1', 'l 10000', 'l 10000  1', 'l 10000 1 1', 'step 1', 'é', 'x\0', '\0', '\U0001f600', 'bb 10004']),
            ('an address that is none', '!BadNumber', ['b ', 'b g', 'b 0x10004', 'b 000010004', 'b -4', 'b +4', 'b 1000g', 'b 10004\r', 'b 10004\n', 'b 1_0', 'b １０', 'd ', 'd x', 'd 123456789', 'd -0',
                                                      'm  1', 'm g 1', 'm 000010000 1', 'm 0x10000 1', 'l  1', 'l g 1', 'l 100000000 1', 'b .', 'd é']),
            ('an address that is no multiple of 4', '!BadNumber', ['b 1', 'b 10002', 'b 10003', 'b ffffffff', 'b fffffffe', 'b 40000001']),
            ('a number that is none', '!BadNumber', ['s ', 's x', 's -1', 's +1', 's 0x1', 's a', 's 1.0', 's 4294967296', 's 9999999999', 's 00000000001', 's 1_0', 's １', 's 1\r', 's 1\n', 's 1e3', 'v ', 'v a',
                                                    'v 32', 'v 33', 'v 64', 'v 256', 'v 4294967295', 'v 4294967296', 'v -1', 'v x8', 'v v8', 'm 40000000 0', 'm 40000000 257', 'm 40000000 ', 'm 40000000 a',
                                                    'm 40000000 4294967296', 'm 40000000 00000000001', 'l 10000 0', 'l 10000 257', 'l 10000 ', 'l 10000 0a', 'l 10000 4294967297', 'm 0 0', 'm 0 257', 'l 0 0', 'l 3 257']),
            ('a breakpoint that is not there', '!NotThere', ['d 0', 'd 10000', 'd 10001', 'd ffffffff', 'd fffffff0', 'd 40000000']),
            ('bytes that are none', '!NoBytes', ['m 0 1', 'm fff 1', 'm ffff 1', 'm 10028 1', 'm 10027 2', 'm 3fffffff 2', 'm 40000040 1', 'm 4000003f 2', 'm 2ffeffff 1', 'm 2ffeffff 2', 'm 2fffffff 2',
                                                'm 30000000 1', 'm ffffffff 1', 'm ffffffff 2', 'm ffffffff 256', 'm fffffff0 4', 'l 0 1', 'l fffc 1', 'l fffc 2', 'l 10028 1', 'l 10025 1', 'l 10026 1', 'l 10027 1',
                                                'l 10024 2', 'l 10000 11', 'l 10000 256', 'l ffffffff 1', 'l fffffffc 1', 'l fffffffc 2', 'l fffffff0 1', 'l 40000000 1', 'l 2ffffffc 1'])):
        script(name, raising(9), [(command, error) for command in commands] + UNCHANGED)
    script('a number that is none before bytes that are none', raising(9), [
        ('m g 0', '!BadNumber'), ('m 0 0', '!BadNumber'), ('l 0 257', '!BadNumber'), ('l 0 256', '!NoBytes'), ('m 0 256', '!NoBytes'), ('d g', '!BadNumber')] + UNCHANGED)


def breakpoints():
    sets = [('b %x' % (0x20000 + 4 * k), 'break %08x\n' % (0x20000 + 4 * k)) for k in range(15)]
    script('sixteen breakpoints, and a seventeenth', raising(9), sets + [
        ('b 10004', 'break 00010004\n'), ('b 10008', '!TooManyBreakpoints'), ('b 10004', 'break 00010004\n'), ('b 20000', 'break 00020000\n'), ('b 10005', '!BadNumber'), ('b 10006', '!BadNumber'),
        ('d 10008', '!NotThere'), ('b 20001', '!BadNumber'), ('b g', '!BadNumber'), ('c', AT % (0x10004, 1)), ('b 10008', '!TooManyBreakpoints'), ('c', AT % (0x10004, 9)),
        ('d 20004', 'gone 00020004\n'), ('b 10008', 'break 00010008\n'), ('b 1000c', '!TooManyBreakpoints'), ('c', AT % (0x10008, 10)), ('d 20004', '!NotThere'), ('d 10004', 'gone 00010004\n'),
        ('c', AT % (0x10008, 18)), ('d 10008', 'gone 00010008\n'), ('c', ENDED % 26)])
    script('a breakpoint that is set twice is gone at once', raising(9), [
        ('b 10008', 'break 00010008\n'), ('b 10008', 'break 00010008\n'), ('d 10008', 'gone 00010008\n'), ('d 10008', '!NotThere'), ('c', ENDED % 26)])
    script('breakpoints at the start, the end and where no code is', raising(9), [
        ('b 10000', 'break 00010000\n'), ('b fffffff0', 'break fffffff0\n'), ('b 0', 'break 00000000\n'), ('b fffffffc', 'break fffffffc\n'), ('s 0', AT % (CODE, 0)), ('c', ENDED % 26),
        ('d fffffff0', 'gone fffffff0\n'), ('d 0', 'gone 00000000\n'), ('c', ENDED % 26)])
    script('digits of either case, and zeros before them', raising(9), [
        ('b 0001000C', 'break 0001000c\n'), ('d 1000c', 'gone 0001000c\n'), ('b Abc0', 'break 0000abc0\n'), ('b 0', 'break 00000000\n'), ('b 00000000', 'break 00000000\n'), ('b FFFFFFFC', 'break fffffffc\n'),
        ('d fFfFfFfC', 'gone fffffffc\n'), ('s 0000000002', AT % (0x10008, 2)), ('v 0000000008', 'v08=' + 32 * '0' + '\n'), ('m 0040000000 1', '!BadNumber'), ('m 40000000 0000000001', '40000000=00\n'),
        ('l 0010024 1', '00010024 00008067 jalr rd=0 rs1=1 imm=0\n')])
    script('a breakpoint stops no steps', raising(9), [
        ('b 10004', 'break 00010004\n'), ('s 3', AT % (0x1000c, 3)), ('s 6', AT % (0x10004, 9)), ('s 1', AT % (0x10008, 10)), ('c', AT % (0x10004, 17)), ('s 9', ENDED % 26)])


def steps():
    for n in (0, 1, 9, 16):
        total = 1 + 8 * (-(-n // 4)) + 1
        script('all steps at once, of %d words' % n, raising(n), [('s 4294967295', ENDED % total), ('s 4294967295', ENDED % total), ('s 0', ENDED % total), ('c', ENDED % total)])
        script('all but one, of %d words' % n, raising(n), [('s %d' % (total - 1), AT % (0x10024, total - 1)), ('s 1', ENDED % total), ('s 1', ENDED % total)])
        script('on to the end, of %d words' % n, raising(n), [('c', ENDED % total), ('c', ENDED % total), ('q', None)])
    for most in (1 << 32, 1 << 63, (1 << 64) - 1):
        script('a run of at most %d steps' % most, raising(9, most=most), [('s 25', AT % (0x10024, 25)), ('c', ENDED % 26)])
    script('commands behind q', raising(9), [('q', None), ('s 1', AT % (0x10004, 1)), ('q', None), ('c', ENDED % 26)])


def bytes_and_words():
    run = lambda vlenb: run_of(rights(vlenb), [], vlenb)
    ret = ' jalr rd=0 rs1=1 imm=0\n'
    script('bytes with each right and none, and over two segments', run(16), [
        ('m 1000 11', '00001000=%s\n' % b'may be read'.hex()), ('m 2000 8', '00002000=%s\n' % b'written\0'.hex()), ('m 3000 16', '00003000=%s\n' % b'adjoinsthis\0\0\0\0\0'.hex()), ('m 3006 2', '00003006=7374\n'),
        ('m 4000 8', '00004000=d7f2050d00000000\n'), ('m 5000 8', '00005000=%s\n' % b'no right'.hex()), ('m 5000 9', '!NoBytes'), ('m 4fff 1', '!NoBytes'), ('m 1ffe 2', '!NoBytes'),
        ('m 2fff0000 256', '2fff0000=%s\n' % (512 * '0')), ('m 2fffff00 256', '2fffff00=%s\n' % (512 * '0'))])
    script('words over segments that adjoin, and at no multiple of 4', run(16), [
        ('l 10000 6', '00010000 00000297 auipc rd=5 imm=00000000\n00010004 0082a303 lw rd=6 rs1=5 imm=8\n00010008 00008067' + ret + '0001000c 00000013 addi rd=0 rs1=0 imm=0\n'
         '00010010 02056407 vle32.v vd=8 rs1=10 vm=1\n00010014 00008067' + ret), ('l 10010 1', '00010010 02056407 vle32.v vd=8 rs1=10 vm=1\n'), ('l 10018 1', '!NoBytes'), ('l 10015 1', '!NoBytes'),
        ('l 10001 1', '00010001 03000002 illegal\n'), ('l 10002 1', '00010002 a3030000 illegal\n'), ('l 10003 2', '00010003 82a30300 illegal\n00010007 00806700 illegal\n'),
        ('l 4000 2', '00004000 0d05f2d7 vsetvli rd=5 rs1=11 imm=208\n00004004 00000000 illegal\n'), ('l 4001 1', '00004001 000d05f2 illegal\n'), ('l 4004 1', '00004004 00000000 illegal\n'),
        ('l 4005 1', '!NoBytes'), ('l 1000 1', '!NoBytes'), ('l 2000 1', '!NoBytes'), ('l 5000 1', '!NoBytes'), ('s 2', AT % (0x10008, 2)), ('c', ENDED % 3)])
    for vlenb in LENGTHS:
        script('registers of %d bytes' % vlenb, run(vlenb), [('v %d' % n, 'v%02d=%s\n' % (n, vlenb * '00')) for n in (0, 9, 10, 31)] + [('csr', CSRS % (CODE, 0, 0x80000000, vlenb))])


def listings():
    """Words of words.txt behind a ret: of each instruction some, and of what means nothing."""
    rng = random.Random(11)
    by_name = {}
    for word, text in LISTED:
        by_name.setdefault(text.split()[0], []).append(int(word, 16))
    words = [word for name, all_of in sorted(by_name.items()) for word in rng.sample(all_of, min(len(all_of), 160 if name == 'illegal' else 5))]
    rng.shuffle(words)
    places = (CODE, 0x1000, 0x1fff0000, 0x80000000, 0xbfff0000)
    for k in range(0, len(words), 100):
        part, at = words[k:k + 100], places[k // 100 % 5]
        image = file_of(kernel('ret', '', '%#x 1; R' % at, at=at, more=[(at + 4, code_bytes(part), 4 * len(part), 5)]))
        put('words %d to %d of a listing' % (k, k + len(part) - 1), run_of(image), ['l %x %d' % (at + 4, len(part)), 'c'])


# ---- Drawn scripts -----------------------------------------------------------------------------------------------------------------------

def places(run):
    """The ends of all segments, buffers and of the stack, and the first addresses."""
    _, areas = run.start()
    ends = [at for first, data, _ in areas for at in (first, first + len(data))]
    return ends + [0, M32, 0xfffffff0]


def near(rng, run):
    return rng.choice(places(run)) + rng.choice((0, 0, 0, 0, 1, 2, 3, 4, 8, 12, 16, 20, 24, 28, 32, -1, -2, -3, -4, -8)) & M32


def spelled(rng, at):
    return rng.choice(('%x', '%x', '%x', '%08x', '%X', '%08X', '%09x')) % at


def plain_command(rng, run):
    code_at = lambda: CODE + 4 * rng.randrange(11)
    kind = 'q' if rng.random() < .02 else rng.choice('bbbbdddssssscxxvvvvrrmmmmlll')
    if kind == 'b':
        return 'b ' + spelled(rng, rng.choice((code_at(), code_at(), code_at(), near(rng, run))))
    if kind == 'd':
        return 'd ' + spelled(rng, rng.choice((code_at(), code_at(), near(rng, run))))
    if kind == 's':
        return 's ' + rng.choice(('0', '1', '1', '2', '%d' % rng.randrange(9), '%010d' % rng.randrange(4), '4294967295' if rng.random() < .2 else '3'))
    if kind == 'v':
        return 'v %d' % rng.choice((8, 9, 0, 16, rng.randrange(34)))
    if kind == 'm':
        return 'm %s %d' % (spelled(rng, near(rng, run)), rng.choice((1, 2, 3, 4, 7, 16, 64, rng.randrange(32), 0 if rng.random() < .2 else 5, rng.choice((256, 257)) if rng.random() < .1 else 8)))
    if kind == 'l':
        return 'l %s %d' % (spelled(rng, rng.choice((code_at(), near(rng, run)))), rng.choice((1, 1, 2, 3, rng.randrange(9))))
    return {'c': 'c', 'x': 'x', 'r': 'csr', 'q': 'q'}[kind]


def command(rng, run):
    """A command, one of seven with a character changed."""
    text = plain_command(rng, run)
    if rng.randrange(7):
        return text
    at = rng.randrange(len(text) + 1)
    other = rng.choice(' bcdlmqsvx0189afgF-+\t.ß')
    return rng.choice((text[:at] + other + text[at:], text[:at] + text[at + 1:], text[:at] + other + text[at + 1:], text + ' ', ''))


def drawn(count, seed):
    rng = random.Random(seed)
    pools = {vlenb: list(watched(vlenb)) for vlenb in LENGTHS}
    for _ in range(count):
        vlenb = rng.choice(LENGTHS)
        _, image, arguments = rng.choice(pools[vlenb])
        args = [draw(rng) for draw in arguments]
        run = run_of(image, args, vlenb, rng.random() < .5)
        run.most = rng.choice((run.most, run.most + 1, 100000, 1 << 63, (1 << 64) - 1))
        many = rng.random() < .15
        commands = ['b %x' % at for at in rng.sample(range(CODE, CODE + 0x100, 4), 16)] if many else []
        commands += [command(rng, run) for _ in range(rng.randrange(4, 22))]
        put(None, run, commands + rng.choice((['csr'], ['x'], ['csr', 'v 8'], ['c', 'x', 'q'])))


def main():
    parser = argparse.ArgumentParser()
    parser.add_argument('--drawn', nargs=2, type=int, metavar=('N', 'SEED'), default=(0, 0))
    options = parser.parse_args()
    for rows in (strips, refused, breakpoints, steps, bytes_and_words, listings):
        rows()
    by_hand = len(ROWS)
    drawn(*options.drawn)
    for line in __doc__.split('\n')[:-1]:
        print(('# ' + line).rstrip())
    print('# %d rows: %d by hand, each with its name in the line before it, and %d drawn.' % (len(ROWS), by_hand, len(ROWS) - by_hand))
    for name, row in ROWS:
        print('# %s\n%s' % (name, row) if name else row)


if __name__ == '__main__':
    main()
