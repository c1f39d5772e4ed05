"""Makes makes.txt: images and parameters, and the certificate that the maker makes for them, or the first word that does not fit.

    python3 vectors/makes.py --drawn 150 1 > crates/conformance/data/makes.txt
    python3 vectors/makes.py --tried 5000 2        # draws as many beside the table, and prints how many were made

A row is `VLENB P0 .. P7 FILE = ANSWER`. A parameter is `-`, `sHHHHHHHH:HHHHHHHH` (a scalar with its ends), `rN` or `wN` (a buffer of N
bytes to read, or to read and write). ANSWER is `made CERTIFICATE accepted C K R`, with the certificate's bytes and what its check then answers, or
`NotALoopOfTheClass HHHHHHHH` with the address of the first word that does not fit.

The rules are this project's own: the rows before the drawn ones were written by hand with what comes of them, a certificate or a place, and maker.py has to
say the same. That a certificate passes, checker.py has to say, of the drawn ones too.
"""
import argparse
import random
from collections import namedtuple

import certificates as c
import checker
import maker
from assembly import assembled
from images import elf
from kernels import CODE, Kernel, code_bytes, file_of, params
from table import ALL, VECTOR, VTYPES, sew_of

ROWS = []
# name: None of a drawn row. passed: the parameters. segments: (address, bytes, flags).
Row = namedtuple('Row', 'name vlenb passed segments entry answer')
LENGTHS = (16, 32, 64)
SHIFT = {8: 0, 16: 1, 32: 2}
RIGHTS = {c.READ: 'r', c.READ | c.WRITE: 'w'}


# ---- Rows ---------------------------------------------------------------------------------------------------------------------------

def plain_file(segments, entry):
    """An ELF file without a note. Segments are (address, bytes, flags)."""
    headers, offset = [], 0
    for address, data, flags in segments:
        headers.append((c.LOAD, offset, address, len(data), len(data), flags))
        offset += len(data)
    return elf(headers, b''.join(data for _, data, _ in segments), [(24, 4, entry)])


def param_text(p):
    return {'none': lambda: '-', 'scalar': lambda: 's%08x:%08x' % (p.a, p.b), 'buffer': lambda: '%s%d' % (RIGHTS[p.mode], p.a)}[p.kind]()


def answer_of(vlenb, passed, segments, entry):
    """The row's answer, and whether a certificate was made. Each that is made passes."""
    image = c.read_image(plain_file(segments, entry))
    try:
        certificate = maker.make(image, passed, vlenb)
    except maker.NotALoop as e:
        return e.text, False
    spelled = c.certificate_bytes(certificate)
    assert c.read_certificate(spelled) == certificate
    told = checker.check(file_of(Kernel([(at, data, len(data), flags) for at, data, flags in segments], entry, certificate)), vlenb)
    assert told.startswith('accepted 2 '), told
    return 'made %s %s' % (spelled.hex(), told), True


def put(name, vlenb, passed, segments, entry, expected=None):
    """expected: None for a drawn row, 'made', or the number of the word after the entry that does not fit."""
    passed = params(passed) if isinstance(passed, str) else passed
    answer, is_made = answer_of(vlenb, passed, segments, entry)
    if expected is not None:
        by_hand = 'made' if expected == 'made' else 'NotALoopOfTheClass %08x' % (entry + 4 * expected)
        assert answer.split(' ')[0] == 'made' == by_hand if is_made else answer == by_hand, '%s\n by hand %s\n model   %s' % (name, by_hand, answer)
    ROWS.append(Row(name, vlenb, passed, segments, entry, answer))


def row_text(row):
    return '%d %s %s = %s' % (row.vlenb, ' '.join(map(param_text, row.passed)), plain_file(row.segments, row.entry).hex(), row.answer)


def code(text, at=CODE):
    return code_bytes(assembled(text, at)[0])


def case(name, expected, text, passed, vlenb=16, at=CODE):
    put(name, vlenb, passed, [(at, code(text, at), 5)], at, expected)


# ---- Loops --------------------------------------------------------------------------------------------------------------------------

def loop(body, pointers, vtype='e32,m1,ta,ma', n='a1', t='t0', t1='t1'):
    """A loop of the class as lines; `body` of lines, with labels loop and end."""
    sew = int(vtype.split(',')[0][1:])
    step = t if sew == 8 else t1
    shift = [] if sew == 8 else ['slli %s,%s,%d' % (t1, t, SHIFT[sew])]
    return (['beqz %s,end' % n, 'loop: vsetvli %s,%s,%s' % (t, n, vtype)] + list(body) + shift
            + ['add %s,%s,%s' % (p, p, step) for p in pointers] + ['sub %s,%s,%s' % (n, n, t), 'bnez %s,loop' % n, 'end: ret'])


def text_of(lines):
    return '; '.join(lines)


def replaced(lines, place, text):
    """The line's label stays."""
    label = lines[place].split(':')[0] + ': ' if ':' in lines[place] else ''
    return lines[:place] + [label + text] + lines[place + 1:]


TWO = loop(['vle32.v v8,(a0)', 'vle32.v v9,(a2)', 'vadd.vv v8,v8,v9', 'vse32.v v8,(a0)'], ['a0', 'a2'])
TWO_PASSED = 'rw 256, s 0 64, r 256'
BYTES = loop(['vle8.v v8,(a0)', 'vadd.vi v8,v8,1', 'vse8.v v8,(a0)'], ['a0'], 'e8,m1,ta,ma')
BYTES_PASSED = 'rw 64, s 0 64'
NONE = loop(['vadd.vi v8,v8,1'], [])


def shown_vtype(bits):
    lmul = {6: 'mf4', 7: 'mf2', 0: 'm1', 1: 'm2', 2: 'm4', 3: 'm8'}[bits & 7]
    return 'e%d,%s,%s,%s' % (sew_of(bits), lmul, 'ta' if bits >> 6 & 1 else 'tu', 'ma' if bits >> 7 & 1 else 'mu')


# ---- Loops of the class -------------------------------------------------------------------------------------------------------------

def made_by_hand():
    """The certificates of an example that were written by hand are those that are made."""
    from pathlib import Path
    examples = Path(__file__).parent.parent / 'examples' / 'raise_words'
    for name, vlenb in (('raise_words.elf', 16), ('raise_words-256.elf', 32)):
        image = c.read_image((examples / name).read_bytes())
        passed = c.read_certificate(image.certificate).params
        assert c.certificate_bytes(maker.make(image, passed, vlenb)) == image.certificate
        put('the example raise_words', vlenb, passed, [(s.first, s.data, s.rights) for s in image.segments], image.entry, 'made')


def every_type():
    for k, bits in enumerate(VTYPES):
        sew = sew_of(bits)
        body = ['vle%d.v v8,(a0)' % sew, 'vadd.vi v16,v8,1', 'vse%d.v v16,(a1)' % sew]
        lines = loop(body, ['a1', 'a0'], shown_vtype(bits), n='a2')
        case(shown_vtype(bits), 'made', text_of(lines), 'r 4096, rw 4096, s 0 %d' % (32768 // sew), LENGTHS[k % 3])


def pointers_and_bounds():
    """Up to seven pointers, of places in any order; the ends of n."""
    for count in range(8):
        for sew in (8, 16, 32):
            places = [p for p in range(8) if p != count % 8][:count]
            names = ['a%d' % p for p in places]
            body = ['%s%d.v v%d,(%s)' % ('vle' if k % 2 else 'vse', sew, 8 + k, p) for k, p in enumerate(names)]
            passed = ['r %d' % (4000 * sew // 8) if k % 2 else 'rw %d' % (4000 * sew // 8 + k) for k in range(count)]
            passed.insert(count % 8, 's 0 4000')
            order = names[::-1] if sew == 8 else names[1:] + names[:1]
            lines = loop(body, order, 'e%d,m1,ta,ma' % sew, n='a%d' % (count % 8))
            case('%d pointers, %d bits' % (count, sew), 'made', text_of(lines), ', '.join(passed), LENGTHS[count % 3])
    for sew, lines, more in ((8, BYTES, ''), (32, TWO, ', r %d')):
        for n in (0, 1, 2, (16 << 20) * 8 // sew):
            size = n * sew // 8
            for lo in sorted({0, min(1, n), n}):
                case('n %d..%d, %d bits' % (lo, n, sew), 'made', text_of(lines), 'rw %d, s %d %d' % (size, lo, n) + (more % size if more else ''),
                     LENGTHS[(n + lo) % 3])
    for lo, n in ((0, 0), (0, 1), (7, 7), (0, 1 << 31), (0, 0xffffffff), (0xffffffff, 0xffffffff)):
        for vlenb in LENGTHS:
            case('no pointer, n %d..%d' % (lo, n), 'made', text_of(NONE), '-, s %d %d' % (lo, n), vlenb)
    case('no pointer, 8 bits', 'made', text_of(loop(['vid.v v8'], [], 'e8,m1,ta,ma')), '-, s 0 9')
    case('no word between', 'made', text_of(loop([], [], 'e8,m1,ta,ma')), '-, s 0 9')
    case('no word between, 32 bits', 'made', text_of(loop([], [])), '-, s 0 9')
    case('buffers that are no pointers', 'made', text_of(TWO), TWO_PASSED + ', rw 0, r 1, s 5 6, -, r 4097')
    case('a buffer behind one of another size', 'made', text_of(loop(['vle32.v v8,(a2)'], ['a2'])), 'r 4097, s 0 8, r 32')
    case('a pointer that is read twice and written twice', 'made', text_of(loop(
        ['vse32.v v8,(a0)', 'vle32.v v8,(a0)', 'vle32.v v9,(a0)', 'vse32.v v8,(a0)'], ['a0'])), TWO_PASSED)


def registers():
    for n in range(8):
        pointer = 'a%d' % ((n + 3) % 8)
        passed = ', '.join('s 0 4' if k == n else 'rw 16' if k == (n + 3) % 8 else '-' for k in range(8))
        body = ['vle32.v v8,(%s)' % pointer, 'vse32.v v8,(%s)' % pointer]
        case('n in a%d' % n, 'made', text_of(loop(body, [pointer], n='a%d' % n, t='a%d' % ((n + 1) % 8), t1='a%d' % ((n + 2) % 8))), passed)
    for t, t1 in (('sp', 'gp'), ('tp', 'sp'), ('a2', 'a3'), ('x31', 'x30'), ('a3', 'a2'), ('s0', 's1')):
        case('t %s, t1 %s' % (t, t1), 'made', text_of(loop(['vle32.v v8,(a0)'], ['a0'], t=t, t1=t1)), 'r 256, s 0 64, r 256, s 1 2')
    for x in ('x0', 'ra', 'a1', 'a0', 't0', 't1', 't2'):
        case('arithmetic with %s' % x, 'made', text_of(loop(['vadd.vx v8,v8,%s' % x, 'vmv.s.x v9,%s' % x, 'vle32.v v8,(a0)'], ['a0'])), TWO_PASSED)


def places_of_code():
    words = code(text_of(TWO))
    for at in (0x1000, 0x1fffff00, 0x80000000, 0xbfffff00):
        case('code at %#x' % at, 'made', text_of(TWO), TWO_PASSED, at=at)
    put('the entry behind another word', 16, TWO_PASSED, [(CODE, b'\x13\0\0\0' + code(text_of(TWO), CODE + 4), 5)], CODE + 4, 'made')
    put('code that may be run alone', 16, TWO_PASSED, [(CODE, words, 1)], CODE, 'made')
    put('words behind the end', 16, TWO_PASSED, [(CODE, words + b'\xff' * 8, 5)], CODE, 'made')
    put('data before the code', 16, TWO_PASSED, [(0x8000, b'abcd', 6), (CODE, words, 5)], CODE, 'made')
    for k in range(1, 12):
        put('no code from word %d on' % k, 16, TWO_PASSED, [(CODE, words[:4 * k], 5)], CODE, k)
        put('half a word %d' % k, 16, TWO_PASSED, [(CODE, words[:4 * k + 2], 5)], CODE, k)
        put('a second segment from word %d on' % k, 16, TWO_PASSED, [(CODE, words[:4 * k], 5), (CODE + 4 * k, words[4 * k:], 5)], CODE, 'made')
        put('a second segment that may not be run from word %d on' % k, 16, TWO_PASSED, [(CODE, words[:4 * k], 5), (CODE + 4 * k, words[4 * k:], 4)], CODE, k)
        put('a second segment from the middle of word %d on' % k, 16, TWO_PASSED,
            [(CODE, words[:4 * k + 2], 5), (CODE + 4 * k + 2, words[4 * k + 2:], 5)], CODE, k)


def long_loops():
    """The longest: beqz reaches 4,092 bytes. At 1,023 words and more no beqz reaches the end, at 1,026 no bnez the start."""
    for count, vlenb in ((1022, 16), (1022, 32), (1022, 64), (1021, 16)):
        lines = loop(['vle8.v v8,(a0)', 'vse8.v v8,(a0)'] + ['vadd.vi v8,v8,1'] * (count - 6), ['a0'], 'e8,m1,ta,ma')
        assert len(lines) == count + 2
        case('%d words in the loop' % count, 'made', text_of(lines), 'rw 16777216, s 0 %d' % (1 << 24), vlenb)
    lines = replaced(loop(['vadd.vi v8,v8,1'] * 1020, [], 'e8,m1,ta,ma'), 0, 'beqz a1,%d' % (CODE + 4092))
    case('1,023 words in the loop', 1023, text_of(lines), '-, s 0 9')


# ---- What does not fit --------------------------------------------------------------------------------------------------------------

# Word, and what stands in its place; the number of the word that does not fit, where it is another one.
WRONG = {
    0: ['beqz a0,end', 'beqz a3,end', 'beqz t0,end', 'beqz x0,end', 'beqz ra,end', 'beqz x18,end', 'beq x0,a1,end', 'beq a1,a1,end', 'beq a1,a2,end', 'bne a1,x0,end',
        'bltu a1,x0,end', 'bgeu x0,a1,end', 'j end', ('beqz a1,loop', 10), ('beqz a1,0x10000', 10), ('beqz a1,0x10028', 10), ('beqz a1,0x10030', 10),
        ('beqz a1,0x1002e', 10), ('beqz a1,0xfffc', 10)],
    1: ['vsetvli t0,a2,e32,m1,ta,ma', 'vsetvli t0,x0,e32,m1,ta,ma', 'vsetvli x0,a1,e32,m1,ta,ma', 'vsetvli x0,x0,e32,m1,ta,ma', 'vsetvli ra,a1,e32,m1,ta,ma',
        'vsetvli a1,a1,e32,m1,ta,ma', 'vsetvli t0,t0,e32,m1,ta,ma', 'vsetvli t0,a1,e64,m1,ta,ma', 'vsetvli t0,a1,e32,mf2,ta,ma', 'vsetvli t0,a1,e16,mf4,ta,ma',
        'vsetvli t0,a1,0xd4', 'vsetvli t0,a1,0x1d0', 'vsetvli t0,a1,0x4d0', 'vsetvli t0,a1,0xd5', 'vsetivli t0,11,e32,m1,ta,ma', 'vsetvl t0,a1,t2',
        ('vsetvli a0,a1,e32,m1,ta,ma', 2), ('vsetvli a2,a1,e32,m1,ta,ma', 3), ('vsetvli t2,a1,e32,m1,ta,ma', 6), ('vsetvli t1,a1,e32,m1,ta,ma', 6),
        ('vsetvli t0,a1,e16,m1,ta,ma', 2), ('vsetvli t0,a1,e8,m1,ta,ma', 2), ('vsetvli t0,a1,e32,m2,ta,ma', 3)],
    2: ['vle8.v v8,(a0)', 'vle16.v v8,(a0)', 'vle32.v v8,(a0),v0.t', 'vlse32.v v8,(a0),x0', 'vlse32.v v8,(a0),t2', 'vluxei32.v v8,(a0),v4', 'vloxei32.v v8,(a0),v4',
        'vl1re32.v v8,(a0)', 'vlm.v v8,(a0)', 'lw t2,0(a0)', 'vle32.v v8,(a1)', 'vle32.v v8,(a3)', 'vle32.v v8,(a7)', 'vle32.v v8,(t0)', 'vle32.v v8,(x0)', 'vle32.v v8,(sp)',
        'vle32.v v8,(ra)', 'vle32.v v8,(x9)', 'vle32.v v8,(x18)', 'vsetvli t0,a1,e32,m1,ta,ma', 'vsetvli x0,x0,e32,m1,ta,ma', 'csrrs t2,vl,x0', 'li t2,1', 'add t2,t2,t2',
        'ret', 'slli t1,t0,3'],
    4: ['vadd.vv v8,v8,v9,v0.t', 'vmseq.vv v0,v8,v9', 'vmand.mm v0,v8,v9', 'vcpop.m t2,v8', 'vmv.x.s t2,v8', 'vwadd.vv v10,v8,v9', 'vnsrl.wi v8,v10,1',
        'vmerge.vvm v8,v8,v9,v0', 'vadc.vvm v8,v8,v9,v0', 'vmsbf.m v10,v8', 'vzext.vf4 v9,v9', 'vslideup.vi v9,v9,1', 'vrgather.vv v9,v9,v8', 'add t2,t2,t2',
        'vs1r.v v8,(a0)', 'vmv2r.v v8,v9', ('slli t1,t0,2', 5)],
    5: ['vse8.v v8,(a0)', 'vse16.v v8,(a0)', 'vse32.v v8,(a0),v0.t', 'vsse32.v v8,(a0),t2', 'vsuxei32.v v8,(a0),v4', 'vsoxei32.v v8,(a0),v4', 'vs1r.v v8,(a0)',
        'vsm.v v8,(a0)', 'vse32.v v8,(a2)', 'vse32.v v8,(a3)', 'vse32.v v8,(t0)', 'vse32.v v8,(a1)', 'sw t2,0(a0)'],
    6: ['slli t1,t0,3', 'slli t1,t0,1', 'slli t1,t0,0', 'slli t1,t0,31', 'slli t1,t1,2', 'slli t1,a1,2', 'slli x0,t0,2', 'slli ra,t0,2', 'slli a1,t0,2', 'slli t0,t0,2',
        'slli a0,t0,2', 'slli a2,t0,2', 'srli t1,t0,2', 'srai t1,t0,2', 'sll t1,t0,t2', 'addi t1,t0,2', 'mul t1,t0,t2', 'add t1,t0,t0', 'add a0,a0,t0', 'sub a1,a1,t0',
        ('slli a3,t0,2', 7), ('slli t2,t0,2', 7)],
    7: ['add a0,t1,a0', 'add a0,a0,t0', 'add a0,a0,a0', 'add a0,a2,t1', 'add a2,a0,t1', 'add a1,a1,t1', 'add a3,a3,t1', 'add t1,t1,t1', 'addi a0,a0,4', 'sub a0,a0,t1',
        'add a0,a0,x0', 'sub a1,a1,t0', 'vle32.v v8,(a0)', 'vadd.vi v8,v8,1', ('add a2,a2,t1', 8)],
    8: ['add a2,t1,a2', 'add a2,a2,t0', 'add a0,a0,t1', 'add a4,a4,t1', 'sub a1,a1,t0', 'add a2,a2,a1', 'slli t1,t0,2'],
    9: ['sub a1,t0,a1', 'sub a1,a1,t1', 'sub a1,a2,t0', 'sub a2,a1,t0', 'sub t0,a1,t0', 'sub a3,a3,t0', 'sub t0,t0,t0', 'sub a1,a1,x0', 'sub a1,a1,a1', 'addi a1,a1,-1', 'add a1,a1,t0', 'bnez a1,loop',
        'add a0,a0,t1', 'add a3,a3,t1'],
    10: ['bne x0,a1,loop', 'beqz a1,loop', 'bnez t0,loop', 'bnez a0,loop', 'bnez x0,loop', 'bne a1,a1,loop', 'bne a1,a2,loop', 'bnez a1,end', 'bnez a1,0x10000', 'bnez a1,0x10008',
         'bnez a1,0x10006', 'bnez a1,0x10002', 'blt x0,a1,loop', 'bltu x0,a1,loop', 'bgeu a1,t2,loop', 'j loop', 'ret', 'sub a1,a1,t0'],
    11: ['jalr x0,0(t0)', 'jalr x0,0(x0)', 'jalr ra,0(ra)', 'jalr t0,0(ra)', 'jalr x0,1(ra)', 'jalr x0,4(ra)', 'jalr x0,-4(ra)', 'j loop', '.word 0x8082', 'add ra,ra,x0', 'bnez a1,loop'],
}
NOWHERE = ['nop', 'ecall', 'fence', '.word 0', '.word 0xffffffff', '.word 0x00100073', '.word 0x0000100f']


def wrong_words():
    for place, texts in WRONG.items():
        for text in texts:
            text, stop = (text, place) if isinstance(text, str) else text
            case('word %d: %s' % (place, text), stop, text_of(replaced(TWO, place, text)), TWO_PASSED)
    for place in range(12):
        for text in NOWHERE:
            case('word %d: %s' % (place, text), place, text_of(replaced(TWO, place, text)), TWO_PASSED)
    # A word less and a word twice: with it the numbers of the words behind it change.
    for place, stop in {0: 0, 1: 1, 2: 'made', 3: 7, 4: 'made', 5: 'made', 6: 6, 7: 8, 8: 8, 9: 9, 10: 10}.items():
        lines = [line for k, line in enumerate(TWO) if k != place]
        lines = replaced(lines, 0, 'beqz a1,end') if place else lines
        if place == 1:
            lines = [lines[0], 'loop: ' + lines[1]] + lines[2:]
        case('without word %d' % place, stop, text_of(lines), TWO_PASSED)
    case('without the end', 11, text_of(TWO[:-1] + ['end:']), TWO_PASSED)
    for place, stop in {0: 1, 1: 2, 2: 'made', 3: 'made', 4: 'made', 5: 'made', 6: 7, 7: 8, 8: 9, 9: 10, 10: 10, 11: 'made'}.items():
        again = TWO[place].split(': ')[-1]
        case('word %d twice' % place, stop, text_of(TWO[:place + 1] + [again] + TWO[place + 1:]), TWO_PASSED)
    for place in (2, 3, 4, 7):
        lines = TWO[:place] + [TWO[place + 1], TWO[place]] + TWO[place + 2:]
        case('words %d and %d exchanged' % (place, place + 1), 'made', text_of(lines), TWO_PASSED)
    for place, stop in ((5, 6), (6, 6), (8, 8), (9, 9)):
        lines = TWO[:place] + [TWO[place + 1], TWO[place]] + TWO[place + 2:]
        case('words %d and %d exchanged' % (place, place + 1), stop, text_of(lines), TWO_PASSED)


def wrong_of_other_widths():
    """At 8 bits there is no slli, and t is added; without a pointer nothing is."""
    for place, text, stop in ((5, 'add a0,a0,t1', 5), (5, 'slli t1,t0,0', 5), (5, 'add a0,t0,a0', 5), (5, 'sub a1,a1,t0', 5), (2, 'vle16.v v8,(a0)', 2), (6, 'sub a1,a1,t1', 6),
                              (6, 'add a0,a0,t0', 6), (2, 'vadd.vi v8,v8,0', 'made'), (4, 'vadd.vi v8,v8,0', 'made')):
        case('8 bits, word %d: %s' % (place, text), stop, text_of(replaced(BYTES, place, text)), BYTES_PASSED)
    for place, text, stop in ((3, 'slli t1,t0,1', 3), (3, 'add t1,t1,t1', 3), (3, 'sub a1,a1,t0', 3), (4, 'add a0,a0,t1', 4), (3, 'slli a0,t0,2', 'made')):
        case('no pointer, word %d: %s' % (place, text), stop, text_of(replaced(NONE, place, text)), 'rw 64, s 0 64')
    halves = loop(['vle16.v v8,(a0)', 'vse16.v v8,(a0)'], ['a0'], 'e16,m1,ta,ma')
    for text, stop in (('slli t1,t0,1', 'made'), ('slli t1,t0,2', 4), ('slli t1,t0,0', 4), ('add t1,t0,t0', 4), ('slli t1,t0,17', 4)):
        case('16 bits, word 4: %s' % text, stop, text_of(replaced(halves, 4, text)), 'rw 128, s 0 64')


def wrong_parameters():
    text = text_of(TWO)
    for passed, stop in (('rw 256, s 0 64, r 256', 'made'), ('rw 255, s 0 64, r 256', 2), ('rw 256, s 0 64, r 255', 3), ('rw 256, s 0 65, r 260', 2), ('rw 260, s 0 65, r 256', 3),
                         ('rw 260, s 0 65, r 260', 'made'), ('r 256, s 0 64, r 256', 5), ('r 256, s 0 64, rw 256', 5), ('rw 256, s 0 64, rw 256', 'made'), ('rw 256, -, r 256', 0),
                         ('rw 256, rw 256, r 256', 0), ('-, s 0 64, r 256', 2), ('s 0 64, s 0 64, r 256', 2), ('rw 256, s 0 64, -', 3), ('rw 256, s 0 64, s 0 64', 3),
                         ('rw 256, s 0 64', 3), ('rw 0, s 0 0, r 0', 'made'), ('rw 0, s 0 1, r 4', 2), ('rw 4, s 1 1, r 3', 3), ('rw 256, s 64 64, r 256', 'made'),
                         ('rw 16777216, s 0 0xffffffff, r 16777216', 2), ('rw 16777216, s 0 4194305, r 16777216', 2), ('rw 4, s 0 0x40000001, r 4', 2),
                         ('rw 256, s 65 65, r 256', 2), ('', 0), ('s 0 64, rw 256, r 256', 0)):
        for vlenb in LENGTHS[:1 if stop == 'made' else 3]:
            case('parameters %s' % passed, stop, text, passed, vlenb)
    for passed, stop in (('rw 64, s 0 64', 'made'), ('rw 63, s 0 64', 2), ('rw 16777216, s 0 16777217', 2), ('r 64, s 0 64', 4)):
        case('8 bits, parameters %s' % passed, stop, text_of(BYTES), passed)


def fits_by_number(word):
    """Of a vector word that is no access, by its funct6 and form: it is unmasked and writes a vector register, no mask, of the same width."""
    f3, funct6, vs1 = word >> 12 & 7, word >> 26, word >> 15 & 31
    if word >> 25 & 1 == 0:
        return False
    if f3 in (0, 3, 4):
        return not (0x10 <= funct6 <= 0x13 or 0x18 <= funct6 <= 0x1f or 0x2c <= funct6 <= 0x31)
    if funct6 == 0x10:
        return f3 == 6
    return funct6 < 0x30 and not 0x18 <= funct6 <= 0x1f and (funct6 != 0x14 or vs1 in (16, 17))


def every_operation():
    """One word of each vector instruction between a load and a store, unmasked and masked."""
    for k, i in enumerate(VECTOR):
        if i.shape.startswith('vload') or i.shape.startswith('vstore'):
            continue
        for vm in (1, 0):
            if i.vm not in (None, vm):
                continue
            word = i.encode(vd=8, vs2=16, vs1=24, rs1=28, rd=7, imm=3, vm=vm)
            vtype = 'e32,m1,ta,ma' if 'vf4' in i.name else ('e16,m1,ta,ma', 'e16,m2,tu,mu', 'e16,mf2,ta,mu')[k % 3]
            fits = fits_by_number(word)
            lines = loop(['.word %#x' % word] + ['vse%s.v v8,(a0)' % vtype[1:3]] * fits, ['a0'] * fits, vtype)
            case('%s%s at %s' % (i.name, '' if vm else ' masked', vtype), 'made' if fits else 2, text_of(lines), 'rw 64, s 0 16', LENGTHS[k % 3])
    every = [i.encode(vd=8, vs2=16, vs1=24, rs1=28, imm=3, vm=1) for i in VECTOR if i.base & 0x7f == 0x57 and i.vm in (None, 1) and 'vf4' not in i.name]
    body = ['.word %#x' % word for word in every if fits_by_number(word)]
    for vlenb, vtype in ((16, 'e16,m2,ta,ma'), (32, 'e32,m4,tu,mu'), (64, 'e16,m8,tu,ma')):
        case('all that fits at %s' % vtype, 'made', text_of(loop(body, [], vtype)), '-, s 0 1000', vlenb)


def legality():
    """Registers that are no multiple, widths that are none, and sharing."""
    for vtype, text, stop in (
            ('e32,m2,ta,ma', 'vadd.vi v9,v8,1', 2), ('e32,m2,ta,ma', 'vadd.vi v8,v9,1', 2), ('e32,m2,ta,ma', 'vadd.vv v8,v8,v9', 2), ('e32,m8,ta,ma', 'vadd.vi v24,v8,1', 'made'),
            ('e32,m8,ta,ma', 'vadd.vi v28,v8,1', 2), ('e8,m8,ta,ma', 'vrgatherei16.vv v8,v16,v24', 2), ('e8,m4,ta,ma', 'vrgatherei16.vv v8,v16,v24', 'made'),
            ('e16,m4,ta,ma', 'vzext.vf4 v8,v16', 2), ('e16,m4,ta,ma', 'vzext.vf2 v8,v16', 'made'), ('e8,m1,ta,ma', 'vsext.vf2 v8,v16', 2), ('e16,m2,ta,ma', 'vzext.vf2 v8,v9', 'made'),
            ('e16,m2,ta,ma', 'vzext.vf2 v8,v8', 2), ('e16,mf2,ta,ma', 'vzext.vf2 v8,v8', 2), ('e32,m1,ta,ma', 'vsext.vf4 v8,v9', 'made'), ('e32,m1,ta,ma', 'vslideup.vi v8,v8,1', 2),
            ('e32,m1,ta,ma', 'vslidedown.vi v8,v8,1', 'made'), ('e32,m1,ta,ma', 'vslide1up.vx v8,v8,t2', 2), ('e32,m1,ta,ma', 'vcompress.vm v8,v9,v8', 2),
            ('e32,m2,ta,ma', 'vcompress.vm v8,v10,v3', 'made'), ('e32,m1,ta,ma', 'viota.m v8,v8', 2), ('e32,m2,ta,ma', 'viota.m v8,v7', 'made'), ('e32,m8,ta,ma', 'vredsum.vs v1,v8,v3', 'made'),
            ('e32,m8,ta,ma', 'vredsum.vs v1,v9,v3', 2), ('e32,m2,ta,ma', 'vmv.s.x v3,t2', 'made'), ('e32,m2,ta,ma', 'vmv1r.v v3,v5', 'made'), ('e32,m1,ta,ma', 'vmv4r.v v4,v6', 2),
            ('e32,m1,ta,ma', 'vmv8r.v v8,v16', 'made'), ('e32,m2,ta,ma', 'vid.v v3', 2), ('e32,m1,ta,ma', 'vadd.vv v0,v0,v0', 'made'), ('e16,mf4,ta,ma', 'vadd.vi v3,v5,1', 1)):
        case('%s at %s' % (text, vtype), stop, text_of(loop([text], [], vtype)), '-, s 0 64')
    for vtype, register, stop in (('e32,m2,ta,ma', 9, 2), ('e32,m4,ta,ma', 10, 2), ('e32,m8,ta,ma', 12, 2), ('e32,m8,ta,ma', 24, 'made'), ('e32,m1,ta,ma', 0, 'made'), ('e8,mf4,ta,ma', 31, 'made')):
        for access in ('vle', 'vse'):
            lines = loop(['%s%s.v v%d,(a0)' % (access, vtype.split(',')[0][1:], register)], ['a0'], vtype)
            case('%s of v%d at %s' % (access, register, vtype), stop, text_of(lines), 'rw 256, s 0 64', 64)


# ---- Drawn rows -----------------------------------------------------------------------------------------------------------------------

ARITHMETIC = [i for i in VECTOR if maker.is_fitting(i)]


def drawn_word(rng, vtype):
    """A word of arithmetic that fits in most cases."""
    for _ in range(20):
        word = rng.choice(ARITHMETIC).encode(vd=rng.randrange(32), vs2=rng.randrange(32), vs1=rng.randrange(32), rs1=rng.randrange(32), imm=rng.randrange(32), vm=1)
        decoded = maker.model.decode(word)
        if decoded and maker.model.is_legal(vtype, word):
            return word
    return ALL['vadd.vi'].encode(vd=0, vs2=0, imm=1, vm=1)


def drawn_loop(rng):
    """Parameters and words of a loop of the class: (vlenb, parameters, words)."""
    vtype = rng.choice(VTYPES)
    sew, w = sew_of(vtype), sew_of(vtype) // 8
    places = rng.sample(range(8), rng.randrange(1, 9))
    n = places.pop()
    most = rng.choice((0, 1, 2, rng.randrange(300), rng.randrange(1 << 20), (16 << 20) // w)) if places else rng.choice((0, 1, rng.getrandbits(32), 0xffffffff))
    passed = [c.Param('none')] * 8
    passed[n] = c.Param('scalar', 0, rng.choice((0, most, rng.randint(0, most))), most)
    free = [r for r in range(2, 32) if r - 10 != n and r - 10 not in places]
    for p in places:
        passed[p] = c.Param('buffer', rng.choice((c.READ, c.READ | c.WRITE)), min(16 << 20, most * w + rng.choice((0, 0, 1, 4096))))
    for p in range(8):
        if p != n and p not in places and rng.random() < .3:
            passed[p] = rng.choice((c.Param('scalar', 0, 3, 9), c.Param('buffer', c.READ, 5)))
    t, t1 = rng.sample(free, 2)
    group = max(1, {0: 1, 1: 2, 2: 4, 3: 8}.get(vtype & 7, 1))
    access = lambda p, kind: ALL['v%se%d.v' % (kind, sew)].encode(vd=group * rng.randrange(32 // group), vs3=group * rng.randrange(32 // group), rs1=10 + p, vm=1)
    body = [access(p, 's' if passed[p].mode & c.WRITE and rng.random() < .5 else 'l') for p in places for _ in range(rng.choice((1, 1, 2)))]
    body += [drawn_word(rng, vtype) for _ in range(rng.randrange(6))]
    rng.shuffle(body)
    rng.shuffle(places)
    step = t if sew == 8 else t1
    words = [ALL['vsetvli'].encode(rd=t, rs1=10 + n, imm=vtype)] + body
    words += [ALL['slli'].encode(rd=t1, rs1=t, imm=SHIFT[sew])] * (sew > 8)
    words += [ALL['add'].encode(rd=10 + p, rs1=10 + p, rs2=step) for p in places] + [ALL['sub'].encode(rd=10 + n, rs1=10 + n, rs2=t)]
    words.append(ALL['bne'].encode(rs1=10 + n, rs2=0, to=0x10000 - 4 * len(words)))
    words = [ALL['beq'].encode(rs1=10 + n, rs2=0, to=0x10000 + 4 * len(words) + 4)] + words + [0x8067]
    return rng.choice(LENGTHS), passed, words


def changed(rng, passed, words):
    """The loop with one word or parameter changed."""
    passed, words, place = list(passed), list(words), rng.randrange(len(words))
    kind = rng.randrange(6)
    if kind == 0:
        words[place] ^= 1 << rng.randrange(32)
    elif kind == 1:
        words.insert(place, words[rng.randrange(len(words))])
    elif kind == 2 and place:
        words.pop(place)
    elif kind == 3 and place:
        words[place - 1], words[place] = words[place], words[place - 1]
    elif kind == 4:
        low = rng.choice((7, 15, 20))
        words[place] = words[place] & ~(31 << low) | rng.choice((0, 1, rng.randrange(32))) << low
    else:
        place = rng.randrange(8)
        p = passed[place]
        passed[place] = {'none': lambda: p, 'scalar': lambda: p._replace(b=min(maker.M32, p.b + rng.choice((1, 2, 1 << 20)))),
                         'buffer': lambda: rng.choice((p._replace(a=max(0, p.a - 1)), p._replace(mode=c.READ), c.Param('none')))}[p.kind]()
    return passed, words


def drawn(count, seed):
    """(vlenb, parameters, segments, is of the class) of so many loops, two of three changed."""
    rng = random.Random(seed)
    for k in range(count):
        vlenb, passed, words = drawn_loop(rng)
        is_plain = k % 3 == 0
        if not is_plain:
            passed, words = changed(rng, passed, words)
        yield vlenb, passed, [(CODE, code_bytes(words), 5)], is_plain


def tried(count, seed):
    made = 0
    for vlenb, passed, segments, is_plain in drawn(count, seed):
        _, is_made = answer_of(vlenb, passed, segments, CODE)
        assert is_made or not is_plain
        made += is_made
    print('%d drawn: %d made, and each of them passes; %d are no loops of the class' % (count, made, count - made))


def fill(count, seed):
    """All rows, with so many that are drawn."""
    for rows in (made_by_hand, every_type, pointers_and_bounds, registers, places_of_code, long_loops, wrong_words, wrong_of_other_widths, wrong_parameters, every_operation, legality):
        rows()
    for vlenb, passed, segments, is_plain in drawn(count, seed):
        put(None, vlenb, passed, segments, CODE, 'made' if is_plain else None)


def main():
    parser = argparse.ArgumentParser()
    parser.add_argument('--drawn', nargs=2, type=int, metavar=('N', 'SEED'), default=(0, 0))
    parser.add_argument('--tried', nargs=2, type=int, metavar=('N', 'SEED'))
    options = parser.parse_args()
    if options.tried:
        return tried(*options.tried)
    fill(*options.drawn)
    for line in __doc__.split('\n')[:-1]:
        print(('# ' + line).rstrip())
    by_hand, made = sum(row.name is not None for row in ROWS), sum(row.answer.startswith('made ') for row in ROWS)
    print('# %d rows: %d by hand, each with its name in the line before it, and %d drawn. %d are made.' % (len(ROWS), by_hand, len(ROWS) - by_hand, made))
    for row in ROWS:
        print('# %s\n%s' % (row.name, row_text(row)) if row.name else row_text(row))


if __name__ == '__main__':
    main()
