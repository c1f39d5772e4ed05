#!/usr/bin/env python3
"""How fast `rvvbox check` is: `examples/speed/check.py [PROGRAM]` prints how many words a second it checks, by processor time of this run.

Needs the program (`examples/try add_bytes` builds it). The images are made here: blocks of so many words, each with 32 facts, of which 29 are
equalities of two terms. Each word keeps them, and each block shows all of them to the next one.
"""
import os
import resource
import struct
import subprocess
import sys
import tempfile

HERE = os.path.dirname(os.path.abspath(__file__))
PROGRAM = os.path.join(HERE, '..', '..', 'crates', 'rvvbox', 'out', 'rvvbox')
START, EXIT, STACK_END = 0x10000, 0xFFFFFFF0, 0x30000000
FULL = (0, 2**32 - 1)
# a0 and a1 are numbers that are passed, and all registers from x3 on are sums of the two
PASSED = (33, 34)
SUMS = [r for r in range(3, 32) if r not in (10, 11)]
RET = 0x00008067


def addi(rd, rs1):
    return rd << 7 | rs1 << 15 | 0x13


def add(rd, rs1, rs2):
    return rd << 7 | rs1 << 15 | rs2 << 20 | 0x33


def fact(number, interval, terms=None):
    out = struct.pack('<BII', number, *interval)
    if terms is None:
        return out + b'\xff'
    return out + struct.pack('<BI', len(terms), 0) + b''.join(struct.pack('<BI', atom, 1) for atom in terms)


def facts(entered):
    """Of x1 and x2 an interval; of a0 and a1 that they are what was passed; of the others, once that was computed, that they are the sum of both."""
    known = [fact(1, (EXIT, EXIT)), fact(2, (STACK_END, STACK_END))]
    for r in range(3, 32):
        if r in (10, 11):
            known.append(fact(r, FULL, (PASSED[r - 10],)))
        else:
            known.append(fact(r, FULL, PASSED) if entered else fact(r, (0, 0)))
    return known + [fact(32, (0, 0))]


def block(start, left, known):
    return struct.pack('<III', start, left, 0) + bytes([0, 0, 0, len(known), 0, 0, 0, 0]) + b''.join(known)


def image(blocks, words):
    """The bytes of an image: a block that computes the sums, and so many blocks of so many words behind it."""
    code = [add(r, 10, 11) for r in SUMS]
    starts = [START]
    for _ in range(blocks):
        starts.append(START + 4 * len(code))
        code += [addi(SUMS[i % len(SUMS)], SUMS[i % len(SUMS)]) for i in range(words)]
    code[-1] = RET
    end = START + 4 * len(code)
    scalar = struct.pack('<BBHII', 1, 0, 0, *FULL)
    stated = struct.pack('<HBB', 1, 1, 0) + scalar * 2 + bytes(12 * 6) + struct.pack('<HH', len(starts), 0)
    for number, start in enumerate(starts):
        stated += block(start, (end - start) // 4, facts(number > 0))
    text = struct.pack('<%dI' % len(code), *code)
    note = struct.pack('<III', 7, len(stated), 1) + b'RVVBOX\0\0' + stated + bytes(-len(stated) % 4)
    first = 52 + 2 * 32
    header = b'\x7fELF\x01\x01\x01' + bytes(9) + struct.pack('<HHIIIIIHHHHHH', 2, 243, 1, START, 52, 0, 0, 52, 32, 2, 0, 0, 0)
    load = struct.pack('<8I', 1, first, START, START, len(text), len(text), 5, 4)
    told = struct.pack('<8I', 4, first + len(text), 0, 0, len(note), len(note), 4, 4)
    return header + load + told + text + note, len(code)


def seconds(words):
    before = resource.getrusage(resource.RUSAGE_CHILDREN)
    answer = subprocess.run(words, check=True, stdout=subprocess.PIPE, text=True).stdout
    after = resource.getrusage(resource.RUSAGE_CHILDREN)
    return after.ru_utime - before.ru_utime + after.ru_stime - before.ru_stime, answer


def main():
    program = sys.argv[1] if sys.argv[1:] else PROGRAM
    for blocks, words in ((1023, 8), (1023, 64), (60, 4096)):
        with tempfile.NamedTemporaryFile(suffix='.elf') as file:
            made, count = image(blocks, words)
            file.write(made)
            file.flush()
            took, answer = min(seconds([program, 'check', file.name]) for _ in range(5))
        assert answer == 'accepted: bound %d + 0 * x0\n' % count, answer
        print('%5d blocks of %4d words: %6.2f million words a second (%.3f s)' % (blocks, words, count / took / 1e6, took))


main()
