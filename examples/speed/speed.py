#!/usr/bin/env python3
"""How fast `rvvbox try` is: `examples/speed/speed.py` prints a table, by processor time of this run.

Needs the program (`examples/try add_bytes` builds it). Beside it runs what is there to compare with: qemu-riscv32 (Debian's package
qemu-user) at the same VLEN, and, for scalar rows, interpreter.c of this folder, which gcc builds. Each row takes turns with them.

    speed.py [--runs N] [--program FILE] [--markdown] [--svg FILE] [NAME..]

With `--runs N` each row is the median of N turns, with the lowest and the highest in brackets. `--markdown` prints the table as documents
hold it, `--svg FILE` draws its ratios. NAMEs choose kernels.
"""
import argparse
import os
import resource
import shutil
import statistics
import struct
import subprocess
import tempfile
from typing import NamedTuple

import bars

HERE = os.path.dirname(os.path.abspath(__file__))
PROGRAM = os.path.join(HERE, '..', '..', 'crates', 'rvvbox', 'out', 'rvvbox')
CPU = 'rv32,v=true,vext_spec=v1.0,elen=32,vlen=256'


class Kernel(NamedTuple):
    """A row: the kernel's file, its a2 and a3, what it works on, and how many of them a turn of a3 has."""
    file: str
    count: int
    times: int
    unit: str
    each: int
    says: str
    # whether the memory is as full as it can be: an image of 16 segments, and six buffers where the kernel works on two
    is_full: bool = False

    def done(self):
        return self.each * self.times

    def size(self):
        """The bytes of each buffer."""
        return 4 * self.count if self.file in ('words', 'add_words') else 0 if self.unit == 'steps' else self.count


KERNELS = (
    Kernel('scalar', 5_000_000, 1, 'steps', 6 * 5_000_000, 'scalar loop'),
    Kernel('words', 1024, 4000, 'steps', 6 * 1024, 'loads and stores of words, scalar'),
    Kernel('words', 1024, 4000, 'steps', 6 * 1024, 'the same, full', True),
    Kernel('add', 4096, 40_000, 'bytes', 4096, 'load, add, store of bytes, LMUL 8'),
    Kernel('add', 4096, 40_000, 'bytes', 4096, 'the same, full', True),
    Kernel('add', 48, 400_000, 'bytes', 48, 'the same, not full'),
    Kernel('add_m1', 4096, 4000, 'bytes', 4096, 'at LMUL 1'),
    Kernel('add_masked', 4096, 20_000, 'bytes', 4096, 'masked, LMUL 8'),
    Kernel('add_words', 1024, 40_000, 'words', 1024, 'words of 32 bits, LMUL 8'),
    Kernel('copy', 1 << 24, 4, 'bytes', 1 << 24, 'a copy'),
)
SEGMENTS = 16
LOAD = 1


def seconds(words, **more):
    """The processor seconds of a command."""
    before = resource.getrusage(resource.RUSAGE_CHILDREN)
    subprocess.run(words, check=True, stdout=subprocess.DEVNULL, **more)
    after = resource.getrusage(resource.RUSAGE_CHILDREN)
    return after.ru_utime - before.ru_utime + after.ru_stime - before.ru_stime


def with_segments(image):
    """The image with as many more segments of zeros, above its own, as make SEGMENTS of them."""
    at, count = struct.unpack_from('<I', image, 28)[0], struct.unpack_from('<H', image, 44)[0]
    headers = [struct.unpack_from('<8I', image, at + 32 * i) for i in range(count)]
    loads = [h for h in headers if h[0] == LOAD]
    # type, offset, address twice, size in the file and in memory, the right to read, alignment
    loads += [(LOAD, 0, 0x100_0000 + 0x1_0000 * i, 0, 0, 4096, 4, 4096) for i in range(SEGMENTS - len(loads))]
    new = bytearray(image + b''.join(struct.pack('<8I', *h) for h in loads))
    struct.pack_into('<I', new, 28, len(image))
    struct.pack_into('<H', new, 44, len(loads))
    return bytes(new)


def job(folder, kernel):
    """The path of the job of a row, made in the folder."""
    with open(os.path.join(folder, 'bytes'), 'wb') as f:
        f.write(bytes(range(256)) * (kernel.size() // 256 + 1))
        f.truncate(kernel.size())
    buffer = '{ kind = "buffer", mode = "rw", file = "bytes" }'
    numbers = ['{ kind = "scalar", value = %d }' % n for n in (kernel.count, kernel.times)]
    with open(os.path.join(HERE, kernel.file + '.elf'), 'rb') as f:
        image = f.read()
    with open(os.path.join(folder, 'image.elf'), 'wb') as f:
        f.write(with_segments(image) if kernel.is_full else image)
    path = os.path.join(folder, 'job.toml')
    with open(path, 'w') as f:
        f.write('image = "image.elf"\nvlen = 256\nagnostic = "keep"\nmax = 1000000000000\nparam = [%s]\n'
                % ', '.join([buffer] * 2 + numbers + [buffer] * 4 * kernel.is_full))
    return path


class Row(NamedTuple):
    """What the turns of a kernel gave: millions a second, and how many times as fast as each of the others `try` was."""
    kernel: Kernel
    rates: list
    ratios: dict


def rivals(kernel, interpreter):
    """The commands that run a kernel beside `try`, by name."""
    qemu = shutil.which('qemu-riscv32')
    if qemu:
        process = os.path.join(HERE, '%s-%d-%d.qemu' % (kernel.file, kernel.count, kernel.times))
        yield 'qemu', [qemu, '-cpu', CPU, process]
    if interpreter and kernel.unit == 'steps':
        yield 'C', [interpreter, os.path.join(HERE, kernel.file + '.elf'), str(kernel.count), str(kernel.times)]


def measured(kernel, program, interpreter, runs):
    """The row of a kernel. Its commands take turns, so that what else the machine does meets all of them."""
    rates, ratios = [], {}
    with tempfile.TemporaryDirectory() as folder:
        path = job(folder, kernel)
        for _ in range(runs):
            mine = seconds([program, 'try', path], cwd=folder)
            rates.append(kernel.done() / mine / 1e6)
            for name, command in rivals(kernel, interpreter):
                ratios.setdefault(name, []).append(seconds(command) / mine)
    return Row(kernel, rates, ratios)


def middle(numbers, form):
    """The median, with the lowest and the highest where there are several."""
    if not numbers:
        return ''
    if len(numbers) == 1:
        return form % numbers[0]
    return '%s (%s to %s)' % tuple(form % n for n in (statistics.median(numbers), min(numbers), max(numbers)))


def cells(row):
    """The texts of a row."""
    return (row.kernel.says, format(row.kernel.count, ','), middle(row.rates, '%.0f') + ' ' + row.kernel.unit,
            middle(row.ratios.get('qemu', []), '%.2f'), middle(row.ratios.get('C', []), '%.2f'))


HEADS = ('Kernel', 'n', 'million a second', 'times qemu-riscv32', 'times interpreter.c')


def drawn(rows):
    """The picture of the ratios: vector rows beside qemu-riscv32, scalar ones beside the interpreter in C."""
    shown = []
    for name, title in (('qemu', 'times as fast as qemu-riscv32'), ('C', 'times as fast as interpreter.c')):
        found = [r for r in rows if name in r.ratios and (name == 'C') == (r.kernel.unit == 'steps')]
        if found:
            shown.append((title, [('%s, n = %s' % cells(r)[:2], statistics.median(r.ratios[name])) for r in found]))
    return bars.picture(shown)


def built(folder):
    """The interpreter in C, built in the folder, or None where there is no gcc."""
    if not shutil.which('gcc'):
        return None
    path = os.path.join(folder, 'interpreter')
    subprocess.run(['gcc', '-O2', '-o', path, os.path.join(HERE, 'interpreter.c')], check=True)
    return path


def options():
    parser = argparse.ArgumentParser(description='How fast `rvvbox try` is, by processor time.')
    parser.add_argument('names', nargs='*', metavar='NAME', help='kernels (all of them)')
    parser.add_argument('--runs', type=int, default=1, metavar='N', help='turns of each row (1)')
    parser.add_argument('--program', default=PROGRAM, metavar='FILE', help='the program (the one that was built here)')
    parser.add_argument('--markdown', action='store_true', help='print the table as documents hold it')
    parser.add_argument('--svg', metavar='FILE', help='draw the ratios')
    parser.add_argument('--kernels', action='store_true', help=argparse.SUPPRESS)
    return parser.parse_args()


def main():
    asked = options()
    if asked.kernels:
        for line in sorted({'%s %d %d' % k[:3] for k in KERNELS}):
            print(line)
        return
    form = '| %s | %s | %s | %s | %s |' if asked.markdown else '%-34s %11s  %-28s %-24s %s'
    print(form % HEADS)
    if asked.markdown:
        print('|---|---|---|---|---|')
    rows = []
    with tempfile.TemporaryDirectory() as folder:
        interpreter = built(folder)
        for kernel in KERNELS:
            if not asked.names or kernel.file in asked.names:
                rows.append(measured(kernel, os.path.abspath(asked.program), interpreter, asked.runs))
                print((form % cells(rows[-1])).rstrip(), flush=True)
    if asked.svg:
        with open(asked.svg, 'w') as f:
            f.write(drawn(rows))


if __name__ == '__main__':
    main()
