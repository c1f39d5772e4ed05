"""Figures of one run: `bindings/python/figures.py [--write]`, in the environment where the package is.

Processor time of out = a * k + b on 32-bit words, beside `rvvbox_run` in a loop in C on the same memory. Each is the least of many times.
With --write they go into README.md.
"""
import array
import ctypes
import os
import subprocess
import sys
import tempfile
import time
from pathlib import Path

import rvvbox

HERE = Path(__file__).resolve().parent
sys.path.insert(0, str(HERE.parent))

import readme  # noqa: E402

try:
    import numpy
except ImportError:
    numpy = None

PREFIX = Path(os.environ.get('RVVBOX_PREFIX') or HERE.parents[1] / 'out' / 'host').resolve()
TRIES = 25


def spent(call, times):
    """The processor time of a call, in microseconds."""
    began = time.process_time()
    for _ in range(times):
        call()
    return (time.process_time() - began) / times * 1e6


def least(call):
    """The least processor time of a call, in microseconds, of tries of 10 ms."""
    times = 1
    while spent(call, times) * times < 10_000:
        times *= 2
    return min(spent(call, times) for _ in range(TRIES))


def compared(folder):
    """The C of figures.c."""
    made = Path(folder) / 'figures.so'
    words = ['cc', '-O2', '-shared', '-fPIC', '-I', PREFIX / 'include', '-o', made, HERE / 'figures.c', '-L', PREFIX / 'lib', '-lrvvbox',
             f"-Wl,-rpath,{PREFIX / 'lib'}"]
    subprocess.run(words, check=True)
    library = ctypes.CDLL(str(made))
    library.call_time.restype = ctypes.c_double
    return library


def row(library, n, batch):
    """The times of a pass over n words: of the calls in C, of the package, of numpy and of plain C."""
    kernel = rvvbox.Kernel(HERE.parent / 'kernels' / f'axpy_{batch}.elf', 512)
    a, b, out = (array.array('i', range(n)) for _ in range(3))
    image, passes = kernel.image, max(1, 20_000 // n)
    yield library.call_time(image, ctypes.c_size_t(len(image)), n, batch, TRIES, passes) * 1e6
    yield least(lambda: kernel.run(out, a, b, n, 3) if n == batch else kernel.map(out, a, b, rvvbox.COUNT, 3))
    assert out.tolist() == [4 * i for i in range(n)]
    if numpy:
        x, y, z = (numpy.frombuffer(it, numpy.int32) for it in (a, b, out))
        yield least(lambda: numpy.add(numpy.multiply(x, 3, out=z), y, out=z))
    at = [ctypes.c_void_p(it.buffer_info()[0]) for it in (out, a, b)]
    yield least(lambda: library.axpy(*at, n, 3))


def main():
    head = ['Words', 'the call in C', '`Kernel.run`, or `.map`', *['numpy'] * bool(numpy), 'plain C by ctypes']
    rows = []
    with tempfile.TemporaryDirectory() as folder:
        library = compared(folder)
        for n, batch in ((16, 16), (8192, 8192), (1_024_000, 8192)):
            first, *others = row(library, n, batch)
            rows.append([f'{n:,}', f'{first:,.1f} us', *[f'{other / first:.2f} times' for other in others]])
    readme.told(HERE, f'Processor time of `a * k + b` on 32-bit words, beside `rvvbox_run` in a loop in C ({readme.when()}):\n\n{readme.table(head, *rows)}')


if __name__ == '__main__':
    main()
