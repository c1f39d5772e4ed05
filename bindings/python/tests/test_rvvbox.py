"""Tests of the package that is installed: `python3 -m unittest discover -s bindings/python/tests`. What needs numpy or a compiler is left
out, and said, where that is not there."""
import array
import ctypes
import mmap
import os
import pickle
import re
import resource
import shutil
import subprocess
import sys
import tempfile
import textwrap
import threading
import unittest
from pathlib import Path

import rvvbox

try:
    import numpy
except ImportError:
    numpy = None

ROOT = Path(__file__).resolve().parents[3]
EXAMPLES = ROOT / 'examples'
WORDS = EXAMPLES / 'raise_words' / 'raise_words.elf'
SPIN = ROOT / 'bindings' / 'kernels' / 'spin.elf'
SIZE, MOST = 4096, 1024
HERE = Path(__file__).resolve().parent


def image(name):
    return (EXAMPLES / name / f'{name}.elf').read_bytes()


def damaged():
    """The words' image with another shift, which its certificate does not allow."""
    return image('raise_words').replace(bytes.fromhex('13932200'), bytes.fromhex('13933200'))


def words(*first):
    """The words of a run: those given, and zeros behind."""
    return array.array('I', [*first, *[0] * (MOST - len(first))])


KERNEL = rvvbox.Kernel(WORDS)


class Refusals(unittest.TestCase):
    def refused(self, of, status, call, **facts):
        with self.assertRaises(of) as raised:
            call()
        told = raised.exception
        self.assertEqual(told.status, status)
        for name, value in facts.items():
            self.assertEqual(getattr(told, name), value, name)
        self.assertEqual(pickle.loads(pickle.dumps(told)).__dict__, told.__dict__)
        return told

    def run_refused(self, status, *arguments, kernel=KERNEL, max_steps=None, **facts):
        """The run is refused, and its bytes stay."""
        before = [bytes(it) for it in arguments if isinstance(it, array.array)]
        told = self.refused(rvvbox.RunRefused, status, lambda: kernel.run(*arguments, max_steps=max_steps), **facts)
        self.assertEqual([bytes(it) for it in arguments if isinstance(it, array.array)], before)
        return told

    def test_images(self):
        self.refused(rvvbox.Refused, 'IMAGE', lambda: rvvbox.Kernel(b''), rule='TOO_SHORT')
        self.refused(rvvbox.Refused, 'IMAGE', lambda: rvvbox.Kernel(b'no image at all, but long enough' * 8), rule='BAD_MAGIC')
        bare = EXAMPLES / 'raise_words' / 'bare.elf'
        self.refused(rvvbox.Refused, 'NO_CERTIFICATE', lambda: rvvbox.Kernel(bare))
        self.refused(rvvbox.Refused, 'CHECK', lambda: rvvbox.Kernel(WORDS, 256), rule='WRONG_VLEN', address=None)
        self.refused(rvvbox.RunRefused, 'BAD_VLEN', lambda: rvvbox.Kernel(WORDS, 99))
        self.assertRaises(FileNotFoundError, lambda: rvvbox.Kernel('no such file'))
        self.assertRaises(ValueError, lambda: rvvbox.Kernel(WORDS, agnostic='zeros'))

    def test_a_certificate(self):
        whole = image('raise_words')
        at = whole.index(b'RVVBOX\0') + 8
        self.refused(rvvbox.Refused, 'CERTIFICATE', lambda: rvvbox.Kernel(whole[:at] + b'\7' + whole[at + 1:]), rule='VERSION')

    def test_a_check(self):
        told = self.refused(rvvbox.Refused, 'CHECK', lambda: rvvbox.Kernel(damaged(), 128), rule='INTERVAL_NOT_PROVED', address=0x10020)
        self.assertIn('  wanted: ', told.explanation)
        self.assertIn(told.explanation.rstrip(), str(told))
        self.assertEqual(rvvbox.explain(damaged(), 128), told.explanation)
        self.assertEqual(rvvbox.explain(WORDS, 128), '')

    def test_arguments(self):
        self.run_refused('SCALAR_OUT_OF_INTERVAL', words(), MOST + 1, place=1)
        self.run_refused('SCALAR_OUT_OF_INTERVAL', words(), -1, place=1)
        self.run_refused('WRONG_SIZE', array.array('I', [1, 2]), 1, place=0)
        self.run_refused('WRONG_KIND', 7, 1, place=0)
        self.run_refused('WRONG_KIND', None, 1, place=0)
        self.run_refused('WRONG_KIND', words(), b'bytes', place=1)
        self.run_refused('BOUND_TOO_LARGE', words(), 1000, max_steps=8001, bound=8002)
        self.run_refused('BOUND_TOO_LARGE', words(), 1000, kernel=rvvbox.Kernel(WORDS, max_steps=100), bound=8002)

    def test_each_status(self):
        """Whatever the library answers is an exception with the answer's name, also what no call from here leads to."""
        names = re.findall(r'^    RVVBOX_(\w+) = [1-9]\d*,?\s', (ROOT / 'include' / 'rvvbox.h').read_text().partition('enum rvvbox_image_rule')[0], re.M)
        self.assertGreaterEqual(len(names), 20)
        for name in names:
            told = rvvbox._error(name, None, 0, 0, 0, 0, 0, 0, None, 0, None)
            self.assertIsInstance(told, rvvbox.Error)
            self.assertEqual(told.status, name)
            self.assertTrue(str(told))

    def test_overlap(self):
        kernel = rvvbox.Kernel(image('translate'))
        room = bytearray(2048)
        self.run_refused('OVERLAP', bytes(128), memoryview(room)[:1024], memoryview(room)[1000:2024], 5, kernel=kernel)
        self.assertEqual(kernel.run(bytes(128), memoryview(room)[:1024], memoryview(room)[1024:], 0, max_steps=10**6) > 0, True)

    def test_what_python_refuses(self):
        for error, arguments in ((TypeError, (words(),)), (TypeError, (words(), 1, 2)), (TypeError, (words(), 1.5)), (TypeError, ('text', 1)),
                                 (OverflowError, (words(), 2**32)), (OverflowError, (words(), -2**31 - 1)), (BufferError, (bytes(SIZE), 1)),
                                 (BufferError, (memoryview(words()).toreadonly(), 1))):
            with self.subTest(arguments=[type(it) for it in arguments]):
                self.assertRaises(error, KERNEL.run, *arguments)
        self.assertRaises(TypeError, KERNEL.run, words(), 1, steps=3)
        self.assertRaises(TypeError, KERNEL.bound)
        self.assertRaises(TypeError, KERNEL.bound, 1, 2)
        self.assertRaises(TypeError, KERNEL.__init__, WORDS)
        for call in (lambda it: it.run(), lambda it: it.bound(), lambda it: it.map()):
            self.assertRaises(ValueError, call, rvvbox.Kernel.__new__(rvvbox.Kernel))

    def test_a_buffer_is_lent_no_longer_than_the_run(self):
        given = bytearray(SIZE)
        KERNEL.run(given, 1)
        self.assertRaises(rvvbox.RunRefused, KERNEL.run, given, 5000)
        given.append(0)


class Runs(unittest.TestCase):
    def test_what_a_kernel_takes(self):
        self.assertEqual(rvvbox.version()[0], 2)
        self.assertEqual((KERNEL.vlen, KERNEL.image), (128, WORDS.read_bytes()))
        self.assertEqual(KERNEL.parameters, (rvvbox.Parameter('buffer', size=SIZE), rvvbox.Parameter('scalar', 0, MOST)))
        self.assertEqual(KERNEL.bound(1000), 8002)
        self.assertEqual(rvvbox.Kernel(EXAMPLES / 'raise_words' / 'raise_words-256.elf').vlen, 256)
        self.assertEqual(rvvbox.Kernel(memoryview(KERNEL.image), 128, agnostic='ones', max_steps=9).max_steps, 9)

    def test_budget(self):
        self.assertEqual(KERNEL.budget, (2, 8, 11, 0, 0))

    def test_a_run(self):
        given = words(7, 2**32 - 1, 5)
        steps = KERNEL.run(given, 2)
        self.assertTrue(0 < steps <= KERNEL.bound(2))
        self.assertEqual(given[:4].tolist(), [8, 0, 5, 0])
        self.assertEqual(KERNEL(given, 0, max_steps=KERNEL.bound(0)), 2)

    def test_a_place_that_is_empty(self):
        kernel, given, found = rvvbox.Kernel(image('sum_bytes')), bytes(range(256)) * 4, array.array('I', [0])
        kernel.run(given, 256, None, found)
        self.assertEqual(found[0], sum(range(256)))

    def test_each_buffer(self):
        file = tempfile.TemporaryFile()
        self.addCleanup(file.close)
        file.truncate(SIZE)
        made = {'bytearray': bytearray(SIZE), 'array': words(), 'memoryview': memoryview(bytearray(2 * SIZE))[SIZE:],
                'cast': memoryview(bytearray(SIZE)).cast('H'), 'mmap': mmap.mmap(-1, SIZE), 'mmap of a file': mmap.mmap(file.fileno(), SIZE),
                'ctypes': (ctypes.c_uint32 * MOST)(), 'array of shorts': array.array('h', bytes(SIZE))}
        for name, given in made.items():
            with self.subTest(name):
                self.assertEqual(KERNEL.run(given, 3), KERNEL.run(words(), 3))
                self.assertEqual(bytes(memoryview(given).cast('B')[:16]), bytes([1, 0, 0, 0] * 3 + [0] * 4))

    def test_each_buffer_that_is_read(self):
        kernel, text, out = rvvbox.Kernel(image('translate')), b'hello' + bytes(1019), bytearray(1024)
        table = bytes(range(128)).upper()
        for given in (text, bytearray(text), memoryview(text), array.array('B', text)):
            out[:] = bytes(1024)
            kernel.run(table, given, out, 5)
            self.assertEqual(out[:6], b'HELLO\0')
        kernel.run(table, text, out, 0)

    def test_pickle(self):
        kernel = pickle.loads(pickle.dumps(rvvbox.Kernel(WORDS, 128, agnostic='ones', max_steps=100)))
        self.assertEqual((kernel.image, kernel.vlen, kernel.max_steps, kernel._agnostic), (KERNEL.image, 128, 100, 1))
        self.assertEqual(kernel.run(words(), 1), KERNEL.run(words(), 1))

    def test_threads(self):
        failed = []

        def work(number):
            given = words()
            for _ in range(300):
                KERNEL.run(given, MOST)
            if given.tolist() != [300] * MOST:
                failed.append(number)
        threads = [threading.Thread(target=work, args=(number,)) for number in range(8)]
        for thread in threads:
            thread.start()
        for thread in threads:
            thread.join()
        self.assertEqual(failed, [])

    def test_other_threads_go_on(self):
        """A thread counts while another is in one long run."""
        counted, over, kernel = [0], threading.Event(), rvvbox.Kernel(SPIN)

        def count():
            while not over.is_set():
                counted[0] += 1
        counter = threading.Thread(target=count)
        counter.start()
        advanced = False
        for _ in range(30):            # (On a busy machine the counter may wait through a run.)
            before = counted[0]
            kernel.run(bytearray(64), 10_000_000)
            advanced = advanced or counted[0] > before
            if advanced:
                break
        over.set()
        counter.join()
        self.assertTrue(advanced)

    def test_flat_memory(self):
        def some(runs):
            given, short = words(), bytearray(4)
            for number in range(runs):
                KERNEL.run(given, 1)
                try:
                    if number % 10 == 0:
                        KERNEL.run(*((given, 5000) if number % 20 else (short, 1)))
                except rvvbox.RunRefused:
                    pass
        some(2000)
        before = resource.getrusage(resource.RUSAGE_SELF).ru_maxrss
        some(100_000)
        self.assertLess(resource.getrusage(resource.RUSAGE_SELF).ru_maxrss - before, 2000)
        for _ in range(2000):
            rvvbox.Kernel(WORDS, 128)
        self.assertLess(resource.getrusage(resource.RUSAGE_SELF).ru_maxrss - before, 4000)


class Maps(unittest.TestCase):
    def test_columns(self):
        for many in (0, 1, MOST - 1, MOST, MOST + 1, 40 * MOST, 40 * MOST + 3):
            for batch in (None, MOST, 100):
                with self.subTest(many=many, batch=batch):
                    column = array.array('I', range(many))
                    KERNEL.map(column, rvvbox.COUNT, batch=batch)
                    self.assertEqual(column, array.array('I', range(1, many + 1)))

    def test_tables(self):
        kernel, text = rvvbox.Kernel(image('translate')), bytes(range(97, 123)) * 100
        out = bytearray(len(text))
        steps = kernel.map(rvvbox.whole(bytes(range(128)).upper()), text, out, rvvbox.COUNT)
        self.assertEqual(out, text.upper())
        self.assertGreater(steps, 0)

    def test_a_state(self):
        """A buffer that is whole is passed to each run as the one before left it."""
        kernel, state = rvvbox.Kernel(ROOT / 'bindings' / 'kernels' / 'fold.elf'), array.array('I', [0, 0, 1000, *[0] * 13])
        kernel.map(rvvbox.whole(state), array.array('i', range(-1000, 9000)), rvvbox.COUNT)
        self.assertEqual(state[:3].tolist(), [2**32 - 1000, 2000, 1000])

    def test_what_is_refused(self):
        kernel, table = rvvbox.Kernel(image('translate')), rvvbox.whole(bytes(128))
        for columns in ((table, bytes(10), bytearray(11), rvvbox.COUNT), (table, rvvbox.whole(bytes(1024)), rvvbox.whole(bytearray(1024)), 5)):
            self.assertRaises(ValueError, kernel.map, *columns)
        for batch in (0, -1, 1025):
            self.assertRaises(ValueError, kernel.map, table, bytes(10), bytearray(10), rvvbox.COUNT, batch=batch)
        room = bytearray(10)
        with self.assertRaises(rvvbox.RunRefused) as raised:
            kernel.map(table, room, room, rvvbox.COUNT)
        self.assertEqual(raised.exception.status, 'OVERLAP')
        self.assertRaises(TypeError, kernel.map, table)
        self.assertRaises(BufferError, kernel.map, table, bytes(10), bytes(10), rvvbox.COUNT)
        with self.assertRaises(rvvbox.RunRefused) as raised:
            KERNEL.map(words(), rvvbox.COUNT, max_steps=5)
        self.assertEqual(raised.exception.status, 'BOUND_TOO_LARGE')
        room.append(1)


@unittest.skipUnless(numpy, 'numpy is not installed')
class Numpy(unittest.TestCase):
    def test_arrays(self):
        given = numpy.arange(MOST, dtype=numpy.uint32)
        KERNEL.run(given, numpy.int64(1000))
        self.assertTrue((given[:1000] == numpy.arange(1, 1001)).all())
        self.assertEqual(KERNEL.run(given.reshape(32, 32), 3), KERNEL.run(given, 3))
        self.assertRaises(ValueError, KERNEL.run, numpy.zeros(2 * MOST, numpy.uint32)[::2], 1)
        self.assertRaises(ValueError, KERNEL.run, numpy.asfortranarray(numpy.zeros((32, 32), numpy.uint32)), 1)
        self.assertRaises(ValueError, KERNEL.run, numpy.frombuffer(bytes(SIZE), numpy.uint32), 1)

    def test_map(self):
        given = numpy.arange(100_003, dtype=numpy.uint32)
        KERNEL.map(given, rvvbox.COUNT)
        self.assertTrue((given == numpy.arange(1, 100_004)).all())


class Sessions(unittest.TestCase):
    def test_steps(self):
        given, whole = words(1), words(1)
        steps = KERNEL.run(whole, 1000)
        with KERNEL.session(given, 1000) as session:
            self.assertEqual((session.ended, session.steps, session.registers().x[10]), (False, 0, 0x40000000))
            self.assertFalse(session.go_on(0))
            self.assertFalse(session.go_on(steps - 1))
            self.assertEqual(session.steps, steps - 1)
            self.assertTrue(session.go_on(2))
            self.assertEqual((session.go_on(), session.steps), (True, steps))
            self.assertEqual(given, words(1))
        self.assertEqual(given, whole)
        self.assertRaises(ValueError, session.go_on)
        session.close()

    def test_any_slices(self):
        """However a run is cut, it ends after the same steps with the same bytes."""
        whole = words(*range(100))
        steps = KERNEL.run(whole, 60)
        for most in (1, 3, steps - 1, steps):
            given, calls = words(*range(100)), 1
            with KERNEL.session(given, 60) as session:
                while not session.go_on(most):
                    calls += 1
            self.assertEqual((given, session.steps, calls), (whole, steps, -(-steps // most)))

    def test_what_stands(self):
        """The kernel's steps, from 0x10000 on: beqz, vsetvli with e32, m1, ta, ma, vle32, vadd, vse32 and five more."""
        with KERNEL.session(words(7), 1) as session:
            at = session.registers()
            self.assertEqual((at.pc, at.x[10], at.x[11], session.peek(0x40000000, 8)), (0x10000, 0x40000000, 1, bytes([7, *[0] * 7])))
            session.go_on(2)
            at = session.registers()
            self.assertEqual((at.pc, at.vl, at.vtype, at.x[5], at.vxrm, at.vxsat), (0x10008, 1, 0xd0, 1, 0, 0))
            session.go_on(3)
            self.assertEqual((session.registers().pc, session.peek(0x40000000, 4)), (0x10014, bytes([8, 0, 0, 0])))
            self.assertTrue(session.go_on(5))

    def test_halfway(self):
        """A run that is closed before its end leaves what it has written so far."""
        given, whole = words(), words()
        steps = KERNEL.run(whole, 1000)
        session = KERNEL.session(given, 1000)
        session.go_on(steps // 2)
        session.close()
        self.assertTrue(0 < sum(given) < sum(whole))

    def test_what_is_left(self):
        given = words(1)
        with self.assertRaises(KeyError):
            with KERNEL.session(given, 1000) as session:
                session.go_on()
                raise KeyError
        self.assertEqual(given, words(1))
        session = KERNEL.session(given, 1000)
        session.go_on()
        self.assertRaises(BufferError, given.append, 1)
        del session
        given.append(1)
        self.assertEqual(given[0], 1)

    def test_it_outlives_its_kernel(self):
        kernel, given = rvvbox.Kernel(WORDS), words(1)
        session = kernel.session(given, 1)
        self.assertGreater(kernel.run(words(), 1000), 0)
        del kernel
        session.go_on()
        session.close()
        self.assertEqual(given, words(2))

    def test_threads(self):
        """A session goes on by turns of two threads, and sessions of one kernel side by side."""
        failed = []

        def work(number):
            given = words(number)
            with KERNEL.session(given, MOST) as session:
                while not session.go_on(100):
                    pass
            if given != words(number + 1, *[1] * (MOST - 1)):
                failed.append(number)
        threads = [threading.Thread(target=work, args=(number,)) for number in range(8)]
        for thread in threads:
            thread.start()
        for thread in threads:
            thread.join()
        self.assertEqual(failed, [])
        session = KERNEL.session(words(), 1000)
        thread = threading.Thread(target=session.go_on, args=(5,))
        thread.start()
        thread.join()
        session.go_on(5)
        self.assertEqual(session.steps, 10)

    def test_busy(self):
        """While one thread is in a session, another is told so."""
        session, told = rvvbox.Kernel(SPIN).session(bytearray(64), 20_000_000), None
        thread = threading.Thread(target=session.go_on)
        thread.start()
        while told is None and thread.is_alive():
            try:
                session.peek(0x40000000, 1)
            except rvvbox.Busy as busy:
                told = busy
        thread.join()
        self.assertEqual((told.status, session.ended), ('NOTHING_KEPT', True))
        session.close()

    def test_refused(self):
        for status, arguments in (('SCALAR_OUT_OF_INTERVAL', (words(), 5000)), ('WRONG_SIZE', (bytearray(4), 1)), ('WRONG_KIND', (7, 1))):
            with self.assertRaises(rvvbox.RunRefused) as raised:
                KERNEL.session(*arguments)
            self.assertEqual(raised.exception.status, status)
        self.assertRaises(rvvbox.RunRefused, KERNEL.session, words(), 1000, max_steps=5)
        with KERNEL.session(words(), 1) as session:
            for address, size in ((0x40000000, SIZE + 1), (0x3fffffff, 1), (0xffffffff, 2), (2**32, 1), (0, 2**40)):
                with self.assertRaises(rvvbox.RunRefused) as raised:
                    session.peek(address, size)
                self.assertEqual((raised.exception.status, raised.exception.place), ('BAD_RANGE', None))
            self.assertRaises(ValueError, session.peek, 0x40000000, -1)
            self.assertRaises(OverflowError, session.go_on, -1)
            self.assertEqual(session.peek(0x40000000, 0), b'')

    def test_flat_memory(self):
        def some(sessions):
            given = words()
            for number in range(sessions):
                with KERNEL.session(given, 10) as session:
                    session.go_on(number % 30)
        some(200)
        before = resource.getrusage(resource.RUSAGE_SELF).ru_maxrss
        some(10_000)
        self.assertLess(resource.getrusage(resource.RUSAGE_SELF).ru_maxrss - before, 2000)


class Tries(unittest.TestCase):
    def test_each_end(self):
        bare, given = EXAMPLES / 'raise_words' / 'bare.elf', words(1)
        ended = rvvbox.try_run(bare, given, 4, vlen=128, max_steps=1000)
        self.assertEqual((ended.status, ended.fault, given[:5].tolist()), ('DONE', 0, [2, 1, 1, 1, 0]))
        trapped = rvvbox.try_run(bare, given, 5000, vlen=128, max_steps=100_000)
        self.assertEqual((trapped.status, trapped.fault), ('TRAPPED', 3))
        short = rvvbox.try_run(bare, given, 1000, vlen=128, max_steps=7)
        self.assertEqual((short.status, short.steps), ('OUT_OF_STEPS', 7))

    def test_refused(self):
        with self.assertRaises(rvvbox.Refused) as raised:
            rvvbox.try_run(b'', vlen=128, max_steps=7)
        self.assertEqual((raised.exception.status, raised.exception.rule), ('IMAGE', 'TOO_SHORT'))
        with self.assertRaises(rvvbox.RunRefused) as raised:
            rvvbox.try_run(WORDS, vlen=7, max_steps=7)
        self.assertEqual(raised.exception.status, 'BAD_VLEN')
        with self.assertRaises(rvvbox.RunRefused) as raised:
            rvvbox.try_run(WORDS, bytearray((16 << 20) + 1), vlen=128, max_steps=7)
        self.assertEqual(raised.exception.status, 'TOO_LARGE')


class Attached(unittest.TestCase):
    def test_attach(self):
        whole = image('raise_words')
        at = whole.index(b'RVVBOX\0') + 8
        made = rvvbox.attach((EXAMPLES / 'raise_words' / 'bare.elf').read_bytes(), whole[at:])
        self.assertGreater(len(made), len(whole) - 100)


CHILD = textwrap.dedent('''
    import array, ctypes, sys
    import rvvbox
    shim = ctypes.CDLL(None)
    words, image = array.array('I', bytes(4096)), open(sys.argv[1], 'rb').read()
    kernel = rvvbox.Kernel(image, 128)
    kernel.run(words, 1)
    for name, call in (('run', lambda: kernel.run(words, 1000)), ('accept', lambda: rvvbox.Kernel(image, 128))):
        refused, before = 0, bytes(words)
        while True:
            shim.refuse_from(refused)
            try:
                call()
                break
            except MemoryError as told:
                assert isinstance(told, rvvbox.NoMemory) and told.status == 'NO_MEMORY', told
                assert bytes(words) == before
                refused += 1
            finally:
                shim.refuse_from(-1)
        print(name, refused > 0, kernel.run(array.array('I', bytes(4096)), 1) > 0)
''')


class Memory(unittest.TestCase):
    maxDiff = None

    @unittest.skipUnless(shutil.which('cc'), 'there is no C compiler')
    def test_refused_malloc(self):
        """Each allocation that the library makes is refused once, by a malloc before the C library's."""
        with tempfile.TemporaryDirectory() as folder:
            shim = Path(folder) / 'refusing.so'
            subprocess.run(['cc', '-shared', '-fPIC', '-O1', '-o', shim, HERE / 'refusing.c', '-ldl'], check=True)
            ran = subprocess.run([sys.executable, '-c', CHILD, WORDS], env=os.environ | {'LD_PRELOAD': str(shim)}, capture_output=True,
                                 text=True, timeout=120)
        self.assertEqual((ran.stderr, ran.stdout), ('', 'run True True\naccept True True\n'))


@unittest.skipUnless(shutil.which('clang-16') and shutil.which('ld.lld-16'), 'clang-16 and lld-16 are not installed')
class Certify(unittest.TestCase):
    def test_from_c(self):
        source = 'void up(unsigned *p, unsigned n) { for (; n; n--) ++*p++; }\n'
        kernel = rvvbox.certify(source, [rvvbox.buffer(64), rvvbox.scalar(0, 16)])
        self.assertEqual(kernel.parameters, (rvvbox.Parameter('buffer', size=64), rvvbox.Parameter('scalar', 0, 16)))

    def test_none_is_found(self):
        with self.assertRaises(rvvbox.CertifyError) as raised:
            rvvbox.certify('void up(unsigned *p { }\n', [rvvbox.buffer(64)], entry='up')
        self.assertTrue(raised.exception.explanation)


if __name__ == '__main__':
    unittest.main()
