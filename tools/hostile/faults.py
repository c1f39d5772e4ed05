"""Calls of the C library that fail: builds faults.c, and calls the program behind it."""
import contextlib
import os
import pathlib
import shutil
import subprocess
import tempfile

from program import Answer, text

HERE = pathlib.Path(__file__).resolve().parent
COMPILER = os.environ.get('CC') or shutil.which('cc') or shutil.which('gcc') or shutil.which('clang-16')
MOST = 20000                # a sweep that is longer has gone wrong
REPORT, INPUT, OUTPUT, ERRORS = 'faults.told', 'faults.input', 'faults.output', 'faults.errors'


@contextlib.contextmanager
def built():
    """faults.c, built."""
    with tempfile.TemporaryDirectory(prefix='hostile-faults-') as folder:
        library = pathlib.Path(folder) / 'faults.so'
        subprocess.run([COMPILER, '-O2', '-shared', '-fPIC', '-o', library, HERE / 'faults.c'], check=True)
        yield Faults(library)


class Faults:
    """The library of faults.c before a program."""

    def __init__(self, library):
        self.library = library

    def call(self, folder, words, call, at, how, script=b''):
        """The answer of a call of which the at-th `call` is touched so, and what was touched: lists of `alloc`, or `read`, `write` or `open`
        and a path in the folder. What the standard streams give and take is in files, so that their paths are told too."""
        folder.remove(REPORT, OUTPUT, ERRORS)
        folder.put(INPUT, script)
        told = folder.path / REPORT
        env = {'LD_PRELOAD': str(self.library), 'HOSTILE_CALL': call, 'HOSTILE_AT': str(at), 'HOSTILE_HOW': how, 'HOSTILE_REPORT': str(told)}
        with open(folder.path / INPUT, 'rb') as given, open(folder.path / OUTPUT, 'wb') as output, open(folder.path / ERRORS, 'wb') as errors:
            status = folder.call(*words, env=env, stdin=given, stdout=output, stderr=errors).status
        answer = Answer(status, text(folder.get(OUTPUT)), text(folder.get(ERRORS)))
        return answer, [line.replace(str(folder.path) + '/', '') for line in text(folder.get(REPORT) or b'').splitlines()]

    def swept(self, folder, words, call, how, outs=(), step=1, script=b''):
        """(number, answer, told) for the first call of a kind, and each step-th behind it, until there are no more. The out files are
        removed before each."""
        for at in range(1, MOST, step):
            folder.remove(*outs)
            answer, told = self.call(folder, words, call, at, how, script)
            if not told:
                return
            yield at, answer, told[0]
        raise AssertionError('more than %d calls of %s' % (MOST, call))
