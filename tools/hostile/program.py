"""The built program, what one call of it answers, and a tally of what was tried."""
import os
import pathlib
import shutil
import subprocess
import tempfile
from collections import namedtuple

from outside import ROOT

BUILT = ROOT / 'crates/rvvbox/out/rvvbox'
SECONDS = 120               # a call that takes longer counts as one that does not return

Answer = namedtuple('Answer', 'status output errors', defaults=('', ''))
HANGS = Answer('no answer in %d s' % SECONDS)


def program():
    """The program to be tried: $RVVBOX, the one built in this repository, or the one on the path; None where there is none."""
    for path in (os.environ.get('RVVBOX'), BUILT if BUILT.exists() else None, shutil.which('rvvbox')):
        if path:
            return pathlib.Path(path).resolve()
    return None


def text(data):
    return data.decode(errors='backslashreplace')


class Folder:
    """A folder of its own, in which the program is called."""

    def __init__(self, called):
        self.called = called
        self.made = tempfile.TemporaryDirectory(prefix='hostile-')
        self.path = pathlib.Path(self.made.name)

    def __enter__(self):
        return self

    def __exit__(self, *_):
        self.made.cleanup()

    def put(self, name, data):
        (self.path / name).write_bytes(data if isinstance(data, bytes) else data.encode())

    def get(self, name):
        """The bytes of a file; None where it is not there."""
        path = self.path / name
        return path.read_bytes() if path.exists() else None

    def files(self):
        """The bytes of each file, by its name."""
        return {path.name: path.read_bytes() for path in self.path.iterdir()}

    def hold(self, files):
        """Has these files and no others in the folder."""
        self.remove(*(path.name for path in self.path.iterdir()))
        for name, data in files.items():
            self.put(name, data)

    def remove(self, *names):
        for name in names:
            (self.path / name).unlink(missing_ok=True)

    def call(self, *words, script=None, **how):
        """What the program answers, with the bytes of `script` on standard input. A status below 0 is the signal that ended it."""
        given = {'stdin': subprocess.DEVNULL} if script is None else {'input': script}
        how = given | {'stdout': subprocess.PIPE, 'stderr': subprocess.PIPE} | how
        try:
            done = subprocess.run([self.called, *words], cwd=self.path, timeout=SECONDS, **how)
        except subprocess.TimeoutExpired:
            return HANGS
        return Answer(done.returncode, text(done.stdout or b''), text(done.stderr or b''))


class Tally:
    """How much was tried, and what differed from what is expected."""

    def __init__(self, name, unit='inputs'):
        self.name, self.unit = name, unit
        self.tried = self.compared = 0
        self.counts, self.differed = {}, []

    def expect(self, what, got, wanted):
        """Whether a call answered what is expected of it."""
        self.compared += 1
        if got != wanted:
            self.differed.append('%s: %.600s, and not %.600s' % (what, got, wanted))
        return got == wanted

    def count(self, what, more=1):
        self.counts[what] = self.counts.get(what, 0) + more

    def line(self):
        counts = ''.join(', %d %s' % (number, what) for what, number in self.counts.items())
        return '%s: %d %s%s, %d answers compared, %d differed' % (self.name, self.tried, self.unit, counts, self.compared, len(self.differed))


def total(tallies):
    """One tally of several."""
    first, *others = tallies
    for other in others:
        first.tried += other.tried
        first.compared += other.compared
        first.differed += other.differed
        for what, number in other.counts.items():
            first.count(what, number)
    return first
