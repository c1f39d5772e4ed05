"""A second opinion on the monitor: what each command answers, in Python.

Written from the commands as README.md tells them in words ("The commands of monitors.txt"), and from no code or definition of crates/. What a step does is
model.py's.
"""
import model
from runs import entry_of
from table import M32

BREAKPOINTS = 16
DIGITS = {10: '0123456789', 16: '0123456789abcdefABCDEF'}


class MonError(Exception):
    """Why a command is refused: Unknown, BadNumber, TooManyBreakpoints, NotThere or NoBytes. Nothing has changed then."""


def refuse_if(is_wrong, name):
    if is_wrong:
        raise MonError(name)


def number(text, base, most_digits, ends):
    refuse_if(not 1 <= len(text) <= most_digits or any(digit not in DIGITS[base] for digit in text), 'BadNumber')
    value = int(text, base)
    refuse_if(not ends[0] <= value <= ends[1], 'BadNumber')
    return value


def address(text):
    return number(text, 16, 8, (0, M32))


def count(text, ends=(0, M32)):
    return number(text, 10, 10, ends)


class Monitor:
    """Commands on a run, which is one of runs.py."""

    def __init__(self, run):
        x, areas = run.start()
        self.memory, self.vlenb = model.Memory(areas), run.vlenb
        self.machine = model.Machine(run.vlenb, run.ones, entry_of(run.image), x, bytes(32 * run.vlenb), model.VILL, 0, 0, 0, self.memory)
        self.steps, self.breakpoints = 0, set()

    def command(self, text):
        """The text of the answer, None for `q`; MonError."""
        word, *operands = text.split(' ')
        known = {'b': (1, self.set), 'd': (1, self.clear), 's': (1, self.go), 'c': (0, self.go_on), 'x': (0, self.registers), 'v': (1, self.vector),
                 'csr': (0, self.csrs), 'm': (2, self.bytes), 'l': (2, self.listing), 'q': (0, lambda: None)}
        refuse_if(word not in known or known[word][0] != len(operands), 'Unknown')
        return known[word][1](*operands)

    # Breakpoints.

    def set(self, text):
        at = address(text)
        refuse_if(at % 4, 'BadNumber')
        refuse_if(at not in self.breakpoints and len(self.breakpoints) == BREAKPOINTS, 'TooManyBreakpoints')
        self.breakpoints.add(at)
        return 'break %08x\n' % at

    def clear(self, text):
        at = address(text)
        refuse_if(at not in self.breakpoints, 'NotThere')
        self.breakpoints.remove(at)
        return 'gone %08x\n' % at

    # Steps.

    @property
    def is_ended(self):
        return self.machine.pc == model.EXIT

    def fetched(self, at):
        """The word at an address, None where it can't be fetched."""
        return int.from_bytes(b''.join(self.peeked(at + k) for k in range(4)), 'little') if self.memory.permits(at, 4, 'x') else None

    def step(self):
        self.machine.step(self.fetched(self.machine.pc))
        self.steps += 1

    def place(self):
        return 'ended step %d\n' % self.steps if self.is_ended else 'at %08x step %d\n' % (self.machine.pc, self.steps)

    def go(self, text):
        left = count(text)
        while left and not self.is_ended:
            self.step()
            left -= 1
        return self.place()

    def go_on(self):
        if not self.is_ended:
            self.step()
        while not self.is_ended and self.machine.pc not in self.breakpoints:
            self.step()
        return self.place()

    # What a run shows.

    def registers(self):
        shown = ['x%02d=%08x' % (n, value) for n, value in enumerate(self.machine.x)]
        return ''.join(' '.join(shown[k:k + 4]) + '\n' for k in range(0, 32, 4))

    def vector(self, text):
        n = count(text, (0, 31))
        return 'v%02d=%s\n' % (n, bytes(self.machine.v[n * self.vlenb:(n + 1) * self.vlenb]).hex())

    def csrs(self):
        m = self.machine
        return 'pc=%08x vl=%d vtype=%08x vxrm=%d vxsat=%d vlenb=%d\n' % (m.pc, m.vl, m.vtype, m.vxrm, m.vxsat, self.vlenb)

    def peeked(self, at):
        """The byte at an address, None where there is none. Rights play no part."""
        return next((bytes(b[at - first:at - first + 1]) for first, b, _ in self.memory.areas if first <= at < first + len(b)), None)

    def bytes(self, first, size):
        first, size = address(first), count(size, (1, 256))
        found = [self.peeked(first + k) for k in range(size)]
        refuse_if(None in found, 'NoBytes')
        return '%08x=%s\n' % (first, b''.join(found).hex())

    def listing(self, first, lines):
        first, lines = address(first), count(lines, (1, 256))
        words = [(first + 4 * k, self.fetched(first + 4 * k)) for k in range(lines)]
        refuse_if(any(word is None for _, word in words), 'NoBytes')
        return ''.join('%08x %08x %s\n' % (at, word, model.text_of(word, at)) for at, word in words)
