"""Certified RISC-V vector kernels on the memory of Python's objects.

    kernel = rvvbox.Kernel('raise_words.elf')      # checked once
    words = array.array('I', range(1024))
    steps = kernel.run(words, 1000)                # on the array's own bytes

An argument is a number, a buffer or None. A number has 32 bits, from -2**31 to 2**32 - 1. A buffer is any object of the buffer protocol
whose bytes lie together: bytes, bytearray, memoryview, array, mmap, a numpy array. It has exactly the bytes that the kernel's parameter
says. Where the kernel writes it, it has to be writable and shares no byte with another argument.

What is refused raises an `Error`, and then no argument has changed. Kernels may be used by any threads at once, and other
threads go on during a run. No other thread may write an argument of a run.
"""
from __future__ import annotations

import os
from collections.abc import Sequence
from pathlib import Path
from typing import Any, NamedTuple, Union

from . import _core

__all__ = ['ALL_STEPS', 'COUNT', 'Budget', 'Busy', 'CertifyError', 'Error', 'Kernel', 'NoMemory', 'Parameter', 'Refused', 'Registers',
           'RunRefused', 'Session', 'Stopped', 'attach', 'buffer', 'certify', 'explain', 'read', 'scalar', 'try_run', 'version', 'whole']

HERE = Path(__file__).parent
VERSION = _core.load(os.environ.get('RVVBOX_LIBRARY') or HERE / 'librvvbox.so')
# More steps than any run takes whose bound has 64 bits.
ALL_STEPS = 2**64 - 1
AGNOSTIC = ('keep', 'ones')
KINDS = ('none', 'scalar', 'buffer', 'read')

Image = Union[str, os.PathLike, bytes, bytearray, memoryview]


class Error(Exception):
    """A call of the library is refused.

    status       the name of the header's status, as 'CHECK'
    rule         the name of the rule that is broken, as 'ACCESS_NOT_PROVED', or None
    address      the word at which the check stopped, or None
    offset       how many bytes of a certificate were read, or None
    place        the place of the argument at fault, 0 for a0, or None
    bound        the most steps of the run that is refused, or None
    explanation  of an image: lines of what was known and what is wanted there, or ''
    """
    status: str = 'UNKNOWN'
    rule: str | None = None
    address: int | None = None
    offset: int | None = None
    place: int | None = None
    bound: int | None = None
    explanation: str = ''


class Refused(Error, ValueError):
    """The image, its certificate or the check of both is refused."""


class RunRefused(Error, ValueError):
    """The arguments do not fit, or the run may take more steps than it is allowed."""


class NoMemory(Error, MemoryError):
    """malloc refused. Nothing was changed, and the call can be made again."""


class Busy(Error, RuntimeError):
    """Another thread has the session now."""


class CertifyError(Error, RuntimeError):
    """`certify` found no certificate. `explanation` is what it told."""


class Parameter(NamedTuple):
    """What a kernel takes at a place: 'none', a 'scalar' from lo to hi, or a 'buffer' or 'read' of size bytes. One to 'read' stays as it is."""
    kind: str
    lo: int = 0
    hi: int = 0
    size: int = 0


class Budget(NamedTuple):
    """The most steps of a run: constant + factor * x[number] + second_factor * x[second_number]. Registers 10 to 17 are a0 to a7."""
    constant: int
    factor: int
    number: int
    second_factor: int
    second_number: int


class Registers(NamedTuple):
    """The registers of a run between two steps: pc, the 32 of `x`, and the vector unit's."""
    pc: int
    x: tuple[int, ...]
    vl: int
    vtype: int
    vxrm: int
    vxsat: int


class Stopped(NamedTuple):
    """How a tried run stopped: status 'DONE', 'TRAPPED' or 'OUT_OF_STEPS'.

    `fault` is that of the next step: 0 none, 1 an illegal word, 2 a fetch, 3 a load, 4 a store, 5 a jump to no multiple of 4. `number` is
    its word or address.
    """
    status: str
    fault: int
    number: int
    pc: int
    steps: int


class whole:
    """A buffer in `Kernel.map` that is no column: each run gets all of it, as a table or a sum so far."""

    def __init__(self, buffer: Any):
        self.buffer = buffer


class _Count:
    """The type of COUNT."""

    def __repr__(self):
        return 'rvvbox.COUNT'


# In `Kernel.map`: the place where the kernel takes how many elements there are.
COUNT = _Count()


def scalar(lo: int = 0, hi: int | None = None) -> Parameter:
    """A parameter for `certify`: a number from lo to hi, or lo alone."""
    return Parameter('scalar', lo, lo if hi is None else hi)


def buffer(size: int) -> Parameter:
    """A parameter for `certify`: size bytes that the kernel reads and writes."""
    return Parameter('buffer', size=size)


def read(size: int) -> Parameter:
    """A parameter for `certify`: size bytes that the kernel reads."""
    return Parameter('read', size=size)


def _told(status: str, place: int, given: int, bound: int, kernel: Kernel | None) -> str:
    """The sentence of a refusal."""
    wanted = kernel.parameters[place] if kernel is not None and place < len(kernel.parameters) else Parameter('none')
    takes = {'none': 'nothing', 'scalar': f'a number from {wanted.lo} to {wanted.hi}'}.get(wanted.kind, f'a buffer of {wanted.size} bytes')
    told = {
        'NO_MEMORY': 'malloc refused',
        'BAD_VLEN': 'vlen is 128, 256 or 512',
        'BAD_RANGE': f'the {given} bytes of a{place} are not there' if place < 8 else f'not all of these {given} bytes are there',
        'WRONG_KIND': f'a{place} is of another kind: the kernel takes {takes}',
        'SCALAR_OUT_OF_INTERVAL': f'a{place} is {given}: the kernel takes {takes}',
        'WRONG_SIZE': f'a{place} has {given} bytes: the kernel takes {takes}',
        'BOUND_TOO_LARGE': f'the run may take {bound} steps, more than max_steps',
        'NOTHING_KEPT': 'another thread has it now',
        'OVERLAP': f'a{place} shares bytes with another argument, and one of them is written',
        'NO_CERTIFICATE': 'the image has no certificate',
    }
    return told.get(status, status.lower().replace('_', ' '))


_PLACED = {'BAD_KIND', 'BAD_RANGE', 'WRONG_KIND', 'SCALAR_OUT_OF_INTERVAL', 'WRONG_SIZE', 'OVERLAP'}
_CLASSES = {'NO_MEMORY': NoMemory, 'NOTHING_KEPT': Busy, 'IMAGE': Refused, 'NO_CERTIFICATE': Refused, 'CERTIFICATE': Refused,
            'CHECK': Refused}


def _error(status, rule, address, offset, place, low, high, given, image, vlen, kernel):
    """The exception of a refusal. The extension calls it."""
    bound = high << 64 | low
    text = _told(status, place, given, bound, kernel)
    if status == 'CHECK':
        text = f'the check refuses the image: {rule}' + (f' at {address:#010x}' if address else '')
    elif rule is not None:
        text = f'{text}: {rule}'
    explanation = ''
    if image is not None and _CLASSES.get(status) is Refused:
        try:
            explanation = _core.explain(image, vlen)
        except Error:
            pass                       # (What is refused is told without it.)
    made = _CLASSES.get(status, RunRefused)(f'{text}\n{explanation}'.rstrip())
    made.status, made.rule, made.explanation = status, rule, explanation
    made.address, made.offset = address or None, offset or None
    made.place = place if status in _PLACED and place < 8 else None
    made.bound = bound if status == 'BOUND_TOO_LARGE' else None
    return made


_core.set_up(_error, whole, COUNT)


def _bytes_of(image: Image) -> bytes:
    """The bytes of an image, which a text names as a path."""
    if isinstance(image, (str, os.PathLike)):
        return Path(image).read_bytes()
    return bytes(image)


def _setting(agnostic: str) -> int:
    if agnostic not in AGNOSTIC:
        raise ValueError(f"agnostic is 'keep' or 'ones', and not {agnostic!r}")
    return AGNOSTIC.index(agnostic)


class Kernel(_core.Kernel):
    """An image that the library accepted, for as many runs as wanted, on any threads.

    image      a path, or the bytes of an ELF file with its certificate
    vlen       bits of a vector register, 128, 256 or 512; None takes that of the certificate
    agnostic   'keep' leaves agnostic elements as they are, 'ones' fills them
    max_steps  the most steps of a run; one that may take more is refused before it begins

    Raises Refused, NoMemory, or OSError for a path. It is pickled as its bytes and vlen, and checked again where it is read.

    Attributes: `image`, its bytes; `vlen`; `max_steps`; `parameters`, a Parameter for each place up to the last that is used.
    """
    parameters: tuple[Parameter, ...]

    def __init__(self, image: Image, vlen: int | None = None, *, agnostic: str = 'keep', max_steps: int = ALL_STEPS):
        super().__init__(_bytes_of(image), vlen or 0, _setting(agnostic), max_steps)
        self.parameters = tuple(Parameter(KINDS[kind], lo, hi, size) for kind, lo, hi, size in self._parameters())

    # (run(*arguments, max_steps=None) and bound(*numbers) are the extension's.)
    __call__ = _core.Kernel.run

    @property
    def budget(self) -> Budget:
        """The most steps of a run, by its registers."""
        return Budget(*self._budget())

    def map(self, *columns: Any, batch: int | None = None, max_steps: int | None = None) -> int:
        """Runs over columns of any length, batch by batch, and answers the steps of all runs.

        A buffer is a column: its items are the elements, and all columns have as many. `COUNT` stands where the kernel takes how many
        elements a run has. `whole(buffer)` and numbers are the same in each run. `batch` is how many elements a run takes, by default as
        many as fit the parameters. A run whose columns fill its parameters works on the columns' own bytes. Another, as the last, works on
        a copy with zeros behind. `max_steps` limits each run. Where one is refused, those before it stay done.
        """
        if batch is not None and batch < 1:
            raise ValueError('a batch has at least one element')
        return self._map(columns, batch or 0, max_steps)

    def session(self, *arguments: Any, max_steps: int | None = None) -> Session:
        """Begins a run, on copies of the buffers, and does no step yet: `Session.go_on` does as many at a time as asked.

        The arguments are those of `run`, and so is what is raised. The buffers stay lent until the session ends, so that none of them is
        resized. The kernel may run and begin others meanwhile.
        """
        return Session(self._session(*arguments, max_steps=max_steps))

    def __reduce__(self):
        return _remade, (type(self), self.image, self.vlen, AGNOSTIC[self._agnostic], self.max_steps)

    def __repr__(self):
        return f'<rvvbox.Kernel of {len(self.image)} bytes, vlen {self.vlen}, {len(self.parameters)} parameters>'


def _remade(of, image, vlen, agnostic, max_steps):
    return of(image, vlen, agnostic=agnostic, max_steps=max_steps)


class Session:
    """A run that stands still between two calls.

        with kernel.session(words, 1000) as session:
            while not session.go_on(10_000):
                ...                    # look at a clock, or leave

    At the end of `with`, each buffer that the kernel writes becomes what the run left of it. After an exception there all buffers stay as
    they were, and so they do where a session is let go without `close`. A session may go from thread to thread. A call while another
    thread's call goes on raises Busy, and one after `close` ValueError.

    Attributes: `ended`, whether the run has ended, and `steps`, those done so far.
    """

    def __init__(self, session: _core.Session):
        self._session, self.ended, self.steps = session, False, 0

    def go_on(self, most: int = ALL_STEPS) -> bool:
        """Does `most` steps, or fewer where the run ends, and answers whether it has ended. One that has ended stays as it is."""
        self.ended, self.steps = self._session.go_on(most)
        return self.ended

    def registers(self) -> Registers:
        """The registers as they stand."""
        return Registers(*self._session.registers())

    def peek(self, address: int, size: int) -> bytes:
        """The bytes of the run's memory from an address on, as its buffers stand now. RunRefused where one of them is not there."""
        return self._session.peek(address, size)

    def close(self, put_back: bool = True) -> None:
        """Ends the session wherever the run stands. With put_back, each written buffer becomes what the run has left of it so far.

        A session that is closed stays so.
        """
        self._session.close(put_back)

    def __enter__(self) -> Session:
        return self

    def __exit__(self, kind, *_) -> None:
        self.close(put_back=kind is None)

    def __repr__(self):
        return f'<rvvbox.Session, {"ended" if self.ended else "standing"} after {self.steps} steps>'


def try_run(image: Image, *arguments: Any, vlen: int, max_steps: int, agnostic: str = 'keep') -> Stopped:
    """Runs any image once, with or without a certificate, with every test at each step.

    A writable buffer is then as it was when the run stopped; pass `memoryview(x).toreadonly()` for bytes that stay. Buffers have at most
    16 MiB. Raises Refused where the bytes spell no image.
    """
    return Stopped(*_core.try_run(_bytes_of(image), vlen, _setting(agnostic), max_steps, arguments))


def explain(image: Image, vlen: int) -> str:
    """Why the library refuses an image, in lines, or '' where it accepts it."""
    return _core.explain(_bytes_of(image), vlen)


def attach(image: Image, certificate: bytes) -> bytes:
    """The image with a certificate in a note behind it. It is not checked here."""
    return _core.attach(_bytes_of(image), bytes(certificate))


def version() -> tuple[int, int]:
    """The library's version of the interface, as (2, 2)."""
    return VERSION


def certify(source: str | os.PathLike, parameters: Sequence[Parameter], **options: Any) -> Kernel:
    """From C to an accepted kernel: compiles, searches a certificate, and puts in guards where there is none without.

        kernel = rvvbox.certify('void up(int *p, unsigned n) { for (; n; n--) ++*p++; }', [rvvbox.buffer(4096), rvvbox.scalar(0, 1024)])

    `source` is C, or a path of it. `parameters` says what the function takes, by place. The options are those of
    `rvvbox.certifying.certify`. Needs tools/certify and its compilers. Raises CertifyError with what the tool told.
    """
    from . import certifying
    return certifying.certify(source, parameters, **options)
