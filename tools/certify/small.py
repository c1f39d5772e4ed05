"""Small images out of assembly, what guards make of them, and their runs by the second checker's meaning of words: for tests."""
import struct
from collections import namedtuple

import harden
import search
import trial
import watch
from outside import certificates, checker, model

import assembly
import images

CODE, LOAD = 0x10000, 1
READ, READ_WRITE, RUN = certificates.READ, certificates.READ | certificates.WRITE, certificates.READ | certificates.EXECUTE
STATUS = certificates.Param('buffer', READ_WRITE, 4)

# How a run ended: its steps, or None where it did not end; its fault, or None; and its buffers by place.
Ran = namedtuple('Ran', 'steps fault buffers')


def image(text, data=()):
    """The file of an image: assembly at 0x10000, and data as (address, bytes, rights) each."""
    body = b''.join(struct.pack('<I', word) for word in assembly.assembled(text)[0])
    headers = [(LOAD, 0, CODE, len(body), len(body), RUN)]
    for address, content, rights in data:
        headers.append((LOAD, len(body), address, len(content), len(content), rights))
        body += content
    return images.elf(headers, body)


def label(text, name):
    """The address of a label of assembly at 0x10000."""
    return assembly.assembled(text)[1][name]


def scalar(least, most):
    """A number in an interval, as a parameter."""
    return certificates.Param('scalar', 0, least, most)


def reads(size):
    """A buffer that may be read."""
    return certificates.Param('buffer', READ, size)


def writes(size):
    """A buffer that may be read and written."""
    return certificates.Param('buffer', READ_WRITE, size)


def word(number):
    """The four bytes of a number."""
    return struct.pack('<I', number & 0xffffffff)


class Job:
    """What guards are told of a job that states no run."""

    def __init__(self, params):
        self.params = params

    def can_run(self):
        return False


class Guarded:
    """An image and what guards made of it. The last parameter is the status."""

    def __init__(self, data, params, fuel=1000, vlen=128):
        self.params, self.vlen, self.status = [*params, STATUS], vlen, len(params)
        self.plain = certificates.read_image(data)
        made = harden.made(data, self.plain, Job(self.params), vlen, watch.Progress(), fuel, self.status)
        self.data, self.certificate, self.maker = made.data, made.certificate, made.maker
        self.image = certificates.read_image(self.data)
        self.told = made.maker.told if made.maker else []

    def answer(self):
        """What the second checker says of it."""
        return search.judged(self.image, self.certificate)

    def run(self, contents):
        """A run of the image that was made: how it ended, and its number."""
        ran = run(self.image, self.params, [*contents, bytes(4)], self.vlen)
        return ran, int.from_bytes(ran.buffers.pop(self.status), 'little')

    def run_plain(self, contents):
        """A run of the image that it was made from."""
        ran = run(self.plain, self.params, [*contents, bytes(4)], self.vlen)
        ran.buffers.pop(self.status)
        return ran


def run(its_image, params, contents, vlen=128, most=20_000):
    """Runs an image on numbers and on bytes of buffers, for at most so many steps."""
    machine, fault, steps = trial.Run(its_image, params, vlen, 0), None, 0
    address_of = {place: address for place, address, *_ in checker.buffers(params)}
    areas = {area[0]: area[1] for area in machine.memory.areas}
    for place, content in enumerate(contents):
        if params[place].kind == 'scalar':
            machine.x[10 + place] = content
        else:
            areas[address_of[place]][:] = content
    while machine.pc != model.EXIT and fault is None and steps < most:
        try:
            machine.step(machine.fetched(machine.pc))
            steps += 1
        except model.Fault as met:
            fault = met.args
    is_whole = machine.pc == model.EXIT
    return Ran(steps if is_whole else None, fault, {place: bytes(areas[address]) for place, address in address_of.items()})
