"""A second opinion on opening a run: why no run of an image is opened on given arguments, in Python.

Written from docs/JOBS.md ("What each does, in order", "Standard error"), docs/MACHINE.md ("Start and end") and, for the order of the errors, from what the README
files of region_mem and sandbox_run say in words; from no code or definition of crates/. An argument is None, a number, or a buffer: its mode and its bytes.
"""
from certificates import read_certificate, read_image
from checker import buffers, check
from model import EXIT, M32


def kind_of(argument):
    return 'none' if argument is None else 'scalar' if isinstance(argument, int) else 'buffer'


def is_wrong_kind(p, argument):
    return p.kind != kind_of(argument)


def is_out_of_interval(p, argument):
    return p.kind == 'scalar' and not p.a <= argument <= p.b


def is_wrong_size(p, argument):
    return p.kind == 'buffer' and len(argument[1]) != p.a


# The errors of arguments, in the order in which they are told.
ERRORS = (('WrongKind', is_wrong_kind), ('ScalarOutOfInterval', is_out_of_interval), ('WrongSize', is_wrong_size))


def arguments_error(params, arguments):
    """The first error, at the lowest place that has it; None where the arguments match."""
    for name, is_wrong in ERRORS:
        for place in range(8):
            if is_wrong(params[place], arguments[place]):
                return '%s(%d)' % (name, place)
    return None


def at_start(params, arguments):
    """x0 to x31 at the start of a run."""
    x = [0] * 32
    x[1], x[2] = EXIT, 0x30000000
    for place, argument in enumerate(arguments):
        if isinstance(argument, int):
            x[10 + place] = argument & M32
    for place, address, _, _ in buffers(params):
        x[10 + place] = address
    return x


def refusal(file, arguments, vlenb, most):
    """Why no run is opened, or None. The image is checked at its certificate's own length of a vector register first."""
    told = next(answer for answer in (check(file, own) for own in (16, 32, 64)) if answer != 'WrongVlen')
    if not told.startswith('accepted '):
        return told
    certificate = read_certificate(read_image(file).certificate)
    error = arguments_error(certificate.params, arguments)
    if error:
        return error
    constant, *products = map(int, told.split()[1:])
    x = at_start(certificate.params, arguments)
    if constant + sum(factor * x[register] for factor, register in zip(products[::2], products[1::2])) > most:
        return 'BoundTooLarge'
    return None if certificate.vlen == 8 * vlenb else 'WrongVlen'
