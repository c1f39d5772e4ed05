"""`certify guard`: from an image to one with a certificate, with guards where a search alone is refused."""
import sys
import time
from collections import namedtuple

import guard
import host
import lines
import notes
import pace
import search
import trial
from outside import certificates, checker

# How many times the rounds of the job's runs fuel is, where that is accepted, and how much it is at least.
FACTORS = (64, 1 << 16), (16, 1 << 12), (4, 1 << 10), (1, 1 << 10)
QUICK, LONGER = 12, 20      # processor seconds up to which a second way is tried, and one with more registers
LEAST_EVICTED = 2
# Whether tests go before loops, whether inner loops have counters, and whether large functions have one copy where copies make much code.
WAYS = (True, True, True), (False, True, True), (True, False, True), (True, True, False)
FIND_AT_MOST = 4            # processor seconds for the search without guards
SELDOM = 8                  # which time it is asked how many of them have passed
ENOUGH = 1.08               # how many times the steps of the unguarded code are so few that no other way is tried
NO_STATUS = 'without --status a run that a guard ended cannot be told from a whole one'

# What was made: the image's bytes with its note, the certificate, and the maker, or None where nothing was put in.
Made = namedtuple('Made', 'data image certificate maker')


class Within(search.Watch):
    """A part of a search that may take so many processor seconds."""

    def __init__(self, whole, seconds):
        self.whole, self.end, self.asked = whole, time.process_time() + seconds, 0

    def tell(self, text):
        self.whole.tell(text)
        self.check()

    def check(self):
        self.whole.check()
        self.asked += 1
        if self.asked % SELDOM == 0 and time.process_time() > self.end:
            raise search.OutOfTime('the search without guards')


def made(data, image, job, vlen, looking, fuel=None, status=None):
    """An image with a certificate for a length: its own bytes where the search finds one, else with guards; with guards too where the bound
    is above what a run would be allowed, if that helps. Raises notes.Trouble."""
    check_status(job.params, status)
    found = found_alone(image, job.params, vlen, looking)
    if found is None:
        return guarded(data, image, job, vlen, looking, fuel, status)
    if pace.is_too_long(found):
        try:
            return guarded(data, image, job, vlen, looking, fuel, status)
        except notes.Trouble:
            pass
    return Made(notes.with_note(data, certificates.certificate_bytes(found.certificate)), image, found.certificate, None)


def guarded(data, image, job, vlen, looking, fuel, status):
    """An image with guards: with tests before loops or within them, with counters for inner loops or fuel, whichever takes the job's own run
    fewer steps."""
    ways, trouble, start, maker = [], None, time.process_time(), None
    for hoists, counts, shares in WAYS:
        first = ways[0][0] if ways else None
        if first and (not can_measure(job) or time.process_time() - start > QUICK or is_cheap(data, ways[0], job, vlen)):
            break
        if first and not (counts and first.is_hoisted() or not counts and first.counts_within()):
            continue
        if not shares and (first or not maker.code.shared):
            continue
        maker = guard.Maker(data, image, job.params, vlen, fuel or guard.FUEL, status, looking, hoists, counts, shares)
        try:
            ways.append((maker, *made_by(maker, job, vlen, fuel)))
        except notes.Trouble as e:
            trouble = trouble or e
    if not ways:
        raise trouble
    best = min(ways, key=lambda way: steps_of(way[0], way[1], job, vlen)) if len(ways) > 1 else ways[0]
    if can_measure(job) and time.process_time() - start <= LONGER:
        best = with_more_registers(best, data, image, job, vlen, looking, fuel, status)
    maker, out, new, found, why = best
    if why:
        print(f'fuel: {maker.fuel} rounds, {why}', file=sys.stderr)
    tell_of_own_run(maker, job, vlen)
    return Made(notes.with_note(out, certificates.certificate_bytes(found.certificate)), new, found.certificate, maker)


def with_more_registers(way, data, image, job, vlen, looking, fuel, status):
    """A way, or the same with registers of the kernel on the stack where the numbers that guards compare with have too few, if that takes fewer
    steps."""
    maker, count = way[0], way[0].wanted()
    if not count or is_cheap(data, way, job, vlen):
        return way
    try:
        evicted = min(maker.evicted + max(count, LEAST_EVICTED), guard.MOST_EVICTED)
        maker = guard.Maker(data, image, job.params, vlen, fuel or guard.FUEL, status, looking, maker.hoists, maker.counts, maker.shares, evicted)
        other = maker, *made_by(maker, job, vlen, fuel)
    except notes.Trouble:
        return way
    return min(way, other, key=lambda way: steps_of(way[0], way[1], job, vlen))


def made_by(maker, job, vlen, fuel):
    """The image, what was read of it, what was found, and why it has so much fuel, where it has some that was not stated."""
    maker.measures_later = fuel is None and can_measure(job)
    out, new, found = maker.run()
    if not maker.fuelled or fuel is not None:
        return out, new, found, None
    ways, trouble = list(fuel_of(maker, job, vlen)), None
    for fuel, why in ways[:2]:
        made_of = (out, new, found) if fuel <= maker.fuel else maker.with_fuel(fuel)
        if made_of:
            return *made_of, why
    maker.measures_later = False
    for maker.fuel, why in ways[1:] or ways:
        try:
            return *maker.run(), why
        except notes.Trouble as e:
            trouble = trouble or e
    raise trouble


def is_cheap(data, way, job, vlen):
    """Whether guards cost the job's own run next to nothing."""
    plain = host.run(job.table, data, job.params, job.contents(), vlen).steps
    return plain is not None and steps_of(way[0], way[1], job, vlen) <= ENOUGH * plain


def steps_of(maker, out, job, vlen):
    """How many steps the job's own run takes; above all where a guard ends it."""
    if failed_guard(maker, job, vlen, job.contents()):
        return 1 << 60
    return host.run(job.table, out, job.params, job.contents(), vlen).steps or 1 << 59


def tell_of_own_run(maker, job, vlen):
    """Says on standard error where a guard ends the job's own run."""
    number = failed_guard(maker, job, vlen, job.contents()) if maker.told and job.can_run() and host.program() else None
    if number:
        it = maker.told[number - 1]
        print(f"guard {number} ends the job's own run: {it.kind} at {it.pc:#x}, {it.what}", file=sys.stderr)


def check_status(params, status):
    if status is None:
        return
    if not (0 <= status < len(params) and params[status].kind == 'buffer' and params[status].mode & certificates.WRITE
            and params[status].a >= 4):
        raise notes.Trouble('--status has to name the place of a buffer of mode "rw" with 4 bytes or more')


def found_alone(image, params, vlen, looking):
    """What the search finds without guards, or None. Where a run shows that there is no certificate it is not begun."""
    looking.tell(f'runs at VLEN {vlen}')
    if trial.refuted(image, params, vlen):
        return None
    try:
        found = search.find(image, params, vlen, Within(looking, FIND_AT_MOST))
    except search.OutOfTime:
        looking.check()
        return None
    return found if found.answer == 'accepted' else None


# ---- Fuel ----------------------------------------------------------------------------------------------------------------------

def can_measure(job):
    """Whether runs of a job can tell how much fuel they take."""
    return job.can_run() and host.program() is not None and has_place(job.params)


def fuel_of(maker, job, vlen):
    """How much fuel a kernel gets, and why, in the order in which it is tried: some times what the job's own run takes, and a run on the
    greatest scalars."""
    if not can_measure(job):
        yield guard.FUEL, 'since the job states no run that can be measured: --fuel N states another number'
        return
    contents = job.contents()
    greatest = [param.b if param.kind == 'scalar' else content for param, content in zip(job.params, contents)]
    used = [used_fuel(maker, job, vlen, passed) for passed in (contents, greatest)]
    most = max((rounds for rounds in used if rounds is not None), default=None)
    if most is None:
        yield guard.FUEL, 'since the job has no run that ends: --fuel N states another number'
    for factor, least in () if most is None else FACTORS:
        fuel = max(least, 1 << (factor * most - 1).bit_length())
        yield fuel, f'at least {factor} times the {most} that runs of the job take: --fuel N states another number'


def used_fuel(maker, job, vlen, contents):
    """How many rounds of loops with fuel a run takes, or None where it does not end."""
    left = told_by_run(maker, job, vlen, contents, True)
    return None if left is None else (1 << 32) - 1 - left


def failed_guard(maker, job, vlen, contents):
    """The number of the guard that ends a run, 0 where none does; None where that can't be asked."""
    return told_by_run(maker, job, vlen, contents, False)


def told_by_run(maker, job, vlen, contents, measures_fuel):
    """The number that a run leaves in 4 bytes of its own behind the job's buffers. None where there is no place, or the run does not end."""
    if not has_place(job.params):
        return None
    params, contents, place = with_place(job.params, contents)
    address = next(at + size - 4 for at_place, at, size, _ in checker.buffers(params) if at_place == place)
    ran = host.run(job.table, maker.told_at(address, measures_fuel), params, contents, vlen)
    left = ran.buffers.get(place)
    return None if ran.steps is None or left is None else int.from_bytes(left[-4:], 'little')


def has_place(params):
    """Whether there is a place for what a run leaves."""
    return len(params) < 8 or any(param.kind == 'buffer' for param in params)


def with_place(params, contents):
    """Parameters and contents with 4 bytes more, and the place of their buffer: one more, or where there are eight the last that is there."""
    both = certificates.READ | certificates.WRITE
    if len(params) < 8:
        return [*params, certificates.Param('buffer', both, 4, 0)], [*contents, bytes(4)], len(params)
    *_, (place, _, size, _) = checker.buffers(params)
    longer = {place: params[place]._replace(mode=both, a=size + 4)}
    return ([longer.get(k, param) for k, param in enumerate(params)], [it + bytes(4) if k == place else it for k, it in enumerate(contents)], place)


# ---- What is told --------------------------------------------------------------------------------------------------------------

def summary(made_of, status):
    """What was put in, in one line each."""
    maker = made_of.maker
    if maker is None:
        return ['nothing had to be put in']
    kinds = [(len(list(maker.counting())), 'counters'), (len(maker.fuelled), 'loops with fuel'),
             (len(maker.tests) + len(maker.strips) + len(maker.choices), 'tests before accesses')]
    out = ['put in: ' + ', '.join(f'{count} {what}' for count, what in kinds if count)] if any(c for c, _ in kinds) else []
    if maker.is_ending:
        out.append('returns of the kernel are ecall')
    return out + ([NO_STATUS] if maker.told and status is None else [])


def map_lines(made_of, path, data):
    """`number kind address function source what` of each guard that may fail."""
    told = made_of.maker.told if made_of.maker else []
    sources = lines.source_lines(path, {guard_told.pc for guard_told in told})
    for number, it in enumerate(told, 1):
        yield f"{number}\t{it.kind}\t{it.pc:#x}\t{lines.function_at(data, it.pc)}\t{sources.get(it.pc, '-')}\t{it.what}"
