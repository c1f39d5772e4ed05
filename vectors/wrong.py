"""Which row notices a wrong definition: changes a second program in one place at a time, and looks for the first row of each table that no longer holds.

Usage: wrong.py [CLASS or NAME..]. The lists are in wrong_machine.py, wrong_checker.py, wrong_files.py, wrong_runs.py and wrong_maker.py. A definition that
is one in other words, so that no row can notice it, has its reason in SAME of that file.
"""
import os
import struct
import sys
import types
from collections import namedtuple
from multiprocessing import Pool

import table
import wrong_checker
import wrong_files
import wrong_machine
import wrong_maker
import wrong_runs

HERE = os.path.dirname(os.path.abspath(__file__))
DATA = os.path.join(HERE, '../crates/conformance/data/')
# In an order in which each stands behind those that it imports.
MODULES = ('table', 'model', 'certificates', 'checker', 'opening', 'runs', 'maker')


def source(name):
    return open(os.path.join(HERE, name + '.py')).read()


SOURCES = {name: source(name) for name in MODULES}


def world(module, texts):
    """All the second programs, of which one has been changed: each text is replaced by the next one."""
    out = {}
    for name in MODULES:
        code = SOURCES[name]
        if name == module:
            for old, new in zip(texts[::2], texts[1::2]):
                assert code.count(old) == 1, (old, code.count(old))
                code = code.replace(old, new)
        out[name] = sys.modules[name] = types.ModuleType(name)
        exec(compile(code, name + '.py', 'exec'), out[name].__dict__)
    return types.SimpleNamespace(**out)


RIGHT = world(None, ())


# ---- Rows ----------------------------------------------------------------------------------------------------------------------------------

def rows(name):
    for n, line in enumerate(open(DATA + name), 1):
        if line[0] != '#':
            yield n, line.rstrip('\n')


def word_holds(w, line):
    word, text = line.split(' ', 1)
    return w.model.text_of(int(word, 16)) == text


def legality_holds(w, line):
    vtype, word, legal = line.split()
    return w.model.decode(int(word, 16)) is not None and int(w.model.is_legal(int(vtype, 16), int(word, 16))) == int(legal)


def parsed(line):
    left, right = line.split(' =', 1)
    vlenb, setting, vtype, vl, seed, word, *overs = left.split()
    x, v = table.state_of(int(seed, 16), int(vlenb))
    v, state = bytearray(v), {'vxrm': 0, 'vxsat': 0}
    for o in overs:
        name, value = o.split('=')
        if name in state:
            state[name] = int(value)
        elif name[0] == 'x':
            x[int(name[1:])] = int(value, 16)
        else:
            data = bytes.fromhex(value)
            v[int(name[1:]) * int(vlenb):int(name[1:]) * int(vlenb) + len(data)] = data
    return int(vlenb), setting == 'ones', int(vtype, 16), int(vl), int(word, 16), x, bytes(v), state, right.strip()


def changed(m, vlenb, vl, vtype, x, v, state, rw):
    out = {'pc=%08x' % m.pc} - {'pc=00010004'} | {'x%d=%08x' % (n, m.x[n]) for n in range(1, 32) if m.x[n] != x[n]}
    for n in range(32):
        part = slice(n * vlenb, (n + 1) * vlenb)
        if m.v[part] != v[part]:
            out.add('v%d=%s' % (n, bytes(m.v[part]).hex()))
    out |= {'%s=%d' % (n, getattr(m, n)) for n in state if getattr(m, n) != state[n]} | ({'vl=%d' % m.vl} if m.vl != vl else set())
    out |= {'vtype=%08x' % m.vtype} if m.vtype != vtype else set()
    k = 0
    while k < 4096:
        if rw[k] != table.BUFFER[k]:
            end = k
            while end < 4096 and rw[end] != table.BUFFER[end]:
                end += 1
            out.add('m%08x=%s' % (table.RW + k, bytes(rw[k:end]).hex()))
            k = end
        k += 1
    return out


def step_holds(w, line):
    model = w.model
    vlenb, ones, vtype, vl, word, x, v, state, right = parsed(line)
    memory = model.Memory([(0x10000, struct.pack('<I', 0x73), 'x'), (0x2fff0000, bytes(65536), 'rw'), (table.RW, table.BUFFER, 'rw'), (table.RO, table.BUFFER, 'r')])
    m = model.Machine(vlenb, ones, 0x10000, x, v, vtype, vl, state['vxrm'], state['vxsat'], memory)
    d = model.decode(word)
    if d is None:
        return right == 'fault Illegal %08x' % word
    try:
        m.step(word)
    except model.Fault as e:
        return right == 'fault %s %08x' % e.args
    return set(right.split()) == changed(m, vlenb, vl, vtype, x, v, state, memory.areas[2][1])


def run_of(w, left):
    """The run that a row of runs.txt or sessions.txt asks for."""
    vlenb, setting, most, image, *args = left.split()
    args = [None if a == '-' else int(a[1:], 16) if a[0] == 's' else (a[0], bytes.fromhex(a[1:])) for a in args]
    return w.runs.Run('', bytes.fromhex(image), args, int(vlenb), setting == 'ones', int(most))


def run_holds(w, line):
    left, right = line.split(' = ')
    return '%s %s %s' % run_of(w, left).of_model() == right


def opening_holds(w, line):
    left, right = line.split(' = ')
    run = run_of(w, left)
    return w.opening.refusal(run.image, run.args, run.vlenb, run.most) == (None if right.startswith('ended ') else right)


def session_holds(w, line):
    """What comes of a run that is opened."""
    return ' = ended ' not in line or run_holds(w, line)


def check_holds(w, line):
    left, right = line.split(' = ')
    vlenb, file = left.split(' ')
    return w.checker.check(bytes.fromhex(file), int(vlenb)) == right


def read_of(w, file):
    """What a file spells: its image and its certificate, or the error."""
    try:
        image = w.certificates.read_image(file)
        return image, None if image.certificate is None else w.certificates.read_certificate(image.certificate)
    except w.certificates.Refused as e:
        return e.text


def spelled_holds(w, line):
    """As check_holds, where only what files spell has been changed: most of them spell what they did."""
    file = bytes.fromhex(line.split(' ')[1])
    return read_of(w, file) == read_of(RIGHT, file) or check_holds(w, line)


def image_holds(w, line):
    file, right = line.split(' ', 1)
    file, _, zeros = file.partition('+')
    try:
        certificate = w.certificates.read_image(bytes.fromhex(file) + bytes(int(zeros or 0))).certificate
    except w.certificates.Refused as e:
        return e.text == right
    return right == 'read ' + ('-' if certificate is None else certificate.hex() or 'empty')


def param_of(c, text):
    if text == '-':
        return c.Param('none')
    if text[0] == 's':
        return c.Param('scalar', 0, *(int(end, 16) for end in text[1:].split(':')))
    return c.Param('buffer', {'r': c.READ, 'w': c.READ | c.WRITE}[text[0]], int(text[1:]))


def make_holds(w, line):
    left, right = line.split(' = ')
    vlenb, *passed, file = left.split()
    c = w.certificates
    try:
        made = w.maker.make(c.read_image(bytes.fromhex(file)), [param_of(c, text) for text in passed], int(vlenb))
    except w.maker.NotALoop as e:
        return e.text == right
    return right.split()[:2] == ['made', c.certificate_bytes(made).hex()]


# ---- Classes -------------------------------------------------------------------------------------------------------------------------------

MACHINE_ROWS = (('words.txt', word_holds), ('legality.txt', legality_holds), ('steps.txt', step_holds), ('runs.txt', run_holds))
RUN_ROWS = (('runs.txt', run_holds), ('sessions.txt', session_holds))
CHECK_ROWS = (('checks.txt', check_holds), ('orders.txt', check_holds))
SPELLED_ROWS = (('checks.txt', spelled_holds), ('orders.txt', spelled_holds))
# A name, the module that is changed, the wrong definitions, those that are the right one in other words, and the tables with what a row holds by.
Class = namedtuple('Class', 'name module wrong same tables')
CLASSES = [
    Class('machine', 'model', wrong_machine.MACHINE, wrong_machine.SAME, MACHINE_ROWS),
    Class('checker', 'checker', wrong_checker.CHECKER, wrong_checker.SAME, CHECK_ROWS),
    Class('entry', 'checker', wrong_checker.ENTRY, [], CHECK_ROWS),
    Class('notes', 'certificates', wrong_files.NOTES, wrong_files.SAME_NOTES, SPELLED_ROWS),
    Class('images', 'certificates', wrong_files.IMAGES, wrong_files.SAME_IMAGES, (('images.txt', image_holds),) + SPELLED_ROWS),
    Class('start', 'runs', wrong_runs.START, [], RUN_ROWS),
    Class('opening', 'opening', wrong_runs.OPENING, wrong_runs.SAME, (('sessions.txt', opening_holds),)),
    Class('maker', 'maker', wrong_maker.MAKER, wrong_maker.SAME, (('makes.txt', make_holds),))]


def does_hold(holds, w, line):
    try:
        return holds(w, line)
    except Exception:
        return False


def notices(asked):
    """For each table the number of the first row that notices, if any."""
    place, name, texts = asked
    of = CLASSES[place]
    w = world(of.module, texts)
    found = {}
    for file, holds in of.tables:
        first = next((n for n, line in rows(file) if not does_hold(holds, w, line)), None)
        if first:
            found[file] = first
    return place, name, found


def all_asked(wanted):
    """Each class as it is, where all rows have to hold, and then each of its changes that is wanted."""
    for place, of in enumerate(CLASSES):
        changes = [(place, name, texts) for name, *texts in of.wrong if not wanted or name in wanted or of.name in wanted]
        if changes:
            yield place, '', ()
            yield from changes


def main():
    noticed = [0] * len(CLASSES)
    asked = [0] * len(CLASSES)
    with Pool(3) as pool:
        for place, name, found in pool.imap(notices, all_asked(sys.argv[1:])):
            if not name:
                assert not found, (CLASSES[place].name, found)
                continue
            asked[place] += 1
            noticed[place] += bool(found)
            print('%-9s%-70s %s' % (CLASSES[place].name, name, ', '.join('%s:%d' % f for f in found.items()) or 'NOT NOTICED'), flush=True)
    for of, some, every in zip(CLASSES, noticed, asked):
        if every:
            print('%s: %d of %d noticed; %d that are no other definition were left out' % (of.name, some, every, len(of.same)))
    sys.exit(noticed != asked)


if __name__ == '__main__':
    main()
