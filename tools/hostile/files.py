"""Files and streams that fail: what is not there, may not be read or written, or is full, at each place; each read, write and open of a
call in turn; and readers and writers that move few bytes at a time.

A failed read ends the program with status 3 and `file: PATH`, and nothing is run; a failed out file leaves those of lower places written
and those of higher ones not; where standard output fails, the status is 3 and nothing more is told (docs/JOBS.md). Of `mon`, the path of
standard input is `-`, answers stand on standard output before out files are written, and none is written where either stream fails.
"""
import contextlib
import itertools
import os
import resource
import select
import signal
import subprocess
import threading
import tty

import expected
import made
from damage import PARAMS, example
from expected import Job
from faults import INPUT, OUTPUT, built
from outside import ROOT, runs
from program import Answer, Folder, Tally, text

NOBODY = 65534
SIZES = (1, 7, 4095, 4096, 4097)
SCRIPT = b'b 10004\nc\nx\nnone\n\xff\nm 40000000 256\nl 10000 9\ns 9\ncsr\nq\n'
MEMORY = 1 << 28            # the most memory of a call that reads a file without an end
SILENT = Answer(3)
OUT_OF_MEMORY = Answer(4, '', 'out of memory\n')

# Copies a byte of a0 to a1 and a2: lb t0,(a0); sb t0,(a1); sb t0,(a2); ret.
COPY = runs.put_together([(0x10000, runs.words(0x00050283, 0x00558023, 0x00560023, 0x00008067), 16, 5)], 0x10000)


def file(path):
    return expected.lacking(path)


class Line:
    """A command line that succeeds: its words, the paths that it reads in order, those that it writes, its answer, what it writes, and for
    `mon` what is on standard input."""

    def __init__(self, folder, words, reads, outs, answer, left, script=None):
        self.folder, self.words, self.reads, self.outs, self.answer, self.left, self.script = folder, words, reads, outs, answer, left, script

    @property
    def is_watched(self):
        return self.script is not None

    def unwritten(self, path):
        """The answer where an out file is not written."""
        return file(path)._replace(output=self.answer.output if self.is_watched else '')

    def left_unprinted(self):
        """What stands in the out files where standard output fails."""
        return self.none() if self.is_watched else self.left

    def with_path(self, old, new):
        """The words of the line with another path in the place of one, which stands in them or in their job."""
        if old in self.words:
            return [new if word == old else word for word in self.words]
        job = next(word for word in self.words if word.endswith('.toml'))
        told = self.folder.get(job).decode()
        assert '"%s"' % old in told, (job, old)
        self.folder.put('changed.toml', told.replace('"%s"' % old, '"%s"' % new))
        return ['changed.toml' if word == job else word for word in self.words]

    def none(self):
        """What stands in the out files where nothing is run."""
        return [None] * len(self.outs)

    def __str__(self):
        return ' '.join(self.words)


def lines(folder):
    """A line of each subcommand. Their files are put into the folder."""
    copies, raises = example_jobs()
    folder.put('copy.elf', COPY)
    folder.put('raise.elf', example('raise_words', 16))
    copies.put(folder, 'copy.elf', 'copy.toml')
    folder.put('raise.toml', raises.text('raise.elf').replace('"in0"', '"words"').replace('"out0"', '"raised"'))
    folder.put('words', raises.args[0][1])
    answer, left = expected.of_job(COPY, copies, 'try')
    yield Line(folder, ['try', 'copy.toml'], ['copy.toml', 'copy.elf', 'in0', 'in1', 'in2'], ['out0', 'out1', 'out2'], answer, [left[k] for k in range(3)])
    answer, left = expected.of_job(example('raise_words', 16), raises, 'run')
    yield Line(folder, ['run', 'raise.toml'], ['raise.toml', 'raise.elf', 'words'], ['raised'], answer, [left[0]])
    yield Line(folder, ['check', 'raise.elf'], ['raise.elf'], [], expected.of_check(example('raise_words', 16)), [])
    bare = (ROOT / 'examples/raise_words/bare.elf').read_bytes()
    folder.put('bare.elf', bare)
    folder.put('kinds.toml', made.job_text(PARAMS, 16))
    answer, certified = made.of_file(bare, PARAMS, 16)
    yield Line(folder, ['make', 'bare.elf', 'kinds.toml', 'made.elf'], ['kinds.toml', 'bare.elf'], ['made.elf'], answer, [certified])
    yield Line(folder, ['mon', 'raise.toml'], ['raise.toml', 'raise.elf', 'words'], ['raised'], *watched(SCRIPT), SCRIPT)


def watched(script):
    """What `mon raise.toml` answers to these bytes of standard input, and what it writes."""
    answer, left = expected.of_job(example('raise_words', 16), example_jobs()[1], 'mon', script)
    return answer, [left[0]]


def example_jobs():
    return Job(16, False, 100, [('w', b'a'), ('w', b'XY'), ('w', b'XZ')]), Job(16, False, 1000, [('w', bytes(range(256)) * 16), 9])


class Calls:
    """Calls in one folder, each compared with the answer and the out files that are expected."""

    def __init__(self, folder, tally):
        self.folder, self.tally = folder, tally
        self.lines = list(lines(folder))
        self.watched = next(line for line in self.lines if line.is_watched)

    def expect(self, what, line, wanted, left, words=None, **how):
        """One call of a line, by default in its own words: its answer, and the bytes of its out files, None for one that is not there."""
        self.tally.tried += 1
        self.folder.remove(*line.outs)
        given = {} if 'stdin' in how else {'script': line.script}
        got = self.folder.call(*(words or line.words), **given | how)
        self.tally.expect('%s, %s' % (line, what), (got, [self.folder.get(out) for out in line.outs]), (wanted, left))

    def refused(self, what, words, wanted, **how):
        """One call of a line that is refused."""
        self.tally.tried += 1
        self.tally.expect('%s, %s' % (' '.join(words), what), self.folder.call(*words, **how), wanted)


# ---- What is not there, may not be read, or may not be written -----------------------------------------------------------------------

def bad_reads(calls):
    """Each file that is read is missing, a folder, may not be read, or has a file in the place of its folder."""
    (calls.folder.path / 'folder').mkdir()
    calls.folder.put('locked', b'')
    (calls.folder.path / 'locked').chmod(0)
    for bad in ('missing', 'folder', 'locked', 'folder/in/folder', 'words/in', ''):
        how = {'user': NOBODY} if bad == 'locked' and os.geteuid() == 0 else {}
        for line in calls.lines:
            for name in line.reads:
                calls.expect('%s is "%s"' % (name, bad), line, file(bad), line.none(), line.with_path(name, bad), **how)
    calls.refused('a newline in a path', ['check', 'a\nb'], file('a\nb'))


def bad_writes(calls):
    """Each out file can't be made, or takes no byte: those before it are written, those behind it are not."""
    for line in calls.lines:
        calls.expect('as it is', line, line.answer, line.left)
        for place, name in enumerate(line.outs):
            left = [data if k < place else None for k, data in enumerate(line.left)]
            for bad in ('missing/out', 'folder', '/dev/full', 'words/out', ''):
                calls.expect('%s is "%s"' % (name, bad), line, line.unwritten(bad), left, line.with_path(name, bad))
    line = calls.lines[0]
    calls.expect('two out files of one path', line, line.answer, [line.left[0], line.left[2], None], line.with_path('out2', 'out1'))
    calls.expect('an out file that is read too', line, line.answer, [line.left[0], None, line.left[2]], line.with_path('out1', 'in1'))
    calls.tally.expect('an out file that is read too, its bytes', calls.folder.get('in1'), line.left[1])
    calls.folder.put('in1', b'XY')
    line = calls.lines[3]
    bare = calls.folder.get('bare.elf')
    calls.expect('the image is the file that is made', line, line.answer, [None], line.with_path('made.elf', 'bare.elf'))
    calls.tally.expect('the image is the file that is made, its bytes', calls.folder.get('bare.elf'), line.left[0])
    calls.folder.put('bare.elf', bare)


def full_disk(calls, share):
    """A file may have so many bytes and no more: the first out file that is larger has those, and no line is printed."""
    for line in calls.lines:
        largest = max(map(len, line.left), default=0)
        for size in range(0, largest, 64 * share + 1 if largest > 64 else 1):
            def limit():
                signal.signal(signal.SIGXFSZ, signal.SIG_IGN)
                resource.setrlimit(resource.RLIMIT_FSIZE, (size, size))
            failing = next(k for k, data in enumerate(line.left) if len(data) > size)
            left = [data if k < failing else data[:size] if k == failing else None for k, data in enumerate(line.left)]
            calls.expect('room for %d bytes' % size, line, line.unwritten(line.outs[failing]), left, preexec_fn=limit)


# ---- Streams -----------------------------------------------------------------------------------------------------------------------------

def without_reader():
    """The end of a pipe that nobody reads."""
    reading, writing = os.pipe()
    os.close(reading)
    return writing


STREAMS = {
    'full': lambda: os.open('/dev/full', os.O_WRONLY),
    'open for reads alone': lambda: os.open('/dev/null', os.O_RDONLY),
    'a pipe without a reader': without_reader}


def bad_streams(calls):
    """Standard output or error is full, open for reads alone, or a pipe that nobody reads; or any of the three is closed."""
    refused = [(words, calls.folder.call(*words)) for words in (['check', 'copy.elf'], ['check', 'missing'], ['try', 'words'], ['mon', 'copy.toml'],
                                                               ['make', 'raise.elf', 'kinds.toml', 'made.elf'], ['check'], [])]
    for name, opened in STREAMS.items():
        for line in calls.lines:
            with os.fdopen(opened()) as stream:
                calls.expect('standard output is %s' % name, line, SILENT, line.left_unprinted(), stdout=stream)
        for words in (['--help'], ['--version'], ['check', '-h']):
            with os.fdopen(opened()) as stream:
                calls.refused('standard output is %s' % name, words, SILENT, stdout=stream)
        for words, told in refused:
            with os.fdopen(opened()) as stream:
                calls.refused('standard error is %s' % name, words, Answer(told.status), stderr=stream)
    for closed in ((0,), (1,), (2,), (0, 1), (0, 2), (1, 2), (0, 1, 2)):
        def close():
            for number in closed:
                os.close(number)
        for line in calls.lines:
            wanted = (SILENT, line.left_unprinted()) if 1 in closed else (line.answer, line.left)
            if 0 in closed and line.is_watched:
                wanted = SILENT if 2 in closed else file('-'), line.none()
            calls.expect('streams %s are closed' % (closed,), line, *wanted, preexec_fn=close)
        for words, told in refused:
            calls.refused('streams %s are closed' % (closed,), words, Answer(told.status) if 2 in closed else told, preexec_fn=close)


# ---- Standard input ----------------------------------------------------------------------------------------------------------------------

@contextlib.contextmanager
def fed(parts):
    """The end of a pipe that gives these parts, as long as anybody reads."""
    reading, writing = os.pipe()

    def feed():
        with contextlib.suppress(BrokenPipeError), os.fdopen(writing, 'wb', 0) as pipe:
            for part in parts:
                pipe.write(part)

    thread = threading.Thread(target=feed, daemon=True)
    thread.start()
    yield reading
    os.close(reading)
    thread.join(10)


@contextlib.contextmanager
def waiting(data):
    """The end of a pipe that gives these bytes, and whose next read fails, since it would wait."""
    reading, writing = os.pipe()
    os.set_blocking(reading, False)
    os.write(writing, data)
    yield reading
    os.close(reading)
    os.close(writing)


@contextlib.contextmanager
def held(path, flags):
    stream = os.open(path, flags)
    yield stream
    os.close(stream)


def bad_inputs(calls):
    """Standard input of `mon` can't be read, at once or behind some lines, or has a line without an end."""
    line, begun = calls.watched, SCRIPT[:SCRIPT.index(b's 9')]
    answers = watched(begun)[0].output
    streams = (('a folder', held(calls.folder.path, os.O_RDONLY)), ('open for writes alone', held('/dev/null', os.O_WRONLY)), ('not there yet', waiting(b'')))
    for name, stream in streams:
        with stream as stdin:
            calls.expect('standard input is %s' % name, line, file('-'), line.none(), stdin=stdin)
    for more in (b'', b's 9'):
        with waiting(begun + more) as stdin:
            calls.expect('standard input fails behind %s' % (begun + more), line, file('-')._replace(output=answers), line.none(), stdin=stdin)
    for output, parts in (('', ()), (answers, (begun,))):
        with fed(itertools.chain(parts, itertools.repeat(bytes(1 << 16)))) as stdin:
            wanted = OUT_OF_MEMORY._replace(output=output)
            calls.expect('a line without an end behind %s' % (parts,), line, wanted, line.none(), stdin=stdin, preexec_fn=little_memory)


def inputs(calls):
    """Standard input of `mon` is empty, ends without `q` or without the end of its last line, or has more behind `q`, without an end too."""
    line = calls.watched
    long = b's ' + 5000 * b'0' + b'1\n' + SCRIPT
    for script in (b'', b'\n', b'\0', b'q', b'c', b's 9\n', SCRIPT[:-1], SCRIPT[:-2], SCRIPT + b'c\n', SCRIPT + b'c', 3000 * b's 1\n', long):
        calls.expect('standard input is %.40s, %d bytes' % (script, len(script)), line, *watched(script), script=script)
    for more in (b'c\n', b'c'):
        with fed(itertools.chain([SCRIPT], itertools.repeat(1000 * more))) as stdin:
            calls.expect('standard input goes on with %s' % more, line, line.answer, line.left, stdin=stdin)
    for size in SIZES:
        with fed(SCRIPT[at:at + size] for at in range(0, len(SCRIPT), size)) as stdin:
            calls.expect('standard input by %d bytes' % size, line, line.answer, line.left, stdin=stdin)


def in_turn(calls):
    """Each line of standard input is answered before the next one is given."""
    line, told = calls.watched, b''
    calls.tally.tried += 1
    calls.folder.remove(*line.outs)
    with subprocess.Popen([calls.folder.called, *line.words], cwd=calls.folder.path, stdin=subprocess.PIPE, stdout=subprocess.PIPE, bufsize=0) as called:
        for command in SCRIPT.splitlines(True):
            called.stdin.write(command)
            wanted = watched(SCRIPT[:SCRIPT.index(command) + len(command)])[0].output.encode()
            while len(told) < len(wanted) and select.select([called.stdout], [], [], 10)[0]:
                part = called.stdout.read(4096)
                told += part
                if not part:
                    break
            calls.tally.expect('%s, %s in turn' % (line, command), text(told), text(wanted))
        status = called.wait(10)
    calls.tally.expect('%s, in turn' % line, (status, [calls.folder.get(out) for out in line.outs]), (0, line.left))


def terminals(calls):
    """Standard input is a terminal: standard error shows the commands once where it is one too, and nothing where it is none."""
    line = calls.watched
    for how in ({}, {'stderr': True}):
        master, slave = os.openpty()
        tty.setraw(slave)
        os.write(master, SCRIPT)
        calls.expect('standard input is a terminal%s' % ', and standard error' * bool(how), line, line.answer, line.left, stdin=slave, **dict.fromkeys(how, slave))
        if how:
            calls.tally.expect('%s, how often a terminal shows the commands' % line, os.read(master, 4096).count(b'csr'), 1)
        os.close(slave)
        os.close(master)


# ---- Few bytes at a time -------------------------------------------------------------------------------------------------------------

class Pipe:
    """A named pipe into which, or out of which, a thread moves bytes a few at a time."""

    def __init__(self, folder, size, data=None):
        self.path, self.size, self.data = folder.path / 'pipe', size, data
        self.got = b''
        os.mkfifo(self.path)
        self.thread = threading.Thread(target=self.read if data is None else self.write, daemon=True)

    def read(self):
        with open(self.path, 'rb', 0) as pipe:
            while part := pipe.read(self.size):
                self.got += part

    def write(self):
        with contextlib.suppress(BrokenPipeError), open(self.path, 'wb', 0) as pipe:
            for at in range(0, len(self.data), self.size):
                pipe.write(self.data[at:at + self.size])

    def __enter__(self):
        self.thread.start()

    def __exit__(self, *_):
        self.thread.join(10)
        self.path.unlink()


def slow_pipes(calls):
    """Each file that is read is a pipe that gives few bytes at a time, and each out file one that takes few."""
    for size in SIZES:
        for line in calls.lines:
            for name in line.reads:
                with Pipe(calls.folder, size, calls.folder.get(name)):
                    calls.expect('%s by %d bytes' % (name, size), line, line.answer, line.left, line.with_path(name, 'pipe'))
            for place, name in enumerate(line.outs):
                pipe = Pipe(calls.folder, size)
                with pipe:
                    left = [None if k == place else data for k, data in enumerate(line.left)]
                    calls.expect('%s by %d bytes' % (name, size), line, line.answer, left, line.with_path(name, 'pipe'))
                calls.tally.expect('%s, %s by %d bytes, its bytes' % (line, name, size), pipe.got, line.left[place])
    for size in (0, 51, 52, 300):
        part = calls.folder.get('raise.elf')[:size]
        with Pipe(calls.folder, 1, part):
            calls.refused('which ends after %d bytes' % size, ['check', 'pipe'], expected.of_check(part))


def little_memory():
    resource.setrlimit(resource.RLIMIT_AS, (MEMORY, MEMORY))


def without_end(line, name):
    """What is answered where a file has no end. Memory is limited: a job file takes it all, and of others no more is read than is needed."""
    if name.endswith('.toml'):
        return OUT_OF_MEMORY
    if name.endswith('.elf'):
        return Answer(1, '', 'refused: BadMagic\n')
    return Answer(2, '', 'job: BadKey\n') if line.words[0] == 'try' else Answer(1, '', 'refused: WrongSize\n')


def endless(calls):
    """A file without an end."""
    for line in calls.lines:
        for name in line.reads:
            calls.expect('%s has no end' % name, line, without_end(line, name), line.none(), line.with_path(name, '/dev/zero'), preexec_fn=little_memory)


# ---- Each call of the C library in turn ---------------------------------------------------------------------------------------------------

def after_fault(line, told, output):
    """What a line answers, and its out files, where opening, reading or writing this file failed. Of standard output what was written
    before may stand there, so much of it as `output` has, but not all."""
    begun = output if line.answer.output.startswith(output) and output != line.answer.output else ''
    kind, path = told.split(' ', 1)
    if path in line.outs:
        failed = line.outs.index(path)
        begun_file = None if kind == 'open' else b''
        return line.unwritten(path), [data if k < failed else begun_file if k == failed else None for k, data in enumerate(line.left)]
    if path == OUTPUT:
        return Answer(3, begun), line.left_unprinted()
    if path == INPUT:
        return file('-')._replace(output=begun), line.none()
    return file(path), line.none()


TOUCHED = (('open', 'fail'), ('read', 'fail'), ('write', 'fail'), ('read', 'some'), ('write', 'some'),
           ('read', 'every'), ('write', 'every'), ('read', 'stop'), ('write', 'stop'))


def each_call(calls, share):
    """Each open, read and write fails, or moves one byte, or is interrupted."""
    with built() as faults:
        for line in calls.lines:
            for kind, how in TOUCHED:
                step = share if how in ('some', 'every') else 1
                for at, answer, told in faults.swept(calls.folder, line.words, kind, how, line.outs, step, line.script or b''):
                    calls.tally.count('opens, reads and writes touched')
                    wanted = after_fault(line, told, answer.output) if how == 'fail' else (line.answer, line.left)
                    got = answer, [calls.folder.get(out) for out in line.outs]
                    calls.tally.expect('%s, %s %d, %s' % (line, kind, at, how), got, wanted)


def tried(program, share=1):
    tally = Tally('failing files', 'situations')
    with Folder(program) as folder:
        folder.path.chmod(0o777)
        calls = Calls(folder, tally)
        bad_reads(calls)
        bad_writes(calls)
        full_disk(calls, share)
        bad_streams(calls)
        bad_inputs(calls)
        inputs(calls)
        in_turn(calls)
        terminals(calls)
        slow_pipes(calls)
        endless(calls)
        each_call(calls, share)
    return tally
