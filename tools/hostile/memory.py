"""Refused memory: each allocation of a call of the program fails in turn, by itself, and with all that come after it.

The answer has to be status 4 and `out of memory`, with no out file; or, of what is refused anyway, that refusal. Where one allocation
alone fails, the call may ask again, and then has to answer as if none had failed. Of `mon` the answers of the lines before may stand on
standard output, each whole, and the more of them the later the allocation is.
"""
import functools
import random
from collections import namedtuple
from concurrent.futures import ProcessPoolExecutor

import expected
import made
from damage import MOST, PARAMS, drawn_args, example
from expected import Job
from faults import built
from outside import ROOT, certificates
from program import Answer, Folder, Tally, total

OUT_OF_MEMORY = Answer(4, '', 'out of memory\n')
FINE = (0, 5)                           # the statuses of what is not refused

# Each command, a line that is none, one that is not UTF-8, and a last one without its end.
SCRIPT = b'b 10008\ns 3\nx\nv 8\ncsr\nm 40000000 64\nl 10000 9\nnone\n\xff\nd 0\nd 10008\ns 1\nc\ncsr'

# A command line with its files, its answer where memory is there, the files that it writes, and what is on standard input.
Line = namedtuple('Line', 'name words files answer outs script', defaults=(b'',))


def put_at(file, at, data):
    return file[:at] + data + file[at + len(data):]


def images():
    """Images that are accepted, and one for each kind of refusal, with their names."""
    for name in ('raise_words', 'sum_bytes', 'raise_if'):
        yield name, example(name, 16)
    file = example('raise_if', 16)
    image = certificates.read_image(file)
    note, code = file.index(image.certificate), file.index(image.segments[0].data)
    yield 'no bytes', b''
    yield 'a file without its end', file[:-1]
    yield 'compressed code', put_at(file, 36, b'\1')
    yield 'no certificate', (ROOT / 'examples/add_bytes/add_bytes.elf').read_bytes()
    yield 'a certificate of version 3', put_at(file, note, b'\3')
    yield 'a certificate without its end', put_at(file, note - 16, (len(image.certificate) - 4).to_bytes(4, 'little'))
    yield 'code that means nothing', put_at(file, code + 8, bytes(4))
    yield 'a budget that is too small', put_at(file, note + 108, b'\0')


def job_texts(text):
    """Job files, with their names: some that are refused before an image is read, and some behind it."""
    yield 'few steps', text.replace(str(MOST), '3')
    yield 'agnostic ones', text.replace('keep', 'ones')
    yield 'a long text', text + '# ' + 5000 * 'a'
    yield 'no TOML', text + '['
    yield 'an unknown key', 'x = 1\n' + text
    yield 'other vector registers', text.replace('vlen = 128', 'vlen = 256')
    yield 'a number out of its interval', text.replace('value = 9', 'value = 5000')
    yield 'a file that is not there', text.replace('"in0"', '"in9"')
    yield 'an image that is not there', text.replace('image.elf', 'image')


def job_for(file):
    """A job on an image of which a certificate can be read, its numbers 9 or as near as may be; on another, one of raise_words."""
    try:
        params = certificates.read_certificate(certificates.read_image(file).certificate or b'').params
    except certificates.Refused:
        return job_for(example('raise_words', 16))
    args = drawn_args(random.Random(3), params)
    return Job(16, False, MOST, [max(p.a, min(p.b, 9)) if p.kind == 'scalar' else arg for p, arg in zip(params, args)])


def lines(share):
    """One in `share` images and job files, with their command lines."""
    good = example('raise_words', 16)
    every = [(name, file, job_for(file), None) for name, file in images()]
    every += [(name, good, job_for(good), text) for name, text in job_texts(job_for(good).text('image.elf'))]
    for name, file, job, text in every[::share]:
        files = {'image.elf': file, 'job.toml': (text or job.text('image.elf')).encode()} | {'in%d' % place: data for place, data in job.buffers()}
        if text is None:
            yield Line(name, ['check', 'image.elf'], files, expected.of_check(file), ())
        for word, script in (('try', b''), ('run', b''), ('mon', SCRIPT)):
            yield Line(name, [word, 'job.toml'], files, expected.of_text(files['job.toml'], word, files, script)[0], ('out0', 'out3'), script)
    yield from makes(share)
    for words in (['--help'], ['--version'], ['check', '-h'], ['mon', '-h'], [], ['check'], ['check', 'a', 'b'], ['make', 'a', 'b'], ['none']):
        yield Line('usage', words, {}, None, ())


def makes(share):
    """One in `share` command lines of `make`: images that are refused, one of no such loop, one whose code lies in its ELF header, job
    files that are refused, and the loop."""
    bare = (ROOT / 'examples/raise_words/bare.elf').read_bytes()
    kinds = made.job_text(PARAMS, 16)
    code = bare.index(certificates.read_image(bare).segments[0].data)
    every = [('the loop', bare, kinds), ('the first bytes of a file', bare[:60], kinds), ('another word', put_at(bare, code + 8, bytes(4)), kinds),
             ('a certificate that is there', example('raise_words', 16), kinds), ('no loop', (ROOT / 'examples/add_bytes/add_bytes.elf').read_bytes(), kinds),
             ('a job without hi', bare, kinds.replace('hi', 'value')), ('no interval', bare, kinds.replace('lo = 0', 'lo = 1025')),
             ('a buffer that is too large', bare, kinds.replace('4096', '16777217')), ('a buffer that is too short', bare, kinds.replace('4096', '4095')),
             ('other vector registers', bare, kinds.replace('128', '512')), ('no TOML', bare, kinds + '['), ('code in the ELF header', made.in_header(bare), kinds)]
    for name, file, text in every[::share]:
        files = {'image.elf': file, 'kinds.toml': text.encode()}
        words = ['make', 'image.elf', 'kinds.toml', 'made.elf']
        yield Line(name, words, files, made.of_text(files['kinds.toml'], files, 'image.elf')[0], ('made.elf',))


def begun(line):
    """What may stand on standard output where memory runs out, in turn: of `mon` the answers of the first lines, and of others nothing."""
    if line.words[:1] != ['mon'] or line.answer is None or line.answer.status not in FINE:
        return ['']
    job, files = line.files['job.toml'], line.files
    return [expected.of_text(job, 'mon', files, b''.join(line.script.splitlines(True)[:k]))[0].output for k in range(len(line.script.splitlines()) + 1)]


def swept(folder, faults, tally, line):
    """Each allocation of one command line."""
    tally.tried += 1
    what = '%s, %s' % (line.name, ' '.join(line.words))
    folder.hold(line.files)
    undisturbed = folder.call(*line.words, script=line.script), outs(folder, line)
    if line.answer and not tally.expect(what, undisturbed[0], line.answer):
        return
    none = [None] * len(line.outs)
    for how in ('fail', 'all'):
        before = begun(line)
        for at, answer, _ in faults.swept(folder, line.words, 'alloc', how, line.outs, script=line.script):
            tally.count('allocations refused')
            got = answer, outs(folder, line)
            is_same = got == undisturbed and (how == 'fail' or answer.status not in FINE)
            if not is_same and answer.output in before:
                before = before[before.index(answer.output):]
            wanted = undisturbed if is_same else (OUT_OF_MEMORY._replace(output=before[0]), none)
            tally.expect('%s, allocation %d, %s' % (what, at, how), got, wanted)
            if is_same and answer.status in FINE:
                tally.count('of them without effect')


def outs(folder, line):
    return [folder.get(out) for out in line.outs]


def part(program, faults, line):
    tally = Tally('refused memory', 'command lines')
    with Folder(program) as folder:
        swept(folder, faults, tally, line)
    return tally


def tried(program, share=1, at_once=1):
    """One in `share` images and job files, so many command lines at once."""
    with built() as faults, ProcessPoolExecutor(at_once) as pool:
        return total(pool.map(functools.partial(part, program, faults), lines(share)))
