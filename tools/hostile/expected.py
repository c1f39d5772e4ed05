"""What the program has to answer, as the programs of `vectors/` say it: nothing here calls the program or reads `crates/`.

The words and statuses are those of docs/JOBS.md; checker.py judges images, opening.py arguments, runs.py carries runs out, monitor.py answers
commands on them. What `make` has to answer is in made.py.
"""
import functools
import tomllib
from unicodedata import category

from outside import certificates, checker, jobs, monitor, opening, runs
from program import Answer

MOST_BUFFER = 16 << 20
AREA = {'r': 'r', 'rw': 'w'}            # how runs.py calls the modes of a buffer
VLENBS = (16, 32, 64)

judged, ran = {}, {}


def refused(name):
    return Answer(1, '', 'refused: %s\n' % name)


def key_of(image):
    """What all answers on an image hang on, but for its certificate."""
    return image.entry, tuple(image.segments)


@functools.lru_cache(8)
def reading(file):
    """The image of a file, or the error that is told of it; the other one is None."""
    try:
        return certificates.read_image(file), None
    except certificates.Refused as e:
        return None, e.text


def read_image(file):
    """The image of a file, or Refused. A file is not read again for each answer: some claim gigabytes of memory."""
    image, error = reading(bytes(file))
    certificates.refuse_if(error, error)
    return image


def check(file, vlenb):
    """checker.py's answer. What no answer hangs on is not judged twice."""
    try:
        image = read_image(file)
    except certificates.Refused as e:
        return 'image ' + e.text
    key = *key_of(image), image.certificate, vlenb
    if key not in judged:
        judged[key] = checker.check(file, vlenb)
    return judged[key]


def of_check(file):
    """`check`, at the certificate's own length of vector registers."""
    said = next(said for said in (check(file, vlenb) for vlenb in VLENBS) if said != 'WrongVlen')
    return accepted(said) if said.startswith('accepted ') else not_accepted(said)


def accepted(said):
    """The answer of `check` and `make` where the checker says `accepted`."""
    _, *rest = said.split()
    bound = 'accepted: bound %s + %s * x%s' % tuple(rest[:3])
    return Answer(0, bound + ''.join(' + %s * x%s' % tuple(rest[3:]) if rest[3:] else '') + '\n')


def not_accepted(said):
    """The answer of `check`, `run` and `mon` where the checker says something else than `accepted`."""
    if said == 'no certificate':
        return refused('NoCertificate')
    word, *rest = said.split()
    if word in ('image', 'certificate'):
        return refused(rest[0])
    return refused(' at '.join([word] + rest))


class Job:
    """A job on one image: a length of vector registers in bytes, whether agnostic elements become ones, the most steps, and up to eight
    arguments, each None, a number, or ('r' or 'w', bytes)."""

    def __init__(self, vlenb, ones, most, args):
        self.vlenb, self.ones, self.most = vlenb, ones, most
        self.args = list(args) + [None] * (8 - len(args))

    def key(self):
        return self.vlenb, self.ones, self.most, tuple(self.args)

    def text(self, image):
        """The job file. The buffer at place k is read from `inK` and written to `outK`."""
        lines = ['image = "%s"' % image, 'vlen = %d' % (8 * self.vlenb), 'agnostic = "%s"' % ('ones' if self.ones else 'keep'), 'max = %d' % self.most]
        for place, arg in enumerate(self.args):
            lines += ['[[param]]']
            if arg is None:
                lines += ['kind = "none"']
            elif isinstance(arg, int):
                lines += ['kind = "scalar"', 'value = %d' % arg]
            else:
                mode = {'r': 'r', 'w': 'rw'}[arg[0]]
                lines += ['kind = "buffer"', 'mode = "%s"' % mode, 'file = "in%d"' % place, 'out = "out%d"' % place]
        return '\n'.join(lines) + '\n'

    def buffers(self):
        return [(place, arg[1]) for place, arg in enumerate(self.args) if isinstance(arg, tuple)]

    def put(self, folder, image='image.elf', name='job.toml'):
        folder.put(name, self.text(image))
        for place, data in self.buffers():
            folder.put('in%d' % place, data)


def bound(said, params, args):
    """The bound of an accepted image's run, by what the checker says."""
    constant, *products = map(int, said.split()[1:])
    x = opening.at_start(params, args)
    return constant + sum(factor * x[register] for factor, register in zip(products[::2], products[1::2]))


def session(file, job):
    """Why `run` and `mon` do not start, as an Answer, or None; and the run's bound."""
    said = check(file, job.vlenb)
    if not said.startswith('accepted '):
        return not_accepted(said), None
    params = certificates.read_certificate(read_image(file).certificate).params
    error = opening.arguments_error(params, job.args)
    if error:
        return refused(error.split('(')[0]), None
    most = bound(said, params, job.args)
    return (refused('BoundTooLarge') if most > job.most else None), most


def trial(file, job):
    """How the run of an image ends, of which `try` can tell every way: the answer, and the buffers by place."""
    try:
        image = read_image(file)
    except certificates.Refused as e:
        return refused(e.text), {}
    key = *key_of(image), job.key()
    if key not in ran:
        ran[key] = carried_out(file, job)
    return ran[key]


def carried_out(file, job):
    end, steps, changes = runs.Run('', file, job.args, job.vlenb, job.ones, job.most).of_model()
    left = dict(job.buffers())
    for change in changes.split():
        name, _, value = change.partition('=')
        if name[0] == 'a':
            left[int(name[1:])] = bytes.fromhex(value)
    if end == 'ended':
        return Answer(0, 'ended: %d steps\n' % steps), left
    if end == 'steps':
        return Answer(5, 'out of steps: %d\n' % steps), left
    return Answer(5, '%s after %d steps\n' % (end.replace('trapped', 'trapped:'), steps)), left


# ---- Commands on a run --------------------------------------------------------------------------------------------------------------

def lines_of(script):
    """The lines of standard input's bytes, without their ends. The last one need not have one."""
    *lines, rest = script.split(b'\n')
    return lines + [rest] if rest else lines


def told(watch, line):
    """What a line is answered, None for `q`."""
    try:
        return watch.command(line.decode())
    except UnicodeDecodeError:
        return 'error: Unknown\n'
    except monitor.MonError as e:
        return 'error: %s\n' % e.args[0]


def answers(watch, script):
    """What each line of a script is answered, up to `q` or the end."""
    for line in lines_of(script):
        answer = told(watch, line)
        if answer is None:
            return
        yield answer


def watched(file, job):
    """The monitor of an accepted image's run, and its buffers by place, as they stand."""
    run = runs.Run('', file, passed(file, job), job.vlenb, job.ones, job.most)
    watch = monitor.Monitor(run)
    areas = {first: data for first, data, _ in watch.memory.areas}
    return watch, {place: areas[at] for place, at, _ in run.buffers}


# ---- Texts of jobs ------------------------------------------------------------------------------------------------------------------

def job_refusal(data, word):
    """Why a job file of these bytes is refused, as an Answer, or None where it has all that the subcommand needs."""
    try:
        said = jobs.answer_of(data.decode())
    except UnicodeDecodeError:
        said = 'NotToml'
    if said in ('NotToml', 'BadKey') or not has_all(said, word):
        return bad_job(said if said == 'NotToml' else 'BadKey')
    return None


def bad_job(name):
    return Answer(2, '', 'job: %s\n' % name)


def has_all(said, word):
    """Whether a job has all that a subcommand needs, by what jobs.py says of it."""
    _, _, vlen, _, _, *params, for_try, for_run = said.split()
    if word == 'make':          # of a scalar lo and hi, and of a buffer mode and size
        return '-' not in [vlen] + [value for param in params for value in param.split(',')[1:3]]
    return (for_try if word == 'try' else for_run) == '1'


def table_of(data):
    return tomllib.loads(data.decode().removeprefix('\ufeff'))


def of_text(data, word, files, script=b''):
    """What `run`, `try` or `mon` answers to a job file of these bytes, where `files` has the bytes of each file that there is, and `script`
    is on standard input; and the out files."""
    refusal = job_refusal(data, word)
    if refusal:
        return refusal, {}
    table = table_of(data)
    params = table.get('param', [])
    image = files.get(table['image'])
    if image is None:
        return lacking(table['image']), {}
    job = Job(table['vlen'] // 8, table['agnostic'] == 'ones', table['max'], [])
    said = check(image, job.vlenb)
    if said.startswith('image ') or word != 'try' and not said.startswith('accepted '):
        return not_accepted(said), {}
    for place, param in enumerate(params):
        if param['kind'] == 'scalar':
            job.args[place] = param['value']
        elif param['kind'] == 'buffer':
            if param['file'] not in files:
                return lacking(param['file']), {}
            job.args[place] = AREA[param.get('mode', 'rw')], files[param['file']]
    answer, left = of_job(image, job, word, script)
    written = {}
    for place, param in enumerate(params):
        if left and param.get('out') == '':
            return lacking('')._replace(output=answer.output if word == 'mon' else ''), written
        if left and 'out' in param:
            written[param['out']] = left[place]
    return answer, written


def lacking(path):
    """What is told of a path. Control characters are told by their codes."""
    return Answer(3, '', 'file: %s\n' % ''.join('\\u{%x}' % ord(c) if category(c) == 'Cc' else c for c in path))


def of_job(image, job, word, script=b''):
    """What `run`, `try` or `mon` answers to a job, and the buffers as it leaves them, by place; none where nothing is run."""
    if word == 'try':
        return trial(image, job)
    refusal, _ = session(image, job)
    if refusal:
        return refusal, {}
    if word == 'run':
        return trial(image, Job(job.vlenb, job.ones, job.most, passed(image, job)))
    watch, buffers = watched(image, job)
    return Answer(0, ''.join(answers(watch, script))), {place: bytes(data) for place, data in buffers.items()}


def passed(image, job):
    """The arguments of a job on an accepted image, their modes those of the certificate."""
    params = certificates.read_certificate(read_image(image).certificate).params
    return [(('w' if p.mode & certificates.WRITE else 'r'), arg[1]) if isinstance(arg, tuple) else arg for p, arg in zip(params, job.args)]
