"""Certificates for kernels: found by search, put into an image, shown. docs/CERTIFY.md tells how to use it.

    certify find IMAGE JOB -o OUT [--vlen N[,N..]] [--toml FILE] [--limit SECONDS]
    certify cc SOURCE.c .. JOB -o OUT [--entry NAME] [--cc COMPILER] [--cflags=..] [and what guard takes]
    certify guard IMAGE JOB -o OUT [--vlen N[,N..]] [--toml FILE] [--status PLACE] [--map FILE] [--fuel N] [--limit SECONDS]
    certify put IMAGE CERT.toml -o OUT [--map FILE]
    certify show IMAGE [--toml | --dot | --svg]

Nothing here is trusted: `rvvbox check` judges what is found. Status: 0 done, 1 nothing found or refused, 2 a fault of usage.
"""
import argparse
import pathlib
import shlex
import subprocess
import sys

import advice
import chart
import from_c
import harden
import host
import notes
import picture
import search
import toml_form
import trial
import watch
from outside import ROOT, certificates


def judge(path, image, certificate):
    """What `rvvbox check` says of an image, or the second checker where the program is not built: the line, and whether it is accepted."""
    program = host.program()
    if program:
        ran = subprocess.run([program, 'check', path], capture_output=True, text=True)
        return (ran.stdout + ran.stderr).strip(), ran.returncode == 0
    print('rvvbox is not built: the second checker of vectors/ is asked instead', file=sys.stderr)
    answer = search.judged(image, certificate)
    if answer == 'accepted':
        return advice.ended(answer, certificate, image.entry), True
    return 'refused: ' + answer, False


def read_image(path):
    data = pathlib.Path(path).read_bytes()
    try:
        return data, certificates.read_image(data)
    except certificates.Refused as e:
        raise notes.Trouble(f'{path} is no image: {e.text}') from None


def place_of(out, vlen, lengths):
    """The first length's image has the given name, the others `name-256.elf`."""
    path = pathlib.Path(out)
    return path if vlen == lengths[0] else path.with_name(f'{path.stem}-{vlen}{path.suffix}')


def read_job(args):
    """A job file, and the lengths that are asked for."""
    job = host.Job(args.job)
    lengths = args.vlen.split(',') if args.vlen else [str(job.vlen)]
    if not set(lengths) <= set(map(str, toml_form.LENGTHS)):
        raise notes.Trouble('a length is 128, 256 or 512')
    return job, [int(vlen) for vlen in lengths]


def searched(image, params, vlen, looking):
    """The certificate for a length, or None after it was said why there is none."""
    looking.tell(f'runs at VLEN {vlen}')
    refuted = trial.refuted(image, params, vlen, looking)
    if refuted:
        print(f'there is no certificate at VLEN {vlen}', *advice.told_of_run(refuted, image, params), sep='\n')
        return None
    found = search.find(image, params, vlen, looking)
    if found.answer != 'accepted':
        print(f'nothing found at VLEN {vlen}', *advice.told(found, image), sep='\n')
        return None
    return found.certificate


def find(args):
    data, image = read_image(args.image)
    job, lengths = read_job(args)
    params = job.params
    looking, certificate_of = watch.Progress(args.limit), {}
    for vlen in lengths:
        certificate_of[vlen] = searched(image, params, vlen, looking)
        if certificate_of[vlen] is None:
            return 1
    for vlen, certificate in certificate_of.items():
        out = place_of(args.out, vlen, lengths)
        out.write_bytes(notes.with_note(data, certificates.certificate_bytes(certificate)))
        if args.toml:
            place_of(args.toml, vlen, lengths).write_text(toml_form.written(certificate))
        line, is_accepted = judge(out, image, certificate)
        print(line)
        if not is_accepted:
            return 1
    return 0


def guard(args):
    data, image = read_image(args.image)
    job, lengths = read_job(args)
    looking = watch.Progress(args.limit)
    made = {vlen: harden.made(data, image, job, vlen, looking, args.fuel, args.status) for vlen in lengths}
    return max([written(args, vlen, lengths, it, harden.map_lines(it, args.image, data)) for vlen, it in made.items()])


def cc(args):
    *args.sources, args.job = args.sources
    if not args.sources:
        raise notes.Trouble('cc takes C sources, and behind them a job file')
    job, lengths = read_job(args)
    looking, made = watch.Progress(args.limit), {}
    for vlen in lengths:
        made[vlen] = from_c.made(args.sources, job, vlen, looking, args.entry, args.cc, shlex.split(args.cflags), args.fuel, args.status)
        if made[vlen] is None:
            print(f'nothing found at VLEN {vlen}')
            return 1
    return max([written(args, vlen, lengths, best.made, told) for vlen, (best, told) in made.items()])


def written(args, vlen, lengths, made, told):
    """Writes an image that was made and what belongs to it, and says what the program says of it: the status."""
    out = place_of(args.out, vlen, lengths)
    out.write_bytes(made.data)
    print(*harden.summary(made, args.status), sep='\n', file=sys.stderr)
    if args.toml:
        place_of(args.toml, vlen, lengths).write_text(toml_form.written(made.certificate))
    if args.map:
        place_of(args.map, vlen, lengths).write_text(''.join(f'{line}\n' for line in told))
    line, is_accepted = judge(out, made.image, made.certificate)
    print(line)
    return 0 if is_accepted else 1


def put(args):
    data, _ = read_image(args.image)
    labels = notes.labels(data)
    if args.map:
        labels.update(notes.mapped(pathlib.Path(args.map).read_text()))
    try:
        form = toml_form.Form(pathlib.Path(args.certificate).read_text(), labels)
        made = [form.certificate(vlen) for vlen in form.lengths]
    except notes.Trouble as e:
        raise notes.Trouble(f'{args.certificate}: {e}') from None
    for vlen, certificate in zip(form.lengths, made):
        descriptor = certificates.certificate_bytes(certificate)
        try:
            certificates.read_certificate(descriptor)
        except certificates.Refused as e:
            print(f'the certificate breaks a rule of its bytes, {e.text}: it is put all the same', file=sys.stderr)
        place_of(args.out, vlen, form.lengths).write_bytes(notes.with_note(data, descriptor))
    return 0


def show(args):
    data, image = read_image(args.image)
    if image.certificate is None:
        raise notes.Trouble(f'{args.image} has no certificate')
    certificate = certificates.read_certificate(image.certificate)
    if args.toml:
        print(toml_form.written(certificate), end='')
    elif args.dot:
        print(*chart.dot(image, certificate, notes.labels(data)), sep='\n')
    elif args.svg:
        print(picture.svg(chart.dot(image, certificate, notes.labels(data))), end='')
    else:
        print(*advice.listing(image, certificate, notes.labels(data)), sep='\n')
    return 0


def seconds(text):
    """A time above 0."""
    number = float(text)
    if not 0 < number < float('inf'):
        raise ValueError
    return number


def add_options(command, name):
    """The options of a command."""
    if name != 'show':
        command.add_argument('-o', dest='out', required=True, metavar='OUT')
    if name in ('find', 'guard', 'cc'):
        command.add_argument('--vlen', help='128, 256 or 512, or several with commas')
        command.add_argument('--limit', type=seconds, metavar='SECONDS', help='stop the search after so long')
        command.add_argument('--toml', metavar='FILE', help='write the certificate as TOML too')
    if name in ('guard', 'cc'):
        command.add_argument('--status', type=int, metavar='PLACE', help='the place of a buffer that gets the number of a guard that fails')
        command.add_argument('--map', metavar='FILE', help='a file for what each number means')
        command.add_argument('--fuel', type=fuel, metavar='N', help='how many rounds loops with fuel may take in all')
    if name == 'cc':
        command.add_argument('--entry', default='_start', metavar='NAME', help='the function that is the kernel')
        command.add_argument('--cc', metavar='COMPILER', help='another compiler')
        command.add_argument('--cflags', default='', help='flags that are added to each set')
    if name == 'put':
        command.add_argument('--map', help='a file of lines with an address and a name')
    if name == 'show':
        forms = command.add_mutually_exclusive_group()
        for form, what in (('--toml', 'as TOML'), ('--dot', 'as a Graphviz graph'), ('--svg', 'as an SVG picture')):
            forms.add_argument(form, action='store_true', help=what)


def fuel(text):
    """A number of rounds."""
    number = int(text, 0)
    if not 0 < number < 1 << 31:
        raise ValueError
    return number


def main(words=None):
    parser = argparse.ArgumentParser(prog='certify', description='Certificates for kernels.')
    commands = parser.add_subparsers(required=True)
    for name, act, places in (('find', find, ['image', 'job']), ('guard', guard, ['image', 'job']), ('cc', cc, ['sources']),
                              ('put', put, ['image', 'certificate']), ('show', show, ['image'])):
        command = commands.add_parser(name)
        command.set_defaults(act=act)
        for place in places:
            command.add_argument(place, **({'nargs': '+'} if place == 'sources' else {}))
        add_options(command, name)
    args = parser.parse_args(words)
    try:
        return args.act(args)
    except (harden.guard.Stuck, search.OutOfTime) as e:
        print(f'nothing found: {e}')
        return 1
    except (notes.Trouble, OSError) as e:
        print(f'certify: {e}', file=sys.stderr)
        return 2
    except certificates.Refused as e:
        print(f'certify: refused: {e.text}', file=sys.stderr)
        return 1


if __name__ == '__main__':
    sys.exit(main())
