"""The program `rvvbox`, as far as it is there: what it says of an image, and what a run of a job leaves."""
import json
import os
import pathlib
import re
import shutil
import subprocess
import tempfile
import tomllib
from collections import namedtuple

import notes
import toml_form
from outside import ROOT, certificates

MODES = {bits: text for text, bits in toml_form.MODES.items()}

# What came of a run: how many steps it took, or None; its read-write buffers by place; and what was said.
Ran = namedtuple('Ran', 'steps buffers said')


def program():
    """The path of rvvbox: $RVVBOX, the one that is built in this repository, or the one on the path; else None."""
    built = ROOT / 'crates/rvvbox/out/rvvbox'
    return os.environ.get('RVVBOX') or (str(built) if built.exists() else shutil.which('rvvbox'))


class Job:
    """A job file: its parameters, and for a run its values and files."""

    def __init__(self, path):
        path = pathlib.Path(path)
        try:
            self.table = tomllib.loads(path.read_text())
        except tomllib.TOMLDecodeError as e:
            raise notes.Trouble(f'{path}: not TOML: {e}') from None
        self.path, self.folder = path, path.parent
        self.tables = self.table.get('param', [])
        try:
            self.params = [self.param_of(table) for table in self.tables]
        except (KeyError, TypeError) as e:
            raise notes.Trouble(f'{path}: a parameter needs {e}') from None
        self.vlen = self.table.get('vlen', 128)

    def param_of(self, table):
        """A scalar is in [lo, hi], else its value alone; a buffer has its size, else its file's."""
        if table.get('kind') == 'buffer':
            size = table['size'] if 'size' in table else self.file(table['file']).stat().st_size
            return certificates.Param('buffer', toml_form.MODES[table['mode']], size, 0)
        if table.get('kind') == 'scalar':
            lo, hi = (table[key] if key in table else table['value'] for key in ('lo', 'hi'))
            return certificates.Param('scalar', 0, lo, hi)
        return certificates.Param('none')

    def file(self, name):
        """A file's path: beside the job, else in the working directory."""
        beside = self.folder / name
        return beside if beside.exists() else pathlib.Path(name)

    def can_run(self):
        """Whether the job states all that a run needs, and its files are there."""
        wanted = {'scalar': 'value', 'buffer': 'file'}
        return all(wanted[t['kind']] in t and (t['kind'] != 'buffer' or self.file(t['file']).is_file())
                   for t in self.tables if t.get('kind') in wanted)

    def contents(self):
        """What each place is passed: a number, bytes, or None."""
        by_kind = {'scalar': lambda t: t['value'], 'buffer': lambda t: self.file(t['file']).read_bytes()}
        return [by_kind.get(t.get('kind'), lambda t: None)(t) for t in self.tables]


def run(job, image, params, contents, vlen, subcommand='try', most=1 << 40, seconds=120):
    """Runs an image's bytes by the program on these arguments, and gives what came of it."""
    with tempfile.TemporaryDirectory() as folder:
        folder = pathlib.Path(folder)
        (folder / 'image').write_bytes(image)
        lines = [f'image = {json.dumps(str(folder / "image"))}', f'vlen = {vlen}',
                 f'agnostic = "{job.get("agnostic", "ones")}"', f'max = {most}']
        for place, (param, content) in enumerate(zip(params, contents)):
            lines += param_lines(folder, place, param, content)
        (folder / 'job.toml').write_text('\n'.join(lines) + '\n')
        try:
            ran = subprocess.run([program(), subcommand, folder / 'job.toml'], capture_output=True, text=True, timeout=seconds)
        except subprocess.TimeoutExpired:
            return Ran(None, {}, f'a run takes more than {seconds} seconds')
        ended = re.match(r'ended: (\d+) steps', ran.stdout)
        outs = {place: (folder / f'out{place}') for place, param in enumerate(params) if param.kind == 'buffer'}
        return Ran(int(ended[1]) if ended else None, {place: out.read_bytes() for place, out in outs.items() if out.exists()},
                   (ran.stdout + ran.stderr).strip())


def param_lines(folder, place, param, content):
    """A parameter as a table of a job, with its files in a folder."""
    if param.kind == 'buffer':
        (folder / f'in{place}').write_bytes(content)
        return ['[[param]]', 'kind = "buffer"', f'mode = "{MODES[param.mode]}"', f'size = {param.a}',
                f'file = {json.dumps(str(folder / f"in{place}"))}', f'out = {json.dumps(str(folder / f"out{place}"))}']
    if param.kind == 'scalar':
        return ['[[param]]', 'kind = "scalar"', f'lo = {param.a}', f'hi = {param.b}', f'value = {content}']
    return ['[[param]]', 'kind = "none"']
