"""From C to a kernel by tools/certify, as a program of its own."""
from __future__ import annotations

import os
import re
import subprocess
import tempfile
from collections.abc import Sequence
from pathlib import Path

from . import HERE, CertifyError, Kernel, Parameter

MODES = {'buffer': 'rw', 'read': 'r'}
# The functions that C defines: a name before a list of parameters and a body.
FUNCTION = re.compile(r'^[A-Za-z_][\w\s*]*?\b(\w+)\s*\([^;{}]*\)\s*\{', re.M)


def tool() -> Path:
    """$RVVBOX_CERTIFY, or the tool of the checkout that the package was built from."""
    named = os.environ.get('RVVBOX_CERTIFY')
    if named:
        return Path(named)
    checkout = HERE / 'checkout'
    found = Path(checkout.read_text().strip() if checkout.exists() else '/') / 'tools/certify/certify'
    if not found.exists():
        raise FileNotFoundError('tools/certify/certify is not there: set RVVBOX_CERTIFY')
    return found


def job(parameters: Sequence[Parameter], values: Sequence[int | bytes | None], vlen: int) -> str:
    """The job file. A value is a number of a scalar, or the path of a buffer's bytes."""
    lines = ['image = "made.elf"', f'vlen = {vlen}', 'agnostic = "keep"', f'max = {2**62}']
    for place, it in enumerate(parameters):
        value = values[place] if place < len(values) else None
        lines.append('[[param]]')
        if it.kind == 'scalar':
            lines += ['kind = "scalar"', f'lo = {it.lo}', f'hi = {it.hi}', f'value = {it.hi if value is None else value}']
        elif it.kind in MODES:
            lines += ['kind = "buffer"', f'mode = "{MODES[it.kind]}"', f'size = {it.size}', f'file = "a{place}"']
        else:
            lines.append('kind = "none"')
    return '\n'.join(lines) + '\n'


def written(folder: Path, source, parameters, values, vlen: int) -> list[str]:
    """Writes the source, the buffers' bytes and the job, and answers the names of source and job."""
    for place, it in enumerate(parameters):
        if it.kind in MODES:
            given = bytes(values[place] or b'') if place < len(values) else b''
            (folder / f'a{place}').write_bytes(given[:it.size].ljust(it.size, b'\0'))
    (folder / 'job.toml').write_text(job(parameters, values, vlen))
    if isinstance(source, os.PathLike) or '\n' not in source and source.endswith('.c'):
        return [str(Path(source).resolve()), 'job.toml']
    (folder / 'kernel.c').write_text(source)
    return ['kernel.c', 'job.toml']


def entry_of(source) -> str | None:
    """The name of the last function, where the source is a text."""
    names = [] if isinstance(source, os.PathLike) else FUNCTION.findall(source)
    return names[-1] if names else None


def guards_of(text: str) -> dict[int, str]:
    """The lines of a map, by the guard's number."""
    split = (line.split('\t', 1) for line in text.splitlines())
    return {int(number): rest.replace('\t', ' ') for number, rest in split}


def certify(source: str | os.PathLike, parameters: Sequence[Parameter], *, entry: str | None = None, vlen: int = 128,
            values: Sequence[int | bytes | None] = (), status: int | None = None, guards: dict[int, str] | None = None,
            fuel: int | None = None, cflags: str = '', cc: str | None = None, limit: float | None = None) -> Kernel:
    """`certify cc` of one source, and a Kernel of what it made.

    entry   the function that is the kernel; of a text, its last function
    vlen    bits of a vector register
    values  a run like those to come, by place: numbers and bytes. Without one a number is its hi, and a buffer has zeros
    status  the place of a buffer of 4 bytes that gets the number of a guard that ended the run, or 0
    guards  a dictionary that gets what each number means
    fuel    how many rounds all loops with fuel take at most in a run
    cflags  further flags for the compiler
    cc      another compiler
    limit   seconds after which the search stops
    """
    entry = entry or entry_of(source)
    with tempfile.TemporaryDirectory() as made:
        folder = Path(made)
        words = [str(tool()), 'cc', *written(folder, source, parameters, values, vlen), '-o', 'made.elf', '--map', 'map', '--vlen', str(vlen)]
        asked = {'--entry': entry, '--status': status, '--fuel': fuel, '--cc': cc, '--limit': limit}
        words += [word for name, value in asked.items() if value is not None for word in (name, str(value))]
        words += [f'--cflags={cflags}'] if cflags else []
        ran = subprocess.run(words, cwd=folder, capture_output=True, text=True)
        if ran.returncode or not (folder / 'made.elf').exists():
            told = CertifyError(f'no certificate was found\n{ran.stderr}'.rstrip())
            told.status, told.explanation = 'NO_CERTIFICATE', ran.stderr
            raise told
        if guards is not None and (folder / 'map').exists():
            guards.update(guards_of((folder / 'map').read_text()))
        return Kernel((folder / 'made.elf').read_bytes(), vlen)
