"""The static library and the header, and how C is compiled and linked against them."""
import os
import re
import shutil
import subprocess
import sys
from functools import lru_cache
from pathlib import Path

ROOT = Path(__file__).resolve().parents[2]
CRATE = ROOT / 'crates' / 'rvvbox_c'
HEADER = ROOT / 'include' / 'rvvbox.h'
FLAGS = ['-std=c11', '-O1', '-g', '-Wall', '-Wextra', '-Werror', '-I', str(HEADER.parent)]


def sources():
    """The text of the crate's sources."""
    return '\n'.join(path.read_text() for path in sorted((CRATE / 'src').glob('*.rt')))


@lru_cache(maxsize=None)
def archives():
    """The library, made by `rt lib` where it is not there yet, and the kit's C. A test fails where there is no kit."""
    rt = shutil.which('rt')
    assert rt, 'rt, the command of the Rattle kit, is not on the PATH: no library to link'
    made = subprocess.run([rt, 'lib'], cwd=CRATE, capture_output=True, text=True)
    library = CRATE / 'out' / 'librvvbox_c.a'
    assert made.returncode == 0 and library.exists(), made.stdout[-500:] + made.stderr[-500:]
    return [str(library), str(Path(rt).resolve().parents[1] / 'c' / 'liblibc_c.a')]


def compiled(source, program, *more):
    """Compiles and links C to a program."""
    subprocess.run(['gcc', *FLAGS, '-o', program, source, *archives(), *more], check=True)


def ran(words, **how):
    """What a program answers: its status and what it prints. A program under valgrind fails where memory is misused or leaked."""
    return subprocess.run(words, capture_output=True, timeout=60, **how)


@lru_cache(maxsize=None)
def valgrind():
    """Where valgrind is, if it is installed. Where it is not, that is told once."""
    found = shutil.which('valgrind')
    if found is None:
        print('valgrind is not installed: what is leaked or misused goes unseen', file=sys.stderr)
    return found


def under_valgrind(program):
    """The words that run a program, under valgrind where it is installed."""
    found = valgrind()
    words = ['--quiet', '--error-exitcode=99', '--leak-check=full', '--show-leak-kinds=all', '--errors-for-leak-kinds=all']
    return [found, *words, program] if found else [program]


def under_helgrind(program):
    """The words that run a program under helgrind, which sees two threads race, where valgrind is installed."""
    found = valgrind()
    return [found, '--tool=helgrind', '--quiet', '--error-exitcode=99', program] if found else [program]


def c_name(name):
    """`BadVlen` as `BAD_VLEN`."""
    return re.sub(r'(?<=[a-z])(?=[A-Z])|(?<=[A-Z])(?=[A-Z][a-z])', '_', name).upper()


def without_target(environment=os.environ):
    """An environment in which cargo writes to its own folder."""
    return {name: value for name, value in environment.items() if name != 'CARGO_TARGET_DIR'}
