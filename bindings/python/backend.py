"""Builds the package with the C compiler alone: what pip calls, by PEP 517, with no other package.

$RVVBOX_PREFIX is where `tools/embed/install.py` put the library, by default out/host of the checkout. The wheel holds the library itself
and the path of the checkout, where `rvvbox.certify` finds its tool.
"""
import base64
import hashlib
import os
import subprocess
import sysconfig
import tempfile
import tomllib
import zipfile
from pathlib import Path

HERE = Path(__file__).resolve().parent
CHECKOUT = HERE.parents[1]
PROJECT = tomllib.loads((HERE / 'pyproject.toml').read_text())['project']
NAME = f"{PROJECT['name']}-{PROJECT['version']}"
TAG = f"cp{sysconfig.get_config_var('py_version_nodot')}"
PLATFORM = sysconfig.get_platform().replace('-', '_').replace('.', '_')
FLAGS = ['-std=gnu11', '-O2', '-Wall', '-Wextra', '-Werror', '-Wno-cast-function-type', '-fPIC', '-shared', '-fvisibility=hidden']


def prefix():
    """Where the library is installed."""
    named = Path(os.environ.get('RVVBOX_PREFIX') or CHECKOUT / 'out' / 'host')
    if not (named / 'lib' / 'librvvbox.so').exists():
        raise SystemExit(f'{named} has no library: run tools/embed/install.py {named}')
    return named


def extension(to):
    """Compiles the extension."""
    cc = os.environ.get('CC', 'cc')
    includes = [f"-I{prefix() / 'include'}", f"-I{sysconfig.get_paths()['include']}"]
    subprocess.run([cc, *FLAGS, *includes, HERE / 'src' / 'rvvbox' / '_core.c', '-o', to, '-ldl'], check=True)


def files():
    """The files of the wheel, by the path in it."""
    with tempfile.TemporaryDirectory() as folder:
        made = Path(folder) / 'core'
        extension(made)
        yield f"rvvbox/_core{sysconfig.get_config_var('EXT_SUFFIX')}", made.read_bytes()
    yield 'rvvbox/librvvbox.so', (prefix() / 'lib' / 'librvvbox.so').read_bytes()
    yield 'rvvbox/checkout', str(CHECKOUT).encode()
    for path in sorted((HERE / 'src' / 'rvvbox').iterdir()):
        if path.suffix in ('.py', '.pyi', '.typed') or path.name == 'py.typed':
            yield f'rvvbox/{path.name}', path.read_bytes()


def metadata():
    """The files that tell what the wheel is."""
    head = f"Metadata-Version: 2.1\nName: {PROJECT['name']}\nVersion: {PROJECT['version']}\nSummary: {PROJECT['description']}\n"
    yield f'{NAME}.dist-info/METADATA', (head + f"Requires-Python: {PROJECT['requires-python']}\n").encode()
    yield f'{NAME}.dist-info/WHEEL', f'Wheel-Version: 1.0\nGenerator: backend\nRoot-Is-Purelib: false\nTag: {TAG}-{TAG}-{PLATFORM}\n'.encode()


def record(path, data):
    """A file's line in the wheel's record."""
    digest = base64.urlsafe_b64encode(hashlib.sha256(data).digest()).rstrip(b'=').decode()
    return f'{path},sha256={digest},{len(data)}\n'


def build_wheel(wheel_directory, config_settings=None, metadata_directory=None):
    """Makes the wheel, and answers its name."""
    name = f'{NAME}-{TAG}-{TAG}-{PLATFORM}.whl'
    lines = ''
    with zipfile.ZipFile(Path(wheel_directory) / name, 'w', zipfile.ZIP_DEFLATED) as wheel:
        for path, data in [*files(), *metadata()]:
            wheel.writestr(path, data)
            lines += record(path, data)
        wheel.writestr(f'{NAME}.dist-info/RECORD', lines + f'{NAME}.dist-info/RECORD,,\n')
    return name


def build_sdist(sdist_directory, config_settings=None):
    """There is none: the package is built from the checkout."""
    raise SystemExit('the package is built from the checkout')
