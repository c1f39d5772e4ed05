#!/usr/bin/env python3
"""`tools/embed/install.py PREFIX` puts the library below a folder: the header, an archive, a shared library and rvvbox.pc.

`rt lib` in crates/rvvbox_c makes the archive that all of it is built from, where it is not there yet. The kit's C between it and malloc is
put in, so that a host links nothing else, and so are the functions that stand whole in the header, for hosts without C's inline. Both
libraries define the header's functions, and no other name of theirs is seen. Needs gcc, ld, ar and objcopy.
"""
import os
import re
import shutil
import subprocess
import sys
import tempfile
from pathlib import Path

from library import HEADER, archives

PC = '''prefix=%s
includedir=${prefix}/include
libdir=${prefix}/lib

Name: rvvbox
Description: certified RISC-V vector kernels on a host's memory
Version: %s
Cflags: -I${includedir}
Libs: -L${libdir} -lrvvbox
'''


# the header's own functions, each outside of C's inline
INLINE = '#define RVVBOX_INLINE\n#include "rvvbox.h"\n'


def functions():
    """The names that the header declares, and of those that stand whole there the ones that a host calls."""
    begin = r'^(?:RVVBOX_INLINE )?(?:uint32_t|void|const char|struct rvvbox_argument) \*?(rvvbox_\w+)\('
    return sorted(set(re.findall(begin, HEADER.read_text(), re.M)))


def version():
    """The parts of the header's version."""
    return re.findall(r'#define RVVBOX_VERSION\w* (\d+)u', HEADER.read_text())


def run(*words):
    subprocess.run([str(word) for word in words], check=True)


def merged(folder):
    """All of the library and of the kit's C as one object, of which the header's functions alone are seen."""
    library, kit = archives()
    whole, listed, made = folder / 'whole.o', folder / 'functions', folder / 'rvvbox.o'
    listed.write_text(''.join(name + '\n' for name in functions()))
    source, inline = folder / 'inline.c', folder / 'inline.o'
    source.write_text(INLINE)
    run('gcc', '-std=c99', '-O2', '-fPIC', '-I', HEADER.parent, '-c', '-o', inline, source)
    run('ld', '-r', '-o', whole, '--whole-archive', library, '--no-whole-archive', inline, kit)
    run('objcopy', '--keep-global-symbols=%s' % listed, whole, made)
    return made


def libraries(folder, to):
    """The archive and the shared library, with the links by which a linker and a loader find it."""
    made = merged(folder)
    archive, shared = to / 'librvvbox.a', to / ('librvvbox.so.' + '.'.join(version()))
    archive.unlink(missing_ok=True)
    run('ar', 'rcsD', archive, made)
    names = folder / 'names'
    names.write_text('{ global: %s local: *; };\n' % ' '.join(name + ';' for name in functions()))
    soname = 'librvvbox.so.' + version()[0]
    run('gcc', '-shared', '-o', shared, made, '-Wl,-soname,' + soname, '-Wl,--version-script=%s' % names, '-Wl,-z,defs,-z,relro,-z,now')
    for link in {soname, 'librvvbox.so'} - {shared.name}:
        (to / link).unlink(missing_ok=True)
        (to / link).symlink_to(shared.name)


def install(prefix):
    include, to = prefix / 'include', prefix / 'lib'
    for folder in (include, to / 'pkgconfig'):
        folder.mkdir(parents=True, exist_ok=True)
    with tempfile.TemporaryDirectory() as folder:
        libraries(Path(folder), to)
    for header in HEADER.parent.glob('rvvbox.h*'):
        shutil.copy(header, include)
    (to / 'pkgconfig' / 'rvvbox.pc').write_text(PC % (prefix, '.'.join(version())))


if __name__ == '__main__':
    if len(sys.argv) != 2 or sys.argv[1].startswith('-'):
        sys.exit(__doc__)
    install(Path(os.path.abspath(sys.argv[1])))
