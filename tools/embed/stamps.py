#!/usr/bin/env python3
"""`tools/embed/stamps.py SINCE`, right after `rt ci` has passed: has `rt lib` take the libraries that `rt ci` proved.

`rt ci` proves each library from nothing and leaves it in its crate's out/, but without the stamp by which `rt lib` knows it, so that
the next `rt lib` would prove the whole chain again. This writes the stamp, the kit's sum of all that the library was made from, beside
each library whose folders were made at or after SINCE, in seconds since 1970: of what an earlier run on the machine proved, `rt ci`
links the files, which are older, into new folders. A library that is older, or that has a stamp, is left as it is. Prints how many it
wrote.
"""
import functools
import importlib.machinery
import importlib.util
import os
import shutil
import sys
from pathlib import Path

ROOT = Path(__file__).resolve().parents[2]


def kit_library():
    """The kit's own module that knows crates and their stamps. A crate's stamp is made once here, since it needs those of all below."""
    rt = shutil.which('rt')
    if rt is None:
        sys.exit('rt, the command of the Rattle kit, is not on the PATH')
    sys.dont_write_bytecode = True
    loader = importlib.machinery.SourceFileLoader('rtlib', str(Path(rt).resolve().parent / 'rtlib.py'))
    made = importlib.util.module_from_spec(importlib.util.spec_from_loader('rtlib', loader))
    sys.modules['rtlib'] = made
    loader.exec_module(made)
    made.Crate.stamp = functools.cache(made.Crate.stamp)
    return made


def is_new(library, since):
    """Whether a library stands there, has no stamp, and all of its folders were made since."""
    folders = [it for it in [library, *library.rglob('*')] if it.is_dir()]
    stamped = (library.parent / 'stamp').exists()
    return bool(folders) and not stamped and all(folder.stat().st_mtime >= since for folder in folders)


def main(since):
    os.chdir(ROOT)
    wrote = 0
    for crate in kit_library().crates_below(str(ROOT)):
        if crate.makes_rlib() and is_new(Path(crate.rlib), since):
            (Path(crate.rlib).parent / 'stamp').write_text(crate.stamp(), encoding='utf-8')
            wrote += 1
    print('stamps: %d libraries that rt ci proved can be taken by rt lib' % wrote)


if __name__ == '__main__':
    main(float(sys.argv[1]))
