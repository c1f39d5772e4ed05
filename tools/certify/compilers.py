"""Compilers and their flags: the ways in which C becomes an image for RV32IM with Zve32x."""
import pathlib
import re
import shutil
import subprocess
from collections import namedtuple

COMMON = ('-ffreestanding', '-fno-builtin', '-mno-relax', '-nostdlib', '-static')
CLANG = ('--target=riscv32', '-mabi=ilp32')
SCALAR = ('-fno-vectorize', '-fno-slp-vectorize')
STRIPS = ('-mllvm', '-force-tail-folding-style=data-with-evl', '-mllvm', '-prefer-predicate-over-epilogue=predicate-else-scalar-epilogue',
          '-mllvm', '-lower-interleaved-accesses=false', '-mllvm', '-enable-interleaved-mem-accesses=false')
NO_FOLD = ('-mllvm', '-lsr-term-fold=false')
RUNTIME = pathlib.Path(__file__).with_name('runtime.c')
HEADERS = '-idirafter', str(RUNTIME.with_name('headers'))       # behind the compiler's own
SECTIONS = ('-ffunction-sections', '-fdata-sections', '-Wl,--gc-sections')
SPARE = ('-ffixed-x26', '-ffixed-x27')

# name: what is told of it. command: the compiler and all its flags.
FlagSet = namedtuple('FlagSet', 'name command')


def clang(version, name, *flags):
    march = '-march=rv32im_zve32x' + ('_zvl128b' if version >= 18 else '')
    return FlagSet(f'clang-{version} {name}', (f'clang-{version}', *CLANG, march, *COMMON, f'-fuse-ld=lld-{version}', *flags))


# The scalar code comes first: it is what the others' results are compared with.
SETS = [
    clang(16, '-Os, scalar', '-Os', *SCALAR),
    clang(19, '-Os, scalar', '-Os', *SCALAR, *NO_FOLD),
    clang(19, '-O3, strips', '-O3', '-fno-slp-vectorize', *STRIPS),
    clang(19, '-O3, strips, not unrolled', '-O3', '-fno-slp-vectorize', '-fno-unroll-loops', *STRIPS),
    clang(16, '-O2, scalar', '-O2', *SCALAR, '-fno-unroll-loops'),
    clang(16, '-O3, vectors', '-O3'),
]


def sets(cc=None):
    """The flag sets whose compilers are there; with another compiler its own."""
    if cc is None:
        return [it for it in SETS if shutil.which(it.command[0]) and shutil.which(linker(it.command))]
    kind = (*CLANG, '-march=rv32im_zve32x') if 'clang' in cc else ('-march=rv32im', '-mabi=ilp32', '-Wl,--no-relax')
    return [FlagSet(f'{cc} {level}', (cc, *kind, *COMMON, level)) for level in ('-O2', '-Os', '-O3')]


def linker(command):
    return next((f'ld.{flag.removeprefix("-fuse-ld=")}' for flag in command if flag.startswith('-fuse-ld=')), 'ld.lld')


def compiled(flag_set, sources, out, entry, more=()):
    """Compiles and links, with what freestanding C may call where the sources leave that undefined. What the compiler said where it
    failed, else None."""
    place = [] if entry == '_start' else [f'-Wl,-e,{entry}']
    command = [*flag_set.command, *HEADERS, *more, *place, *map(str, sources), '-o', str(out)]
    ran = subprocess.run(command, capture_output=True, text=True)
    if ran.returncode and re.search(r'undefined (symbol|reference)', ran.stderr):
        with_runtime = subprocess.run([*command, *SECTIONS, str(RUNTIME)], capture_output=True, text=True)
        ran = ran if with_runtime.returncode else with_runtime
    return None if ran.returncode == 0 else ran.stderr.strip() or f'{flag_set.command[0]} ended with {ran.returncode}'
