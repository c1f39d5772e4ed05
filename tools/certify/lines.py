"""Where an address of an image's code comes from: its function by the symbol table, and its source line by DWARF where a tool for that is
there (llvm-symbolizer or addr2line)."""
import re
import shutil
import subprocess

import notes

SYMBOLIZERS = ('llvm-symbolizer-19', 'llvm-symbolizer-16', 'llvm-symbolizer')
ADDR2LINE = ('riscv64-unknown-elf-addr2line', 'addr2line')


def function_at(data, address):
    """`name+offset` of the last symbol at or below an address, or '?'."""
    below = [(at, name) for name, at in notes.labels(data).items() if at <= address]
    if not below:
        return '?'
    at, name = max(below)
    return name if at == address else f'{name}+{address - at:#x}'


def source_lines(path, addresses):
    """address -> `file:line`, as far as a tool tells it."""
    for name in SYMBOLIZERS:
        if shutil.which(name):
            return symbolized([name, '--obj', str(path), '--output-style=GNU', '--functions=none'], addresses)
    for name in ADDR2LINE:
        if shutil.which(name):
            return symbolized([name, '-e', str(path)], addresses)
    return {}


def symbolized(words, addresses):
    addresses = sorted(addresses)
    if not addresses:
        return {}
    ran = subprocess.run([*words, *map(hex, addresses)], capture_output=True, text=True)
    found = [line.strip() for line in ran.stdout.splitlines() if line.strip()]
    if ran.returncode or len(found) != len(addresses):
        return {}
    return {at: line for at, line in zip(addresses, found) if re.search(r':\d+', line) and not line.startswith('?')}
