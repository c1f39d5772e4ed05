"""Prints docs/KERNELS.md: the kernels of kernels/kernels.toml, what each does by its source's first comment, and what comes of the search.

    python3 tools/certify/kernels_page.py > docs/KERNELS.md
"""
import pathlib
import re
import tomllib

HERE = pathlib.Path(__file__).resolve().parent / 'kernels'
PLAIN = ['-Os', '-fno-vectorize']
HEAD = '''# Kernels of the search

The tests compile each of these kernels with clang-16 and have [`certify find`](CERTIFY.md#certificates-without-guards)
search for a certificate at 128 bits, without guards. Of {all} kernels {found} are found, and of {none} a run shows that there
is no certificate ("none"). What the search says of the others stands beside them. With guards all of them are accepted,
which is a test. Each is compiled by `{flags}`, where its
row names no other flags. [kernels.toml](../tools/certify/kernels/kernels.toml) has what each is passed. This page is
printed by `python3 tools/certify/kernels_page.py`.

| Kernel | What it does | Search |
|---|---|---|
'''


def kernels():
    """The tables of kernels.toml."""
    return tomllib.loads((HERE / 'kernels.toml').read_text())['kernel']


def comment(name):
    """The first comment of a kernel's source, on one line."""
    return ' '.join(re.search(r'/\*(.*?)\*/', (HERE / f'{name}.c').read_text(), re.S)[1].split())


def row(kernel):
    """A kernel as a row of the table."""
    name, options = kernel['name'], kernel.get('options')
    what = comment(name) + (f" By `{' '.join(options)}`." if options else '')
    said = kernel['search'] + (f": {kernel['help']}" if 'help' in kernel else '')
    return f'| [{name}](../tools/certify/kernels/{name}.c) | {what} | {said} |\n'


def page():
    """The page's text."""
    every = kernels()
    count = lambda answer: sum(kernel['search'] == answer for kernel in every)
    head = HEAD.format(all=len(every), found=count('found'), none=count('none'), flags=' '.join(PLAIN))
    return wrapped(head) + ''.join(map(row, every))


def wrapped(text, width=120):
    """Paragraphs in lines of at most so many letters; headings and tables as they are."""
    out = []
    for part in text.split('\n\n'):
        lines = [] if part[0] not in '#|' else [part]
        for word in part.split() if not lines else ():
            if lines and len(lines[-1]) + 1 + len(word) <= width:
                lines[-1] += ' ' + word
            else:
                lines.append(word)
        out.append('\n'.join(lines))
    return '\n\n'.join(out)


if __name__ == '__main__':
    print(page(), end='')
