"""Where the figures of a binding stand: in its README, between `<!-- the figures, by `figures.py` -->` and `<!-- the end of the figures -->`.

Each figures.py prints them, and with --write puts them there.
"""
import datetime
import os
import re
import sys
from pathlib import Path

FIGURES = re.compile(r'(<!-- the figures, by `figures.py` -->\n).*(<!-- the end of the figures -->)', re.S)


def when():
    """The day and how busy the machine is, as figures tell it."""
    return f'{datetime.date.today()}, {os.cpu_count()} cores, load {os.getloadavg()[0]:.1f}'


def table(*rows):
    """Rows of cells as lines of Markdown, the first as the head."""
    lines = [f'| {" | ".join(map(str, row))} |' for row in rows]
    return '\n'.join([lines[0], '|' + '---|' * len(rows[0]), *lines[1:]]) + '\n'


def told(folder, text):
    """Prints figures, and writes them into the README of a folder where --write asks for it."""
    print(text, end='')
    if sys.argv[1:] == ['--write']:
        readme = Path(folder) / 'README.md'
        readme.write_text(FIGURES.sub(lambda found: found[1] + text + found[2], readme.read_text()))
