"""Each version has one place that says it, and what repeats it says the same: `python3 -m unittest discover -s tools/gate`.

The program's is in `crates/command_line/src/line.rt`, which `--version` prints; that of the interface in C is in `include/rvvbox.h`, which
`tools/embed/test_header.py` compares with the crate.
"""
import re
import unittest
from pathlib import Path

ROOT = Path(__file__).resolve().parents[2]


def found(pattern, *path):
    """What the groups of the pattern are in a file, which has it once, or says the same each time."""
    matches = re.findall(pattern, ROOT.joinpath(*path).read_text(), re.M)
    if len(set(matches)) != 1:
        raise AssertionError(f'{Path(*path)}: {len(matches)} of {pattern}')
    return matches[0]


class Versions(unittest.TestCase):
    def setUp(self):
        self.program = found(r'\.version\("(\d+\.\d+\.\d+)"\)', 'crates/command_line/src/line.rt')
        self.interface = '.'.join(found(rf'^#define RVVBOX_VERSION_{part} (\d+)u$', 'include/rvvbox.h') for part in ('MAJOR', 'MINOR'))

    def test_the_list_of_changes_says_both(self):
        told = found(r"^The program's version is (\S+), and the interface in C is (\S+)\.$", 'CHANGELOG.md')
        self.assertEqual(told, (self.program, self.interface))

    def test_the_newest_changes_are_those_of_this_version(self):
        self.assertEqual(re.search(r'^## (\d+\.\d+\.\d+)', (ROOT / 'CHANGELOG.md').read_text(), re.M)[1], self.program)

    def test_what_the_program_has_to_print(self):
        self.assertEqual(found(r'^> rvvbox (\d\S*)$', 'crates/program_rows/data/trying.txt'), self.program)


if __name__ == '__main__':
    unittest.main()
