"""Tests of `tools/reasons`: docs/REASONS.md is what it prints, and has each name of a refusal and of an error of a line of `mon`."""
import re
import unittest

from test_documents import TOOLS, loaded

ROOT = TOOLS.parent
reasons = loaded('reasons')


# Where the names stand of an enum's variants, as they are printed.
NAMES = {'ElfError': 'endings/src/texts.rt', 'CertError': 'endings/src/texts.rt', 'JobError': 'endings/src/texts.rt',
         'OpenError': 'endings/src/texts.rt', 'MonError': 'commands/src/lines.rt', 'CheckError': 'block_checker/src/errors.rt',
         'Fault': 'region_mem/src/faults.rt'}


def names(place, of):
    """The names of the variants of an enum, by the lines of code that give them."""
    return set(re.findall(rf'\b{of}::(\w+)(?:\(_\))? => "\1"', (ROOT / 'crates' / place).read_text()))


# The documents' tables of these names: the page, its heading, and the enum.
LISTED = [('IMAGES.md', 'Errors', 'ElfError'), ('CERTIFICATES.md', 'Errors', 'CertError'), ('MONITOR.md', 'Commands', 'MonError')]


def listed(page, heading):
    """The names in the first column of a table of a document, which stands below this heading."""
    section = re.search(rf'^## {heading}\n(.*?)(?=^## |\Z)', (ROOT / 'docs' / page).read_text(), re.S | re.M)[1]
    # (The line above that of dashes is the table's head.)
    return set(re.findall(r'^\| (?:`error: )?([A-Z]\w+)`? \|(?!.*\n\|-)', section, re.M)) - {'NoMemory'}


class Reasons(unittest.TestCase):
    def test_the_page_is_what_is_printed(self):
        self.assertEqual((ROOT / 'docs/REASONS.md').read_text(), reasons.page())

    def test_each_name_has_its_case(self):
        errors = {of: names(place, of) for of, place in NAMES.items()}
        for of, found in errors.items():
            self.assertGreater(len(found), 1, of)
        told = re.search(r'^### Standard error\n(.*?)^### ', (ROOT / 'docs/JOBS.md').read_text(), re.S | re.M)[1]
        told = set(re.findall(r'`(?:(?:refused|job): )?([A-Z][a-z]\w+)(?: at HHHHHHHH)?`', told))
        # What `mon` prints goes to memory, where a write fails for want of it alone.
        silent = {'NoMemory', 'Write'}
        for page, heading, of in LISTED:
            self.assertEqual(listed(page, heading), errors[of] - silent, page)
        self.assertEqual({*set().union(*errors.values()), *told, 'file', 'out of steps'} - silent - set(reasons.reasons()), set())

    def test_a_case_takes_its_parts(self):
        parts, cases = reasons.pieces(['# no line', 'part a', '! two', '', 'case b', '$ run --explain j', '! refused: One', 'use a', '$ run j', '! three'])
        (title, lines), = cases
        self.assertEqual(title, 'b')
        self.assertEqual(list(reasons.performances(reasons.expanded(lines, parts))), [('run --explain j', ['refused: One', 'two'])])

    def test_each_line_of_a_session_has_its_answer(self):
        lines = ['@file words', '@zeros 4', '@file -', '|s', '|s 1', '$ mon job.toml', 'status done', '> error: Unknown', '> at 00010004 step 1', ': read words']
        self.assertEqual(reasons.session(lines), ['> s', 'error: Unknown', '> s 1', 'at 00010004 step 1'])
        self.assertEqual(reasons.session([*lines, '> x00=00000000']), [])
        self.assertEqual(reasons.session(lines[5:]), [])


if __name__ == '__main__':
    unittest.main()
