"""Tests of modules.py."""
import os
import tempfile
import unittest
from pathlib import Path

from modules import by_kind, lines, modules


class Modules(unittest.TestCase):
    """Modules by the times of their files."""

    def test_seconds_are_those_since_the_file_before(self):
        with tempfile.TemporaryDirectory() as room:
            for name, at in (('rattle-last-used', 30), ('Rattle.Syntax.oantt', 10), ('Rattle-a-specs.Words.oantt', 12), ('Rattle-a-proofs.f.Proof.decls.oantt', 13),
                             ('Rattle-a-proofs.f.Lts.oantt', 18)):
                file = Path(room, name)
                file.write_text(name)
                os.utime(file, (at, at))
            found = modules(Path(room))
        self.assertEqual([(it.seconds, it.name) for it in found],
                         [(2, 'a-specs.Words'), (1, 'a-proofs.f.Proof'), (5, 'a-proofs.f.Lts')])
        self.assertEqual(by_kind(found), {'specs': 2, 'Proof': 1, 'Lts': 5})
        self.assertEqual(list(lines(found, 1)), ['   5.00 s         27 bytes  a-proofs.f.Lts', 'Lts 5.0, specs 2.0, Proof 1.0'])


if __name__ == '__main__':
    unittest.main()
