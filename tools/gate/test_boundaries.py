"""Tests of the refusal of imports across crates: `python3 -m unittest discover -s tools/gate`."""
import subprocess
import sys
import tempfile
import unittest
from pathlib import Path

from boundaries import imports

HERE = Path(__file__).resolve().parent


class Boundaries(unittest.TestCase):
    def setUp(self):
        folder = tempfile.TemporaryDirectory()
        self.addCleanup(folder.cleanup)
        self.top = Path(folder.name)
        self.write('low', 'proofs/Own.antt', 'use Rattle.std.proofs.Common.{refl}\nuse Rattle.low.proofs.Other.{lemma}\n')

    def write(self, crate, file, text):
        path = self.top / 'crates' / crate / file
        path.parent.mkdir(parents=True, exist_ok=True)
        path.write_text(text)

    def test_std_own_proofs_and_specs_pass(self):
        self.write('high', 'proofs/f/Answers.antt', 'use Rattle.low.specs.Lemmas.{lemma}\nuse Rattle.high.proofs.f.Goals as goal\n')
        self.assertEqual([*imports(self.top)], [])

    def test_each_import_is_told_with_its_file(self):
        self.write('high', 'proofs/f/Answers.antt', 'use Rattle.low.proofs.Own.{lemma}\n')
        self.write('high', 'src/lib.rt', 'ghost use Rattle.low.proofs.Other.{lemma};\n#[tactic(auto)]\n')
        self.assertEqual([*imports(self.top)], ['crates/high/proofs/f/Answers.antt: Rattle.low.proofs.Own',
                                                'crates/high/src/lib.rt: Rattle.low.proofs.Other'])

    def test_an_attribute_of_code_counts_and_one_of_its_own_crate_or_std_does_not(self):
        self.write('high', 'src/lib.rt', '#[tactic(auto, using(crate::proofs::Own::a, std::proofs::lemmas::List::b, low::proofs::Own::c))]\n')
        self.assertEqual([*imports(self.top)], ['crates/high/src/lib.rt: low::proofs::Own'])

    def test_the_script_fails_where_there_is_one(self):
        script = [sys.executable, str(HERE / 'boundaries.py'), str(self.top)]
        self.assertEqual(subprocess.run(script, capture_output=True).returncode, 0)
        self.write('high', 'proofs/Own.antt', 'use Rattle.low.proofs.Own.{lemma}\n')
        ran = subprocess.run(script, capture_output=True, text=True)
        self.assertEqual((ran.returncode, ran.stdout), (1, 'crates/high/proofs/Own.antt: Rattle.low.proofs.Own\n'))


if __name__ == '__main__':
    unittest.main()
