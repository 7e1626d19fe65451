"""The program `permutation` writes what the second program works out."""
import unittest

import reference
from programs import ROOT, written


class Output(unittest.TestCase):
    def test_expected_file(self):
        self.assertEqual((ROOT / "crates/permutation/stdout").read_text(), reference.permutation_output())

    def test_what_was_written(self):
        """What the program wrote when `rt ci` ran it, as each compiler built it."""
        for file, text in written("permutation").items():
            with self.subTest(file=file):
                self.assertEqual(text, reference.permutation_output())


if __name__ == "__main__":
    unittest.main()
