"""The tables of docs/ are those that tables.py makes of the tree, and the gate's times are put as they should be."""
import re
import subprocess
import sys
import tempfile
import unittest
from pathlib import Path

import tables

PARTS = "proofs 17 0 601\nedits 3 1 1\ntests 1 0 59\n"
PROOFS = """0.0 == keccak
2.1 fn keccak::rotate_left: proved
12.4 rt: keccak proved
12.4 rt: keccak: trying its must-fail edits (3)
12.6 rt: hex is kept: an earlier run on this machine proved the same files over the same libraries
99.5 rt: digest: its tests are proved
1234.5 rt: digest proved
1300.0 rt: must-fail keccak/first_rounds.edit: refused, as it must be: ./proofs/P.antt:1:2: error: `f`: no
1300.0 rt: must-fail keccak/iota_lane.edit: NOT REFUSED: the crate is still proved with this edit
1300.1 rt: digest ran, and wrote what its file stdout has
1300.1 17 passed, 0 failed
"""
TIMES = """
| part | passed | failed | seconds |
|---|---|---|---|
| proofs | 17 | 0 | 601 |
| edits | 3 | 1 | 1 |
| tests | 1 | 0 | 59 |

| crate | proved after seconds |
|---|---|
| keccak | 12 |
| hex | kept from an earlier run |
| digest | 1,234 |
"""


class Pages(unittest.TestCase):
    def test_counts(self):
        self.held(tables.PROOFS, tables.counts(tables.ROOT))

    def test_edits(self):
        self.held(tables.EDITS, tables.edits(tables.ROOT))

    def held(self, page, made):
        self.maxDiff = None
        self.assertEqual(tables.section(page.read_text(), made.split("\n", 1)[0]), made, "run: python3 tests/tables.py write")

    def test_every_edit_is_listed(self):
        """Whatever stands below must-fail/ is in the page: a file of another name or place is tried by nobody."""
        files = [path.relative_to(tables.ROOT) for path in tables.ROOT.glob("crates/*/must-fail/**/*") if path.is_file()]
        listed = []
        for part in tables.edits(tables.ROOT).split("\nOf `crates/")[1:]:
            listed += [(part.split("`", 1)[0], f"{name}.edit") for name in re.findall(r"^\| `(\w+)` \|", part, re.MULTILINE)]
        self.assertTrue(files)
        self.assertEqual(sorted(listed), sorted((path.parts[1], path.name) for path in files))
        libraries = {path.parts[-3] for path in tables.ROOT.glob("crates/*/src/lib.rt")}
        self.assertEqual(libraries - {crate for crate, _ in listed}, set(), "a library without an edit")


class Tree(unittest.TestCase):
    def test_crates(self):
        with tempfile.TemporaryDirectory() as folder:
            root = Path(folder)
            (root / "crates.txt").write_text("# NAME: DEP ..\na:\nb: a hex # the second\nb_c staticlib: b a\nd may_wait=2: b_c\n")
            self.assertEqual(tables.crates(root), ["a", "b", "b_c", "d"])
            self.assertEqual(tables.below(root, "b_c"), {"a", "b", "b_c"})
            self.assertEqual(tables.below(root, "a"), {"a"})

    def test_place(self):
        for words, place in (
            ("proofs/Constants.antt rule", "`Constants.antt`: `rule`"),
            ("proofs/permute/Answers.antt loop-i-init", "`permute`: `loop-i-init`"),
            ("proofs/round/chi/Invariants.antt invariant-loop", "`round::chi`: `invariant-loop`"),
        ):
            self.assertEqual(tables.place(words), place)


class Times(unittest.TestCase):
    def setUp(self):
        folder = tempfile.TemporaryDirectory()
        self.addCleanup(folder.cleanup)
        self.folder = Path(folder.name)
        for name, text in (("parts", PARTS), ("proofs.clock", PROOFS)):
            (self.folder / name).write_text(text)
        self.times = tables.times(self.folder)

    def test_times(self):
        head, _, run, rest = self.times.split("\n", 3)
        self.assertEqual(head, "## Check times")
        self.assertRegex(run, r"^One run of the gate on \S.*, \d+ processors \(.*\): 21 passed, 1 failed, 11 min 1 s\. Wrong versions refused: 1\.$")
        self.assertEqual(rest, TIMES)

    def test_all_are_told(self):
        """Where nothing failed, each crate and each edit of the tree has its line; a lost one fails."""
        (self.folder / "parts").write_text(PARTS.replace("3 1 1", "4 0 1"))
        proofs = [f"1.0 rt: {name} proved" for name in tables.crates(tables.ROOT)]
        edits = [f"{path.parts[-3]}/{path.name}" for path in tables.ROOT.glob("crates/*/must-fail/*.edit")]
        edits = [f"2.0 rt: must-fail {name}: refused, as it must be: ./proofs/P.antt:1:2: error: `f`: no" for name in edits]

        def told(proofs, edits):
            (self.folder / "proofs.clock").write_text("\n".join(proofs + edits) + "\n")
            return tables.times(self.folder)

        self.assertIn(f" Wrong versions refused: {len(edits)}.\n", told(proofs, edits))
        for fewer in ((proofs[1:], edits), (proofs, edits[:-1])):
            with self.assertRaises(SystemExit):
                told(*fewer)

    def test_clock(self):
        """The clock passes every byte on, and the file has each line behind its time."""
        said = b"one\ntwo \xff\nthree"
        command = [sys.executable, tables.__file__, "clock", str(self.folder / "clock")]
        self.assertEqual(subprocess.run(command, input=said, stdout=subprocess.PIPE, check=True).stdout, said)
        lines = (self.folder / "clock").read_bytes().split(b"\n")
        self.assertEqual([line.split(b" ", 1)[1] for line in lines], said.split(b"\n"))
        for line in lines:
            self.assertRegex(line, rb"^\d+\.\d ")

    def test_replaced(self):
        """A page gets the section that the gate printed, and keeps what stands before and behind it."""
        log = f"\n== times\n{self.times}\n== all\n21 passed, 1 failed\n"
        page = "# A\n\n## Check times\n\nold\n\n## B\n\nb\n"
        printed = tables.section(log, "## Check times")
        self.assertEqual(printed, self.times)
        self.assertEqual(tables.replaced(page, printed), f"# A\n\n{self.times}\n## B\n\nb\n")


if __name__ == "__main__":
    unittest.main()
