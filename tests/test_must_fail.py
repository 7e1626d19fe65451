"""What must_fail.py lets pass and what not: on texts, and on a small repository that is really proved.

The project's own edits are tried by `rt ci` and held by must_fail.py itself, a part of the gate beside these tests.
"""
import re
import subprocess
import sys
import tempfile
import unittest
from pathlib import Path

import must_fail
from edits import PRINTED, Bad, answers_of, apply, errors_of, function_at, hold_first_error, hold_line

RUNNER = Path(must_fail.__file__).resolve()
CRATE = {
    "src/lib.rt": """// What must_fail.py is tried on.
#![tactic(auto)]

ghost use Rattle.std.specs.Prelude.{◌≡◌};
ghost use Rattle.small.specs.Small.{doubled};

fn keep(x: u8) -> u8
    ensures { result ≡ x }
{
    x
}

pub fn twice(x: u8) -> u64
    ensures { result ≡ doubled x }
{
    let y = keep(x);
    2 * (y as u64)
}
""",
    "specs/Lib.antt": "pub mod Small\n",
    "specs/Small.antt": """-- Twice a number. Assumes nothing.
use Prim.Native.Nat.{ℕ, ◌*◌}

unfoldable pub doubled : ℕ → ℕ
doubled x = 2 * x
""",
    "proofs/twice/Answers.antt": """-- `small::twice` meets its contract: twice what `keep` hands back. Assumes nothing.
use mathlib.Core.Path.{ap}
use Prim.Native.Nat.{ℕ, ◌*◌}
use Rattle.small.specs.Small.{doubled}
use Rattle.small.proofs.twice.Goals as goal

pub returns : goal.returns
unfolding doubled
returns c = ap (λ (n : ℕ). 2 * n) c.keep-y.ensures
""",
}
PLACE = "# first error: proofs/twice/Answers.antt returns\n"
KEEP = "# first error: proofs/keep/Answers.antt returns\n"
FOUR = "file: src/lib.rt\nold: 2 * (y\nnew: 4 * (y\n"
# each edit, what must_fail.py says of it by rt's line, and by --whole
EDITS = {
    "four_times": (PLACE + FOUR, "refused first at proofs/twice/Answers.antt returns", "from nothing refused first at proofs/twice/Answers.antt returns:"),
    "keep_none": (
        KEEP + "file: src/lib.rt\nold:     x\nnew:     0\n",
        "refused first at proofs/keep/Answers.antt returns",
        "from nothing refused first at proofs/keep/Answers.antt returns:",
    ),
    "definition_of_three": (PLACE + "file: specs/Small.antt\nold: = 2 *\nnew: = 3 *\n", "refused first at proofs/twice/Answers.antt returns", None),
    "comment_changed": (PLACE + "file: src/lib.rt\nold: // What\nnew: // That which\n", "FAILED: NOT REFUSED", "FAILED: NOT REFUSED"),
    "syntax_error": (PLACE + "file: src/lib.rt\nold: fn keep\nnew: fn\n", "FAILED: BAD EDIT: it did not reach the prover", "FAILED: BAD EDIT: it cannot be read"),
    "type_error": (
        PLACE + "file: src/lib.rt\nold: twice(x: u8)\nnew: twice(x: u16)\n",
        "FAILED: BAD EDIT: it did not reach the prover",
        "FAILED: BAD EDIT: it did not reach the prover",
    ),
    "text_not_there": (PLACE + "file: src/lib.rt\nold: 5 * (y\nnew: 4 * (y\n", "FAILED: BAD EDIT: an 'old:' text is in src/lib.rt", None),
    "wrong_name": ("# first error: proofs/twice/Answers.antt result\n" + FOUR, "FAILED: refused first at proofs/twice/Answers.antt returns, not at", None),
    "wrong_file": (KEEP + FOUR, "FAILED: refused first at proofs/twice/Answers.antt returns, not at", None),
    "no_name": (FOUR, "FAILED: BAD EDIT: it does not say where", None),
    "call_left_out": (
        PLACE + "file: src/lib.rt\nold: keep(x);\nnew: x;\n",
        "FAILED: refused, but for no fact that it makes false: (only because a proof file names what the edit took away",
        "FAILED: the proof no longer fits the code (has no field): ",
    ),
    "unreadable_definition": ("# first error: specs/Small.antt doubled\nfile: specs/Small.antt\nold: = 2 *\nnew: = 2 * *\n", "FAILED: BAD EDIT: the prover cannot read", None),
    "proof_changed": (PLACE + "file: proofs/twice/Answers.antt\nold: 2 * n\nnew: 4 * n\n", "FAILED: BAD EDIT: a 'file:' line names no file", None),
    "quick/stray": (PLACE + FOUR, "FAILED: rt did not try it", None),
}


def run(*words):
    done = subprocess.run(words, stdin=subprocess.DEVNULL, stdout=subprocess.PIPE, stderr=subprocess.STDOUT, text=True)
    return done.returncode, done.stdout


class Runner(unittest.TestCase):
    """must_fail.py on a small repository, after `rt ci` there."""

    @classmethod
    def setUpClass(cls):
        folder = tempfile.TemporaryDirectory()
        cls.addClassCleanup(folder.cleanup)
        cls.root = Path(folder.name).resolve()
        cls.crate = cls.root / "crates/small"
        (cls.root / "crates.txt").write_text("small:\n")
        for name, text in {**CRATE, **{f"must-fail/{name}.edit": text for name, (text, *_) in EDITS.items()}}.items():
            (cls.crate / name).parent.mkdir(parents=True, exist_ok=True)
            (cls.crate / name).write_text(text)
        done = subprocess.run(["rt", "ci"], cwd=cls.root, stdin=subprocess.DEVNULL, stdout=subprocess.PIPE, stderr=subprocess.STDOUT, text=True)
        # the crate is proved, and of the edits that could be tried one is not refused
        assert "\nrt: FAILED: small/comment_changed.edit\n" in done.stdout, done.stdout
        cls.said = cls.root / "said"
        cls.said.write_text(done.stdout)

    def lines(self, *words):
        """The exit status, the last line, and what was said of each edit."""
        status, text = run(sys.executable, str(RUNNER), "--root", str(self.root), *words)
        return status, text.splitlines()[-1], dict(re.findall(r"^(small/\S*): (.*)$", text, re.MULTILINE))

    def hold(self, due, status, last, said):
        self.assertEqual(set(said), {f"small/{name.split('/')[-1]}" for name in due})
        for name, words in due.items():
            with self.subTest(edit=name):
                found = said[f"small/{name.split('/')[-1]}"]
                self.assertTrue(found.startswith(words), found)
        failed = sum(words.startswith("FAILED") for words in due.values())
        self.assertEqual((status, last), (1 if failed else 0, f"{len(due) - failed} passed, {failed} failed"))

    def test_what_rt_ci_said(self):
        """As the gate does it."""
        self.hold({name: words for name, (_, words, _) in EDITS.items()}, *self.lines("--said", str(self.said)))

    def test_by_rt_must_fail(self):
        due = {name: words for name, (_, words, _) in EDITS.items() if name in ("four_times", "keep_none", "wrong_name")}
        self.hold(due, *self.lines(*(f"small/{name}" for name in due)))

    def test_all_pass(self):
        self.assertEqual(self.lines("--said", str(self.said), "small/four_times", "small/keep_none")[:2], (0, "2 passed, 0 failed"))

    def test_whole(self):
        """Each of these from nothing, with the whole log."""
        due = {name: words for name, (_, _, words) in EDITS.items() if words}
        self.hold(due, *self.lines("--whole", *(f"small/{name}" for name in due)))

    def test_place(self):
        """The line that an edit should have, for whoever writes one."""
        _, _, said = self.lines("--place", "small/wrong_name", "small/keep_none")
        self.assertEqual(said, {"small/wrong_name": PLACE.strip(), "small/keep_none": KEEP.strip()})

    def test_names(self):
        self.assertEqual(self.lines("--said", str(self.said), "small/four_times", "small/none"), (1, "0 passed, 1 failed", {}))

    def test_two_of_one_name(self):
        edit = self.crate / "must-fail/quick/four_times.edit"
        edit.write_text(PLACE + FOUR)
        self.addCleanup(edit.unlink)
        self.assertEqual(self.lines("--said", str(self.said)), (1, "0 passed, 1 failed", {}))

    def test_not_proved(self):
        """Of a crate that is not proved rt says nothing of an edit, and each counts as failed."""
        self.said.with_name("none").write_text("rt: small NOT PROVED\nrt: FAILED: small\n0 passed, 1 failed\n")
        status, last, said = self.lines("--said", str(self.said.with_name("none")))
        self.assertEqual((status, last), (1, f"0 passed, {len(EDITS)} failed"))
        self.assertEqual(set(said.values()), {"FAILED: rt did not try it"})


class Texts(unittest.TestCase):
    def setUp(self):
        folder = tempfile.TemporaryDirectory()
        self.addCleanup(folder.cleanup)
        self.crate, self.edit = Path(folder.name) / "c", Path(folder.name) / "e.edit"
        (self.crate / "src").mkdir(parents=True)
        (self.crate / "src/lib.rt").write_text("a b\nb c\n")

    def test_bad_edits(self):
        for words in ("", "file: src/lib.rt\nold: z\nnew: y\n", "file: src/lib.rt\nold: b\nnew: y\n", "file: src/lib.rt\nnew: y\n",
                      "file: src/none.rt\nold: a\nnew: y\n", "file: src/../e.edit\nold: a\nnew: y\n", "file: e.edit\nold: a\nnew: y\n", "old: a\nnew: y\n"):
            with self.subTest(words=words), self.assertRaises(Bad):
                self.edit.write_text(words)
                apply(self.edit, self.crate)
        self.assertEqual((self.crate / "src/lib.rt").read_text(), "a b\nb c\n")

    def test_good_edit(self):
        self.edit.write_text("A comment.\nfile: src/lib.rt\nold: a b\nnew: d\nold:  c\nnew:\n")
        apply(self.edit, self.crate)
        self.assertEqual((self.crate / "src/lib.rt").read_text(), "d\nb\n")

    PAIR = "file: src/lib.rt\nold: a b\nnew: d\n"

    def by_log(self, place, words):
        """What is said of an edit that names this place, where the first error in the prover's log is at f of P.antt, in these words."""
        self.edit.write_text(f"{place}\n{self.PAIR}")
        said = f"./proofs/P.antt:1:2: error: `f`: {words}\n  more\n./proofs/Q.antt:1:2: error: `g`: no\nlogic=not-proved\n"
        return hold_first_error(self.edit, said, self.crate)

    def by_line(self, place, words):
        """The same by the line that rt prints of the edit."""
        self.edit.write_text(f"{place}\n{self.PAIR}")
        return hold_line(self.edit, f"refused, as it must be: ./proofs/P.antt:1:2: error: `f`: {words}"[: len("refused, as it must be: ") + PRINTED], self.crate)

    def test_places(self):
        self.assertEqual(self.by_log("# first error: proofs/P.antt f", "it is not so"), ("proofs/P.antt f", "./proofs/P.antt:1:2: error: `f`: it is not so\n  more"))
        self.assertEqual(self.by_line("# first error: proofs/P.antt f", "it is not so" * 99), "proofs/P.antt f")
        for place in ("# first error: proofs/Q.antt g", "# first error: proofs/P.antt g", "# first error: proofs/Q.antt f", "first error:", "no place", "# first error: src/lib.rt f"):
            for held in (self.by_log, self.by_line):
                with self.subTest(place=place, held=held.__name__), self.assertRaises(Bad):
                    held(place, "it is not so")

    def test_words(self):
        for words in ("`goal.x`: module `T` has no `x` that can be named from here", "record `R` has no field `y`", "`y` is not in scope",
                      "expected type `goal.x`, but this has type `goal.y`", "`h` was not admitted (it has holes), so this cannot be checked"):
            for held in (self.by_log, self.by_line):
                with self.subTest(words=words, held=held.__name__), self.assertRaises(Bad):
                    held("# first error: proofs/P.antt f", words)
            with self.subTest(behind=words), self.assertRaises(Bad):
                self.by_log("# first error: proofs/P.antt f", f"as printed, the two types differ\n  {words}")

    def test_what_rt_does_not_refuse(self):
        self.edit.write_text(f"# first error: proofs/P.antt f\n{self.PAIR}")
        for line in ("refused, as it must be", "NOT REFUSED: the crate is still proved with this edit", "BAD EDIT: it changes nothing", "NOT TRIED: its check was killed",
                     "refused, as it must be (only by a limit of the prover, which gave no verdict): ./proofs/P.antt:1:2: error: `f`: no",
                     "refused, as it must be (only because a proof file names what the edit took away): ./proofs/P.antt:1:2: error: `f`: no"):
            with self.subTest(line=line), self.assertRaises(Bad):
                hold_line(self.edit, line, self.crate)

    def test_no_declaration(self):
        self.edit.write_text(f"# first error: proofs/P.antt f\n{self.PAIR}")
        named = "./proofs/P.antt:1:2: error: `f`: it is not so\n"
        self.assertEqual(hold_first_error(self.edit, named, self.crate)[0], "proofs/P.antt f")
        for said in ("", "error: cannot read M\n", "./proofs/P.antt: error: cannot read it\n", "./proofs/P.antt:1:2: error: module `M` has no `f`\n",
                     "./proofs/P.antt:1:2: error: 1 declaration that depends on `f`, which was rejected, was not checked: g\n"):
            with self.subTest(said=said), self.assertRaises(Bad):
                hold_first_error(self.edit, said + named if said else "logic=not-proved\n", self.crate)

    SOURCE = """fn one() -> u8
    ensures { result ≡ 1 }
{
    2
}

pub struct S {
    x: u8,
}

impl S {
    pub fn two(
        x: u8,
    ) -> u8 {
        x + 1
    }
}

#[unsafe(no_mangle)]
pub extern "C" fn three() {
}

pub trait T: Copy {
    const N: usize;

    fn four(self) {
    }
}

impl T for S {
    const N: usize = 1;
}
"""
    NOTE = "note: src/a/b.rt:{}:5: it is not proved that the sum fits its type (at a range `..=n`, `n + 1`) (`overflow_add-result`); the facts (`x`) known"

    def test_goals_without_an_answer(self):
        """The place is that of the answer which is not written, of the function at the line in the source with the edit."""
        (self.crate / "src/a").mkdir()
        (self.crate / "src/a/b.rt").write_text(self.SOURCE)
        for line, function in ((1, "one"), (4, "one"), (12, "S/two"), (15, "S/two"), (19, "three"), (20, "three"), (24, "T/N"), (26, "T/four"), (31, "ST/N")):
            self.assertEqual("/".join(function_at(self.SOURCE, line)), function)
            for note, said in ((self.NOTE.format(line), ""), (self.NOTE.format(line), "./proofs/P.antt:1:2: error: `f`: no\n")):
                self.edit.write_text(f"# first error: proofs/a/b/{function}/Answers.antt overflow_add-result\n{self.PAIR}")
                with self.subTest(line=line):
                    self.assertEqual(hold_line(self.edit, f"refused, as it must be: {note}", self.crate), f"proofs/a/b/{function}/Answers.antt overflow_add-result")
                    self.assertEqual(hold_first_error(self.edit, f"{note}\n{said}", self.crate)[1], note)
                    with self.assertRaises(Bad):
                        hold_first_error(self.edit, f"./proofs/P.antt:1:2: error: `f`: no\n{note}\n", self.crate)
        self.assertEqual(answers_of("src/lib", 12, self.SOURCE), "proofs/S/two/Answers.antt")
        self.assertEqual(answers_of("src/main", 1, self.SOURCE), "proofs/one/Answers.antt")
        with self.assertRaises(Bad):
            function_at("use a;\nfn f() {}\n", 1)

    def test_laws_of_impls(self):
        """A law that an impl owes is named like a constant of it, where a search finds no proof of it, and of that impl alone."""
        (self.crate / "src/a.rt").write_text("impl T for R {\n    ghost bounds = { Prim.search rules };\n}\n\nimpl T for S {\n    ghost bounds = { Prim.search rules };\n    ghost N = { 1 };\n}\n")
        for number, words, place in ((2, "`bounds-value`: `search`: no proof of it", "RT/bounds"), (6, "`bounds-value`: `search`: no proof of it", "ST/bounds"), (6, "`bounds-value`: `search`: no proof of it", "RT/bounds"),
                                     (6, "`bounds-value`: expected type `ℕ`", "ST/bounds"), (6, "`other-value`: `search`: no proof of it", "ST/other"), (7, "`N-value`: `search`: no proof of it", "ST/N")):
            self.edit.write_text(f"# first error: proofs/a/{place}/Answers.antt value\n{self.PAIR}")
            line = f"refused, as it must be: ./src/a.rt:{number}:1: error: {words}"
            with self.subTest(number=number, words=words, place=place):
                if (number, place) in ((2, "RT/bounds"), (6, "ST/bounds")) and "no proof" in words:
                    self.assertEqual(hold_line(self.edit, line, self.crate), f"proofs/a/{place}/Answers.antt value")
                else:
                    self.assertRaises(Bad, hold_line, self.edit, line, self.crate)

    def test_edited_source(self):
        """Lines are those of the text with the edit."""
        (self.crate / "src/lib.rt").write_text(self.SOURCE)
        self.edit.write_text("# first error: proofs/three/Answers.antt returns\nfile: src/lib.rt\nold: pub struct S {\nnew: fn more() {} pub struct S {\n")
        hold_line(self.edit, "refused, as it must be: note: src/lib.rt:20:1: it is not proved that it returns (`returns`)", self.crate)
        self.edit.write_text("# first error: proofs/more/Answers.antt returns\nfile: src/lib.rt\nold: pub struct S {\nnew: fn more() {} pub struct S {\n")
        hold_line(self.edit, "refused, as it must be: note: src/lib.rt:7:1: it is not proved that it returns (`returns`)", self.crate)

    def test_cut_lines(self):
        """rt prints 160 characters of an error: a goal's name may lack its end, and no more than that."""
        (self.crate / "src/lib.rt").write_text(self.SOURCE)
        start = "note: src/lib.rt:1:1: it is not proved that "
        cut = start + "x" * (PRINTED - len(start) - len(" (`returns-th")) + " (`returns-th"
        for name, passes in (("returns-then-x", True), ("returns", False), ("returns-two", False)):
            self.edit.write_text(f"# first error: proofs/one/Answers.antt {name}\nfile: src/lib.rt\nold: pub struct S\nnew: pub struct T\n")
            for error, is_cut in ((cut, True), (cut[:-1], False), (cut[:-1] + "`)", False)):
                with self.subTest(name=name, error=error):
                    if passes and is_cut:
                        hold_line(self.edit, f"refused, as it must be: {error}", self.crate)
                    else:
                        with self.assertRaises(Bad):
                            hold_line(self.edit, f"refused, as it must be: {error}", self.crate)

    def test_errors(self):
        said = f"{self.crate}/P.antt:1:2: error: `f`: no\n  more\nnote: ./P.antt:1:2: why\n  so\nfn g: not proved\nnote: src/lib.rt:1:1: it is not proved that it ends (`g`)\n"
        self.assertEqual(errors_of(said, self.crate), ["P.antt:1:2: error: `f`: no\n  more", "note: src/lib.rt:1:1: it is not proved that it ends (`g`)"])


if __name__ == "__main__":
    unittest.main()
