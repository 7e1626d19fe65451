"""A crate goes by the laws of the crates below it: the definitions that its proofs unfold all the same are those of the table in docs/DECISIONS.md.

Read from the sources: the names on `unfolding` lines of proofs/, and in `unfolding(..)` of an attribute in src/, that are of another crate of the
repository. A definition marked `abbrev` computes without being named, and is not seen here.
"""
import re
import unittest
from pathlib import Path

import tables

ROOT = Path(__file__).resolve().parent.parent
NAMES = re.compile(r"^(?:pub )?use Rattle\.(\w+)\.(?:specs|proofs)\.[^\s{]+\.\{([^}]*)\}$", re.MULTILINE)
MODULE = re.compile(r"^(?:pub )?use Rattle\.(\w+)\.(?:specs|proofs)\.\S+ as (\S+)$", re.MULTILINE)
UNFOLDING = re.compile(r"^ *unfolding (.*)$", re.MULTILINE)
ATTRIBUTE = re.compile(r"\bunfolding\(([^)]*)\)")
ROW = re.compile(r"^\| (\w+) \| (\w+) \| (.*) \|$", re.MULTILINE)


def imported(text):
    """The crate of each name, and of each module under its short name, that a file of proofs/ imports."""
    names = {name.split(" as ")[-1].strip(): crate for crate, listed in NAMES.findall(text) for name in listed.split(",")}
    return names | {short: crate for crate, short in MODULE.findall(text)}


def crate_of(name, crates):
    """The crate of a name on an `unfolding` line: by its whole path, or by the imports."""
    first, *rest = name.split(".")
    return rest[0] if first == "Rattle" else crates.get(first)


def unfolded(text, own):
    """(crate, name) of each definition of another crate that a file of proofs/ of the crate `own` unfolds."""
    crates = imported(text)
    named = {name for line in UNFOLDING.findall(text) for name in line.split()}
    return {(crate_of(name, crates), name.split(".")[-1]) for name in named if crate_of(name, crates) not in (None, own)}


def unfolded_by_attributes(text, own):
    """The same of a file of src/, where a definition is named by its path from its crate."""
    paths = [path.strip().split("::") for listed in ATTRIBUTE.findall(text) for path in listed.split(",")]
    return {(path[0], path[-1]) for path in paths if path[0] not in ("crate", own)}


def in_the_tree():
    found, crates = {}, tables.crates(ROOT)
    for pattern, read in (("proofs/**/*.antt", unfolded), ("src/**/*.rt", unfolded_by_attributes)):
        for path in ROOT.glob(f"crates/*/{pattern}"):
            crate = path.relative_to(ROOT).parts[1]
            for below, name in read(path.read_text(), crate):
                if below in crates:
                    found.setdefault((crate, below), set()).add(name)
    return found


def in_the_page():
    section = (ROOT / "docs/DECISIONS.md").read_text().split("| crate | unfolds of | definitions |\n|---|---|---|\n")[1].split("\n\n")[0]
    return {(crate, below): set(re.findall(r"`([^`]+)`", names)) for crate, below, names in ROW.findall(section + "\n")}


class Layers(unittest.TestCase):
    def test_what_is_read(self):
        text = "use Rattle.keccak.specs.Round.{rotl, pi as turn}\nuse Rattle.sponge.specs.Model as model\nuse Rattle.inverse.specs.Inverse.{unpi}\n"
        text += "  unfolding turn model.pad unpi rotl other\nunfolding Rattle.hasher.specs.Model.fresh\n"
        self.assertEqual(unfolded(text, "inverse"), {("keccak", "turn"), ("sponge", "pad"), ("keccak", "rotl"), ("hasher", "fresh")})
        text = "#[tactic(auto, using(keccak::proofs::Bits::b), unfolding(crate::specs::A::a, keccak::specs::Round::rotl))]\n"
        self.assertEqual(unfolded_by_attributes(text, "inverse"), {("keccak", "rotl")})

    def test_table(self):
        self.assertEqual(in_the_tree(), in_the_page())


if __name__ == "__main__":
    unittest.main()
