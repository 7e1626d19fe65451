"""The days that docs/USERS.md writes out have the bytes, the digests and the permutations that it says, and its length encodings are right."""
import re
import unittest
from pathlib import Path

import permutation_formula
import reference
from counted_hash import CountedTree
from transcript import CHAINING, KT, NODES, Limits

PAGE = Path(__file__).resolve().parent.parent / "docs/USERS.md"
STATION = b"Hanbeorit station 3"
HEADING = "| events | bytes to hash | digest |"
EVENT = r"(?:`[^`]+`|empty)"
BILL_HEADING = "| bytes of the day's message | permutations before the close | permutations, 32 bytes read |"
BILL_ROW = re.compile(r"\| ([\d,]+)(?: \([^|]+\))? \| ([\d,]+) \| ([\d,]+) \|")
HASHED = 1 << 20  # the most bytes that are hashed to count
ROW = re.compile(rf"\| ({EVENT}(?:, {EVENT})*) \| `([0-9A-Fa-f]{{2}}(?: [0-9A-Fa-f]{{2}})*)` \| `([0-9a-f]{{64}})` \|")


def rows(text, heading=HEADING):
    """The lines of every table with these columns, without its heading and the line of dashes below it."""
    lines = text.splitlines()
    for start in (at for at, line in enumerate(lines) if line == heading):
        for line in lines[start + 2 :]:
            if not line.startswith("|"):
                break
            yield line


def events_of(cell):
    """Events stand in backquotes; `empty` without them is one of no bytes."""
    return [b"" if event == "empty" else event.strip("`").encode() for event in re.findall(EVENT, cell)]


class Days(unittest.TestCase):
    def test_name(self):
        """The page gives the name, and its length, that the rows go with."""
        self.assertIn(f"`{STATION.decode()}` ({len(STATION)} bytes)", PAGE.read_text())

    def test_lengths(self):
        """The encodings that the page gives as examples, `N bytes: XX ..`."""
        examples = re.findall(r"\| ([\d,]+) bytes: `([0-9A-F ]+)` \|", PAGE.read_text())
        self.assertGreaterEqual(len(examples), 2)
        for size, encoding in examples:
            self.assertEqual(bytes.fromhex(encoding), reference.length_encode(int(size.replace(",", ""))))

    def test_rows(self):
        """Each row: what is hashed is the day's message, the digest KT128 of it with the station's name, 32 bytes."""
        found = list(rows(PAGE.read_text()))
        self.assertGreaterEqual(len(found), 3)
        for line in found:
            with self.subTest(row=line):
                parts = ROW.fullmatch(line)
                self.assertIsNotNone(parts, "the row has another form")
                events, hashed, digest = parts.groups()
                message = reference.day_message(events_of(events))
                self.assertEqual(bytes.fromhex(hashed), message)
                self.assertEqual(digest, reference.kt128(message, STATION, 32).hex())


def number(cell):
    return int(cell.replace(",", ""))


def billed(rate, size, read):
    """The permutations of a day of so many bytes without a name, before the close and after this read: by the formula; a short one is hashed too."""
    chaining, merged = CHAINING[rate], size + len(reference.length_encode(0))
    told = permutation_formula.kt_open(rate, chaining, size), permutation_formula.kt_closed(rate, chaining, merged, read)
    if size <= HASHED:
        tree, message = CountedTree(NODES[rate], chaining), reference.ptn(size)
        tree.absorb(message)
        before = tree.permutations
        tree.close(reference.merged(message, b""))
        tree.read(read)
        if (before, tree.permutations) != told:
            raise AssertionError(f"counted {before} and {tree.permutations}, and the formula says {told}")
    return told


class Bill(unittest.TestCase):
    def test_rows(self):
        """Each row of what a day costs, from none to the limit."""
        found = [BILL_ROW.fullmatch(line) for line in rows(PAGE.read_text(), BILL_HEADING)]
        self.assertNotIn(None, found, "a row has another form")
        sizes = [number(row[1]) for row in found]
        self.assertEqual((sizes[0], sizes[-1]), (0, Limits.ABSORB_LIMIT))
        self.assertIn(reference.CHUNK, sizes)
        for row, size in zip(found, sizes):
            with self.subTest(row=row[0]):
                self.assertEqual((number(row[2]), number(row[3])), billed(168, size, 32))

    def test_each_mib(self):
        """What a MiB of a long message costs, of KT128 and of KT256."""
        due = [f"{billed(rate, 1 << 30, 32)[1] / 1024:,.1f}" for rate in KT.values()]
        self.assertIn(f"costs {due[0]} permutations for each MiB of its message. A run of KT256, which no day is, costs {due[1]}.", PAGE.read_text())


if __name__ == "__main__":
    unittest.main()
