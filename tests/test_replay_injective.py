"""Runs of a function of the sponge that differ in their lanes stay different when they are fed the same bytes; runs of KT that differ in a leaf's need not.

The runs pass answer 5's test, which does not look at the lanes. Every line that is compared is the program's own. Needs
crates/replay/out/replay, which `rt ci` leaves.
"""
import operator
import random
import unittest

import reference
from model_run import INTERMEDIATE_NODE
from replay import LANES, LEAF_LANES, SEED, Session, permutation_record, record, set_record
from sponge_functions import SPONGE
from transcript import CHAINING, KT

CHUNK = reference.CHUNK
ROUNDS = 12


def xored(state, at, byte):
    return state[:at] + bytes([state[at] ^ byte]) + state[at + 1 :]


class Fed(unittest.TestCase):
    def setUp(self):
        self.source = random.Random(SEED)
        self.session = Session()
        self.addCleanup(self.session.close)

    def same_first_bytes(self, size):
        """Two states that have the first so many bytes in common, and hardly another."""
        first = self.source.randbytes(size)
        return [first + self.source.randbytes(200 - size) for _ in range(2)]

    def undone(self, state):
        return self.session.bytes_of(permutation_record(ROUNDS, state, "I"))

    def fed(self, piece):
        """Absorbs a piece, with status 0, and gives the run."""
        self.assertEqual(self.session.ask(record("A", piece)), "0")
        return self.session.ask(record("D"))

    def written(self, lanes, state):
        """Overwrites 25 lanes of the run in hand, and gives the run."""
        for i, lane in enumerate(reference.state_of(state)):
            self.assertEqual(self.session.ask(set_record(lanes + i, lane)), "set")
        return self.session.ask(record("D"))

    def begin(self, function, message):
        self.assertEqual(self.session.ask(record("N", bytes([function]))), "fresh")
        self.fed(message)

    def differ_in_the_last(self, count, one, other):
        """Each of a dump's last lanes, so many of them, differs from the other dump's, and nothing before them does."""
        one, other = one.split(" "), other.split(" ")
        self.assertEqual(one[:-count], other[:-count])
        self.assertFalse(any(map(operator.eq, one[-count:], other[-count:])))

    def test_leaves_of_kt(self):
        """Two runs that are equal but for the lanes of a full leaf, which have the same chaining value: the next byte closes the leaf, of which
        nothing but that value stays, and leaves one and the same run."""
        for function, rate in KT.items():
            before, after = [], []
            for closed in self.same_first_bytes(CHAINING[rate]):
                leaf = xored(xored(self.undone(closed), CHUNK % rate, INTERMEDIATE_NODE), rate - 1, 0x80)
                self.begin(function, reference.ptn(2 * CHUNK))
                before.append(self.written(LEAF_LANES, leaf))
                after.append(self.fed(b"a"))
            self.differ_in_the_last(25, *before)
            self.assertEqual(*after)

    def test_full_block_of_turboshake(self):
        """Two runs with a full block, whose lanes the permutation makes equal in the first 32 bytes: all the others stay in the run."""
        after = []
        for permuted in self.same_first_bytes(32):
            self.begin(0, reference.ptn(168))
            self.written(LANES, self.undone(permuted))
            after.append(self.fed(b"a"))
        self.differ_in_the_last(25 - 4, *after)

    def test_bits(self):
        """Lanes that differ in one bit, the same totals, the same piece: the runs stay different."""
        for number, function in SPONGE.items():
            for _ in range(30):
                sizes = (0, 1, function.rate - 1, function.rate, function.rate + 1, 500)
                message, piece = (self.source.randbytes(self.source.choice(sizes)) for _ in range(2))
                state, bit = self.source.randbytes(200), self.source.randrange(1600)
                runs = []
                for lanes in (state, xored(state, bit // 8, 1 << bit % 8)):
                    self.begin(number, message)
                    runs.append((self.written(LANES, lanes), self.fed(piece)))
                self.assertNotEqual(*(before for before, _ in runs))
                self.assertNotEqual(*(after for _, after in runs), f"{function.name}, bit {bit}, {len(message)} bytes, then {len(piece)}")

    def test_other_totals(self):
        """A fresh run, and one after a byte whose first lane is 257: after the byte 01 they have the same lanes, so the totals have to be equal."""
        after = []
        for message, lane in ((b"", 0), (b"a", 257)):
            self.begin(0, message)
            self.written(LANES, lane.to_bytes(200, "little"))
            after.append(self.fed(b"\x01").split(" ")[-25:])
        self.assertEqual(*after)


if __name__ == "__main__":
    unittest.main()
