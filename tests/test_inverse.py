"""The second program's inverse undoes the last n rounds of its permutation, and is undone by them."""
import unittest

import inverse
from inverse import keccak_p_undone
from reference import CONSTANTS, keccak_p, rounds_of, state_of
from states import SINGLE_BITS, STATES

LANES = [state_of(state) for state in STATES]
EVERY_BIT = [[1 << z if i == lane else 0 for i in range(25)] for lane in range(25) for z in range(64)]


class Inverse(unittest.TestCase):
    def both_ways(self, rounds, lanes):
        self.assertEqual(keccak_p_undone(keccak_p(lanes, rounds), rounds), lanes, rounds)
        self.assertEqual(keccak_p(keccak_p_undone(lanes, rounds), rounds), lanes, rounds)

    def test_every_number(self):
        for rounds in range(25):
            for lanes in LANES:
                self.both_ways(rounds, lanes)

    def test_single_bits(self):
        """Each of the 1600 through one round, some of them through every number."""
        for lanes in EVERY_BIT:
            self.both_ways(1, lanes)
        for state in SINGLE_BITS[::9]:
            for rounds in range(25):
                self.both_ways(rounds, state_of(state))

    def test_last_rounds(self):
        """Where all 24 were done and the last n are undone, the first 24 - n are left."""
        for lanes in LANES:
            whole = keccak_p(lanes, 24)
            for rounds in range(25):
                self.assertEqual(keccak_p_undone(whole, rounds), rounds_of(lanes, CONSTANTS[: 24 - rounds]), rounds)


class Tables(unittest.TestCase):
    def test_rows(self):
        """Chi makes each of the 32 rows of one row alone."""
        self.assertEqual(len(inverse.ROWS), 32)
        self.assertEqual(set(inverse.ROWS), set(inverse.ROWS.values()))

    def test_parities(self):
        """Of the three parities that one column's parity alone leaves after theta, that column is found again."""
        for x in range(5):
            for z in range(64):
                after = sum(1 << inverse.column(*at) for at in ((x, z), (x + 1, z), (x - 1, z + 1)))
                before = [(after & needed).bit_count() % 2 for needed in inverse.PARITIES]
                self.assertEqual([i for i, bit in enumerate(before) if bit], [inverse.column(x, z)])


if __name__ == "__main__":
    unittest.main()
