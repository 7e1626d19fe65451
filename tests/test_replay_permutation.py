"""The program `replay` does the last n of the 24 rounds on any state as the second program does, and refuses more than 24.

Needs crates/replay/out/replay, which `rt ci` leaves.
"""
import unittest

from replay import Held
from states import ALL, STATES, OnStates, after, begun


class Rounds(OnStates, Held):
    OP = "P"

    def test_last_after_first(self):
        """The last n rounds, after the first 24 - n by the second program, make what all 24 make."""
        whole = after("P", ALL, *STATES)
        for rounds in range(ALL + 1):
            self.assertEqual(after("P", rounds, *(begun(rounds, state) for state in STATES)), whole, rounds)


if __name__ == "__main__":
    unittest.main()
