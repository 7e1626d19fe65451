"""The program `replay` answers lists in which KT runs are fed plainly and with words lent (request Q-6), at will, as the transcript does.

Overwritten runs by the same rules; KT in one go by either engine between the calls. Needs crates/replay/out/replay, which `rt ci` leaves.
"""
import unittest

from lent_lists import LentLists
from replay import Held

CALLS = 12_000  # of all ops together


class Lists(Held):
    def test_random_lists(self):
        """Calls from a fixed seed, each number that a call here can answer among them."""
        calls = LentLists().made(CALLS)
        possible = {"a": (0, 2, 3, 5, 12), "A": (0, 2, 3, 5), "k": (0, 7, 12), "K": (0, 7)}
        for op, statuses in possible.items():
            for status in statuses:
                self.assertGreater(calls.answers[op, status], 15, (op, status))
        self.hold(calls)


if __name__ == "__main__":
    unittest.main()
