"""The program `replay` undoes the last n of the 24 rounds on any state as the second program does, and refuses more than 24.

Needs crates/replay/out/replay, which `rt ci` leaves.
"""
import contextlib
import unittest

from replay import Held, Session, permutation_record
from states import ALL, SINGLE_BITS, STATES, OnStates, after, begun


class Rounds(OnStates, Held):
    OP = "I"

    def test_first_are_left(self):
        """Where all 24 rounds were done and the last n are undone, what the second program makes by the first 24 - n is left."""
        whole = after("P", ALL, *STATES)
        for rounds in range(ALL + 1):
            self.assertEqual(after("I", rounds, *whole), [begun(rounds, state) for state in STATES], rounds)

    def test_done_and_undone(self):
        """In either order, of the bytes that the program itself gave, they give back the state."""
        with contextlib.closing(Session()) as session:
            for rounds in range(ALL + 1):
                for state in (*STATES, *SINGLE_BITS):
                    for first, second in ("PI", "IP"):
                        between = session.bytes_of(permutation_record(rounds, state, first))
                        self.assertEqual(between == state, rounds == 0)
                        self.assertEqual(session.bytes_of(permutation_record(rounds, between, second)), state, (first, rounds))


if __name__ == "__main__":
    unittest.main()
