"""The program `replay` answers lists of calls on runs of SP 800-185's functions as the transcript does, and overwritten runs by the same rules.

Needs crates/replay/out/replay, which `rt ci` leaves.
"""
import random
import unittest

import started_lists
from replay import SEED, Held
from sp800_185 import KMAC, STARTED
from sponge_functions import FIPS202, TURBOSHAKE
from started_calls import StartedCalls
from transcript import RATES

CALLS = 18_000  # n, A, F, R and M together


class Lists(Held):
    def test_random_lists(self):
        """18,000 calls from a fixed seed: of each function every number that a call here can answer is among them."""
        source, calls = random.Random(SEED), StartedCalls()
        started_lists.made(source, calls, CALLS)
        for number in STARTED:
            possible = {"n": (0,), "A": (0, 2, 3, 5), "F": (0, 3, 5, 6, 7) if number in KMAC else (0, 3, 5), "R": (0, 3, 5, 6), "M": (0, 7)}
            for op, statuses in possible.items():
                for status in statuses:
                    self.assertGreater(calls.answers_of[number, op, status], 15, (number, op, status))
            self.assertGreater(calls.wrong_counts[number], 25, number)
        self.hold(calls)

    def begin(self, calls, number):
        if number in STARTED:
            calls.start(number, b"first", b"custom")
        else:
            calls.fresh(number)
        calls.absorb(b"abc")

    def close(self, calls):
        number = calls.function
        calls.finalize(40 if number in KMAC else 0x1F if number in TURBOSHAKE else None if number in FIPS202 or number in STARTED else b"C")

    def test_runs_of_one_function_after_another(self):
        """A run of any function leaves nothing to one of these, and these leave nothing to it, be it left open, closed or read."""
        calls = StartedCalls()
        pairs = [(number, other) for number in STARTED for other in (*RATES, *STARTED)]
        for before, number in sorted({*pairs, *(pair[::-1] for pair in pairs)}):
            for end in range(3):
                self.begin(calls, before)
                if end:
                    self.close(calls)
                if end == 2:
                    calls.squeeze(20)
                self.begin(calls, number)
                calls.dump()
                self.close(calls)
                calls.squeeze(28)
        self.hold(calls)


if __name__ == "__main__":
    unittest.main()
