"""The program `replay` answers lists of calls on runs of TurboSHAKE and of FIPS 202 as the transcript does, and overwritten runs by the same
rules.

Needs crates/replay/out/replay, which `rt ci` leaves.
"""
import itertools
import random
import unittest

import reference
import sponge_lists
from model_run import position_after
from replay import ABSORBED, MOST, PERMUTATIONS, PHASE, POSITION, SEED, SQUEEZED, Calls, Held
from sponge_functions import SHA3, SPONGE, TURBOSHAKE
from sponge_lists import BIG, LIMIT
from transcript import ABSORBING, FINALIZED, Limits, read_limit

CALLS = 120_000  # A, F, R, T, B and P together
SQUEEZE_LIMIT = Limits.SQUEEZE_LIMIT


def closing(number, domain):
    """The argument of the close, and of a call in one go: the domain byte, where the function has one."""
    return domain if number in TURBOSHAKE else None


class Lists(Held):
    def test_random_lists(self):
        """120,000 calls from a fixed seed: of each function every number that a call here can answer is among them."""
        source, calls = random.Random(SEED), Calls()
        sponge_lists.made(source, calls, CALLS)
        for number in SPONGE:
            possible = {"A": (0, 2, 3, 5), "F": (0, 3, 5), "R": (0, 3, 5, 6), "B": (0, 6, 7) if number in SHA3 else (0, 7)}
            if number in TURBOSHAKE:
                possible |= {"F": (0, 1, 3, 5), "T": (0, 1, 7), "B": ()}
            for op, statuses in possible.items():
                for status in statuses:
                    self.assertGreater(calls.answers_of[number, op, status], 30, (number, op, status))
            self.assertGreater(calls.wrong_counts[number], 30, number)
        self.assertGreater(min(calls.answers["P", 0], calls.answers["P", 16]), 30)
        self.hold(calls)

    def test_edges_of_the_blocks(self):
        """Every pair of a message and an output that end at, one before or one past a block or a digest, in one go and cut."""
        calls = Calls()
        for number, function in SPONGE.items():
            rate = function.rate
            edges = (0, 1, rate - 1, rate, rate + 1, 2 * rate - 1, 2 * rate, 2 * rate + 1)
            outputs = (0, 1, function.digest - 1, function.digest, function.digest + 1, rate) if function.digest else edges
            for message, asked in ((reference.ptn(size), asked) for size in edges for asked in outputs):
                calls.one_go(number, message, closing(number, 0x1F), asked)
                calls.fresh(number)
                for part in (message[: len(message) // 3], b"", message[len(message) // 3 :]):
                    calls.absorb(part)
                calls.finalize(closing(number, 0x7F))
                for size in (asked // 2, 0, asked - asked // 2, 1):
                    calls.squeeze(size)
        self.hold(calls)

    def test_short_pieces(self):
        """Pieces of up to nine bytes into a fresh run, and at every position of the second block, whose lanes the first one's permutation has filled."""
        calls = Calls()
        for number, function in SPONGE.items():
            befores = (0, *range(function.rate + 1, 2 * function.rate + 1))
            for before, size in itertools.product(befores, range(10)):
                calls.fresh(number)
                calls.absorb(reference.ptn(before))
                calls.absorb(bytes(range(255, 255 - size, -1)))
        self.assertEqual(calls.answers["A", 0], sum(2 * 10 * (function.rate + 1) for function in SPONGE.values()), "the test itself is wrong")
        self.hold(calls)

    def test_limits(self):
        """Totals exactly at the limit are taken, one more is refused, and the phase is asked before the total."""
        calls = Calls()
        for number, function in SPONGE.items():
            rate, most = function.rate, read_limit(function)
            for left in (0, 1, rate - 1, rate, rate + 1, 500):
                calls.fresh(number)
                calls.set(ABSORBED, LIMIT - left)
                calls.set(POSITION, position_after(rate, LIMIT - left))
                calls.set(PERMUTATIONS, calls.run.permutations_due())
                for size in (left + 1, left, 1, 0, 5000):
                    calls.absorb(bytes(size))
                if number in TURBOSHAKE:
                    calls.finalize(0x80)
                calls.finalize(closing(number, 0x1F))
                calls.absorb(b"a")
                left = min(left, most)  # SHA3's digest is shorter than a block
                calls.set(SQUEEZED, most - left)
                calls.set(POSITION, position_after(rate, most - left))
                calls.set(PERMUTATIONS, calls.run.permutations_due())
                for size in (left + 1, left, 1, 0, 5000):
                    calls.squeeze(size)
        self.assertEqual((calls.answers["A", 2], calls.answers["R", 6]), (8 * 6 * 3, 8 * 6 * 3), "the test itself is wrong")
        self.hold(calls)

    def test_end_of_a_digest(self):
        """Reads of a SHA3 run that come to the digest's end in every two steps; what passes it is refused, a read of nothing is done."""
        calls = Calls()
        for number, function in SHA3.items():
            for first in range(function.digest + 1):
                calls.fresh(number)
                calls.absorb(reference.ptn(first))
                calls.finalize()
                for size in (function.digest + 1, first, function.digest - first + 1, function.digest - first, 1, 0):
                    calls.squeeze(size)
        refused = sum(3 * (function.digest + 1) for function in SHA3.values())
        self.assertEqual(calls.answers["R", 6], refused, "the test itself is wrong")
        self.hold(calls)

    def refused_by_5(self, calls, phase, absorbed, squeezed, position):
        """Every call on such a run, one that another number would refuse too, answers 5. The permutations are those that go with the totals."""
        for field, value in ((PHASE, phase), (ABSORBED, absorbed), (SQUEEZED, squeezed), (POSITION, position)):
            calls.set(field, value)
        calls.set(PERMUTATIONS, calls.run.permutations_due())
        before = calls.answers[("A", 5)]
        for size in (0, 1, 1000):
            calls.absorb(bytes(size))
            calls.squeeze(size)
        for domain in (0x1F, 0x80) if calls.function in TURBOSHAKE else (None,):
            calls.finalize(domain)
        self.assertEqual(calls.answers[("A", 5)], before + 3, "the test itself is wrong")

    def test_not_reached(self):
        """Phases that are none (2 is KT's alone), totals past the limits, positions that are not the totals', a squeeze before the finalize."""
        calls = Calls()
        for number, function in SPONGE.items():
            rate, most = function.rate, read_limit(function)
            calls.fresh(number)
            for phase in range(2, 256):
                self.refused_by_5(calls, phase, 0, 0, 0)
            for over in (LIMIT + 1, LIMIT + 1 + rate, 1 << 63, BIG):
                self.refused_by_5(calls, ABSORBING, over, 0, position_after(rate, over))
                self.refused_by_5(calls, FINALIZED, over, 0, 0)
            for over in {most + 1, most + 1 + rate, SQUEEZE_LIMIT + 1, SQUEEZE_LIMIT + 1 + rate, LIMIT, 1 << 63, BIG}:
                self.refused_by_5(calls, FINALIZED, 0, over, position_after(rate, over))
            for size in (0, 1, rate - 1, rate, rate + 1, most - 1, most, SQUEEZE_LIMIT, LIMIT):
                right = position_after(rate, size)
                for position in {0, 1, 2, rate - 1, rate, rate + 1, 199, 200, 1 << 32, (1 << 32) + right, BIG} - {right}:
                    self.refused_by_5(calls, ABSORBING, size, 0, position)
                    self.refused_by_5(calls, FINALIZED, 7, size, position)
            for squeezed in (1, 7, rate, most):
                self.refused_by_5(calls, ABSORBING, squeezed, squeezed, position_after(rate, squeezed))
        self.hold(calls)

    def test_longest(self):
        """Pieces, squeezes and one-go calls of the most bytes that a record can have. So many bytes of SHA3 are refused."""
        calls = Calls()
        for number, function in SPONGE.items():
            calls.fresh(number)
            calls.absorb(reference.ptn(MOST))
            calls.squeeze(MOST)
            calls.finalize(closing(number, 0x1F))
            calls.squeeze(MOST)
            calls.squeeze(function.digest or 32)
            calls.one_go(number, reference.ptn(MOST - (6 if number in TURBOSHAKE else 5)), closing(number, 0x01), function.digest or 32)
            calls.one_go(number, b"", closing(number, 0x01), MOST)
        self.assertEqual((calls.answers["R", 6], calls.answers["B", 6]), (len(SHA3), len(SHA3)), "the test itself is wrong")
        self.hold(calls)


if __name__ == "__main__":
    unittest.main()
