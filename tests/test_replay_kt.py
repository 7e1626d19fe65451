"""The program `replay` answers lists of KT calls as the transcript does, and overwritten runs by the same rules.

Needs crates/replay/out/replay, which `rt ci` leaves.
"""
import unittest

import reference
from kt_lists import BIG, CHUNK, CUSTOM, CUSTOM_LIMIT, LIMIT, SQUEEZE_LIMIT, KtLists, fit
from replay import ABSORBED, CUSTOMIZED, LEAF_POSITION, MOST, PERMUTATIONS, PHASE, POSITION, SQUEEZED, Calls, Held
from transcript import ABSORBING, CUSTOMIZING, FINALIZED, KT

CALLS = 20_000  # of all ops together


class Lists(Held):
    def test_random_lists(self):
        """Calls from a fixed seed, each number that a call here can answer among them. No record holds a C that answers 4 by itself."""
        calls = KtLists().made(CALLS)
        possible = {"A": (0, 2, 3, 5), "F": (0, 3, 5), "C": (0, 3, 4, 5), "E": (0, 3, 5), "R": (0, 3, 5, 6), "K": (0, 7)}
        for op, statuses in possible.items():
            for status in statuses:
                self.assertGreater(calls.answers[op, status], 20, (op, status))
        for number in KT:
            self.assertGreater(calls.wrong_counts[number], 20, number)
        self.hold(calls)

    def test_edges_of_the_chunks(self):
        """Every pair of a message around a chunk's end and a customization string of document 01, in one go and cut."""
        calls = Calls()
        sizes = (0, 1, CHUNK - 2, CHUNK - 1, CHUNK, CHUNK + 1, 2 * CHUNK - 1, 2 * CHUNK, 2 * CHUNK + 1)
        customs = (0, 1, 255, 256, 8189, 8190)
        for function in KT:
            for message, last in ((reference.ptn(size), reference.ptn(custom)) for size in sizes for custom in customs):
                calls.kt_one_go(function, message, last, 40)
                calls.fresh(function)
                for part in (message[: len(message) // 3], b"", message[len(message) // 3 :]):
                    calls.absorb(part)
                calls.finalize(last)
                calls.squeeze(15)
                calls.squeeze(25)
            for size in (0, CHUNK, 2 * CHUNK + 1):
                for custom in (65_535, 65_536, 68_921):
                    calls.kt_one_go(function, reference.ptn(size), reference.ptn(custom), 40)
                    calls.fresh(function)
                    calls.absorb(reference.ptn(size))
                    calls.finalize(reference.ptn(custom))
                    calls.squeeze(40)
        self.assertEqual((calls.answers["F", 0], calls.answers["K", 0]), (2 * (9 * 6 + 9), 2 * (9 * 6 + 9)), "the test itself is wrong")
        self.hold(calls)

    def test_limits(self):
        """Totals exactly at the limit are taken, one more is refused, and the phase is asked before the total."""
        calls = Calls()
        for function, rate in KT.items():
            for left in (0, 1, rate, CHUNK - 2, CHUNK - 1, CHUNK, CHUNK + 1):
                calls.fresh(function)
                calls.set(ABSORBED, LIMIT - left)
                fit(calls)
                for size in (left + 1, left, 1, 0, 5000):
                    calls.absorb(bytes(size))
                calls.finalize(b"ab")
                calls.absorb(b"a")
                calls.set(SQUEEZED, SQUEEZE_LIMIT - left)
                fit(calls)
                for size in (left + 1, left, 1, 0, 5000):
                    calls.squeeze(size)
        self.assertEqual((calls.answers["A", 2], calls.answers["R", 6]), (2 * 7 * 3, 2 * 7 * 3), "the test itself is wrong")
        self.hold(calls)

    def refused_by_5(self, calls, *totals, positions=None, permutations=None):
        """Every call on a run with this phase and these totals answers 5, one that another number would refuse too.

        The positions and the permutations are those that go with the totals where none are given.
        """
        self.write(calls, *totals)
        if permutations is not None:
            calls.set(PERMUTATIONS, permutations)
        for field, position in zip((POSITION, LEAF_POSITION), positions or ()):
            calls.set(field, position)
        before, refused = calls.answers.total(), self.refused(calls)
        for size in (0, 1, 1000):
            calls.absorb(bytes(size))
            calls.customize(bytes(size))
            calls.squeeze(size)
        calls.finalize(b"")
        calls.finalize(CUSTOM[:300])
        calls.finish()
        self.assertEqual(self.refused(calls) - refused, calls.answers.total() - before, "the test itself is wrong")

    def write(self, calls, *totals):
        for field, value in zip((PHASE, ABSORBED, SQUEEZED, CUSTOMIZED), totals):
            calls.set(field, value)
        fit(calls)

    def refused(self, calls):
        return sum(count for (_, status), count in calls.answers.items() if status == 5)

    def taken(self, calls, *totals):
        """A run with this phase, these totals and their positions is not refused by 5."""
        self.write(calls, *totals)
        refused = self.refused(calls)
        calls.absorb(b"")
        calls.squeeze(0)
        calls.customize(b"")
        self.assertEqual(self.refused(calls), refused, "the test itself is wrong")

    def test_not_reached(self):
        """Phases that are none, totals past their limits, a squeeze before a close."""
        calls = Calls()
        for function, rate in KT.items():
            calls.fresh(function)
            for phase in (*range(3, 10), 0x80, 0xFF):
                for absorbed, customized in ((0, 0), (9, 0), (9, 9)):
                    for positions, permutations in ((None, None), ((absorbed + customized, 0), 0)):
                        self.refused_by_5(calls, phase, absorbed, 0, customized, positions=positions, permutations=permutations)
            for over in (LIMIT + 1, LIMIT + 1 + rate, 1 << 63, BIG):
                for phase in (ABSORBING, FINALIZED, CUSTOMIZING):
                    self.refused_by_5(calls, phase, over, 0, 0)
            for over in (SQUEEZE_LIMIT + 1, SQUEEZE_LIMIT + 1 + rate, LIMIT, 1 << 63, BIG):
                for customized in (0, 9):
                    self.refused_by_5(calls, FINALIZED, 0, over, customized)
            for squeezed in (1, 7, rate, SQUEEZE_LIMIT):
                self.refused_by_5(calls, ABSORBING, squeezed, squeezed, 0)
                self.refused_by_5(calls, CUSTOMIZING, squeezed, squeezed, 0)
                self.refused_by_5(calls, CUSTOMIZING, squeezed - 1, squeezed, 1)
        self.hold(calls)

    def test_third_total(self):
        """The customization bytes: none in the message phase, at most their limit in the other two, whatever the other totals are."""
        calls = Calls()
        for function, rate in KT.items():
            calls.fresh(function)
            for absorbed in (0, 1, rate, CHUNK, CHUNK + 1, LIMIT - 1, LIMIT):
                for customized in (1, 7, rate, CHUNK, CUSTOM_LIMIT, CUSTOM_LIMIT + 1, 1 << 32, BIG):
                    self.refused_by_5(calls, ABSORBING, absorbed, 0, customized)
                # what would be due were the customization bytes counted
                self.write(calls, CUSTOMIZING, absorbed, 0, 7)
                positions, permutations = calls.run.positions_due(), calls.run.permutations_due()
                self.refused_by_5(calls, ABSORBING, absorbed, 0, 7, positions=positions, permutations=permutations)
                for over in (CUSTOM_LIMIT + 1, CUSTOM_LIMIT + 1 + rate, 1 << 32, (1 << 32) + 5, 1 << 63, BIG):
                    self.refused_by_5(calls, CUSTOMIZING, absorbed, 0, over)
                    self.refused_by_5(calls, FINALIZED, absorbed, 0, over)
                    self.refused_by_5(calls, FINALIZED, absorbed, SQUEEZE_LIMIT, over)
                for customized in (0, 1, CUSTOM_LIMIT - 1, CUSTOM_LIMIT):
                    self.taken(calls, CUSTOMIZING, absorbed, 0, customized)
                    for squeezed in (0, rate, SQUEEZE_LIMIT):
                        self.taken(calls, FINALIZED, absorbed, squeezed, customized)
                self.taken(calls, ABSORBING, absorbed, 0, 0)
            # totals that come to 7 in 64 bits, with the positions and the permutations of 7 bytes
            for some in (8, CHUNK, CUSTOM_LIMIT):
                self.refused_by_5(calls, CUSTOMIZING, some, 0, BIG + 8 - some, positions=(7, 0), permutations=0)
                self.refused_by_5(calls, CUSTOMIZING, BIG + 8 - some, 0, some, positions=(7, 0), permutations=0)
        self.hold(calls)

    def test_wrong_positions(self):
        """Each of the two positions wrong while the other is right; with both right the run is taken."""
        for function, rate in KT.items():
            calls = Calls()
            calls.fresh(function)
            sizes = (0, 1, rate, rate + 1, CHUNK - 1, CHUNK, CHUNK + 1, CHUNK + rate, 2 * CHUNK, 2 * CHUNK + 1, 40 * CHUNK + 7, LIMIT)
            totals = [(ABSORBING, n, 0, 0) for n in sizes]
            totals += [(FINALIZED, 9, 0, 0), (FINALIZED, 9000, rate, 9), (FINALIZED, 9000, SQUEEZE_LIMIT, CUSTOM_LIMIT)]
            pairs = [(0, 0), (1, rate - 1), (CHUNK - 1, 1), (CHUNK, 0), (CHUNK, 1), (CHUNK + 1, CHUNK), (0, CHUNK + 1)]
            pairs += [(5, CUSTOM_LIMIT), (LIMIT, 1), (LIMIT, CUSTOM_LIMIT)]
            totals += [(CUSTOMIZING, absorbed, 0, customized) for absorbed, customized in pairs]
            for phase, absorbed, squeezed, customized in totals:
                self.write(calls, phase, absorbed, squeezed, customized)
                node, leaf = calls.run.positions_due()
                for wrong in {0, 1, 2, node + 1, rate - 1, rate, rate + 1, 200, (1 << 32) + node, BIG} - {node}:
                    self.refused_by_5(calls, phase, absorbed, squeezed, customized, positions=(wrong, leaf))
                for wrong in {0, 1, 2, leaf + 1, rate - 1, rate, rate + 1, 200, (1 << 32) + leaf, BIG} - {leaf}:
                    self.refused_by_5(calls, phase, absorbed, squeezed, customized, positions=(node, wrong))
                self.taken(calls, phase, absorbed, squeezed, customized)
            self.hold(calls)

    def test_longest(self):
        """Pieces, customization strings, squeezes and one-go calls of the most bytes that a record can have."""
        calls = Calls()
        calls.fresh(2)
        calls.absorb(reference.ptn(MOST))
        calls.squeeze(MOST)
        calls.finalize(reference.ptn(MOST))
        calls.finalize(reference.ptn(MOST))
        calls.squeeze(MOST)
        calls.kt_one_go(3, reference.ptn(MOST - 9), b"", 32)
        calls.kt_one_go(3, b"", reference.ptn(MOST - 9), 32)
        calls.kt_one_go(2, reference.ptn(MOST - 9 - 65_536), reference.ptn(65_536), 32)
        calls.kt_one_go(2, b"", b"", MOST)
        self.hold(calls)


if __name__ == "__main__":
    unittest.main()
