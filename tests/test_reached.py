"""The test of answer 5 is what calls from a fresh run reach."""
import itertools
import unittest

from model_run import DayRun, KtRun, Run, Sponge
from sp800_185 import Cshake, Kmac, Kmacxof
from sponge_functions import Function
from started_run import StartedRun
from transcript import FINALIZED


class SmallSponge(Sponge):
    """The lanes play no part."""

    def permuted_lanes(self):
        return self.lanes

    def mix(self, start, part):
        pass


class SmallRun(Run):
    """One whose states are few enough to visit all."""

    ABSORB_LIMIT, SQUEEZE_LIMIT = 20, 17
    SPONGE = SmallSponge
    FUNCTION = Function("small", 8, 12)

    def __init__(self):
        super().__init__(self.FUNCTION)

    def key(self):
        return self.phase, *self.totals(), self.permutations, *(sponge.position for sponge in self.sponges())

    def set(self, phase, absorbed, squeezed, permutations=0, *positions):
        self.phase, self.absorbed, self.squeezed, self.permutations = phase, absorbed, squeezed, permutations
        for sponge, position in zip(self.sponges(), positions):
            sponge.position = position
        return self


class SmallDigestRun(SmallRun):
    """One that has a byte of its own after the message, and a digest of less than a block."""

    FUNCTION = Function("small digest", 8, 24, 0x06, 5)


class SmallKtRun(SmallRun, KtRun):
    """Chunks of 6 bytes, blocks of 4, chaining values of 3: chunks end in the middle of a block and at its end."""

    ABSORB_LIMIT, SQUEEZE_LIMIT, CUSTOM_LIMIT, CHUNK = 14, 6, 13, 6
    FUNCTION = Function("small nodes", 4, 12)

    def __init__(self):
        Run.__init__(self, self.FUNCTION)
        self.customized = 0
        self.leaf = self.fresh_sponge()
        self.chaining = 3

    def set(self, phase, absorbed, squeezed, customized, *rest):
        self.customized = customized
        return super().set(phase, absorbed, squeezed, *rest)


class SmallDayRun(DayRun, SmallKtRun):
    EVENT_LIMIT = 5


class SmallStartedRun(SmallRun, StartedRun):
    """One that begins with a start; blocks of 8 bytes. Without strings it is the first that a start gives."""

    ABSORB_LIMIT, SQUEEZE_LIMIT = 9, 9
    STRING_LIMIT, KEY_LIMIT = 7, 9

    def __init__(self, first=b"", custom=b""):
        StartedRun.__init__(self, self.FUNCTION, first, custom)

    @classmethod
    def starts(cls):
        """All runs that a start within the limits gives."""
        most = cls.KEY_LIMIT if cls.FUNCTION.is_keyed else cls.STRING_LIMIT
        return [cls(bytes(first), bytes(custom)) for first in range(most + 1) for custom in range(cls.STRING_LIMIT + 1)]

    def key(self):
        return self.phase, *self.totals(), *self.after_count(), self.permutations, self.node.position

    def set(self, phase, absorbed, squeezed, *rest):
        if self.function.has_length:
            self.output_length, *rest = rest
        if self.function.has_bit:
            self.is_shake, *rest = rest
        return super().set(phase, absorbed, squeezed, *rest)


class SmallCshakeRun(SmallStartedRun):
    """The prefix: 01 08, then N and S with two bytes before each, together 7 to 20 bytes, or nothing."""

    FUNCTION = Cshake("small cSHAKE", 8, range(1, 4))


class SmallKmacRun(SmallStartedRun):
    """10 to 17 bytes with S, and 4 to 13 with the key, in blocks of their own."""

    FUNCTION = Kmac("small KMAC", 8, range(3, 6))


class SmallKmacxofRun(SmallStartedRun):
    FUNCTION = Kmacxof("small KMACXOF", 8, range(3, 6))


class Reached(unittest.TestCase):
    def reached_from_fresh(self, kind, calls):
        """All that these calls reach, and any piece and any read, by the name of the call and its arguments."""
        return self.reached_from([kind()], kind, calls)

    def reached_from(self, beginnings, kind, calls):
        reached, left = set(), [run.key() for run in beginnings]
        while left:
            key = left.pop()
            if key in reached:
                continue
            reached.add(key)
            for name, *arguments in (*calls, *(call for size in range(12) for call in (("absorb", bytes(size)), ("squeeze", size)))):
                run = kind().set(*key)
                getattr(run, name)(*arguments)
                left.append(run.key())
        return reached

    def near(self, run, reached, totals, positions):
        """Each of these phases and totals with the right positions and every count, and with the right count and all of these positions.

        Right are those that calls reach or, where calls reach none, those that the run says are due.
        """
        of_totals = {key[: len(totals)]: key[len(totals) :] for key in reached}
        self.assertEqual(len(of_totals), len(reached), "phase and totals tell the permutations and the positions")
        for told in itertools.product(*totals):
            run.set(*told)
            count, *places = of_totals.get(told) or (run.permutations_due(), *run.positions_due())
            yield from ((*told, permutations, *places) for permutations in (*range(22), 1 << 32, (1 << 64) - 1))
            yield from ((*told, count, *others) for others in itertools.product(*positions))

    def test_by_every_call_from_a_fresh_run(self):
        """Visits all that calls reach from a fresh run, then asks is_reached of every phase, total, count and position near them."""
        for kind, close, most in ((SmallRun, ("finalize", 0x1F), 17), (SmallDigestRun, ("finalize",), 5)):
            reached = self.reached_from_fresh(kind, [close])
            run = kind()
            near = self.near(run, reached, (range(4), range(24), range(20)), (range(11),))
            self.assertEqual({key for key in near if run.set(*key).is_reached()}, reached)
            self.assertEqual(len(reached), 21 + 21 * (most + 1))

    def test_by_every_kt_call(self):
        """A day reaches what a KT run does: an empty event adds one byte. Either close alone reaches every closed run there is."""
        pieces = [("customize", bytes(size)) for size in (0, 1, 5)]
        wholes = [("finalize", bytes(size)) for size in range(15)]
        for kind in (SmallKtRun, SmallDayRun):
            reached = self.reached_from_fresh(kind, [*pieces, ("finish",)])
            run = kind()
            near = self.near(run, reached, (range(4), range(16), range(8), range(15)), (range(6), range(6)))
            self.assertEqual({key for key in near if run.set(*key).is_reached()}, reached)
            self.assertEqual(len(reached), 15 + 15 * 14 + 15 * 7 * 14)
            closed = {key for key in reached if key[0] == FINALIZED}
            self.assertEqual({key for key in self.reached_from_fresh(kind, wholes) if key[0] == FINALIZED}, closed)

    def near_starts(self, run, keys):
        """Each of these keys with every count, and with every position, and the right ones of phases and totals that no call reaches."""
        for told in keys:
            run.set(*told, 0, 0)
            due, (place,) = run.permutations_due(), run.positions_due()
            yield from ((*told, count, place) for count in (*range(15), 1 << 32, (1 << 64) - 1))
            yield from ((*told, count, position) for count in (due, due + 1) for position in range(11))

    def test_by_every_call_from_a_start(self):
        """From every start within the limits: of cSHAKE with the bit and without, of plain KMAC with every output length."""
        lengths = range(11)  # up to one past the read limit
        for kind, closes, behind in (
            (SmallCshakeRun, [("finalize",)], [(False,), (True,)]),
            (SmallKmacRun, [("finalize", length) for length in lengths], [(length,) for length in lengths]),
            (SmallKmacxofRun, [("finalize",)], [()]),
        ):
            starts = kind.starts()
            prefixes = {run.permutations + 1 for run in starts if run.has_prefix()}
            self.assertEqual(prefixes, set(kind.FUNCTION.blocks), "the test itself is wrong")
            reached = self.reached_from(starts, kind, closes)
            run = kind()
            keys = [(*told, *more) for told in itertools.product(range(4), range(12), range(12)) for more in behind]
            self.assertEqual({key for key in self.near_starts(run, keys) if run.set(*key).is_reached()}, reached)
            most = kind.SQUEEZE_LIMIT
            # what is open, and what is closed and read so far: of plain KMAC up to each length
            states = 1 + (sum(length + 1 for length in range(1, most + 1)) if kind is SmallKmacRun else most + 1)
            self.assertEqual(len(reached), 10 * states * (3 + (kind is SmallCshakeRun)))


if __name__ == "__main__":
    unittest.main()
