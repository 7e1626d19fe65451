"""KT runs and days by the book and by the run: the leaf in hand, the customization phase of request Q-2, events, words lent by request Q-6."""
import unittest

import model_run
import reference
import transcript
from model_run import Count, KtRun, Sponge
from short_runs import CUSTOM_LIMIT, KT_ABSORB_LIMIT, ShortDayRun, ShortDayTranscript, ShortKtRun, ShortKtTranscript, fields
from transcript import CHAINING, KT, Limits, lending, lent_after


def held(sponge):
    return sponge.position, sponge.lanes


def fresh(rate):
    return Sponge(rate, 12, Count())


class Leaf(unittest.TestCase):
    def test_kept_until_the_next_byte(self):
        """A full leaf stays in hand; the next byte puts its chaining value into the final node and starts a fresh leaf."""
        for rate in KT.values():
            run = KtRun(rate)
            run.absorb(reference.ptn(16_384))
            self.assertEqual(run.leaf.position, (8192 - 1) % rate + 1)
            run.absorb(b"\x07")
            self.assertEqual(held(run.leaf), (1, [7] + [0] * 24))
            node = reference.ptn(8192) + b"\x03" + bytes(7)
            node += reference.turboshake(rate, reference.ptn(16_384)[8192:], 0x0B, CHAINING[rate])
            alone = fresh(rate)
            alone.absorb(node)
            self.assertEqual(held(run.node), held(alone))

    def test_no_leaf_before_its_first_byte(self):
        for size in (0, 1, 8191, 8192):
            run = KtRun(168)
            run.absorb(reference.ptn(size))
            self.assertEqual(held(run.leaf), held(fresh(168)))
            self.assertEqual(run.node.position, model_run.position_after(168, size))

    def test_fresh_after_the_finalize(self):
        for size in (0, 8191, 8192, 20_000):
            run = KtRun(136)
            run.absorb(reference.ptn(size))
            run.finalize(b"")
            self.assertEqual(held(run.leaf), held(fresh(136)))
            self.assertEqual(run.node.position, 0)


class Customization(unittest.TestCase):
    """The customization phase, by request Q-2, in the book and in the run."""

    MESSAGE = reference.ptn(8000)

    def both(self, function=2):
        for one in (transcript.book_of(function), model_run.run_of(function)):
            self.assertEqual(one.absorb(self.MESSAGE), 0)
            yield one

    def test_limits(self):
        """The numbers of the request; the read limit stays."""
        self.assertEqual((Limits.ABSORB_LIMIT, Limits.CUSTOM_LIMIT, Limits.SQUEEZE_LIMIT), (17_179_869_183, 16_777_215, 4_294_967_295))
        self.assertEqual((Limits.ABSORB_LIMIT, Limits.CUSTOM_LIMIT, Limits.SQUEEZE_LIMIT), (2**34 - 1, 2**24 - 1, 2**32 - 1))

    def test_first_piece(self):
        """An empty one too ends the message phase; a message piece, an empty one too, and the old close then answer 3."""
        for function in (2, 3, 4):
            for piece in (b"", b"a"):
                for one in self.both(function):
                    self.assertEqual((one.phase, one.finish(), one.phase), (0, 3, 0))
                    self.assertEqual((one.customize(piece), one.phase), (0, 2))
                    self.assertEqual([one.absorb(bytes(size)) for size in (0, 1, 65_536)], [3, 3, 3])
                    self.assertEqual([one.finalize(bytes(size)) for size in (0, 1, 65_536)], [3, 3, 3])
                    self.assertEqual([one.squeeze(size) for size in (0, 1)], [(3, None)] * 2)
                    self.assertEqual((one.totals()[2], one.finish(), one.phase, one.totals()[2]), (len(piece), 0, 1, len(piece)))
                    self.assertEqual((one.finish(), one.customize(b""), one.customize(b"a"), one.finalize(b"")), (3, 3, 3, 3))

    def test_same_as_whole(self):
        """C in pieces is the C of the old close: the same output and, of a run, the same fields."""
        for function, kt in ((2, reference.kt128), (3, reference.kt256)):
            for size in (0, 1, 188, 189, 190, 191, 192, 193, 255, 256, 9000):
                custom = reference.ptn(size)
                for whole, cut in zip(self.both(function), self.both(function)):
                    self.assertEqual(whole.finalize(custom), 0)
                    self.assertEqual([cut.customize(custom[:100]), cut.customize(b""), cut.customize(custom[100:]), cut.finish()], [0] * 4)
                    self.assertEqual((whole.phase, whole.totals()), (cut.phase, cut.totals()))
                    if isinstance(whole, KtRun):
                        self.assertEqual(fields(whole), fields(cut))
                    self.assertEqual(cut.squeeze(100), (0, kt(self.MESSAGE, custom, 100)))

    def test_longest(self):
        """What would pass the limit is refused whole, in the message phase too, where it then goes on; less is taken."""
        for kind in (ShortKtTranscript, ShortKtRun):
            one = kind(168)
            self.assertEqual([one.customize(bytes(CUSTOM_LIMIT + 1)), one.phase, one.absorb(b"a"), one.totals()], [4, 0, 0, (1, 0, 0)])
            sizes = (0, CUSTOM_LIMIT - 1, 2, CUSTOM_LIMIT, 1, 0, 1)
            self.assertEqual([one.customize(bytes(size)) for size in sizes], [0, 0, 4, 4, 0, 0, 4])
            self.assertEqual((one.finish(), one.totals()), (0, (1, 0, CUSTOM_LIMIT)))
            # 3 before 4
            self.assertEqual([one.customize(bytes(size)) for size in (0, 1, CUSTOM_LIMIT + 1)], [3, 3, 3])
            self.assertEqual(one.squeeze(40), (0, reference.kt128(b"a", bytes(CUSTOM_LIMIT), 40)))

    def test_not_reached(self):
        """5 before 3 and 4, of the new calls and of the old ones."""
        over = CUSTOM_LIMIT + 1
        for phase, *totals in ((0, 5, 0, 1), (1, 5, 0, over), (2, 5, 0, over), (2, 5, 1, 0), (3, 5, 0, 0), (2, 26_001, 0, 0)):
            run = ShortKtRun(168)
            run.phase, (run.absorbed, run.squeezed, run.customized) = phase, totals
            run.node.position, run.leaf.position = run.positions_due()
            run.permutations = run.permutations_due()
            statuses = [run.absorb(b""), run.customize(b""), run.customize(bytes(over)), run.finish(), run.finalize(b""), run.squeeze(0)[0]]
            self.assertEqual(statuses, [5] * 6, (phase, totals))

    def test_positions_of_s(self):
        """In the customization phase the positions are those of M and C together."""
        for message, custom in ((0, 0), (0, 8192), (0, 8193), (8190, 2), (8190, 3), (8192, 1), (9000, 8000)):
            run, alone = KtRun(168), KtRun(168)
            run.absorb(reference.ptn(message))
            run.customize(reference.ptn(message + custom)[message:])
            alone.absorb(reference.ptn(message + custom))
            self.assertEqual(fields(run)[4:], fields(alone)[4:])
            self.assertEqual((run.totals(), run.is_reached()), ((message, 0, custom), True))


class Lent(unittest.TestCase):
    """A message piece with words lent, by request Q-6, in the book and in the run."""

    OTHERS = 0, 99, 101, 200, 300

    def statuses(self, one, *pieces):
        """With 100 words; any other number answers 12 to each of these pieces, and changes nothing."""
        before = one.phase, one.totals(), one.permutations
        refused = [lending(words, one.absorb, piece) for piece in pieces for words in self.OTHERS]
        self.assertEqual((refused, (one.phase, one.totals(), one.permutations)), ([12] * len(refused), before))
        return [lending(100, one.absorb, piece) for piece in pieces]

    def test_before_3_and_2(self):
        for kind in (ShortKtTranscript, ShortKtRun):
            one = kind(168)
            self.assertEqual(self.statuses(one, b"", b"abc", bytes(KT_ABSORB_LIMIT - 2), b""), [0, 0, 2, 0])
            self.assertEqual(one.totals(), (3, 0, 0))
            self.assertEqual((one.customize(b""), self.statuses(one, b"", b"a", bytes(KT_ABSORB_LIMIT))), (0, [3, 3, 3]))
            self.assertEqual((one.finish(), self.statuses(one, b"", b"a", bytes(KT_ABSORB_LIMIT))), (0, [3, 3, 3]))
            self.assertEqual(one.squeeze(40), (0, reference.kt128(b"abc", b"", 40)))

    def test_before_5(self):
        """Which only a run has."""
        for field, value in (("phase", 3), ("squeezed", 1), ("customized", 1), ("permutations", 1), ("absorbed", KT_ABSORB_LIMIT + 1)):
            run = ShortKtRun(136)
            setattr(run, field, value)
            self.assertEqual(self.statuses(run, b"", b"a", bytes(KT_ABSORB_LIMIT + 1)), [5, 5, 5], field)

    def test_same_as_plain(self):
        """With 100 words it is the plain call."""
        for rate in KT.values():
            for kind in (ShortKtTranscript, ShortKtRun):
                plain, lent = kind(rate), kind(rate)
                for piece in (reference.ptn(100), reference.ptn(8300), b"", reference.ptn(20_000)):
                    self.assertEqual(lending(100, lent.absorb, piece), plain.absorb(piece))
                    self.assertEqual((lent.totals(), lent.permutations), (plain.totals(), plain.permutations))
                self.assertEqual((lent.finalize(b"ab"), plain.finalize(b"ab"), lent.squeeze(40)), (0, 0, plain.squeeze(40)))

    def test_words_afterwards(self):
        self.assertEqual([lent_after(status) for status in range(17)], ["zero"] + 16 * ["kept"])


class Day(unittest.TestCase):
    def test_longest_event(self):
        """65,535 bytes are taken, one more is not, and what was refused is no part of the day."""
        for day in (transcript.book_of(4), model_run.run_of(4)):
            self.assertEqual([day.absorb(reference.ptn(size)) for size in (65_536, 65_535, 65_537, 262_144, 0, 1)], [8, 0, 8, 8, 0, 0])
            self.assertEqual(day.finalize(b"station"), 0)
            message = reference.ptn(65_535) + b"\xff\xff\x02" + b"\x00" + b"\x00\x01\x01"
            self.assertEqual(day.squeeze(40), (0, reference.kt128(message, b"station", 40)))

    def test_order_of_the_refusals(self):
        """5 (which only a run has), 3, 8, 2. Three events of 8,303 bytes with their lengths leave 1,091: one of 1,088 and its length."""
        for kind in (ShortDayTranscript, ShortDayRun):
            day = kind(168)
            sizes = (8300, 8300, 8300, 8301, 1092, 1091, 1090, 1089, 1088, 1, 8301, 0)
            self.assertEqual([day.absorb(bytes(size)) for size in sizes], [0, 0, 0, 8, 2, 2, 2, 2, 0, 2, 8, 2])
            self.assertEqual(day.finalize(bytes(CUSTOM_LIMIT + 1)), 4)
            self.assertEqual(day.customize(bytes(CUSTOM_LIMIT + 1)), 4)
            self.assertEqual(day.customize(b""), 0)
            self.assertEqual([day.absorb(bytes(size)) for size in (0, 1, 8301, 26_001)], [3, 3, 3, 3])
            self.assertEqual(day.finish(), 0)
            self.assertEqual([day.absorb(bytes(size)) for size in (0, 1, 8301, 26_001)], [3, 3, 3, 3])
        day.phase = 3
        self.assertEqual([day.absorb(bytes(size)) for size in (0, 1, 8301, 26_001)], [5, 5, 5, 5])

    def test_the_last_bytes(self):
        """What is left of 26,000 bytes decides which events are taken: an empty one needs one byte, one of a byte three."""
        for left, sizes, statuses in (
            (1, (1, 0, 0), (2, 0, 2)),
            (2, (2, 1, 0, 1, 0, 0), (2, 2, 0, 2, 0, 2)),
            (3, (2, 1, 1, 0), (2, 0, 2, 2)),
            (257, (257, 256, 255, 0), (2, 2, 0, 2)),
            (258, (257, 256, 255, 1, 0, 0), (2, 2, 0, 2, 0, 2)),
            (259, (257, 256, 0), (2, 0, 2)),
        ):
            for kind in (ShortDayTranscript, ShortDayRun):
                day = kind(168)
                self.assertEqual([day.absorb(bytes(size)) for size in (8297, 8297, 8297, 1100 - left - 3)], [0] * 4)
                self.assertEqual([day.absorb(bytes(size)) for size in sizes], list(statuses), left)

    def test_refused_whole(self):
        """A refused event leaves the run as it was, one that would have fitted without its length too."""
        day = ShortDayRun(168)
        day.absorb(reference.ptn(8000))
        for _ in range(2):
            day.absorb(reference.ptn(8200))
        for size, status in ((8301, 8), (1592, 2), (1591, 2), (1590, 2), (1589, 2)):
            before = fields(day)
            self.assertEqual(day.absorb(reference.ptn(size)), status)
            self.assertEqual(fields(day), before)
        self.assertEqual((day.absorb(reference.ptn(1588)), day.absorbed), (0, 26_000))

    def test_name(self):
        """The station's name is the customization string, whole or in pieces."""
        digest = reference.kt128(b"one\n\x04\x01\x00two\n\x04\x01", b"station", 32)
        for whole in (True, False):
            day = ShortDayTranscript(168)
            for event in (b"one\n", b"", b"two\n"):
                day.absorb(event)
            self.assertEqual(day.finalize(bytes(CUSTOM_LIMIT + 1)), 4)
            if whole:
                self.assertEqual([day.finalize(b"station"), day.finalize(b"station")], [0, 3])
            else:
                self.assertEqual([day.customize(b"sta"), day.customize(b"tion"), day.finish(), day.finish()], [0, 0, 0, 3])
            self.assertEqual(day.squeeze(32), (0, digest))

    def test_same_as_a_kt_run(self):
        """A day's fields are those of a KT128 run that took the day's message in one piece."""
        for sizes in ((), (0,), (0, 0), (8189,), (8190, 0), (40, 0, 17), (255, 256, 8000, 9000)):
            events = [reference.ptn(size) for size in sizes]
            day, run = model_run.run_of(4), model_run.run_of(2)
            for event in events:
                day.absorb(event)
            run.absorb(reference.day_message(events))
            self.assertEqual(fields(day), fields(run))


if __name__ == "__main__":
    unittest.main()
