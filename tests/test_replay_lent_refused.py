"""The program `replay` answers 12 before all other numbers to a KT feed whose lent slice is not of 100 words (request Q-6, op a), and with 100
words refuses as the plain feed does. A refused call leaves the run and the words as they were.

Needs crates/replay/out/replay, which `rt ci` leaves.
"""
import unittest

from kt_lists import BIG, CHUNK, CUSTOM, LIMIT, SQUEEZE_LIMIT, STREAMS, fit
from lent_calls import MOST_WORDS, OTHERS, LentCalls, lent_record
from replay import ABSORBED, CUSTOMIZED, LEAF_POSITION, PERMUTATIONS, PHASE, POSITION, SQUEEZED, Held, record, set_record
from transcript import ABSORBING, CUSTOMIZING, FINALIZED, KT

LONG = 5 * CHUNK + 1  # of a piece that has four whole leaves, wherever it begins
SIZES = 0, 1, 700, 4 * CHUNK, LONG


class Refused(Held):
    def setUp(self):
        self.calls = LentCalls()

    def fed(self, status, *pieces, words=(100,)):
        """Each of these pieces, with each of these numbers of words, gets this answer."""
        before, count = self.calls.answers["a", status], len(pieces) * len(words)
        for piece in pieces:
            for lent in words:
                self.calls.absorb_lent(piece, lent)
        self.assertEqual(self.calls.answers["a", status], before + count, "the test itself is wrong")

    def refused(self, status, *pieces):
        """With 100 words these pieces get this answer, which is not 0, and with any other number 12. The run is as it was."""
        before = self.calls.state
        self.fed(12, *pieces, words=OTHERS)
        self.fed(status, *pieces)
        if before:
            self.assertEqual(self.calls.state, before, "the test itself is wrong")

    def pieces(self):
        return [STREAMS[0][:size] for size in SIZES]

    def test_every_number_of_words(self):
        """0 to 300, on a run that takes the piece: every one but 100 is refused, and adds nothing."""
        for function in KT:
            for at, size in ((0, 3), (CHUNK, 4 * CHUNK)):
                self.calls.fresh(function)
                self.calls.absorb(STREAMS[0][:at])
                for words in range(MOST_WORDS + 1):
                    self.calls.absorb_lent(STREAMS[0][:size], words)
        self.assertEqual((self.calls.answers["a", 0], self.calls.answers["a", 12]), (4, 4 * 300), "the test itself is wrong")
        self.hold(self.calls)

    def test_before_0(self):
        """A slice of another length is refused at each place of a run, and the piece then taken, plainly or with 100 words."""
        for function, rate in KT.items():
            for at in (0, 1, rate, CHUNK - 1, CHUNK, CHUNK + 1, 3 * CHUNK):
                for piece in self.pieces():
                    self.calls.fresh(function)
                    self.calls.absorb(STREAMS[0][:at])
                    self.fed(12, piece, words=OTHERS)
                    self.fed(0, piece)
                    self.fed(12, piece, words=OTHERS)
                    self.calls.absorb(piece[:CHUNK])
        self.hold(self.calls)

    def test_before_3(self):
        """In the customization phase, that of an empty piece too, and after each close; an empty message piece too."""
        calls = self.calls
        for function in KT:
            for at in (0, CHUNK, CHUNK + 9, LONG):
                for close in ([("finalize", b"abc")], [("customize", b""), ("customize", CUSTOM[:CHUNK]), ("finish",)]):
                    calls.fresh(function)
                    calls.absorb_lent(STREAMS[0][:at])
                    for name, *arguments in close:
                        getattr(calls, name)(*arguments)
                        self.refused(3, *self.pieces())
                    for size in (0, 1, 32, 200):
                        calls.squeeze(size)
                        self.refused(3, *self.pieces())
        self.hold(calls)

    def test_before_2(self):
        """At the limit of the message: what just reaches it is taken, four whole leaves too, and one byte more is not."""
        for function, rate in KT.items():
            for left in (0, 1, rate, CHUNK - 1, CHUNK, 4 * CHUNK - 1, 4 * CHUNK, 5 * CHUNK - 1, 5 * CHUNK, 5 * CHUNK + 1, 9 * CHUNK + 5):
                self.calls.fresh(function)
                self.calls.set(ABSORBED, LIMIT - left)
                fit(self.calls)
                self.calls.dump()
                self.refused(2, STREAMS[0][: left + 1], STREAMS[0][: left + CHUNK], STREAMS[0][: left + 5 * CHUNK])
                self.fed(12, STREAMS[0][:left], words=OTHERS)
                self.fed(0, STREAMS[0][:left])
                self.refused(2, b"a", STREAMS[0][:LONG])
                self.fed(0, b"")
                # 3 before 2
                self.calls.finalize(b"")
                self.refused(3, b"", b"a", STREAMS[0][:LONG])
        self.hold(self.calls)

    def unreached(self, function, *fields, fitted=True):
        """A run with these fields, and the positions and permutations that go with them, or those of no bytes: every piece answers 5."""
        self.calls.fresh(function)
        for field, value in fields:
            self.calls.set(field, value)
        if fitted:
            fit(self.calls)
        self.calls.dump()
        self.refused(5, b"", b"a", STREAMS[0][:LONG])

    def test_before_5(self):
        """Phases that are none, totals past their limits, a read before the close, customization bytes in the message phase."""
        for function in KT:
            for phase in (3, 4, 0x80, 0xFF):
                for fitted in (True, False):
                    self.unreached(function, (PHASE, phase), fitted=fitted)
            for phase in (ABSORBING, CUSTOMIZING, FINALIZED):
                self.unreached(function, (PHASE, phase), (ABSORBED, LIMIT + 1))
                self.unreached(function, (PHASE, phase), (ABSORBED, BIG))
                self.unreached(function, (PHASE, phase), (SQUEEZED, SQUEEZE_LIMIT + 1))
            for phase in (ABSORBING, CUSTOMIZING):
                self.unreached(function, (PHASE, phase), (SQUEEZED, 1))
            for absorbed in (0, CHUNK, LIMIT):
                self.unreached(function, (ABSORBED, absorbed), (CUSTOMIZED, 1))
        self.hold(self.calls)

    def test_before_5_for_a_field(self):
        """A position or the permutations one off, in a run that was fed through the second engine; with the right ones it goes on."""
        calls = self.calls
        for function in KT:
            for size in (CHUNK, CHUNK + 1, 5 * CHUNK, 5 * CHUNK + 1, 7 * CHUNK + 1000):
                calls.fresh(function)
                calls.absorb_lent(STREAMS[0][:size])
                node, leaf = (sponge.position for sponge in calls.run.sponges())
                for field, right in ((POSITION, node), (LEAF_POSITION, leaf), (PERMUTATIONS, calls.run.permutations), (ABSORBED, size)):
                    for wrong in {right + 1, abs(right - 1), right + (1 << 32), BIG} - {right}:
                        calls.set(field, wrong)
                        calls.dump()
                        self.refused(5, b"", b"a", STREAMS[0][:LONG])
                    calls.set(field, right)
                self.fed(0, b"", STREAMS[0][:LONG])
                # the same run when it is closed: 5 before 3
                calls.finalize(b"abc")
                calls.set(PERMUTATIONS, calls.run.permutations + 1)
                calls.dump()
                self.refused(5, b"", STREAMS[0][:LONG])
        self.hold(calls)

    def test_lines(self):
        """As they are printed. Of no words it is said that they are kept."""
        for function in KT:
            due = [(record("N", bytes([function])), "fresh")]
            due += [(lent_record(words, b"abc"), "12 kept") for words in OTHERS]
            due += [(lent_record(100, piece), "0 zero") for piece in (b"", b"abc", STREAMS[0][:LONG])]
            due += [(record("F", b""), "0"), (lent_record(0, b""), "12 kept"), (lent_record(100, b""), "3 kept"), (record("C", b""), "3")]
            due += [(set_record(PHASE, 9), "set"), (lent_record(99, b"abc"), "12 kept"), (lent_record(100, b"abc"), "5 kept")]
            self.hold_lines(due)


if __name__ == "__main__":
    unittest.main()
