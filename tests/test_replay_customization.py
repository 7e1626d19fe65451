"""The program `replay` takes a customization string, or a station's name, in pieces as request Q-2 says, on KT runs and on days.

Needs crates/replay/out/replay, which `rt ci` leaves.
"""
import unittest

import reference
from kt_lists import CHUNK, CUSTOM, CUSTOM_LIMIT, LIMIT, SQUEEZE_LIMIT, STREAMS, event_of, fit
from replay import ABSORBED, CUSTOMIZED, LANES, LEAF_LANES, MOST, PHASE, SQUEEZED, Calls, Held
from transcript import ABSORBING, CHAINING, CUSTOMIZING, DAY, FINALIZED, KT, RATES, Limits

FUNCTIONS = (*KT, *DAY)
LONG_EVENT = bytes(Limits.EVENT_LIMIT + 1)
# Lengths of the message, each with those of a C of more than 255 bytes with which S ends up to one byte before or after a chunk's end, or
# with which C itself does: length_encode then has three bytes.
ENDS = {
    size: [chunks * CHUNK - size + more for chunks in (1, 2, 3) for more in range(-5, 2) if 255 < chunks * CHUNK - size + more < 10_000]
    for size in (0, 1, 100, CHUNK - 1, CHUNK, CHUNK + 1, CHUNK + 168)
}
SIZES = 0, 1, 2, 135, 136, 137, 167, 168, 169, 255, 256, 300


def cuts(custom, start):
    """Ways to cut C, before which S has `start` bytes: whole, empty pieces around it, in halves, in thirds, at the chunks' ends, the last bytes
    one by one."""
    half, third, tail = len(custom) // 2, len(custom) // 3, max(0, len(custom) - 6)
    ends = [0, *(end for end in range(-start % CHUNK, len(custom), CHUNK) if end), len(custom)]
    yield [custom]
    yield [b"", custom, b""]
    yield [custom[:half], custom[half:]]
    yield [custom[:third], b"", b"", custom[third : 2 * third], custom[2 * third :]]
    yield [custom[a:b] for a, b in zip(ends, ends[1:])]
    yield [custom[:tail], *(custom[at : at + 1] for at in range(tail, len(custom)))]


class Customization(Held):
    def setUp(self):
        self.calls = Calls()

    def fresh(self, function, message):
        """A run with this message, or a day with as long a one: one event, which is shorter by its length encoding."""
        self.calls.fresh(function)
        if message:
            self.calls.absorb(message[: event_of(len(message))] if function in DAY else message)
        self.assertEqual(self.calls.run.absorbed, len(message), "the test itself is wrong")

    def answered(self, op, status, call, *arguments):
        """The call with each of these lists of arguments gets this answer."""
        before = self.calls.answers[op, status]
        for one in arguments:
            call(*one)
        self.assertEqual(self.calls.answers[op, status], before + len(arguments), "the test itself is wrong")

    def absorbed(self, status, *pieces):
        self.answered("A", status, self.calls.absorb, *((piece,) for piece in pieces))

    def customized(self, status, *pieces):
        self.answered("C", status, self.calls.customize, *((piece,) for piece in pieces))

    def finalized(self, status, *customs):
        self.answered("F", status, self.calls.finalize, *((custom,) for custom in customs))

    def finished(self, status):
        self.answered("E", status, self.calls.finish, ())

    def squeezed(self, status, *sizes):
        self.answered("R", status, self.calls.squeeze, *((size,) for size in sizes))

    def dumped(self):
        """The line of the dump after the last call. Two that are equal are then equal dumps of the program, which is held to both."""
        return self.calls.state

    def overwritten(self, function, phase, absorbed, customized, squeezed=0):
        """A run that has this phase and these totals, the positions that go with them, and lanes that are not zero."""
        self.calls.fresh(function)
        for field, value in ((PHASE, phase), (ABSORBED, absorbed), (SQUEEZED, squeezed), (CUSTOMIZED, customized)):
            self.calls.set(field, value)
        fit(self.calls)
        for i, lane in enumerate(reference.state_of(STREAMS[1][:200])):
            self.calls.set(LANES + i, lane)
            if phase != FINALIZED:
                self.calls.set(LEAF_LANES + i, lane ^ 1)

    def test_first_piece_ends_the_message(self):
        """Even an empty one. After it message pieces and events, even empty ones, and the old close answer 3, and so does a read."""
        for function in FUNCTIONS:
            for size in (0, 1, 5, 168, CHUNK - 1, CHUNK, CHUNK + 1, 2 * CHUNK):
                for first in (b"", b"a", CUSTOM[:CHUNK]):
                    self.fresh(function, STREAMS[0][:size])
                    self.customized(0, first)
                    before = self.dumped()
                    self.absorbed(3, b"", b"a", LONG_EVENT, b"")
                    self.finalized(3, b"", b"abc", first)
                    self.squeezed(3, 0, 1, 32)
                    self.assertEqual(self.dumped(), before, "the test itself is wrong")
                    self.assertEqual(before.split()[0], "02", "the test itself is wrong")
                    self.customized(0, b"b")
                    self.absorbed(3, b"", b"a")
                    self.finalized(3, b"")
                    self.finished(0)
                    self.squeezed(0, 32)
        self.hold(self.calls)

    def test_new_close(self):
        """It answers 3 in the message phase, whose run is then as it was, and when the run is closed, by either close."""
        for function in FUNCTIONS:
            for size in (0, 1, 168, CHUNK, CHUNK + 1):
                for new in (True, False):
                    self.fresh(function, STREAMS[0][:size])
                    self.finished(3)
                    self.absorbed(0, b"a")
                    self.finished(3)
                    if new:
                        self.customized(0, b"abc")
                        self.finished(0)
                    else:
                        self.finalized(0, b"abc")
                    for asked in (0, 7, 0, 200):
                        self.finished(3)
                        self.customized(3, b"", b"a", CUSTOM[:300])
                        self.finalized(3, b"", b"abc")
                        self.absorbed(3, b"", b"a", LONG_EVENT)
                        self.squeezed(0, asked)
                    self.finished(3)
        self.hold(self.calls)

    def both_closes(self, function, message, custom):
        """A run closed by the old close and those closed by the new one after C was cut in each way have the same fields."""
        self.fresh(function, message)
        self.finalized(0, custom)
        whole = self.dumped()
        self.assertEqual(int(whole.split()[3], 16), len(custom), "the test itself is wrong")
        self.squeezed(0, 33)
        for pieces in cuts(custom, len(message)):
            self.assertEqual(b"".join(pieces), custom, "the test itself is wrong")
            self.fresh(function, message)
            self.customized(0, *pieces)
            self.finished(0)
            self.assertEqual(self.dumped(), whole, "the test itself is wrong")
        self.squeezed(0, 33)

    def test_both_closes(self):
        """C of short lengths, after messages that end in a chunk, at its end and around it."""
        for function in FUNCTIONS:
            for size in ENDS:
                for custom in SIZES:
                    self.both_closes(function, STREAMS[0][:size], CUSTOM[:custom])
        self.hold(self.calls)

    def test_both_closes_around_a_chunk(self):
        """C, its length and S end before a chunk's end, at it and past it."""
        for function in FUNCTIONS:
            for size, customs in ENDS.items():
                for custom in customs:
                    self.both_closes(function, STREAMS[0][:size], CUSTOM[:custom])
            # with C of 1 to 255 bytes length_encode has two bytes, with none it has one
            for size in (CHUNK - 12, CHUNK - 4, CHUNK - 2, CHUNK - 1, CHUNK, 2 * CHUNK - 3):
                for custom in range(13):
                    self.both_closes(function, STREAMS[0][:size], CUSTOM[:custom])
        self.hold(self.calls)

    def test_both_closes_of_a_long_name(self):
        """Both sides of a length of two bytes, the length of the draft's longest C, and the most bytes that a record can have."""
        for function, sizes in ((2, (65_535, 65_536, 68_921, MOST)), (3, (65_536, 68_921)), (4, (65_535, 65_536, 68_921))):
            for custom in sizes:
                self.both_closes(function, STREAMS[0][:7], CUSTOM[:custom])
        self.hold(self.calls)

    def test_joining(self):
        """Within the phase A and then B leave the run that A joined to B leaves, and an empty piece leaves it as it was."""
        for function in FUNCTIONS:
            for size in (0, 1, CHUNK - 1, CHUNK, CHUNK + 1):
                around = (more for end in (-size % CHUNK, -size % CHUNK + CHUNK) for more in range(end - 1, end + 2))
                for custom in (0, 1, 2, 168, 169, 300, *(n for n in around if n >= 0)):
                    joined = CUSTOM[:custom]
                    self.fresh(function, STREAMS[0][:size])
                    self.customized(0, joined)
                    whole = self.dumped()
                    for _ in range(3):
                        self.customized(0, b"")
                        self.assertEqual(self.dumped(), whole, "the test itself is wrong")
                    for pieces in cuts(joined, size):
                        self.fresh(function, STREAMS[0][:size])
                        self.customized(0, *pieces)
                        self.assertEqual(self.dumped(), whole, "the test itself is wrong")
        self.hold(self.calls)

    def test_limit_of_pieces(self):
        """At the limit and one below it a piece is taken, above it 4 is answered and the run is as it was."""
        for function in FUNCTIONS:
            rate = RATES[function]
            for absorbed in (0, 5, CHUNK, LIMIT):
                for left in (0, 1, 2, rate, CHUNK - 1, CHUNK, CHUNK + 1):
                    self.overwritten(function, CUSTOMIZING, absorbed, CUSTOM_LIMIT - left)
                    self.customized(4, CUSTOM[: left + 1], CUSTOM[: left + 2], CUSTOM[: left + 5000])
                    if left:
                        self.customized(0, CUSTOM[: left - 1])
                        self.customized(4, b"ab")
                        self.customized(0, b"a")
                    self.customized(4, b"a", CUSTOM[:5000])
                    self.customized(0, b"")
                    self.absorbed(3, b"", b"a")
                    self.finished(0)
                    self.squeezed(0, 40)
        for left in (MOST - 1, MOST):
            self.overwritten(2, CUSTOMIZING, 3, CUSTOM_LIMIT - left)
            self.customized(0, CUSTOM[:left])
            self.customized(4, b"a")
        self.overwritten(2, CUSTOMIZING, 3, CUSTOM_LIMIT - MOST + 1)
        self.customized(4, CUSTOM)
        self.hold(self.calls)

    def test_order_of_the_refusals(self):
        """A piece: 5, 3, 4. A message piece in this phase: 5, then 3, whatever 8 and 2 say. A read: 5, then 3, then 6."""
        for function in FUNCTIONS:
            for squeezed in (0, 40, SQUEEZE_LIMIT):
                self.overwritten(function, FINALIZED, LIMIT, CUSTOM_LIMIT, squeezed)
                self.customized(3, b"", b"a", CUSTOM[:5000])
                self.finalized(3, b"", b"a")
                self.absorbed(3, b"", b"a", LONG_EVENT)
                self.finished(3)
            self.squeezed(6, 1, 5000)
            self.squeezed(0, 0)
            self.overwritten(function, CUSTOMIZING, LIMIT, CUSTOM_LIMIT)
            self.absorbed(3, b"", b"a", CUSTOM[:5000], LONG_EVENT)
            self.finalized(3, b"", b"a")
            self.squeezed(3, 0, 1)
            for phase in (FINALIZED, CUSTOMIZING):
                for totals in ((LIMIT + 1, CUSTOM_LIMIT), (LIMIT, CUSTOM_LIMIT + 1)):
                    self.overwritten(function, phase, *totals)
                    self.customized(5, b"", b"a", CUSTOM[:5000])
                    self.finalized(5, b"", b"a")
                    self.absorbed(5, b"", b"a", LONG_EVENT)
                    self.squeezed(5, 0, 1, 5000)
                    self.finished(5)
        self.hold(self.calls)

    def test_overwritten_runs(self):
        """Both closes leave the same run whatever its lanes are, the leaf's too, where one chunk is all there is and where there are most.

        Only M is held to the limit of answer 2: C and its length go on behind it.
        """
        for function in FUNCTIONS:
            for absorbed in (0, 5, CHUNK - 5, CHUNK, CHUNK + 1, LIMIT - CHUNK, LIMIT - 1, LIMIT):
                for size in (0, 3, 300, 20_000):
                    custom = CUSTOM[:size]
                    dumps = set()
                    for pieces in ([custom], [b"", custom[:1], custom[1:CHUNK], custom[CHUNK:]], None):
                        self.overwritten(function, ABSORBING, absorbed, 0)
                        if pieces:
                            self.customized(0, *pieces)
                            self.finished(0)
                        else:
                            self.finalized(0, custom)
                        dumps.add(self.dumped())
                    self.assertEqual(len(dumps), 1, "the test itself is wrong")
        self.hold(self.calls)

    def test_reads(self):
        """After the new close reads go on as after the old one, up to the limit of answer 6, which the longer messages have not moved."""
        for function in FUNCTIONS:
            rate = RATES[function]
            self.fresh(function, STREAMS[0][:9000])
            self.customized(0, CUSTOM[:40], CUSTOM[40:50])
            self.squeezed(3, 0, 1, rate)
            self.finished(0)
            self.squeezed(0, 0, 1, rate - 1, rate, rate + 1, 0, 500)
            for customized in (0, 50, CUSTOM_LIMIT):
                for left in (0, 1, rate, 500):
                    self.overwritten(function, FINALIZED, 9000, customized, SQUEEZE_LIMIT - left)
                    self.squeezed(6, left + 1, left + 5000)
                    self.squeezed(0, left, 0)
                    self.squeezed(6, 1)
        self.hold(self.calls)

    def test_limit_for_real(self):
        """16,777,215 bytes in pieces of 262,144, the last one byte short, and then one byte more. The draft's function says the digest.

        The pieces are alike, so there are no more than 33 chaining values to work out. M has three bytes, so that S ends in a chunk
        of its own: length_encode and the last two bytes of C.
        """
        message = b"abc"
        for function, rate in KT.items():
            self.fresh(function, message)
            pieces = [CUSTOM] * 63 + [CUSTOM[:-1]]
            self.customized(0, *pieces)
            self.customized(4, b"a", b"ab", CUSTOM)
            self.customized(0, b"")
            self.finished(0)
            self.squeezed(0, 64)
            custom = b"".join(pieces)
            self.assertEqual(len(custom), CUSTOM_LIMIT, "the test itself is wrong")
            digest = reference.kangarootwelve(rate, CHAINING[rate], message, custom, 64)
            self.assertEqual(self.calls.answer, f"0 {digest.hex()}", "the test itself is wrong")
        self.hold(self.calls)


if __name__ == "__main__":
    unittest.main()
