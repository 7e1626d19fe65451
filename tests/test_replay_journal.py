"""The program `replay` answers lists of calls on days as the transcript does, and overwritten days by the same rules.

Needs crates/replay/out/replay, which `rt ci` leaves.
"""
import unittest

import reference
from kt_lists import BIG, CHUNK, CUSTOM, CUSTOM_LIMIT, LIMIT, SQUEEZE_LIMIT, STREAMS, KtLists, event_of, fit
from one_go import HOPMAC
from replay import ABSORBED, CUSTOMIZED, LANES, LEAF_LANES, LEAF_POSITION, MOST, PERMUTATIONS, PHASE, POSITION, SQUEEZED, Calls, Held
from transcript import ABSORBING, CUSTOMIZING, DAY, FINALIZED, KT, Limits

CALLS = 10_000  # of all ops together
EVENT = Limits.EVENT_LIMIT
(JOURNAL,) = DAY
REFUSED = EVENT + 1, EVENT + 2  # the shortest events that are refused
LONG = 2 * STREAMS[0]
STATION = b"Hanbeorit station 3"
# What an event of so many bytes has after it, by hand.
LENGTHS = {0: b"\0", 1: b"\1\1", 255: b"\xff\1", 256: b"\1\0\2", EVENT: b"\xff\xff\2"}


class DayLists(KtLists):
    """The days' lists: longer events, and some that are too long wherever a call may stand."""

    FUNCTIONS = (JOURNAL,)
    LONGEST = 200_000
    KINDS = KtLists.KINDS | {"kt_list": 2, "steps_list": 2}

    def too_long(self, seldom):
        """Once in so many times, an event that is too long."""
        due = self.source.randrange(seldom) == 0
        if due:
            size = self.source.choice(REFUSED) if self.source.randrange(8) else self.source.randrange(EVENT + 1, MOST + 1)
            self.calls.absorb(LONG[:size])
        return due

    def filling(self, size):
        """The length of an event that adds so many bytes with its encoding or, one time in three, without it."""
        return event_of(size) if self.source.randrange(3) else size

    def piece(self, stream):
        left = self.LONGEST - self.calls.run.absorbed
        if left < EVENT or self.source.randrange(30):
            return super().piece(stream)
        return stream[self.LONGEST - left :][: self.source.choice((EVENT - 1, EVENT, self.source.randrange(10_000, EVENT)))]

    def absorbing(self, stream):
        self.too_long(25) or super().absorbing(stream)

    def customizing(self, stream):
        self.too_long(25) or super().customizing(stream)

    def squeezing(self, stream):
        self.too_long(25) or super().squeezing(stream)

    def overwritten_call(self):
        self.too_long(12) or super().overwritten_call()

    def kt_list(self):
        """A short list on a KT run, which takes in one piece what no event may have."""
        self.calls.fresh(self.source.choice(list(KT)))
        self.calls.absorb(STREAMS[0][: EVENT + self.source.randrange(3)])
        self.calls.finalize(b"abc")

    def one_go(self):
        """By KT, or seldom by HopMAC."""
        if self.source.randrange(4):
            return super().one_go()
        strength, key, message = self.source.randrange(2), STREAMS[1][:32], STREAMS[2][: self.source.randrange(200)]
        self.calls.hopmac(strength, key, message, b"abc", 40)
        self.calls.verify(strength, key, message, b"abc", HOPMAC[strength](key, message, b"abc", 16))


class Days(Held):
    def test_random_lists(self):
        """Calls from a fixed seed, each number that a call here can answer among them."""
        calls = DayLists().made(CALLS)
        possible = {"A": (0, 2, 3, 5, 8), "F": (0, 3, 5), "C": (0, 3, 4, 5), "E": (0, 3, 5), "R": (0, 3, 5, 6)}
        for op, statuses in possible.items():
            for status in statuses:
                self.assertGreater(calls.answers[op, status], 20, (op, status))
        self.assertGreater(calls.wrong_counts[JOURNAL], 20)
        self.hold(calls)

    def test_sizes_of_events(self):
        """Around the longest event that is taken and far past it, on a fresh day, around a chunk's end and in the middle of one."""
        calls = Calls()
        for before in ((), (0,), (1,), (CHUNK - 4,), (CHUNK - 3,), (CHUNK - 1,), (CHUNK,), (CHUNK + 100,)):
            calls.fresh(JOURNAL)
            for size in before:
                calls.absorb(STREAMS[0][:size])
            for size in (*REFUSED, 1 << 17, MOST):
                calls.absorb(LONG[:size])
            for size in (0, 1, EVENT - 1, EVENT):
                calls.absorb(STREAMS[0][calls.run.absorbed :][:size])
            calls.absorb(LONG[: EVENT + 1])
            calls.finalize(b"station")
            calls.squeeze(32)
        self.assertEqual((calls.answers["A", 0], calls.answers["A", 8]), (7 + 8 * 4, 8 * 5), "the test itself is wrong")
        self.hold(calls)

    def test_names(self):
        """The name given whole and in pieces: both days have one digest, that of the day's message with the name as C.

        The four events have 63 bytes with their lengths, so a name of CHUNK - 66 bytes fills the first chunk.
        """
        calls = Calls()
        events = STREAMS[0][:40], b"", STREAMS[0][40:57], b""
        for size in (0, 1, 19, 255, 256, CHUNK - 66, CHUNK - 65, 65_535, 65_536, MOST):
            name = CUSTOM[:size]
            lines = {f"0 {reference.kt128(reference.day_message(events), name, 40).hex()}"}
            for whole in (True, False):
                calls.fresh(JOURNAL)
                for event in events:
                    calls.absorb(event)
                self.assertEqual(calls.run.absorbed, 63, "the test itself is wrong")
                if whole:
                    calls.finalize(name)
                else:
                    for piece in (name[: size // 2], b"", name[size // 2 :]):
                        calls.customize(piece)
                    self.answered(calls, 3, 0, 1, EVENT + 1)
                    calls.finish()
                calls.finalize(name)
                calls.finish()
                calls.squeeze(40)
                lines.add(calls.answer)
            self.assertEqual(len(lines), 1, "the test itself is wrong")
        self.assertEqual((calls.answers["F", 0], calls.answers["F", 3]), (10, 20), "the test itself is wrong")
        self.assertEqual((calls.answers["E", 0], calls.answers["E", 3]), (10, 20), "the test itself is wrong")
        self.hold(calls)

    def answered(self, calls, status, *sizes):
        """Events of these lengths all get this answer."""
        before = calls.answers["A", status]
        for size in sizes:
            calls.absorb(LONG[:size])
        self.assertEqual(calls.answers["A", status], before + len(sizes), "the test itself is wrong")

    def with_left(self, calls, function, left):
        """A run that has so many bytes left, with lanes that are not zero."""
        calls.fresh(function)
        calls.set(ABSORBED, LIMIT - left)
        fit(calls)
        for i, lane in enumerate(reference.state_of(CUSTOM[:200])):
            calls.set(LANES + i, lane)
            calls.set(LEAF_LANES + i, lane ^ BIG)

    def test_8_wins_over_2(self):
        """With so many bytes left that an event passes both limits, the event's own is asked first."""
        calls = Calls()
        # the bytes left, and the longest event that they are enough for
        room = ((0, -1), (1, 0), (2, 0), (3, 1), (100, 98), (257, 255), (258, 255), (259, 256), (CHUNK, CHUNK - 3))
        for left, longest in (*room, *((EVENT + more, min(EVENT + more - 3, EVENT)) for more in range(-1, 5))):
            self.with_left(calls, JOURNAL, left)
            self.answered(calls, 8, *REFUSED, MOST)
            if longest < EVENT:
                self.answered(calls, 2, longest + 1, min(left, EVENT), EVENT)
            if longest >= 0:
                self.answered(calls, 0, longest)
            self.answered(calls, 8, EVENT + 1)
            self.answered(calls, 2, 1)
            self.answered(calls, 0, *[0] * (LIMIT - calls.run.absorbed))
            self.answered(calls, 2, 0, 1, EVENT)
            self.answered(calls, 8, EVENT + 1)
        self.hold(calls)

    def test_3_and_5_win_over_8(self):
        """A day that is closed, or whose name has begun, answers 3, one that no calls reach 5, however long the event is."""
        calls = Calls()
        calls.fresh(JOURNAL)
        calls.absorb(STREAMS[0][: CHUNK + 5])
        calls.finalize(b"station")
        self.answered(calls, 3, 0, 1, EVENT, *REFUSED, MOST)
        calls.squeeze(40)
        self.answered(calls, 3, 0, EVENT, *REFUSED)
        for name in (b"", b"station"):
            calls.fresh(JOURNAL)
            calls.absorb(STREAMS[0][: CHUNK + 5])
            calls.customize(name)
            self.answered(calls, 3, 0, 1, EVENT, *REFUSED, MOST)
        totals = (ABSORBED, LIMIT + 1), (SQUEEZED, SQUEEZE_LIMIT + 1), (CUSTOMIZED, CUSTOM_LIMIT + 1)
        for field, wrong in ((PHASE, 3), *totals, (POSITION, 169), (LEAF_POSITION, 1), (PERMUTATIONS, 2)):
            for phase in (ABSORBING, FINALIZED, CUSTOMIZING):
                calls.fresh(JOURNAL)
                calls.set(PHASE, phase)
                calls.set(field, wrong)
                if field != PERMUTATIONS:
                    calls.set(PERMUTATIONS, calls.run.permutations_due())
                self.answered(calls, 5, 0, 1, EVENT, *REFUSED)
        for totals in ((LIMIT + 1, 0, 0), (BIG, 0, 0), (0, 1, 0), (0, 0, 1), (7, 0, CUSTOM_LIMIT)):
            calls.fresh(JOURNAL)
            for field, value in zip((ABSORBED, SQUEEZED, CUSTOMIZED), totals):
                calls.set(field, value)
            fit(calls)
            self.answered(calls, 5, 0, 1, EVENT, *REFUSED)
        self.hold(calls)

    def test_order_at_the_limit(self):
        """With no byte left 2 is due to every event. 8 wins over it, 3 over both, 5 over all three."""
        calls = Calls()
        self.with_left(calls, JOURNAL, 0)
        self.answered(calls, 8, *REFUSED, MOST)
        self.answered(calls, 2, 0, 1, EVENT)
        for phase, status in ((FINALIZED, 3), (CUSTOMIZING, 3), (3, 5)):
            calls.set(PHASE, phase)
            fit(calls)
            self.answered(calls, status, 0, 1, EVENT, *REFUSED, MOST)
        for phase in (ABSORBING, FINALIZED, CUSTOMIZING):
            calls.set(PHASE, phase)
            for field, wrong in ((POSITION, 169), (LEAF_POSITION, 3), (PERMUTATIONS, 0), (PERMUTATIONS, BIG)):
                fit(calls)
                calls.set(field, wrong)
                self.answered(calls, 5, 0, 1, EVENT, *REFUSED, MOST)
        self.hold(calls)

    def test_whole_or_not_at_all(self):
        """An event that ends with its length one byte below the limit or at it is taken; above it, it is refused and the day is as it was.

        Above it are also those that would fit without their length, and those that would fit with a part of it.
        """
        calls = Calls()
        for size, encoded in LENGTHS.items():
            event = STREAMS[0][:size]
            for spare in (1, 0):
                dumps = []
                for function, piece in ((JOURNAL, event), (2, event + encoded)):
                    self.with_left(calls, function, len(event + encoded) + spare)
                    calls.absorb(piece)
                    dumps.append(calls.state)
                    self.assertEqual((calls.answer, calls.run.absorbed), ("0", LIMIT - spare), "the test itself is wrong")
                self.assertEqual(dumps[0], dumps[1], "the test itself is wrong")
            for left in range(max(0, size - 1), size + len(encoded)):
                self.with_left(calls, JOURNAL, left)
                calls.dump()
                before = calls.state
                calls.absorb(event)
                self.assertEqual((calls.answer, calls.state), ("2", before), "the test itself is wrong")
                calls.finalize(STATION)
                calls.squeeze(32)
        self.assertEqual((calls.answers["A", 0], calls.answers["A", 2]), (5 * 2 * 2, 1 + 3 + 3 + 4 + 4), "the test itself is wrong")
        self.hold(calls)

    def day(self, calls, *events, name=STATION):
        """A day of these events; the line of its digest."""
        calls.fresh(JOURNAL)
        for event in events:
            calls.absorb(event)
        calls.finalize(name)
        calls.squeeze(32)
        return calls.answer

    def test_same_bytes_joined(self):
        """The days of request Q-1, `AB`, `C` and `A`, `BC`, one with an empty event, and one of `ABC`: each digest is that of its own message."""
        calls = Calls()
        messages = {
            (b"AB", b"C"): "41 42 02 01 43 01 01",
            (b"A", b"BC"): "41 01 01 42 43 02 01",
            (b"AB", b"", b"C"): "41 42 02 01 00 43 01 01",
            (b"ABC",): "41 42 43 03 01",
        }
        for name in (b"", STATION):
            lines = set()
            for events, message in messages.items():
                line = self.day(calls, *events, name=name)
                calls.kt_one_go(2, bytes.fromhex(message), name, 32)
                self.assertEqual(line, calls.answer, "the test itself is wrong")
                lines.add(line)
            self.assertEqual(len(lines), len(messages))
        self.hold(calls)

    def test_empty_events(self):
        """Each adds one byte, 00: days that differ in their empty events alone have digests that differ."""
        calls = Calls()
        calls.fresh(JOURNAL)
        totals = []
        for event in (b"", b"", b"", b"A", b""):
            calls.absorb(event)
            totals.append(int(calls.state.split()[1], 16))
        self.assertEqual(totals, [1, 2, 3, 6, 7], "the test itself is wrong")
        days = (), (b"",), (b"", b""), (b"", b"", b""), (b"A",), (b"A", b""), (b"", b"A"), (b"A", b"", b"")
        lines = [self.day(calls, *events) for events in days]
        for count, line in enumerate(lines[:4]):
            self.assertEqual(line, f"0 {reference.kt128(bytes(count), STATION, 32).hex()}", "the test itself is wrong")
        self.assertEqual(len(set(lines)), len(days))
        self.hold(calls)

    def test_refused_events_leave_no_trace(self):
        """The digest is that of the other events, wherever in a day events were refused: by 8, or by 2 with few bytes left."""
        calls = Calls()
        events = STREAMS[2][:40], b"", STREAMS[2][40 : CHUNK + 30], STREAMS[2][:300]
        digest = reference.kt128(reference.day_message(events), STATION, 32)
        for place in range(len(events) + 1):
            for refused in (LONG[: EVENT + 1], LONG[:MOST]):
                line = self.day(calls, *events[:place], refused, refused, *events[place:])
                self.assertEqual(line, f"0 {digest.hex()}", "the test itself is wrong")
        lines = set()
        for refused in ((), (28,), (29,), (30,), (300,), (EVENT,), (EVENT + 1, 29, 28)):
            # 12 bytes for an event of 10, one for an empty one, and 29, which an event of 27 fills and the refused ones would pass
            self.with_left(calls, JOURNAL, 42)
            self.answered(calls, 0, 10, 0)
            for size in refused:
                self.answered(calls, 8 if size > EVENT else 2, size)
            self.answered(calls, 0, 27)
            self.answered(calls, 2, *refused[-1:], 0)
            calls.finalize(STATION)
            calls.squeeze(32)
            lines.add(calls.answer)
        self.assertEqual(len(lines), 1, "the test itself is wrong")
        self.hold(calls)

    def test_same_as_in_one_go(self):
        """A day gives what KT128 in one go gives for its message, with the name as C; and so does a KT128 run fed each event with its length.

        The last days have a chunk's end behind a length, at its end and in it.
        """
        calls = Calls()
        days = ((), (0,), (0, 0, 1), (40, 0, 17, 1), (CHUNK,), (CHUNK - 1, 1, 1), (100,) * 170, (9000, 0, 9000), (EVENT, EVENT, 0, 5))
        for sizes in (*days, *((CHUNK + more, 0) for more in range(-4, 0))):
            events = [STREAMS[1][sum(sizes[:at]) :][:size] for at, size in enumerate(sizes)]
            message = reference.day_message(events)
            for name in (b"", STATION, CUSTOM[: -(len(message) + 3) % CHUNK]):
                lines, dumps = set(), []
                for function in (JOURNAL, 2):
                    calls.fresh(function)
                    start = len(calls.expected)
                    for event in events:
                        calls.absorb(event if function == JOURNAL else reference.with_length(event))
                    calls.finalize(name)
                    calls.squeeze(200)
                    lines.add(calls.answer)
                    dumps.append([line for _, what, line in calls.expected[start:] if what == "D"])
                calls.kt_one_go(2, message, name, 200)
                self.assertEqual({*lines, calls.answer}, {f"0 {reference.kt128(message, name, 200).hex()}"}, "the test itself is wrong")
                self.assertEqual((dumps[0], len(dumps[0])), (dumps[1], len(events) + 2), "the test itself is wrong")
        self.hold(calls)


if __name__ == "__main__":
    unittest.main()
