"""The program `replay` counts the permutations of a run as request Q-10 says, and answers 5 where the number is not the totals'.

Needs crates/replay/out/replay, which `rt ci` leaves.
"""
import unittest

from kt_lists import BIG, CHUNK, CUSTOM, CUSTOM_LIMIT, LIMIT, SQUEEZE_LIMIT, STREAMS, event_of
from replay import ABSORBED, CUSTOMIZED, LEAF_POSITION, PERMUTATIONS, PHASE, POSITION, SQUEEZED, Calls, Held
from sponge_functions import FIPS202, SHA3, SPONGE, TURBOSHAKE
from transcript import ABSORBING, CHAINING, CUSTOMIZING, DAY, FINALIZED, KT, RATES

TREES = KT | DAY
LONG_EVENT = bytes(65_536)


class Count(Held):
    def setUp(self):
        self.calls = Calls()

    def counted(self, number, *calls):
        """The permutations that the dumps after these calls say, all of which are done; the program is held to them."""
        self.calls.fresh(number)
        self.calls.dump()
        found = []
        for name, *arguments in calls:
            getattr(self.calls, name)(*arguments)
            self.assertEqual(self.calls.answer.split(" ")[0], "0", "the test itself is wrong")
            found.append(self.shown(number))
        return found

    def shown(self, number):
        """The number in the dump: behind the phase and the totals, of which KT has three."""
        return int(self.calls.state.split(" ")[4 if number in TREES else 3], 16)

    def close(self, number):
        return "finalize", 0x1F if number in TURBOSHAKE else None if number in FIPS202 else b""

    def piece(self, number, size):
        """A piece of so many bytes, or an event that adds as many."""
        return "absorb", STREAMS[0][: event_of(size) if number in DAY else size]

    def test_request(self):
        """KT128 with S of 8,193 bytes and 32 read counts 51, however S is made; and so does a day."""
        for number in (2, 4):
            for message, custom in ((CHUNK, 0), (CHUNK - 2, 1), (0, CHUNK - 2), (5, CHUNK - 7)):
                fed = [self.piece(number, message)] if message else []
                c = CUSTOM[:custom]
                self.assertEqual(self.counted(number, *fed, ("finalize", c), ("squeeze", 32))[-2:], [51, 51], "the test itself is wrong")
                self.assertEqual(self.counted(number, *fed, ("customize", c), ("finish",), ("squeeze", 32))[-1], 51, "the test itself is wrong")
        self.hold(self.calls)

    def test_full_block(self):
        """TurboSHAKE128 at 168 and 169 bytes, and each function at its rate: before the next byte, after it, and at the close."""
        for number, rate in RATES.items():
            full, close = self.piece(number, rate), self.close(number)
            empty = ("customize", b"") if number in DAY else ("absorb", b"")
            self.assertEqual(self.counted(number, full, empty), [0, 0], "the test itself is wrong")
            for size, counts in ((0, [0, 2]), (1, [1, 2]), (rate, [1, 3]), (rate + 1, [2, 3])):
                more = [("customize", CUSTOM[:size]), ("finish",)] if number in TREES else [("absorb", bytes(size)), close]
                self.assertEqual(self.counted(number, full, *more)[1:], counts, (number, size))
        self.hold(self.calls)

    def test_full_leaf(self):
        """S fed to 16,384 bytes, and one more: as M, as C, and as both. The leaf is closed by the byte, or by the close."""
        for number, rate in TREES.items():
            node, leaf = (48, 48) if rate == 168 else (60, 60)
            for message in (0, 1, CHUNK - 1, CHUNK, CHUNK + 1, 2 * CHUNK):
                fed = [self.piece(number, message)] if message else []
                rest = [("customize", CUSTOM[: 2 * CHUNK - message]), ("customize", b"")]
                counts = self.counted(number, *fed, *rest, ("customize", b"a"), ("customize", CUSTOM[: CHUNK - 1]), ("customize", b"a"))
                due = [node + leaf] * 2 + [node + leaf + 1, node + leaf + 1 + leaf]
                self.assertEqual(counts[-5:-1], due, "the test itself is wrong")
                self.assertGreater(counts[-1], due[-1], "the test itself is wrong")
                self.counted(number, *fed, *rest, ("finish",), ("squeeze", 2 * rate + 1))
            for size in (1, 2, 3):
                self.counted(number, self.piece(number, 2 * CHUNK), self.piece(number, size), self.close(number))
        self.hold(self.calls)

    def test_custom_opens_a_chunk(self):
        """M of 8,192 bytes, and C's first byte. The leaf has then a byte, and the node eight more, in the block that it had."""
        for number, rate in TREES.items():
            node = 48 if rate == 168 else 60
            calls = self.piece(number, CHUNK), ("customize", b""), ("customize", b"a"), ("customize", bytes(rate - 1)), ("customize", b"b")
            self.assertEqual(self.counted(number, *calls), [node, node, node, node, node + 1], "the test itself is wrong")
            for end in range(1, 6):
                self.counted(number, *calls[:end], *([self.close(number)] if end == 1 else [("finish",)]), ("squeeze", 1))
        self.hold(self.calls)

    def test_reads(self):
        """0, 1, a block, and a byte more; each byte of three blocks by itself. Of SHA3 none needs another permutation."""
        for number, rate in RATES.items():
            most = SPONGE[number].digest if number in SPONGE else None
            sizes = [(0, 1, 0, most - 1)] if most else [(0, 0), (1, rate - 1, 1), (rate, 0, 1), (rate + 1, rate - 1, 1), (3 * rate, 1)]
            for reads in sizes:
                counts = self.counted(number, self.piece(number, 300), self.close(number), *(("squeeze", size) for size in reads))
                further = [max(0, -(-sum(reads[: end + 1]) // rate) - 1) for end in range(len(reads))]
                self.assertEqual([count - counts[1] for count in counts[2:]], further, "the test itself is wrong")
            self.counted(number, self.close(number), *[("squeeze", 1)] * min(3 * rate + 1, most or BIG))
        self.hold(self.calls)

    def unchanged(self, status, *calls):
        """Each of these calls on the run in hand gets this answer and leaves the dump as it was."""
        before = self.calls.state
        for name, *arguments in calls:
            getattr(self.calls, name)(*arguments)
            self.assertEqual((self.calls.answer.split(" ")[0], self.calls.state), (str(status), before), "the test itself is wrong")

    def test_refused_calls(self):
        """They count nothing, though the piece or the read would take some permutations. test_limits has those by 2, 4 and 6."""
        piece, custom, read, long = ("absorb", STREAMS[0][:700]), ("customize", CUSTOM[:700]), ("squeeze", 700), ("absorb", LONG_EVENT)
        for number in RATES:
            self.counted(number, self.piece(number, 500))
            self.unchanged(3, read, *([("finish",)] if number in TREES else []))
            self.unchanged(1, *(("finalize", domain) for domain in (0x00, 0x80, 0xFF) if number in TURBOSHAKE))
            self.unchanged(8, *([long] if number in DAY else []))
            if number in TREES:
                self.calls.customize(CUSTOM[:500])
                self.unchanged(3, piece, self.close(number), read, long)
                self.calls.finish()
            else:
                self.calls.finalize(self.close(number)[1])
            self.unchanged(3, piece, self.close(number), *([custom, ("finish",), long] if number in TREES else []))
            self.unchanged(6, *([read] if number in SHA3 else []))
        statuses = {status: count for (_, status), count in self.calls.answers.items() if status in (1, 6, 8)}
        self.assertEqual(statuses, {1: 6, 6: 4, 8: 1}, "the test itself is wrong")
        self.hold(self.calls)

    def runs(self, number):
        """A run in hand in every phase, at some totals, with a call that changes nothing, and its answer. An event would add a byte."""
        for size in (0, 1, RATES[number], CHUNK + 1, 2 * CHUNK + 1):
            fed = [self.piece(number, size)] if size else []
            self.counted(number, *fed)
            yield (3, ("squeeze", 0)) if number in DAY else (0, ("absorb", b""))
            if number in TREES:
                self.counted(number, *fed, ("customize", CUSTOM[:size]))
                yield 0, ("customize", b"")
            self.counted(number, *fed, self.close(number), ("squeeze", min(size, SPONGE[number].digest or BIG) if number in SPONGE else size))
            yield 0, ("squeeze", 0)

    def test_wrong_count(self):
        """One more, one less, the largest: every call answers 5 and changes nothing. With the right one again the run goes on."""
        phases = set()
        for number in RATES:
            every = [("absorb", b""), ("absorb", b"a"), self.close(number), ("squeeze", 0), ("squeeze", 1), ("squeeze", 700)]
            every += [("customize", b""), ("customize", b"a"), ("finish",)] if number in TREES else []
            every += [("absorb", LONG_EVENT)] if number in DAY else []
            for status, call in self.runs(number):
                right = self.calls.run.permutations
                phases.add((number, self.calls.run.phase))
                for wrong in {right + 1, (right - 1) & BIG, BIG, right + (1 << 32), right + (1 << 63)} - {right}:
                    self.calls.set(PERMUTATIONS, wrong)
                    self.calls.dump()
                    before = self.calls.wrong_counts[number]
                    self.unchanged(5, *every)
                    self.assertEqual(self.calls.wrong_counts[number], before + len(every), "the test itself is wrong")
                self.calls.set(PERMUTATIONS, right)
                self.calls.dump()
                self.unchanged(status, call)
                if status:
                    self.calls.absorb(b"abc")
                    self.assertEqual(self.calls.answer, "0", "the test itself is wrong")
        self.assertEqual(len(phases), 2 * len(SPONGE) + 3 * len(TREES), "the test itself is wrong")
        self.hold(self.calls)

    def overwritten(self, number, phase, absorbed, squeezed, customized, permutations):
        """A run with this phase, these totals, the positions that go with them, and so many permutations."""
        self.calls.fresh(number)
        for field, value in ((PHASE, phase), (ABSORBED, absorbed), (SQUEEZED, squeezed), (PERMUTATIONS, permutations)):
            self.calls.set(field, value)
        if number in TREES:
            self.calls.set(CUSTOMIZED, customized)
        for field, position in zip((POSITION, LEAF_POSITION), self.calls.run.positions_due()):
            self.calls.set(field, position)

    def at_limit(self, number, totals, count, *answers):
        """With this count the run gives these answers, pairs of a number and a call, and with one near it 5; each leaves the run as it was."""
        for wrong in (count - 1, count + 1, count + (1 << 32), 0, BIG):
            self.overwritten(number, *totals, wrong)
            self.calls.dump()
            self.unchanged(5, *(call for _, call in answers))
        self.overwritten(number, *totals, count)
        self.calls.dump()
        for status, call in answers:
            self.unchanged(status, call)
        self.assertEqual(self.shown(number), count, "the test itself is wrong")

    def test_limits(self):
        """2^34 - 1 bytes fed, open and closed, and 2^32 - 1 read, or a digest: the numbers are worked out by hand. Then the close counts on."""
        for number, function in SPONGE.items():
            rate, most = function.rate, function.digest or 2**32 - 1
            opened, closed, read = -(-(2**34 - 1) // rate) - 1, -(-(2**34) // rate), -(-most // rate) - 1
            self.at_limit(number, (ABSORBING, LIMIT, 0, 0), opened, (0, ("absorb", b"")), (2, ("absorb", b"a")))
            self.calls.finalize(self.close(number)[1])
            self.assertEqual((self.calls.answer, self.shown(number)), ("0", closed), "the test itself is wrong")
            self.at_limit(number, (FINALIZED, LIMIT, most, 0), closed + read, (0, ("squeeze", 0)), (6, ("squeeze", 1)))
        self.hold(self.calls)

    def test_limits_of_trees(self):
        """2^34 - 1 bytes fed, 2^24 - 1 of C, 2^32 - 1 read, in each phase. A leaf is counted 49 or 61 times, by the strength, once it is closed."""
        for number, rate in TREES.items():
            whole, chaining, read = -(-8193 // rate), CHAINING[rate], -(-SQUEEZE_LIMIT // rate) - 1
            # M alone has 2^21 chunks, M and C, 2^34 + 2^24 - 2 bytes, 2^21 + 2^11; the four bytes of C's length begin another
            opened = [
                (chunks - 2) * whole + -(-(8200 + (chunks - 2) * chaining) // rate) - 1 + -(-last // rate) - 1
                for chunks, last in ((2**21, 8191), (2**21 + 2**11, 8190))
            ]
            # a day's event, an empty one too, adds a byte
            taken = (0, ("absorb", b"")) if number in KT else (2, ("absorb", b""))
            self.at_limit(number, (ABSORBING, LIMIT, 0, 0), opened[0], taken, (2, ("absorb", b"a")), (3, ("squeeze", 0)))
            self.at_limit(number, (CUSTOMIZING, LIMIT, 0, 0), opened[0], (0, ("customize", b"")), (3, ("absorb", b"")))
            self.at_limit(number, (CUSTOMIZING, LIMIT, 0, CUSTOM_LIMIT), opened[1], (0, ("customize", b"")), (4, ("customize", b"a")))
            self.calls.finish()
            leaves = 2**21 + 2**11
            closed = (leaves - 1) * whole + 1 + -(-(8200 + leaves * chaining + 4 + 2 + 1) // rate)
            self.assertEqual((self.calls.answer, self.shown(number)), ("0", closed), "the test itself is wrong")
            totals = FINALIZED, LIMIT, SQUEEZE_LIMIT, CUSTOM_LIMIT
            self.at_limit(number, totals, closed + read, (0, ("squeeze", 0)), (6, ("squeeze", 1)), (3, ("finish",)))
        self.hold(self.calls)


if __name__ == "__main__":
    unittest.main()
