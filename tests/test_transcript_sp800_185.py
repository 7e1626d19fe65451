"""SP 800-185's functions by the book and by the run: the two agree on every list, and request Q-14's numbers are what both say."""
import random
import unittest

import reference
import started_run
import started_transcript
from short_runs import SQUEEZE_LIMIT, ShortStartedRun, ShortStartedTranscript, fields
from sp800_185 import CSHAKE, KEYED, KMAC, KMACXOF, SHAKES, STARTED
from started_lists import BAD_OUTPUTS, OUTPUTS, strings
from transcript import ABSORBING, FINALIZED, Limits

LIMIT, READ_LIMIT, STRING_LIMIT = 17_179_869_183, 4_294_967_295, 16_777_215
MESSAGE = reference.ptn(300)


def both(number, first=b"first", custom=b"custom"):
    return started_transcript.book_of(number, first, custom), started_run.run_of(number, first, custom)


def length(number, size=300):
    """The argument of the close."""
    return size if number in KMAC else None


def fit(run, blocks=None):
    """Gives the run the position and the permutations that go with the rest, after a prefix of so many blocks."""
    (run.node.position,) = run.positions_due()
    run.permutations = run.permutations_due() if blocks is None else run.permutations_after(blocks)


class Agreement(unittest.TestCase):
    def both(self, book, run, name, *arguments):
        """The two say the same, and have the same phase, totals, permutations, output length and bit; a run that refuses is as it was."""
        before = fields(run)
        said, done = getattr(book, name)(*arguments), getattr(run, name)(*arguments)
        self.assertEqual(said, done, (name, arguments))
        self.assertEqual([book.phase, *book.totals(), book.permutations, *book.after_count()], fields(run)[: len(before) - 1])
        self.assertTrue(run.is_reached())
        status = said[0] if name == "squeeze" else said
        if status:
            self.assertEqual(fields(run), before)
        return status

    def test_random_lists(self):
        source = random.Random(3)
        for number, function in STARTED.items():
            rate, seen = function.rate, set()
            for _ in range(50):
                given = strings(source, number)
                book, run = ShortStartedTranscript(function, *given), ShortStartedRun(function, *given)
                for _ in range(12):
                    name = source.choice(("absorb", "absorb", "finalize", "squeeze", "squeeze", "squeeze"))
                    size = source.choice((0, 1, rate - 1, rate, rate + 1, *map(source.randrange, (400, 700))))
                    asked = source.choice((size, source.randrange(300), max(0, run.most_read() - run.squeezed)))
                    close = source.choice((0, 1, 31, 32, SQUEEZE_LIMIT, SQUEEZE_LIMIT + 1, source.randrange(1, 500), 2**32))
                    arguments = {"absorb": [source.randbytes(size)], "squeeze": [asked], "finalize": [length(number, close)]}
                    seen.add((name, self.both(book, run, name, *arguments[name])))
            due = {"absorb": (0, 2, 3), "finalize": (0, 3, 6, 7) if number in KMAC else (0, 3), "squeeze": (0, 3, 6)}
            self.assertEqual(seen, {(name, status) for name, statuses in due.items() for status in statuses}, function.name)

    def test_equal_books_leave_equal_runs(self):
        for number in STARTED:
            runs = []
            for step, part in ((1, 1), (7, 5), (168, 168), (169, 167), (300, 500)):
                run = started_run.run_of(number, b"first", b"custom")
                self.assertEqual({run.absorb(MESSAGE[at : at + step]) for at in range(0, 300, step)}, {0})
                self.assertEqual(run.finalize(length(number, 500)), 0)
                self.assertEqual({run.squeeze(min(part, 500 - at))[0] for at in range(0, 500, part)}, {0})
                runs.append(fields(run))
            self.assertEqual(runs, [runs[0]] * 5)


class Starts(unittest.TestCase):
    def test_limits(self):
        """2 for a key past that of a message, and before 4; 4 for N or S. Document 01's numbers."""
        self.assertEqual((Limits.ABSORB_LIMIT, Limits.SQUEEZE_LIMIT, Limits.CUSTOM_LIMIT), (LIMIT, READ_LIMIT, STRING_LIMIT))
        for number, function in STARTED.items():
            most = LIMIT if number in KEYED else STRING_LIMIT
            past = 2 if number in KEYED else 4
            sizes = (0, 0), (most, STRING_LIMIT), (most + 1, 0), (most + 1, STRING_LIMIT + 1), (0, STRING_LIMIT + 1), (most, STRING_LIMIT + 1)
            self.assertEqual([started_transcript.start_status(function, *size) for size in sizes], [0, 0, past, past, 4, 4], function.name)

    def test_run_of_a_start(self):
        """Nothing fed and nothing read; the prefix is in, and its last block waits for the next byte."""
        for number, function in STARTED.items():
            for first, custom, blocks in ((b"a", b"", 1), (b"", b"a", 1), (b"a", bytes(function.rate), 2), (bytes(3 * function.rate), b"", 4)):
                due = blocks + 1 if number in KEYED else blocks
                for one in both(number, first, custom):
                    self.assertEqual((one.phase, one.totals(), one.permutations), (ABSORBING, (0, 0), due - 1), function.name)
                    self.assertEqual(one.after_count(), (0,) if number in KMAC else (False,) if number in CSHAKE else ())
                run = started_run.run_of(number, first, custom)
                self.assertEqual(run.node.position, function.rate)

    def test_empty_strings(self):
        """Of cSHAKE: SHAKE's fresh run and the bit. Of KMAC with an empty key and S two blocks are put before the message."""
        for number in CSHAKE:
            book, run = both(number, b"", b"")
            self.assertEqual((run.node.position, run.node.lanes, run.permutations, run.is_shake), (0, [0] * 25, 0, True))
            self.assertEqual((book.permutations, book.after_count()), (0, (True,)))
        for number in KEYED:
            run = started_run.run_of(number, b"", b"")
            self.assertEqual((run.node.position, run.permutations), (run.rate, 1))


class Closes(unittest.TestCase):
    def test_output_length(self):
        """7 for none, 6 past the read limit, both after 3; it is kept, and is the read limit of the run."""
        for number in KMAC:
            for one in both(number):
                self.assertEqual([one.finalize(size) for size in BAD_OUTPUTS], [7] + [6] * (len(BAD_OUTPUTS) - 1))
                self.assertEqual((one.phase, one.after_count(), one.finalize(32)), (ABSORBING, (0,), 0))
                self.assertEqual([one.finalize(size) for size in (*BAD_OUTPUTS, 32)], [3] * (len(BAD_OUTPUTS) + 1))
                self.assertEqual((one.after_count(), one.most_read()), ((32,), 32))
            for size in OUTPUTS:
                message = reference.kmac_message(STARTED[number].rate, b"first", MESSAGE, 8 * size)
                out = reference.cshake(STARTED[number].strength, message, 1, b"KMAC", b"custom")
                for one in both(number):
                    self.assertEqual((one.absorb(MESSAGE), one.finalize(size), one.squeeze(1)), (0, 0, (0, out)), size)

    def test_reads(self):
        """What would pass the output length is refused and changes nothing; a shorter read gives the next bytes."""
        for number, function in STARTED.items():
            whole = function.output(b"first", b"custom", MESSAGE, 300, 300)
            for one in both(number):
                close = length(number)
                self.assertEqual((one.squeeze(0), one.absorb(MESSAGE), one.finalize(close)), ((3, None), 0, 0))
                self.assertEqual((one.absorb(b""), one.finalize(close)), (3, 3))
                self.assertEqual([one.squeeze(size) for size in (0, 100, 199)], [(0, b""), (0, whole[:100]), (0, whole[100:299])])
                if number in KMAC:
                    self.assertEqual([one.squeeze(size) for size in (2, 1, 1, 0)], [(6, None), (0, whole[299:]), (6, None), (0, b"")])
                    self.assertEqual(one.totals(), (300, 300))

    def test_ending_bytes(self):
        """A run that is closed at once: what the close puts into the block after the prefix, and 80."""
        ends = {11: b"\x04", 12: b"\x04", 13: b"\x09\x60\x02\x04", 14: b"\x09\x60\x02\x04", 15: b"\x00\x01\x04", 16: b"\x00\x01\x04"}
        for number, end in ends.items():
            run = started_run.run_of(number, b"first", b"custom")
            run.node.lanes = [0] * 25  # those of the prefix are not looked at; the permutation of none is of none after none
            run.node.permuted_lanes = lambda node=run.node: list(node.lanes)
            self.assertEqual(run.finalize(length(number)), 0)
            self.assertEqual(reference.bytes_of(run.node.lanes), end + bytes(run.rate - len(end) - 1) + b"\x80" + bytes(200 - run.rate))


class Reached(unittest.TestCase):
    def refused(self, run):
        """Every call answers 5, one that another number would refuse too."""
        self.assertEqual([run.absorb(b""), run.absorb(bytes(10)), run.finalize(0), run.finalize(1)], [5] * 4)
        self.assertEqual([run.squeeze(0), run.squeeze(1)], [(5, None)] * 2)

    def test_blocks_of_the_prefix(self):
        """The least and the most, open and closed, and one beyond each."""
        for number, function in STARTED.items():
            opened = [(ABSORBING, absorbed) for absorbed in (0, 1, function.rate, LIMIT)]
            for phase, absorbed in (*opened, (FINALIZED, 0), (FINALIZED, LIMIT)):
                run = started_run.run_of(number, b"first", b"custom")
                run.phase, run.absorbed = phase, absorbed
                if number in KMAC and phase == FINALIZED:
                    run.output_length = 32
                for blocks in (function.blocks[0], function.blocks[-1], function.blocks[100]):
                    fit(run, blocks)
                    self.assertTrue(run.is_reached(), (function.name, phase, absorbed, blocks))
                for more in (-1, 1):
                    fit(run, function.blocks[0 if more < 0 else -1])
                    run.permutations = (run.permutations + more) % 2**64
                    self.refused(run)

    def test_bit(self):
        """A SHAKE run is none without the bit, and a cSHAKE run none with it, before the close and after it."""
        for number, function in CSHAKE.items():
            for given in ((b"", b""), (b"first", b"custom")):
                for size in (0, 1, function.rate, 300):
                    for closed in (False, True):
                        run = started_run.run_of(number, *given)
                        run.absorb(bytes(size))
                        if closed:
                            run.finalize()
                        self.assertTrue(run.is_reached())
                        run.is_shake = not run.is_shake
                        self.refused(run)
            # the blocks of the prefix, counted as fed, make a SHAKE run of it
            run = started_run.run_of(number, b"first", b"custom")
            run.absorb(b"abc")
            run.is_shake, run.absorbed = True, function.rate + 3
            self.assertEqual((run.absorb(b""), run.finalize()), (0, 0))

    def test_output_length(self):
        """0 before the close, 1 to the read limit after it, and no less than what was read."""
        for number in KMAC:
            run = started_run.run_of(number, b"first", b"custom")
            run.output_length = 1
            self.refused(run)
            run.output_length = 0
            self.assertEqual(run.finalize(32), 0)
            for size, reached in ((0, False), (1, True), (31, True), (READ_LIMIT, True), (READ_LIMIT + 1, False), (2**64 - 1, False)):
                run.output_length = size
                fit(run)
                self.assertEqual(run.is_reached(), reached, size)
            run.squeezed = 33
            for size, reached in ((32, False), (33, True), (34, True)):
                run.output_length = size
                fit(run)
                self.assertEqual(run.is_reached(), reached, size)

    def test_shake(self):
        """With the bit a run is what SHAKE's is."""
        self.assertEqual(SHAKES, {11: 9, 12: 10})
        for number in CSHAKE:
            run = started_run.run_of(number, b"", b"")
            run.absorbed = LIMIT
            fit(run)
            self.assertEqual((len(run.counts_due()), run.absorb(b""), run.absorb(b"a"), run.finalize()), (1, 0, 2, 0))

    def test_read_limit(self):
        """Of cSHAKE and KMACXOF, at any number of blocks."""
        for number, function in (CSHAKE | KMACXOF).items():
            for blocks in (function.blocks[0], function.blocks[-1]):
                run = started_run.run_of(number, b"first", b"custom")
                run.phase, run.squeezed = FINALIZED, READ_LIMIT - 1
                fit(run, blocks)
                self.assertEqual([run.squeeze(size)[0] for size in (2, 1, 1, 0)], [6, 0, 6, 0])
                run.squeezed = READ_LIMIT + 1
                fit(run, blocks)
                self.refused(run)


if __name__ == "__main__":
    unittest.main()
