"""The permutations of SP 800-185's functions: what runs and books count while they hash is what the definition takes, and the formula says."""
import random
import unittest
from unittest import mock

import reference
import started_run
import started_transcript
from permutation_formula import ceil_of
from sp800_185 import CSHAKE, KEYED, KMAC, KMACXOF, STARTED
from started_lists import OUTPUTS, strings


def tail(number, length):
    """The bytes that the close puts after the message, in numbers: of 8 L its bytes and one more."""
    return (8 * length).bit_length() // 8 + ((8 * length).bit_length() % 8 > 0) + 1 if number in KMAC else 2 if number in KMACXOF else 0


def open_count(rate, fed):
    return (fed - 1) // rate if fed else 0


def closed_count(rate, fed, read):
    return fed // rate + 1 + open_count(rate, read)


class Counted(unittest.TestCase):
    def counts(self, number, given, *calls):
        """The permutations at the start and after each of these calls, which are done, by the run; the book's are the same."""
        book, run = started_transcript.book_of(number, *given), started_run.run_of(number, *given)
        found = [run.permutations]
        self.assertEqual(book.permutations, run.permutations, number)
        for name, *arguments in calls:
            for one in (book, run):
                answer = getattr(one, name)(*arguments)
                self.assertEqual(answer[0] if name == "squeeze" else answer, 0, (number, name))
            self.assertEqual(book.permutations, run.permutations, (number, name))
            found.append(run.permutations)
        return found

    def test_full_block(self):
        """The prefix's last block is permuted when the message's first byte comes, or at the close."""
        for number, function in STARTED.items():
            rate, given = function.rate, (b"first", b"custom")
            before = 2 if number in KEYED else 1
            pieces = [("absorb", piece) for piece in (b"", b"a", bytes(rate - 1), b"", b"a")]
            self.assertEqual(self.counts(number, given, *pieces), [before - 1, before - 1, before, before, before, before + 1])
            self.assertEqual(self.counts(number, given, ("finalize", 32), ("squeeze", 32)), [before - 1, before + 1, before + 1])
        for number in CSHAKE:
            rate = CSHAKE[number].rate
            pieces = [("absorb", piece) for piece in (b"", b"a", bytes(rate - 1), b"", b"a")]
            self.assertEqual(self.counts(number, (b"", b""), *pieces), [0, 0, 0, 0, 0, 1])
            self.assertEqual(self.counts(number, (b"", b""), ("finalize",)), [0, 1])

    def test_tail(self):
        """The bytes that the close adds end in the block that the message has begun, or in the next."""
        for number, function in STARTED.items():
            rate, before = function.rate, 2 if number in KEYED else 1
            for length in OUTPUTS:
                size = tail(number, length)
                self.assertEqual(size, len(function.tail(length)))
                for fed, blocks in ((rate - size - 1, 1), (rate - size, 2), (rate - 1, 2 if size else 1), (rate, 2)):
                    found = self.counts(number, (b"first", b"custom"), ("absorb", bytes(fed)), ("finalize", length))
                    self.assertEqual(found[-1], before + blocks, (number, length, fed))

    def test_formula(self):
        """Any strings, pieces and reads: the number is that of the lengths alone."""
        source = random.Random(8)
        for number in 12 * list(STARTED):
            rate, given = STARTED[number].rate, strings(source, number)
            prefix = len(STARTED[number].prefix(*given))
            sizes = [source.choice((0, 1, rate - 1, rate, rate + 1, source.randrange(500))) for _ in range(4)]
            reads = [source.choice((0, 1, rate - 1, rate, rate + 1, 400)) for _ in range(3)]
            length = max(1, sum(reads))
            due = [open_count(rate, prefix + sum(sizes[:end])) for end in range(5)]
            whole = prefix + sum(sizes) + tail(number, length)
            due += [closed_count(rate, whole, sum(reads[:end])) for end in range(4)]
            calls = *(("absorb", bytes(size)) for size in sizes), ("finalize", length), *(("squeeze", size) for size in reads)
            self.assertEqual(self.counts(number, given, *calls), due, number)
            self.assertEqual(prefix % rate, 0)

    def test_definition(self):
        """The second program, in one go, permutes as often as the run that is fed and read so much."""
        with mock.patch.object(reference, "permuted", wraps=reference.permuted) as permuted:
            for number, function in STARTED.items():
                rate = function.rate
                for first, custom in ((b"", b""), (b"", b"a"), (bytes(rate), bytes(rate - 7)), (bytes(rate - 5), bytes(300))):
                    for fed, size in ((0, 1), (rate - 3, rate), (rate - 2, rate + 1), (rate, 300), (700, 32)):
                        permuted.reset_mock()
                        function.output(first, custom, bytes(fed), size, size)
                        made = permuted.call_count
                        counts = self.counts(number, (first, custom), ("absorb", bytes(fed)), ("finalize", size), ("squeeze", size))
                        self.assertEqual(counts[-1], made, (number, fed, size))
                        before = len(function.prefix(first, custom)) + fed + tail(number, size)
                        self.assertEqual(made, ceil_of(before + 1, rate) + ceil_of(size, rate) - 1)


if __name__ == "__main__":
    unittest.main()
