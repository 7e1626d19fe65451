"""The program `replay` at the edges of SP 800-185, which packaged libraries get wrong: where a bytepad ends, lengths of one byte and more, keys,
messages and outputs around a block. Each in one go and in pieces, with the run after every call.

Needs crates/replay/out/replay, which `rt ci` leaves.
"""
import unittest

from reference import encode_string
from replay import MOST, Held
from sp800_185 import CSHAKE, KEYED, KMAC, NAME, STARTED
from started_calls import StartedCalls
from started_lists import LENGTHS, OUTPUTS, before_custom, before_first, fitting, string_of

MESSAGE = string_of(2000, 5)
KEY = string_of(32, 6)


class Edges(Held):
    def setUp(self):
        self.calls = StartedCalls()

    def counted(self, blocks):
        """The prefix of the run in hand has so many blocks, the last of which waits."""
        run = self.calls.run
        self.assertEqual((run.node.position, run.permutations), (run.rate, blocks - 1), "the test itself is wrong")

    def in_pieces(self, number, first, custom, message, length):
        """Reads that come to the output's end in plain KMAC; one byte more is refused there."""
        self.calls.start(number, first, custom)
        for part in (message[: len(message) // 3], b"", message[len(message) // 3 :]):
            self.calls.absorb(part)
        self.calls.finalize(length if number in KMAC else None)
        for size in (length // 2, 0, length - length // 2, 1):
            self.calls.squeeze(size)

    def both_ways(self, number, first, custom, message, length=32):
        self.calls.started_one_go(number, first, custom, message, length)
        self.in_pieces(number, first, custom, message, length)

    def test_custom_ends_a_block(self):
        """N, or "KMAC", and S end one, two and three blocks, and one byte less and more: a whole block has no zeros after it."""
        for number, function in STARTED.items():
            for first in (b"", b"N", string_of(40, 1), string_of(300, 1)) if number in CSHAKE else (KEY,):
                before, begun = before_custom(number, first), len(first) // function.rate
                for blocks in (begun + 1, begun + 2, begun + 3):
                    for more in (-1, 0, 1):
                        custom = string_of(fitting(function.rate, before, blocks) + more)
                        self.calls.start(number, first, custom)
                        self.counted(blocks + (more == 1) + (number in KEYED))
                        self.both_ways(number, first, custom, MESSAGE[:3])
        self.hold(self.calls)

    def test_first_ends_a_block(self):
        """The same of N with an empty S, and of the key."""
        for number, function in STARTED.items():
            behind = 0 if number in KEYED else len(encode_string(b""))
            for blocks in (1, 2, 3):
                for more in (-1, 0, 1):
                    first = string_of(fitting(function.rate, before_first(number) + behind, blocks) + more)
                    self.calls.start(number, first, b"")
                    self.counted(blocks + (more == 1) + (number in KEYED))
                    self.both_ways(number, first, b"", MESSAGE[:3])
        self.hold(self.calls)

    def test_both_end_a_block(self):
        """N, then S, each of which ends a block; and of KMAC S and the key, whose bytepads are two."""
        for number, function in STARTED.items():
            rate = function.rate
            first = string_of(fitting(rate, before_first(number), 1))
            custom = string_of(fitting(rate, before_custom(number, first) % rate, 1), 1)
            for size in (0, 1, rate - 1, rate):
                self.both_ways(number, first, custom, MESSAGE[:size])
            self.calls.start(number, first, custom)
            self.counted(2)
        self.hold(self.calls)

    def test_lengths_of_strings(self):
        """Pairs of lengths of N and S, but of two long ones; of KMAC each length of S, and of the key with S empty and not."""
        for number in CSHAKE:
            for size in LENGTHS:
                for custom_size in LENGTHS:
                    if min(size, custom_size) < 256:
                        self.both_ways(number, string_of(size), string_of(custom_size, 1), MESSAGE[:5])
        for number in KEYED:
            for size in LENGTHS:
                self.both_ways(number, KEY, string_of(size, 1), MESSAGE[:5])
                self.both_ways(number, string_of(size), b"", MESSAGE[:5])
                self.both_ways(number, string_of(size), string_of(size, 1), b"")
        self.hold(self.calls)

    def test_every_length(self):
        """Each length of a string up to somewhat more than a block, so that it begins and ends at every place of a lane: the run of the start."""
        for number in (11, 12, 13, 14):
            for size in range(STARTED[number].rate + 10):
                self.calls.start(number, string_of(size), b"S")
                self.calls.start(number, string_of(size % 9, 2), string_of(size, 1))
        self.hold(self.calls)

    def test_keys(self):
        """Of 0, 1, and rate - 5 to rate + 5 bytes: any length is a key, and none is refused."""
        for number, function in STARTED.items():
            for size in (0, 1, 2, *range(function.rate - 5, function.rate + 6)):
                for custom in (b"", b"S"):
                    self.both_ways(number, string_of(size), custom, MESSAGE[: size % 7])
        self.assertEqual({status for _, status in self.calls.answers} - {6}, {0}, "the test itself is wrong")
        self.hold(self.calls)

    def test_messages(self):
        """Empty, and around the ends of two blocks; with what the close puts after them, and with 04 and 80 in one byte."""
        for number, function in STARTED.items():
            rate = function.rate
            for size in (0, 1, *range(rate - 8, rate + 3), *range(2 * rate - 6, 2 * rate + 2)):
                for length in (1, 32, 8192) if number in KMAC and size > 1 else (32,):
                    self.calls.start(number, KEY, b"S")
                    self.calls.absorb(MESSAGE[:size])
                    self.calls.finalize(length if number in KMAC else None)
                    self.calls.squeeze(min(length, 40))
                self.both_ways(number, KEY, b"", MESSAGE[:size])
                if number in CSHAKE:
                    self.both_ways(number, b"", b"", MESSAGE[:size])
                if number in KMAC:
                    self.calls.started_one_go(number, KEY, b"S", MESSAGE[:size], 8192 if size in (rate - 5, rate - 4) else 1)
        self.hold(self.calls)

    def test_outputs(self):
        """Around a block's end, and with 8 L of one to three bytes, read whole. The same run closed with another length gives other bytes."""
        for number, function in STARTED.items():
            rate = function.rate
            for length in (1, 2, 30, 31, 32, 33, *range(rate - 2, rate + 3), 2 * rate - 1, 2 * rate, 2 * rate + 1, 8191, 8192, 8193):
                self.both_ways(number, KEY, b"", MESSAGE[:9], length)
                if number in CSHAKE and length < 8000:
                    self.both_ways(number, b"", b"", MESSAGE[:9], length)
        self.hold(self.calls)

    def test_fixed_lengths(self):
        """Output lengths of plain KMAC whose bits have one to five bytes, which after these messages begin in one block and end in the next."""
        seen = set()
        for number, function in KMAC.items():
            for length in OUTPUTS:
                for size in (0, *range(function.rate - 7, function.rate + 1)):
                    self.calls.start(number, KEY, b"")
                    self.calls.absorb(MESSAGE[:size])
                    self.calls.finalize(length)
                    self.calls.squeeze(1)
                    seen.add(len(function.tail(length)))
        self.assertEqual(seen, {2, 3, 4, 5, 6}, "the test itself is wrong")
        self.hold(self.calls)

    def test_strings_are_told_apart(self):
        """The same bytes in other places: N and S, key and S, S and message; and N "KMAC", which is no KMAC without a key."""
        for number in STARTED:
            rate = STARTED[number].rate
            for first, custom, message in (
                *((b"ab", b"", b""), (b"", b"ab", b""), (b"a", b"b", b""), (b"", b"", b"ab"), (b"a", b"", b"b"), (b"", b"a", b"b")),
                *((NAME, b"", b""), (b"", NAME, b""), (NAME, NAME, NAME), (b"\0", b"", b""), (b"", b"\0", b""), (b"", b"", b"\0")),
                (bytes(rate), bytes(rate), bytes(rate)),
            ):
                self.both_ways(number, first, custom, message)
        self.hold(self.calls)
        told = [line for _, what, line in self.calls.expected if what[0] == "M"]
        self.assertEqual(len(set(told)), len(told), "the test itself is wrong")

    def test_longest(self):
        """As many bytes as a record can have: of the key, of S, of a piece, of a message in one go, of what is asked in one go and of a read.

        And in one go strings whose lengths need more than two bytes, both.
        """
        self.calls.start(15, bytes(MOST - 9), b"")
        self.calls.start(11, b"", bytes(MOST - 9))
        self.both_ways(14, bytes(70_000), bytes(70_000), b"abc")
        self.calls.start(11, b"", b"")
        self.calls.absorb(bytes(MOST))
        self.calls.started_one_go(11, b"", b"", bytes(MOST - 13), 32)
        self.calls.started_one_go(13, KEY, b"", b"", MOST)
        self.calls.start(13, KEY, b"")
        self.calls.finalize(MOST)
        self.calls.squeeze(MOST)
        self.calls.squeeze(1)
        self.hold(self.calls)


if __name__ == "__main__":
    unittest.main()
