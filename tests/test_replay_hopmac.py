"""The program `replay` answers HopMAC and the tag check as the second program does.

Needs crates/replay/out/replay, which `rt ci` leaves.
"""
import random
import unittest
from collections import Counter

from one_go import HOPMAC, LONGEST_TAG
from replay import MOST, SEED, Calls, Held
from transcript import CHAINING, KT

CASES = 800  # of each op in the random list
# A key, a message or a C is the beginning of one of these: the states after its blocks are then worked out once, and kept.
KEY, OTHER_KEY, MESSAGE, OTHER_MESSAGE, CUSTOM = (random.Random(SEED + i).randbytes(MOST) for i in range(5))
STRENGTHS = dict(zip(HOPMAC, KT.values()))  # the rate of each
BLOCKS = (*range(135, 138), *range(167, 170))
CHUNKS = (*range(8191, 8194), *range(16_383, 16_386))
SIZES = (0, 1, 32, *BLOCKS, *CHUNKS, 20_000)
CUSTOM_SIZES = (0, 1, 255, 256, *BLOCKS, *range(8191, 8194), 20_000)
LONG_CUSTOM_SIZES = (65_535, 65_536, 68_921)
OUTPUTS = (1, 32, 64, *BLOCKS, 335, 336, 337, 1000)
BAD_TAGS = (0, 65, 66, 200)  # lengths that answer 7


def ends(rest, units):
    """Lengths with which S, that has `rest` bytes more, ends at, one before or one past a multiple of one of `units`."""
    return [max(0, -rest % unit + more) for unit in units for more in (-1, 0, 1)]


def key_ends(strength):
    """Lengths of keys by the outer S: after the key it has the inner digest, of 32 or 64 bytes, and two bytes of length_encode."""
    rate = STRENGTHS[strength]
    return ends(CHAINING[rate] + 2, (rate, 8192, 16_384))


def flipped(tag, at):
    """The tag with bit `at`, of 8 in each byte, wrong."""
    return (int.from_bytes(tag, "little") ^ 1 << at).to_bytes(len(tag), "little")


def key_of(source, strength):
    kind = source.randrange(10)
    size = source.choice(SIZES if kind < 4 else key_ends(strength) if kind < 7 else (source.randrange(600),))
    return source.choice((KEY, OTHER_KEY))[:size]


def message_of(source):
    size = source.choice(SIZES) if source.randrange(10) < 6 else source.randrange(600)
    return source.choice((MESSAGE, OTHER_MESSAGE))[:size]


def custom_of(source, message_size):
    """Short ones, of a length of the list, with which the inner S ends around a block or a chunk; seldom a long one."""
    kind = source.randrange(100)
    if kind < 45:
        return CUSTOM[: source.choice((0, 0, 1, source.randrange(300)))]
    if kind < 70:
        return CUSTOM[: source.choice(CUSTOM_SIZES)]
    if kind < 99:
        return CUSTOM[: source.choice(ends(message_size + source.choice((1, 2, 3)), (168, 136, 8192)))]
    return CUSTOM[: source.choice(LONG_CUSTOM_SIZES)]


def presented(source, right):
    """A tag made from the right 64 bytes, and the bit that is wrong in it, or None: right, wrong in one bit, or of a length that answers 7."""
    kind = source.randrange(20)
    if kind < 2:
        return (right + bytes(200))[: source.choice(BAD_TAGS)], None
    if kind < 9:
        return right[: source.choice((1, 16, 32, 64, source.randrange(1, LONGEST_TAG + 1)))], None
    at = source.randrange(8 * LONGEST_TAG)
    return flipped(right[: source.choice((at // 8 + 1, source.randrange(at // 8 + 1, LONGEST_TAG + 1), LONGEST_TAG))], at), at


class HopMac(Held):
    def lines(self, calls, op):
        """The lines due for an op."""
        return [line for _, what, line in calls.expected if what[0] == op]

    def test_random_cases(self):
        """800 of each op from a fixed seed; every byte and every bit of a byte is wrong in some tag, and each answer is met."""
        source, calls = random.Random(SEED), Calls()
        wrong = set()
        for _ in range(CASES):
            strength = source.randrange(2)
            key, message = key_of(source, strength), message_of(source)
            custom = custom_of(source, len(message))
            calls.hopmac(strength, key, message, custom, 0 if source.randrange(8) == 0 else source.choice(OUTPUTS))
            tag, at = presented(source, HOPMAC[strength](key, message, custom, LONGEST_TAG))
            calls.verify(strength, key, message, custom, tag)
            if at is not None:
                wrong.add(at)
        self.assertEqual({at // 8 for at in wrong}, set(range(LONGEST_TAG)))
        self.assertEqual({at % 8 for at in wrong}, set(range(8)))
        for op, status in (("H", 0), ("H", 7), ("V", 0), ("V", 7)):
            self.assertGreater(calls.answers[op, status], 30, (op, status))
        said = Counter(self.lines(calls, "V"))
        self.assertGreater(min(said["0 yes"], said["0 no"]), 150)
        self.assertGreater(min(calls.answers["H", 0], calls.answers["V", 0]), 500)
        self.hold(calls)

    def test_edges(self):
        """Each length of a key, of a message and of a C by itself, each end of S around a block's or a chunk's end, each output."""
        calls = Calls()
        for strength, rate in STRENGTHS.items():
            for size in (*SIZES, *key_ends(strength), 69, 70):
                calls.hopmac(strength, KEY[:size], MESSAGE[:5], b"", 40)
            for size in (*SIZES, *ends(1, (rate, 8192, 16_384))):
                calls.hopmac(strength, KEY[:16], MESSAGE[:size], b"", 40)
            for size in (*CUSTOM_SIZES, *LONG_CUSTOM_SIZES, *ends(100 + 2, (rate,)), *ends(100 + 3, (8192, 16_384))):
                calls.hopmac(strength, KEY[:16], MESSAGE[:100], CUSTOM[:size], 40)
            for size in (0, *OUTPUTS, 10_000):
                calls.hopmac(strength, KEY[:16], MESSAGE[:100], CUSTOM[:7], size)
        self.assertEqual(calls.answers["H", 7], 2, "the test itself is wrong")
        self.hold(calls)

    def test_every_bit_of_a_tag(self):
        """Each of the 512 bits of a tag of 64 bytes wrong alone; in shorter tags, each bit of the first and of the last byte."""
        calls = Calls()
        for strength in STRENGTHS:
            call = strength, KEY[:32], MESSAGE[:300], CUSTOM[:9]
            right = HOPMAC[strength](*call[1:], LONGEST_TAG)
            for at in range(8 * LONGEST_TAG):
                calls.verify(*call, flipped(right, at))
            for size in range(1, LONGEST_TAG):
                for at in {*range(8), *range(8 * size - 8, 8 * size)}:
                    calls.verify(*call, flipped(right[:size], at))
        self.assertEqual(set(self.lines(calls, "V")), {"0 no"}, "the test itself is wrong")
        self.hold(calls)

    def test_beginnings_of_a_tag(self):
        """The first bytes of a longer tag are right for their length, and the bytes of HopMAC with as many asked."""
        calls = Calls()
        for strength in STRENGTHS:
            call = strength, KEY[:100], MESSAGE[:8192], CUSTOM[:1]
            right = HOPMAC[strength](*call[1:], LONGEST_TAG)
            for size in range(1, LONGEST_TAG + 1):
                calls.hopmac(*call, size)
                calls.verify(*call, right[:size])
            self.assertEqual(self.lines(calls, "H")[-LONGEST_TAG:], [f"0 {right[:n].hex()}" for n in range(1, LONGEST_TAG + 1)])
        self.assertEqual(set(self.lines(calls, "V")), {"0 yes"}, "the test itself is wrong")
        self.hold(calls)

    def test_lengths_of_a_tag(self):
        """No byte, or more than 64, answers 7 and no, though all of them are HopMAC's; with a C of 65,536 bytes, which is taken, too."""
        calls = Calls()
        for strength in STRENGTHS:
            call = strength, KEY[:32], MESSAGE[:300]
            for custom, sizes in ((CUSTOM[:9], (67, 128, 255, 256, 257, 320, 65_536, 65_600)), (CUSTOM[:65_536], (65_600,))):
                right = HOPMAC[strength](*call[1:], custom, 65_600)
                for size in (*BAD_TAGS, *sizes):
                    calls.verify(*call, custom, right[:size])
            calls.verify(*call, CUSTOM[:65_536], right[:64])
            calls.hopmac(*call, CUSTOM[:65_536], 0)
        self.assertEqual(self.lines(calls, "V"), 2 * (17 * ["7 no"] + ["0 yes"]), "the test itself is wrong")
        self.assertEqual(self.lines(calls, "H"), 2 * ["7 "], "the test itself is wrong")
        self.hold(calls)

    def test_each_part_counts(self):
        """Key, message and C exchanged, one byte moved from one to the next, and the other strength: other bytes, and a tag that is wrong."""
        calls = Calls()
        for key, message, custom in ((KEY[:32], MESSAGE[:300], CUSTOM[:9]), (KEY[:8192], MESSAGE[:8193], CUSTOM[:167]), (b"k", b"", b"")):
            parts = {(key, message, custom), (message, key, custom), (key, custom, message), (custom, message, key), (key + b"\0", message, custom)}
            parts |= {(key[:-1], key[-1:] + message, custom), (key, message[:-1], message[-1:] + custom), (key, message, custom + b"\0")}
            tags = {(strength, part): HOPMAC[strength](*part, 32) for strength in STRENGTHS for part in sorted(parts)}
            self.assertEqual(len(set(tags.values())), len(tags), "the test itself is wrong")
            for (strength, part), tag in tags.items():
                calls.hopmac(strength, *part, 32)
                calls.verify(strength, *part, tag)
                calls.verify(strength, key, message, custom, tag)
                calls.verify(1 - strength, *part, tag)
        self.hold(calls)

    def test_no_trace(self):
        """The run in hand goes on as if neither call had been, done or refused."""
        calls = Calls()
        for function in (0, 2, 3, 4):
            calls.fresh(function)
            calls.absorb(MESSAGE[:9000])
            for size in (64, 0):
                calls.hopmac(function % 2, KEY[:32], MESSAGE[:300], CUSTOM[:9], size)
                calls.verify(function % 2, KEY[:32], MESSAGE[:300], CUSTOM[:9], bytes(size))
            calls.absorb(MESSAGE[9000:9100])
            if function == 0:
                calls.finalize(0x1F)
            else:
                calls.customize(b"ab")
                calls.hopmac(1, KEY[:32], MESSAGE[:300], b"", 64)
                calls.customize(b"c")
                calls.finish()
            calls.hopmac(1, KEY[:32], MESSAGE[:300], b"", 64)
            calls.squeeze(64)
        self.hold(calls)

    def test_longest(self):
        """The most bytes that a record can have: of a key, of a message, of a C, of a tag, of an output, of all together."""
        calls = Calls()
        most = MOST - 13
        calls.hopmac(0, KEY[:most], b"", b"", 32)
        calls.hopmac(1, b"", MESSAGE[:most], b"", 32)
        calls.hopmac(0, b"", b"", CUSTOM[:most], 32)
        calls.hopmac(1, b"", b"", b"", MOST)
        part = most - 65_536 - 64
        calls.verify(0, KEY[: part // 2], MESSAGE[: part - part // 2], CUSTOM[:65_536], bytes(64))
        calls.verify(1, b"", b"", b"", bytes(most))
        self.hold(calls)


if __name__ == "__main__":
    unittest.main()
