"""The second program's cSHAKE, KMAC and KMACXOF are held to NIST's sample values, to hashlib's SHAKE, and to blocks put together by hand."""
import random
import unittest
from collections import Counter

import nist
import reference
import third_program
from reference import bytepad, encode_string, left_encode, right_encode
from sp800_185 import CSHAKE, KMAC, KMACXOF, NAME, SHAKES, STARTED
from sponge_functions import SHAKE
from transcript import Limits

KEY = bytes(range(0x40, 0x60))  # of NIST's samples
SHORT = bytes(range(4))
SIGNATURE = b"Email Signature"


class Encodings(unittest.TestCase):
    def test_numbers(self):
        """The bytes of a number, with their number before or after them: both sides of each length, and 0, which has one byte."""
        table = {0: "00", 1: "01", 12: "0c", 255: "ff", 256: "0100", 65_535: "ffff", 65_536: "010000", 2**24 - 1: "ffffff", 2**24: "01000000"}
        table |= {2**32 - 1: "ffffffff", 2**32: "0100000000", 8 * (2**34 - 1): "1ffffffff8", 2**64: "01" + 16 * "0"}
        for number, digits in table.items():
            size = f"{len(digits) // 2:02x}"
            self.assertEqual((left_encode(number).hex(), right_encode(number).hex()), (size + digits, digits + size))
        self.assertEqual((left_encode(0), right_encode(0)), (b"\x01\x00", b"\x00\x01"))
        self.assertNotEqual(right_encode(0), reference.length_encode(0))

    def test_strings(self):
        """The length is in bits: 32 bytes are 256, the first that need two bytes, and 8,192 the first that need three."""
        heads = {0: "0100", 1: "0108", 31: "01f8", 32: "020100", 33: "020108", 8191: "02fff8", 8192: "03010000", 8193: "03010008"}
        for size, head in heads.items():
            data = reference.ptn(size)
            self.assertEqual(encode_string(data), bytes.fromhex(head) + data)

    def test_padding(self):
        """Zeros up to the next multiple; none, not a block of them, where the content ends there."""
        for rate, head in ((168, "01a8"), (136, "0188")):
            whole = rate - 2  # of the content, behind the rate
            ends = [pair for end in (whole, whole + rate) for pair in ((end - 1, 1), (end, 0), (end + 1, rate - 1))]
            for size, zeros in ((0, whole), (1, whole - 1), *ends):
                data = reference.ptn(size)
                self.assertEqual(bytepad(data, rate), bytes.fromhex(head) + data + bytes(zeros))


class Outputs(unittest.TestCase):
    def test_samples(self):
        """All 16: two of each cSHAKE, three of each KMAC and KMACXOF."""
        found = Counter()
        for sample in nist.samples():
            function = STARTED[sample.function]
            size = len(sample.value)
            self.assertEqual(function.output(sample.first, sample.custom, sample.message, size, size), sample.value, function.name)
            found[sample.function] += 1
        self.assertEqual(found, {11: 2, 12: 2, 13: 3, 14: 3, 15: 3, 16: 3})

    def test_definitions(self):
        """The functions by their numbers are the standard's; the first bytes of a long output are not those of a short one in plain KMAC alone."""
        message = reference.ptn(200)
        for number, strength in ((11, 128), (12, 256)):
            self.assertEqual(CSHAKE[number].output(b"N", b"S", message, None, 300), reference.cshake(strength, message, 300, b"N", b"S"))
        for number, strength in ((13, 128), (14, 256)):
            long = reference.kmac(strength, KEY, message, 300, b"S")
            self.assertEqual([KMAC[number].output(KEY, b"S", message, 300, size) for size in (300, 32)], [long, long[:32]])
            self.assertNotEqual(reference.kmac(strength, KEY, message, 32, b"S"), long[:32])
        for number, strength in ((15, 128), (16, 256)):
            long = reference.kmacxof(strength, KEY, message, 300, b"S")
            self.assertEqual(KMACXOF[number].output(KEY, b"S", message, None, 32), long[:32])
            self.assertEqual(reference.kmacxof(strength, KEY, message, 32, b"S"), long[:32])
            self.assertNotEqual(reference.kmac(strength, KEY, message, 32, b"S"), long[:32])

    def test_hashlib(self):
        """With both strings empty cSHAKE is SHAKE, and with either it is not."""
        source = random.Random(14)
        for number, function in CSHAKE.items():
            for message in map(source.randbytes, third_program.sizes(source, function.rate)):
                shake = third_program.output(SHAKE[SHAKES[number]], message, 500)
                self.assertEqual(function.output(b"", b"", message, None, 500), shake)
                for strings in ((b"", b"S"), (b"N", b""), (b"\0", b""), (b"", b"\0")):
                    self.assertNotEqual(function.output(*strings, message, None, 32), shake[:32])

    def digest(self, rate, size, *blocks):
        """The first bytes after these blocks."""
        lanes = [0] * 25
        for block in blocks:
            self.assertEqual(len(block), rate)
            lanes = reference.keccak_p([v ^ w for v, w in zip(lanes, reference.state_of(block.ljust(200, b"\0")))], 24)
        return reference.bytes_of(lanes)[:size]

    def test_cshake_by_hand(self):
        """The prefix is a block; then the message, 04 and 80. A prefix of a whole block by its strings has no zeros."""
        prefix = bytes.fromhex("01a8 0100 0178") + SIGNATURE
        out = self.digest(168, 32, prefix + bytes(168 - 21), SHORT + b"\x04" + bytes(162) + b"\x80")
        self.assertEqual(reference.cshake(128, SHORT, 32, b"", SIGNATURE), out)
        custom = reference.ptn(129)
        prefix = bytes.fromhex("0188 0100 020408") + custom
        self.assertEqual(reference.cshake(256, b"", 32, b"", custom), self.digest(136, 32, prefix, b"\x04" + bytes(134) + b"\x80"))
        self.assertEqual(reference.cshake(256, bytes(135), 32, b"", custom), self.digest(136, 32, prefix, bytes(135) + b"\x84"))

    def test_kmac_by_hand(self):
        """Two prefixes of a block each; after the message the output's bits, 256, or for KMACXOF 0."""
        named = bytes.fromhex("01a8 0120") + b"KMAC" + bytes.fromhex("0100") + bytes(168 - 10)
        keyed = bytes.fromhex("01a8 020100") + KEY + bytes(168 - 37)
        last = SHORT + bytes.fromhex("010002") + b"\x04" + bytes(159) + b"\x80"
        self.assertEqual(reference.kmac(128, KEY, SHORT, 32, b""), self.digest(168, 32, named, keyed, last))
        last = SHORT + bytes.fromhex("0001") + b"\x04" + bytes(160) + b"\x80"
        self.assertEqual(reference.kmacxof(128, KEY, SHORT, 32, b""), self.digest(168, 32, named, keyed, last))


class Blocks(unittest.TestCase):
    def test_of_the_limits(self):
        """The least and the most blocks of a prefix are what the least and the most strings give, by lengths alone."""

        def encoded(size):
            return len(left_encode(8 * size)) + size

        def blocks(rate, *sizes):
            return -(-(2 + sum(map(encoded, sizes))) // rate)

        most, key = Limits.CUSTOM_LIMIT, Limits.ABSORB_LIMIT
        self.assertEqual((most, key), (2**24 - 1, 2**34 - 1))
        for number, function in STARTED.items():
            rate = function.rate
            if number in CSHAKE:
                ends = blocks(rate, 0, 1), blocks(rate, most, most)
            else:
                ends = blocks(rate, 4, 0) + blocks(rate, 0), blocks(rate, 4, most) + blocks(rate, key)
            self.assertEqual((function.blocks[0], function.blocks[-1]), ends, function.name)
        self.assertEqual(KMAC[13].blocks[-1], 102_360_992)
        self.assertEqual(KMAC[14].blocks[-1], 126_445_930)

    def test_of_strings(self):
        """A prefix is whole blocks, of lengths that these lengths give."""
        for number, function in STARTED.items():
            rate = function.rate
            for first in (b"", b"a", bytes(rate - 5), bytes(300)):
                for custom in (b"", b"a", bytes(rate - 7), bytes(rate - 11), bytes(300)):
                    name = NAME if function.is_keyed else first
                    size = -(-(2 + len(encode_string(name) + encode_string(custom))) // rate)
                    size += -(-(2 + len(encode_string(first))) // rate) if function.is_keyed else 0
                    due = size * rate if function.is_keyed or first or custom else 0
                    self.assertEqual(len(function.prefix(first, custom)), due, function.name)


if __name__ == "__main__":
    unittest.main()
