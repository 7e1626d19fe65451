"""The lines of the program `keyed` stand where its edges are."""
import hashlib
import unittest

import keyed_lines
import nist
from reference import bytepad, cshake_prefix, encode_string, left_encode, ptn, right_encode
from sp800_185 import CSHAKE, KEYED, KMAC, NAME, STARTED

RATES = sorted({function.rate for function in STARTED.values()})


class Lines(unittest.TestCase):
    @classmethod
    def setUpClass(cls):
        cls.lines = [line.split(" ") for line in keyed_lines.output().splitlines()]
        cls.closes = [line for line in cls.lines if line[1] == "close"]

    def lines_of(self, number, *lengths):
        """Those of the edges: NIST's samples come before them."""
        return [line for line in self.lines[16:] if line[:5] == [STARTED[number].name, *map(str, lengths)]]

    def test_samples(self):
        """Sixteen, in NIST's order; the bytes in one go and in pieces are those that NIST prints."""
        due = [[STARTED[s.function].name, *(str(len(part)) for part in (s.first, s.custom, s.message, s.value))] for s in nist.samples()]
        self.assertEqual([line[:5] for line in self.lines[:16]], due)
        for line, sample in zip(self.lines, nist.samples()):
            self.assertEqual(line[5:11], ["one", "0", sample.value.hex(), "cut", "0", sample.value.hex()])

    def test_every_function(self):
        for number in STARTED:
            self.assertEqual(len([line for line in self.lines[16:] if line[0] == STARTED[number].name and line[1] != "close"]), 3 * 29 + 8)
        self.assertEqual(len(self.closes), 12 * len(KMAC))

    def test_bits(self):
        """N or the key, S, and the message: one byte less and more than 32 and 8,192, the first whose bits have two and three bytes, and than 256."""
        for size, before, after in ((32, 1, 2), (256, 2, 2), (8192, 2, 3)):
            self.assertEqual([len(left_encode(8 * n)) - 1 for n in (size - 1, size, size + 1)], [before, after, after])
            for number in STARTED:
                for n in (size - 1, size, size + 1):
                    for lengths in ((n, 0, 3, 32), (4, n, 3, 32), (4, 5, n, 32)):
                        self.assertEqual(len(self.lines_of(number, *lengths)), 1)

    def test_whole_blocks(self):
        """Of a key, of S after a name of four bytes, and of a name before an empty S: one that ends its block is there, and one byte more and less."""
        for rate in RATES:
            fits = {
                rate - 5: lambda n: len(bytepad(encode_string(bytes(n)), rate)),
                rate - 11: lambda n: len(cshake_prefix(rate, NAME, bytes(n))),
                rate - 7: lambda n: len(cshake_prefix(rate, bytes(n), b"")),
            }
            for size, length_of in fits.items():
                self.assertEqual([length_of(n) for n in (size - 1, size, size + 1)], [rate, rate, 2 * rate])
        for number, function in STARTED.items():
            for more in (-1, 0, 1):
                self.assertTrue(self.lines_of(number, function.rate - (5 if number in KEYED else 7) + more, 0, 3, 32))
                self.assertTrue(self.lines_of(number, 4, function.rate - 11 + more, 3, 32))

    def test_keys(self):
        for number, function in KEYED.items():
            for size in (0, 1, *range(function.rate - 5, function.rate + 6)):
                self.assertEqual(len(self.lines_of(number, size, 0, 3, 32)), 1)

    def test_shake(self):
        """With N and S empty the bytes are those of hashlib's SHAKE."""
        for number, function in CSHAKE.items():
            value = hashlib.new(f"shake_{function.strength}", ptn(3)).digest(33).hex()
            ((_, *_, one, _, _, cut, _, status, more),) = self.lines_of(number, 0, 0, 3, 32)
            self.assertEqual((one, cut, status, more), (value[:64], value[:64], "0", value[64:]))

    def test_outputs(self):
        """An output of no bytes is refused by 7, but not in pieces where none is fixed; a byte more than is fixed by 6."""
        for number in STARTED:
            ((*_, one, _, _, cut, _, _, more, _),) = self.lines_of(number, 4, 5, 3, 0)
            self.assertEqual((one, cut, more), ("7", "7", "3") if number in KMAC else ("7", "0", "0"))
            for line in self.lines_of(number, 4, 5, 3, STARTED[number].rate):
                self.assertEqual(line[-2:] == ["6", "a5"], number in KMAC)

    def test_closes(self):
        """Lengths in bits of one to five bytes; 7 and 6; a read past the length is refused by 6, one after a refused close by 3."""
        sizes = {len(right_encode(8 * int(line[2]))) - 1 for line in self.closes if line[3] == "0"}
        self.assertEqual(sizes, {1, 2, 3, 4, 5})
        statuses = [(line[3], line[4]) for line in self.closes]
        self.assertEqual(statuses, len(KMAC) * [("7", "3"), ("0", "6"), ("0", "6"), *8 * [("0", "0")], ("6", "3")])
        done = [line[5] for line in self.closes if line[4] == "0"]
        self.assertEqual(len(set(done)), len(done))


if __name__ == "__main__":
    unittest.main()
