"""The second program is held to what nobody here wrote, and to the standard's bit-by-bit text."""
import itertools
import random
import unittest

import reference
import third_program
import vectors
from sponge_functions import SHA3, SHAKE


def keccak_p_bits(bits, rounds):
    """Keccak-p[1600, rounds] on a string of 1600 bits, by FIPS 202's Algorithms 1 to 7 as they stand."""
    w = 64
    a = {(x, y, z): bits[w * (5 * y + x) + z] for x in range(5) for y in range(5) for z in range(w)}
    for i in range(24 - rounds, 24):
        c = {(x, z): a[x, 0, z] ^ a[x, 1, z] ^ a[x, 2, z] ^ a[x, 3, z] ^ a[x, 4, z] for x in range(5) for z in range(w)}
        d = {(x, z): c[(x - 1) % 5, z] ^ c[(x + 1) % 5, (z - 1) % w] for x in range(5) for z in range(w)}
        a = {(x, y, z): v ^ d[x, z] for (x, y, z), v in a.items()}
        moved = {(0, 0, z): a[0, 0, z] for z in range(w)}
        x, y = 1, 0
        for t in range(24):
            for z in range(w):
                moved[x, y, z] = a[x, y, (z - (t + 1) * (t + 2) // 2) % w]
            x, y = y, (2 * x + 3 * y) % 5
        a = {(x, y, z): moved[(x + 3 * y) % 5, x, z] for x, y, z in moved}
        a = {(x, y, z): v ^ ((a[(x + 1) % 5, y, z] ^ 1) & a[(x + 2) % 5, y, z]) for (x, y, z), v in a.items()}
        for j in range(7):
            a[0, 0, 2**j - 1] ^= reference.rc(j + 7 * i)
    return [a[x, y, z] for y in range(5) for x in range(5) for z in range(w)]


def bits_of(data):
    """FIPS 202, B.1: the bits of each byte, the least significant first."""
    return [byte >> i & 1 for byte in data for i in range(8)]


class Permutation(unittest.TestCase):
    def test_published_24_rounds_of_zero(self):
        lanes = reference.keccak_p([0] * 25, 24)
        self.assertEqual(f"{lanes[0]:016X}", "F1258F7940E1DDE7")

    def test_constants_of_the_scope(self):
        text = "000000008000808B 800000000000008B 8000000000008089 8000000000008003 8000000000008002 8000000000000080 000000000000800A 800000008000000A 8000000080008081 8000000000008080 0000000080000001 8000000080008008"
        self.assertEqual([f"{v:016X}" for v in reference.CONSTANTS[12:]], text.split())

    def test_offsets_of_the_scope(self):
        rows = "0 1 62 28 27  36 44 6 55 20  3 10 43 25 39  41 45 15 21 8  18 2 61 56 14"
        self.assertEqual(reference.OFFSETS, [int(n) for n in rows.split()])

    def test_bit_by_bit(self):
        source = random.Random(1)
        for rounds, data in ((12, reference.ptn(200)), *((n, source.randbytes(200)) for n in (0, 1, 2, 11, 12, 13, 23, 24))):
            after = reference.bytes_of(reference.keccak_p(reference.state_of(data), rounds))
            self.assertEqual(bits_of(after), keccak_p_bits(bits_of(data), rounds))


class Sponge(unittest.TestCase):
    """hashlib's SHA-3 and SHAKE use the same permutation with 24 rounds."""

    def test_hashlib(self):
        """Messages that end around a block of each rate, outputs of several blocks."""
        source = random.Random(2)
        for function in SHA3.values():
            for message in map(source.randbytes, third_program.sizes(source, function.rate)):
                digest = third_program.output(function, message, function.digest)
                self.assertEqual(reference.sha3(8 * function.digest, message), digest, function.name)
        for strength, function in zip((128, 256), SHAKE.values()):
            for message in map(source.randbytes, third_program.sizes(source, function.rate)):
                self.assertEqual(reference.shake(strength, message, 500), third_program.output(function, message, 500), function.name)

    def test_twelve_rounds_by_the_draft(self):
        """The draft's TurboSHAKE vectors show the twelve rounds. The two of 17**6 bytes, 75 s in Python, are left out."""
        rates = {"TurboSHAKE128": 168, "TurboSHAKE256": 136}
        checked = 0
        for v in vectors.turboshake():
            if v.size <= 17**5:
                out = reference.turboshake(rates[v.function], v.message(), v.domain, v.length)
                self.assertEqual(out[-len(v.digest) :], v.digest, v)
                checked += 1
        self.assertEqual(checked, 29)


class KangarooTwelve(unittest.TestCase):
    FUNCTIONS = {"KT128": reference.kt128, "KT256": reference.kt256}

    def test_length_encode(self):
        """Document 01's list, and the longest C and one byte more."""
        encoded = {0: "00", 12: "0C 01", 255: "FF 01", 256: "01 00 02", 65_535: "FF FF 02", 65_538: "01 00 02 03"}
        encoded |= {16_777_215: "FF FF FF 03", 16_777_216: "01 00 00 00 04"}
        self.assertEqual({x: reference.length_encode(x) for x in encoded}, {x: bytes.fromhex(text) for x, text in encoded.items()})

    def test_merged(self):
        """Document 01's list."""
        for message, custom, s in (("", "", "00"), ("FF", "", "FF 00"), ("", "FF", "FF 01 01")):
            self.assertEqual(reference.merged(bytes.fromhex(message), bytes.fromhex(custom)), bytes.fromhex(s))

    def test_chunks(self):
        """Document 01's list, and the parts joined are the whole."""
        for size, count in ((1, 1), (8192, 1), (8193, 2), (16_384, 2), (16_385, 3)):
            parts = reference.chunks(reference.ptn(size))
            self.assertEqual(len(parts), count)
            self.assertEqual(b"".join(parts), reference.ptn(size))
            self.assertEqual({len(part) for part in parts[:-1]} - {8192}, set())

    def test_both_sides_of_a_chunk(self):
        """Document 01: C empty, M of 8,191 bytes is one chunk, of 8,192 two; M of 8,192, C of 8,189 gives two, of 8,190 three."""
        for message, custom, count in ((8191, 0, 1), (8192, 0, 2), (8192, 8189, 2), (8192, 8190, 3)):
            s = reference.merged(reference.ptn(message), reference.ptn(custom))
            self.assertEqual(len(reference.chunks(s)), count)
            node, domain = reference.final_node(168, 32, s)
            self.assertEqual(domain, 0x07 if count == 1 else 0x06)
            self.assertEqual(len(node), len(s) if count == 1 else 8192 + 8 + 32 * (count - 1) + 2 + 2)

    def test_draft(self):
        """All vectors, those with a C of 41**3 bytes too. ptn has only 251 chunks that differ, so the long ones take seconds."""
        for v in vectors.kt():
            out = self.FUNCTIONS[v.function](v.message(), reference.ptn(v.custom), v.length)
            self.assertEqual(out[-len(v.digest) :], v.digest, v)
        self.assertEqual(len(list(vectors.kt())), 36)

    def test_older_draft(self):
        """Each of the 14 vectors of draft-viguier-kangarootwelve-01 is one of the newer draft's: it adds none."""
        newer = {v._replace(message=None) for v in vectors.kt()}
        older = [v._replace(message=None) for v in vectors.kangarootwelve()]
        self.assertEqual(len(older), 14)
        self.assertEqual(set(older) - newer, set())

    def test_scope(self):
        """The two that document 01 prints."""
        digest = "CB552E2EC77D9910701D578B457DDF772C12E322E4EE7FE417F92C758F0D59D0"
        self.assertEqual(reference.kt128(reference.ptn(17**3), b"", 32).hex().upper(), digest)
        digest = "FAB658DB63E94A246188BF7AF69A133045F46EE984C56E3C3328CAAF1AA1A583"
        self.assertEqual(reference.kt128(b"", reference.ptn(1), 32).hex().upper(), digest)


class Day(unittest.TestCase):
    """A day's message, by request Q-1."""

    def test_by_hand(self):
        days = {
            (): "",
            (b"",): "00",
            (b"", b""): "00 00",
            (b"AB", b"C"): "41 42 02 01 43 01 01",
            (b"A", b"BC"): "41 01 01 42 43 02 01",
            (b"ABC",): "41 42 43 03 01",
            (b"AB", b"", b"C"): "41 42 02 01 00 43 01 01",
            (bytes(12),): "00 " * 12 + "0C 01",
            (bytes(255), b"A"): "00 " * 255 + "FF 01 41 01 01",
            (bytes(256), b"A"): "00 " * 256 + "01 00 02 41 01 01",
            (bytes(65_535), b"A"): "00 " * 65_535 + "FF FF 02 41 01 01",
        }
        for events, message in days.items():
            self.assertEqual(reference.day_message(events), bytes.fromhex(message))

    def lists(self, room):
        """Every list of events of the bytes 00, 01 and 02 that so many bytes have room for: 1 for an empty event, n + 2 for one of n bytes."""
        yield ()
        for size in (n for n in range(room) if n == 0 or n + 2 <= room):
            for event in itertools.product(range(3), repeat=size):
                for others in self.lists(room - size - (2 if size else 1)):
                    yield bytes(event), *others

    def test_different_lists_have_different_messages(self):
        """Up to nine bytes, of which the encodings have some too."""
        lists = list(self.lists(9))
        messages = {reference.day_message(events) for events in lists}
        self.assertEqual(max(map(len, messages)), 9)
        self.assertEqual(len(messages), len(lists))
        self.assertEqual(len(set(lists)), len(lists))
        self.assertGreater(len(lists), 10_000)


class HopMac(unittest.TestCase):
    """The draft prints no vectors: the two calls are put together here."""

    def test_nodes(self):
        """Everything empty: the inner S is 00, the outer one the digest and length_encode of its 32 or 64 bytes."""
        inner = reference.turboshake(168, b"\x00", 0x07, 32)
        self.assertEqual(reference.hopmac128(b"", b"", b"", 40), reference.turboshake(168, inner + b"\x20\x01", 0x07, 40))
        inner = reference.turboshake(136, b"\x00", 0x07, 64)
        self.assertEqual(reference.hopmac256(b"", b"", b"", 40), reference.turboshake(136, inner + b"\x40\x01", 0x07, 40))

    def test_two_calls(self):
        """The message and C go into the inner call, the key and its digest into the outer one, through chunks too."""
        for key, message, custom in ((b"key", b"message", b"custom"), (reference.ptn(8158), reference.ptn(8192), reference.ptn(300))):
            tag = reference.kt128(key, reference.kt128(message, custom, 32), 70)
            self.assertEqual(reference.hopmac128(key, message, custom, 70), tag)
            tag = reference.kt256(key, reference.kt256(message, custom, 64), 70)
            self.assertEqual(reference.hopmac256(key, message, custom, 70), tag)

    def test_a_shorter_tag_is_the_beginning(self):
        for function in (reference.hopmac128, reference.hopmac256):
            whole = function(b"key", b"message", b"", 200)
            for size in (1, 32, 64, 135, 136, 168, 169):
                self.assertEqual(function(b"key", b"message", b"", size), whole[:size])


if __name__ == "__main__":
    unittest.main()
