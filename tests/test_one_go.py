"""The calls in one go: which refusal wins, both sides of each limit, and the same bytes as a run's."""
import unittest

import model_run
import one_go
import reference
import started_run
from sp800_185 import CSHAKE, KEYED, KMAC, STARTED
from sponge_functions import FIPS202, SHA3, SPONGE, TURBOSHAKE
from transcript import KT


class OneGo(unittest.TestCase):
    """The most bytes of a message, of a C and of an output are taken, one more is not."""

    MESSAGE, CUSTOM, OUTPUT = 17_179_869_183, 16_777_215, 4_294_967_295

    def test_order_of_the_refusals(self):
        for function in TURBOSHAKE.values():
            self.assertEqual(one_go.sponge_status(function, self.MESSAGE + 1, 0x80, 0), 1)
            self.assertEqual(one_go.sponge_status(function, self.MESSAGE + 1, 0x7F, 0), 2)
            self.assertEqual(one_go.sponge_status(function, self.MESSAGE, 0x01, 0), 7)
            self.assertEqual(one_go.sponge_status(function, self.MESSAGE, 0x01, self.OUTPUT + 1), 6)
            self.assertEqual(one_go.sponge_status(function, self.MESSAGE, 0x01, self.OUTPUT), 0)

    def test_order_of_the_fips_202_refusals(self):
        """2, 7, 6; a SHA3 call beyond the digest answers 6, however far."""
        outputs = {5: 28, 6: 32, 7: 48, 8: 64, 9: self.OUTPUT, 10: self.OUTPUT}
        for number, output in outputs.items():
            asked = (0, output + 1, self.OUTPUT + 1, 1, output)
            over = [one_go.sponge_status(FIPS202[number], self.MESSAGE + 1, None, size) for size in asked]
            most = [one_go.sponge_status(FIPS202[number], self.MESSAGE, None, size) for size in asked]
            self.assertEqual((over, most), ([2] * 5, [7, 6, 6, 0, 0]))

    def test_first_bytes_of_a_digest(self):
        for function in SHA3.values():
            digest = reference.sha3(8 * function.digest, b"message")
            for size in range(1, function.digest + 1):
                self.assertEqual(one_go.sponge(function, b"message", None, size), (0, digest[:size]))
            self.assertEqual(one_go.sponge(function, b"message", None, function.digest + 1), (6, None))
            self.assertEqual(one_go.sponge(function, b"message", None, 0), (7, None))

    def test_rounds(self):
        """Up to 24 are done, or undone; more answer 16 and leave the bytes."""
        state = reference.ptn(200)
        for rounds in range(25):
            status, after = one_go.permutation(rounds, state)
            self.assertEqual((status, reference.state_of(after)), (0, reference.keccak_p(reference.state_of(state), rounds)))
            self.assertEqual(one_go.inverse(rounds, after), (0, state))
        for rounds in (25, 26, 64, 255):
            self.assertEqual(one_go.permutation(rounds, state), (16, state))
            self.assertEqual(one_go.inverse(rounds, state), (16, state))

    def test_order_of_the_kt_refusals(self):
        self.assertEqual(one_go.kt_status(self.MESSAGE + 1, self.CUSTOM + 1, 0), 2)
        self.assertEqual(one_go.kt_status(self.MESSAGE, self.CUSTOM + 1, 0), 4)
        self.assertEqual(one_go.kt_status(self.MESSAGE, self.CUSTOM + 1, self.OUTPUT + 1), 4)
        self.assertEqual(one_go.kt_status(self.MESSAGE, self.CUSTOM, 0), 7)
        self.assertEqual(one_go.kt_status(self.MESSAGE, self.CUSTOM, self.OUTPUT + 1), 6)
        self.assertEqual(one_go.kt_status(self.MESSAGE, self.CUSTOM, self.OUTPUT), 0)

    def test_order_of_the_lent_refusals(self):
        """12, for any number of words but 100, before 2, 4, 7 and 6, and before an answer of 0; with 100 words as the plain call."""
        sizes = [(m, c, n) for m in (0, self.MESSAGE, self.MESSAGE + 1) for c in (0, self.CUSTOM + 1) for n in (0, 1, self.OUTPUT + 1)]
        for words in (0, 1, 25, 96, 99, 101, 104, 200, 300):
            self.assertEqual([one_go.kt_lent_status(words, *lengths) for lengths in sizes], [12] * len(sizes))
            self.assertEqual([one_go.kt_lent(words, 168, b"abc", b"", size) for size in (0, 1)], [(12, None)] * 2)
        self.assertEqual([one_go.kt_lent_status(100, *lengths) for lengths in sizes], [one_go.kt_status(*lengths) for lengths in sizes])
        self.assertEqual({one_go.kt_lent_status(100, *lengths) for lengths in sizes}, {0, 2, 4, 6, 7})
        self.assertEqual(one_go.kt_lent(100, 136, b"abc", b"d", 40), (0, reference.kt256(b"abc", b"d", 40)))

    def test_order_of_the_hopmac_refusals(self):
        """The key and the message are each held to the limit of 2; a tag is never so long that 6 is due."""
        most, over, output = self.MESSAGE, self.MESSAGE + 1, self.OUTPUT
        long, taken = self.CUSTOM + 1, self.CUSTOM
        for sizes in ((over, 0), (0, over), (over, over)):
            self.assertEqual([one_go.hopmac_status(*sizes, long, size) for size in (0, 1, output + 1)], [2, 2, 2])
            self.assertEqual([one_go.verify_status(*sizes, long, size) for size in (0, 1, 65)], [2, 2, 2])
        self.assertEqual([one_go.hopmac_status(most, most, long, size) for size in (0, 1, output + 1)], [4, 4, 4])
        self.assertEqual([one_go.hopmac_status(most, most, taken, size) for size in (0, output + 1, 1, output)], [7, 6, 0, 0])
        self.assertEqual([one_go.verify_status(most, most, long, size) for size in (0, 1, 64, 65)], [4, 4, 4, 4])
        self.assertEqual([one_go.verify_status(most, 0, taken, size) for size in (0, 1, 64, 65, output + 1)], [7, 0, 0, 7, 7])

    def test_order_of_the_started_refusals(self):
        """2, for the message or a key, 4, for N or S, 7, 6. A key may be longer than S; N may not."""
        most, over, output = self.MESSAGE, self.MESSAGE + 1, self.OUTPUT
        long, taken = self.CUSTOM + 1, self.CUSTOM
        asked = (0, output + 1, 1, output)
        for number, function in STARTED.items():
            first = most if number in KEYED else taken

            def statuses(first_size, custom_size, message_size):
                return [one_go.started_status(function, first_size, custom_size, message_size, size) for size in asked]

            self.assertEqual([statuses(first, long, over), statuses(0, 0, over)], [[2] * 4] * 2)
            self.assertEqual(statuses(first, long, most), [4] * 4)
            self.assertEqual(statuses(first, taken, most), [7, 6, 0, 0])
            self.assertEqual(statuses(long, taken, most), [4] * 4 if number in CSHAKE else [7, 6, 0, 0])
            self.assertEqual(statuses(over, long, most), [4] * 4 if number in CSHAKE else [2] * 4)

    def test_tag_check(self):
        for strength, function in enumerate((reference.hopmac128, reference.hopmac256)):
            tag = function(b"key", b"message", b"abc", 65)
            self.assertEqual(one_go.hopmac(strength, b"key", b"message", b"abc", 65), (0, tag))
            said = [one_go.verify(strength, b"key", b"message", b"abc", tag[:size]) for size in (0, 1, 63, 64, 65)]
            self.assertEqual(said, [(7, False), (0, True), (0, True), (0, True), (7, False)])
            self.assertEqual(one_go.verify(strength, b"key", b"message", b"abc", tag[:31] + bytes([tag[31] ^ 1])), (0, False))
            self.assertEqual(one_go.verify(strength, b"message", b"key", b"abc", tag[:32]), (0, False))
            self.assertEqual(one_go.verify(1 - strength, b"key", b"message", b"abc", tag[:32]), (0, False))
            self.assertEqual(one_go.verify(strength, b"key", b"message", bytes(self.CUSTOM + 1), tag[:32]), (4, False))
            self.assertEqual(one_go.hopmac(strength, b"key", b"message", bytes(self.CUSTOM + 1), 32), (4, None))

    def test_same_as_the_run(self):
        for number, function in SPONGE.items():
            closing = 0x1F if number in TURBOSHAKE else None
            for size in (0, 1, function.rate - 1, function.rate, function.rate + 1, 500):
                run = model_run.run_of(number)
                run.absorb(reference.ptn(size))
                run.finalize(closing)
                asked = function.digest or 300
                self.assertEqual(one_go.sponge(function, reference.ptn(size), closing, asked), run.squeeze(asked), function.name)

    def test_same_as_the_started_run(self):
        """Plain KMAC's output length is what is asked."""
        for number, function in STARTED.items():
            for first, custom, size in ((b"", b"", 0), (b"a", b"", 1), (bytes(function.rate - 5), b"abc", 500), (b"ab", bytes(300), function.rate)):
                run = started_run.run_of(number, first, custom)
                run.absorb(reference.ptn(size))
                run.finalize(300 if number in KMAC else None)
                self.assertEqual(one_go.started(function, first, custom, reference.ptn(size), 300), run.squeeze(300), function.name)

    def test_same_as_the_kt_run(self):
        for function, rate in KT.items():
            for size, custom in ((0, 0), (8191, 0), (8192, 0), (8192, 8189), (8192, 8190), (100, 20_000)):
                run = model_run.KtRun(rate)
                run.absorb(reference.ptn(size))
                run.finalize(reference.ptn(custom))
                self.assertEqual(one_go.kt(rate, reference.ptn(size), reference.ptn(custom), 300), run.squeeze(300), function)


if __name__ == "__main__":
    unittest.main()
