"""FIPS 202's functions by the book and by the run: request Q-5's numbers, the read limit of SHA3, and the order of the refusals."""
import unittest

import model_run
import reference
import transcript
from sponge_functions import FIPS202, SHA3, SHAKE, TURBOSHAKE
from transcript import ABSORBING, FINALIZED, Limits

RATES = {5: 144, 6: 136, 7: 104, 8: 72, 9: 168, 10: 136}
DIGESTS = {5: 28, 6: 32, 7: 48, 8: 64}
READ_LIMITS = DIGESTS | {9: 4_294_967_295, 10: 4_294_967_295}
MESSAGE = reference.ptn(300)


def both(number):
    return transcript.book_of(number), model_run.run_of(number)


def fit(run, position=None):
    """Gives the run the permutations that go with its phase and totals, and the position too where none is given."""
    run.permutations = run.permutations_due()
    (run.node.position,) = run.positions_due() if position is None else (position,)


def whole(number, size):
    """The first bytes of the second program's digest or output of MESSAGE, by the standard's capacities and suffixes."""
    if number in DIGESTS:
        return reference.sha3(8 * DIGESTS[number], MESSAGE)[:size]
    return reference.shake({9: 128, 10: 256}[number], MESSAGE, size)


class Numbers(unittest.TestCase):
    def test_request(self):
        """The rates, the bytes after the message, the rounds and the digests that the request and document 01 say."""
        self.assertEqual({number: function.rate for number, function in FIPS202.items()}, RATES)
        self.assertEqual({function.last for function in SHA3.values()}, {0x06})
        self.assertEqual({function.last for function in SHAKE.values()}, {0x1F})
        self.assertEqual({function.rounds for function in FIPS202.values()}, {24})
        self.assertEqual({function.rounds for function in TURBOSHAKE.values()}, {12})
        self.assertEqual({number: transcript.read_limit(function) for number, function in FIPS202.items()}, READ_LIMITS)

    def test_standard(self):
        """The rate is 200 bytes less twice the digest or the strength; with these numbers the output is the second program's."""
        for number, function in FIPS202.items():
            bits = 8 * DIGESTS[number] if number in DIGESTS else int(function.name[5:])
            self.assertEqual(function.rate, 200 - 2 * bits // 8)
            size = function.digest or 400
            self.assertEqual(function.output(MESSAGE, None, size), whole(number, size))

    def test_draft(self):
        """TurboSHAKE's numbers, with the byte that the call gives."""
        for number, rate in ((0, 168), (1, 136)):
            for domain in (0x01, 0x06, 0x1F, 0x7F):
                self.assertEqual(TURBOSHAKE[number].output(MESSAGE, domain, 400), reference.turboshake(rate, MESSAGE, domain, 400))


class Reads(unittest.TestCase):
    def test_to_the_end_of_a_digest(self):
        """What would pass it is refused and changes nothing; a shorter read gives the next bytes, one of none is done at the end too."""
        for number, digest in DIGESTS.items():
            expected = whole(number, digest)
            for one in both(number):
                self.assertEqual((one.absorb(MESSAGE), one.finalize()), (0, 0))
                self.assertEqual([one.squeeze(digest + 1), one.squeeze(0), one.squeeze(10)], [(6, None), (0, b""), (0, expected[:10])])
                self.assertEqual([one.squeeze(digest - 9), one.squeeze(digest - 10)], [(6, None), (0, expected[10:])])
                self.assertEqual([one.squeeze(1), one.squeeze(200), one.squeeze(0)], [(6, None), (6, None), (0, b"")])
                self.assertEqual(one.totals(), (300, digest))

    def test_of_shake(self):
        """Past the length of every digest, and past a block."""
        for number in SHAKE:
            for one in both(number):
                self.assertEqual((one.absorb(MESSAGE), one.finalize()), (0, 0))
                self.assertEqual(b"".join(one.squeeze(size)[1] for size in (64, 65, 0, 200)), whole(number, 329))

    def test_bytes_after_the_message(self):
        """A run that is closed at once has the byte and 80 in its first block, and in one byte where the message lacks one of a block."""
        for number, function in FIPS202.items():
            for size in (0, function.rate - 1):
                run = model_run.run_of(number)
                run.absorb(bytes(size))
                block = bytearray(200)
                block[size] ^= 0x06 if number in SHA3 else 0x1F
                block[function.rate - 1] ^= 0x80
                self.assertEqual(run.finalize(), 0)
                self.assertEqual(run.node.lanes, reference.keccak_p(reference.state_of(block), 24))


class Refusals(unittest.TestCase):
    def test_phases(self):
        """3 before 2 and 6."""
        for number in FIPS202:
            for one in both(number):
                self.assertEqual([one.squeeze(0), one.squeeze(1000)], [(3, None), (3, None)])
                self.assertEqual([one.absorb(b"a"), one.finalize(), one.finalize(), one.absorb(b""), one.absorb(b"a")], [0, 0, 3, 3, 3])

    def test_limits(self):
        """Of the message, the same for all; of what is read, the function's own, with 5 past it and before every other number."""
        for number, limit in READ_LIMITS.items():
            run = model_run.run_of(number)
            most = Limits.ABSORB_LIMIT
            run.absorbed = most - 1
            fit(run)
            self.assertEqual([run.absorb(b"ab"), run.absorb(b"a"), run.absorb(b"a"), run.absorb(b""), run.finalize()], [2, 0, 2, 0, 0])
            run.squeezed = limit - 1
            fit(run)
            self.assertEqual([run.squeeze(size)[0] for size in (2, 1, 1, 0)], [6, 0, 6, 0])
            for squeezed in (limit + 1, limit + 1 + run.rate):
                run.squeezed = squeezed
                fit(run)
                self.assertEqual([run.squeeze(0), run.squeeze(1)], [(5, None), (5, None)])
                self.assertEqual([run.absorb(b""), run.absorb(bytes(10)), run.finalize()], [5, 5, 5])

    def test_totals_that_no_run_has(self):
        """A read before the close; positions that are a run's of another rate; a phase of KT's."""
        for number, function in FIPS202.items():
            for phase, absorbed, squeezed, position in (
                *((ABSORBING, 5, 5, 5), (2, 5, 0, 5), (ABSORBING, 5, 0, 6), (FINALIZED, 5, 7, 5), (FINALIZED, 7, 5, 6)),
                *((ABSORBING, function.rate, 0, 0), (ABSORBING, function.rate + 1, 0, function.rate + 1)),
            ):
                run = model_run.run_of(number)
                run.phase, run.absorbed, run.squeezed = phase, absorbed, squeezed
                fit(run, position)
                self.assertEqual([run.absorb(b""), run.finalize(), run.squeeze(0)], [5, 5, (5, None)], (phase, absorbed))


if __name__ == "__main__":
    unittest.main()
