"""The program `replay` at the limits of SP 800-185's runs, and on runs that no start followed by calls reaches, all of which answer 5.

Runs come there by overwritten fields. Needs crates/replay/out/replay, which `rt ci` leaves.
"""
import unittest

from replay import ABSORBED, LANES, OUTPUT_LENGTH, PERMUTATIONS, PHASE, POSITION, SHAKE_BIT, SQUEEZED, Held
from sp800_185 import CSHAKE, KMAC, KMACXOF, STARTED
from started_calls import StartedCalls
from started_lists import BAD_OUTPUTS, BIG, LIMIT, READ_LIMIT
from transcript import ABSORBING, FINALIZED

# The least and the most blocks of a prefix, as the issue says them.
BLOCKS = {11: (1, 199_729), 12: (1, 246_724), 13: (2, 102_360_992), 14: (2, 126_445_930), 15: (2, 102_360_992), 16: (2, 126_445_930)}
GIVEN = b"first", b"custom"
# plain KMAC's, whose bits have one, two, three, four and five bytes
TAILS = {1: 2, 31: 2, 32: 3, 8191: 3, 8192: 4, 2**21 - 1: 4, 2**21: 5, 2**29 - 1: 5, 2**29: 6, READ_LIMIT: 6}


class Overwritten(Held):
    def setUp(self):
        self.calls = StartedCalls()

    def write(self, phase, absorbed, squeezed, blocks, length=0, bit=False):
        """A phase, totals and, where the run has them, output length and bit; the position and the permutations that go with so many blocks."""
        calls = self.calls
        for field, value in ((PHASE, phase), (ABSORBED, absorbed), (SQUEEZED, squeezed)):
            calls.set(field, value)
        if calls.function in KMAC:
            calls.set(OUTPUT_LENGTH, length)
        if calls.function in CSHAKE:
            calls.set(SHAKE_BIT, bit)
        calls.set(POSITION, self.position(absorbed, squeezed, phase, bit))
        calls.set(PERMUTATIONS, self.count(absorbed, squeezed, phase, blocks, length))

    def position(self, absorbed, squeezed, phase, bit):
        """By hand: after n > 0 bytes (n - 1) mod rate + 1; the prefix's blocks are whole."""
        if phase == ABSORBING and not absorbed and not bit:
            return self.calls.rate
        total = squeezed if phase else absorbed
        return (total - 1) % self.calls.rate + 1 if total else 0

    def count(self, absorbed, squeezed, phase, blocks, length):
        """By hand, from the lengths."""
        rate, number = self.calls.rate, self.calls.function
        fed = blocks * rate + absorbed
        if phase == ABSORBING:
            return (fed - 1) // rate if fed else 0
        fed += len(STARTED[number].tail(length)) if number in KMAC else 2 if number in KMACXOF else 0
        return fed // rate + 1 + ((squeezed - 1) // rate if squeezed else 0)

    def kinds(self):
        """(number, bit, least and most blocks) of each function, and of cSHAKE with the bit."""
        for number, blocks in BLOCKS.items():
            yield number, False, blocks
            if number in CSHAKE:
                yield number, True, (0, 0)

    def answers(self, *due):
        """Each of these calls gets its answer."""
        for status, name, *arguments in due:
            getattr(self.calls, name)(*arguments)
            self.assertEqual(self.calls.answer.split(" ")[0], str(status), (self.calls.function, name, *arguments))

    def closes(self):
        """Arguments of the close; of plain KMAC ones too that it refuses by 6 and by 7."""
        return (32, 0, READ_LIMIT + 1) if self.calls.function in KMAC else (None,)

    def refused_by_5(self):
        """Every call on the run in hand answers 5, one that another number would refuse too, and leaves it as it was."""
        self.calls.dump()
        before = self.calls.state
        sized = [call for size in (0, 1, 1000) for call in ((5, "absorb", bytes(size)), (5, "squeeze", size))]
        self.answers(*sized, *((5, "finalize", close) for close in self.closes()))
        self.assertEqual(self.calls.state, before, "the test itself is wrong")


class Limits(Overwritten):
    def test_absorbed(self):
        """Bytes up to 17,179,869,183 are taken, one more is refused, with the least and the most blocks before them. The close is done."""
        for number, bit, ends in self.kinds():
            rate = STARTED[number].rate
            for blocks in {*ends, sum(ends) // 2}:
                for left in (0, 1, rate - 1, rate, 500):
                    self.calls.start(number, *GIVEN)
                    self.write(ABSORBING, LIMIT - left, 0, blocks, bit=bit)
                    sizes = ((2, left + 1), (0, left), (2, 1), (0, 0), (2, 5000))
                    self.answers(*((status, "absorb", bytes(size)) for status, size in sizes), (3, "squeeze", 0))
                    self.assertEqual(self.calls.run.permutations, blocks + (2**34 - 2) // rate, "the test itself is wrong")
                    if number in KMAC:
                        self.answers((7, "finalize", 0), (6, "finalize", READ_LIMIT + 1))
                    self.answers((0, "finalize", READ_LIMIT if number in KMAC else None), (3, "absorb", b""), (0, "squeeze", 32))
        self.hold(self.calls)

    def test_squeezed(self):
        """Of cSHAKE and KMACXOF 4,294,967,295 bytes are read; one more is refused, one of none is done."""
        for number, bit, ends in self.kinds():
            rate = STARTED[number].rate
            for blocks in {*ends} if number not in KMAC else ():
                for left in (0, 1, rate, 500):
                    self.calls.start(number, *GIVEN)
                    self.write(FINALIZED, LIMIT, READ_LIMIT - left, blocks, bit=bit)
                    sizes = ((6, left + 1), (0, left), (6, 1), (0, 0), (6, 5000))
                    self.answers(*((status, "squeeze", size) for status, size in sizes), (3, "absorb", b"a"), (3, "finalize"))
        self.hold(self.calls)

    def test_output_length(self):
        """Of plain KMAC as many bytes are read as the close fixed; the whole, one byte after another at its end, and nothing past it."""
        for number in KMAC:
            rate = STARTED[number].rate
            for length in (1, 2, 31, 32, rate, rate + 1, 600, 8192, 2**21, 2**29, READ_LIMIT - 1, READ_LIMIT):
                for left in {0, 1, min(length, rate), min(length, 500)}:
                    self.calls.start(number, *GIVEN)
                    self.write(FINALIZED, 5, length - left, BLOCKS[number][left % 2], length)
                    sizes = ((6, left + 1), (0, left), (6, 1), (0, 0), (6, 5000))
                    self.answers(*((status, "squeeze", size) for status, size in sizes))
                    self.answers((3, "absorb", b"a"), (3, "finalize", 0), (3, "finalize", READ_LIMIT + 1), (3, "finalize", 32))
        self.hold(self.calls)

    def test_close(self):
        """Of plain KMAC: 7 and 6, which change nothing, then the length, then 3; it is kept as it was given. Before it a read answers 3, not 6."""
        for number in KMAC:
            for length in TAILS:
                self.calls.start(number, *GIVEN)
                self.answers((3, "squeeze", 0), (3, "squeeze", 1), (3, "squeeze", 1000))
                self.answers(*((7 if bad == 0 else 6, "finalize", bad) for bad in BAD_OUTPUTS), (0, "finalize", length))
                self.assertEqual(self.calls.run.output_length, length, "the test itself is wrong")
                self.answers(*((3, "finalize", bad) for bad in (*BAD_OUTPUTS, length)), (0, "squeeze", 1))
        self.hold(self.calls)


class NotReached(Overwritten):
    def totals(self, number, bit):
        """(phase, absorbed, squeezed, output length) of runs that calls reach."""
        rate = STARTED[number].rate
        for absorbed in (0, 1, rate - 1, rate, rate + 1, LIMIT):
            yield ABSORBING, absorbed, 0, 0
        for absorbed in (0, rate - 4, rate - 3, rate - 2, rate - 1, rate, LIMIT):
            for squeezed, length in ((0, 1), (rate + 1, READ_LIMIT)):
                yield FINALIZED, absorbed, squeezed, length

    def test_blocks_of_the_prefix(self):
        """The least and the most are taken, and one beyond each is refused, whatever was fed and read; so is every count far away."""
        for number, bit, (least, most) in self.kinds():
            self.calls.start(number, *GIVEN)
            for phase, absorbed, squeezed, length in self.totals(number, bit):
                for blocks in {least, most, (least + most) // 2}:
                    self.write(phase, absorbed, squeezed, blocks, length, bit)
                    self.answers((0, "absorb", b"") if phase == ABSORBING else (0, "squeeze", 0))
                first, last = (self.count(absorbed, squeezed, phase, blocks, length) for blocks in (least, most))
                for count in {first - 1, last + 1, last + 1 + (1 << 32), BIG}:
                    self.calls.set(PERMUTATIONS, count & BIG)
                    self.refused_by_5()
        self.hold(self.calls)

    def test_wrong_blocks_and_the_limits_of_others(self):
        """A function is not held to the blocks of another: a prefix of KMAC's is none of cSHAKE's, nor one of the other rate's."""
        for number, (least, most) in BLOCKS.items():
            self.calls.start(number, *GIVEN)
            for blocks in {end for ends in BLOCKS.values() for end in ends}:
                self.write(ABSORBING, 7, 0, blocks)
                if least <= blocks <= most:
                    self.answers((0, "absorb", b""))
                else:
                    self.refused_by_5()
        self.hold(self.calls)

    def test_bit(self):
        """With the bit a run of cSHAKE's totals, and without it one of SHAKE's, by position and by count, before the close and after it."""
        for number in CSHAKE:
            rate = STARTED[number].rate
            for bit in (False, True):
                for phase, absorbed, squeezed, length in self.totals(number, bit):
                    self.calls.start(number, *GIVEN)
                    self.write(phase, absorbed, squeezed, 0 if bit else 1, length, bit)
                    self.calls.set(SHAKE_BIT, not bit)
                    self.refused_by_5()
                    self.calls.set(POSITION, self.position(absorbed, squeezed, phase, not bit))
                    if phase == ABSORBING and not absorbed:  # neither has permuted: only the position tells them apart
                        self.answers((0, "absorb", b""))
                    else:
                        self.refused_by_5()
            for given in (GIVEN, (b"", b"")):
                for calls in ((), ((0, "absorb", b"abc"),), ((0, "absorb", bytes(rate)), (0, "finalize"), (0, "squeeze", 9))):
                    self.calls.start(number, *given)
                    self.answers(*calls)
                    right = self.calls.run.is_shake
                    self.calls.set(SHAKE_BIT, not right)
                    self.refused_by_5()
                    self.calls.set(SHAKE_BIT, right)
                    self.answers((0, "squeeze", 0) if self.calls.run.phase else (0, "absorb", b""))
        self.hold(self.calls)

    def test_bit_chooses_the_byte(self):
        """A cSHAKE run is made SHAKE's, its prefix then a part of the message, and the other way: the close puts 1F, or 04."""
        for number in CSHAKE:
            rate = STARTED[number].rate
            for given, absorbed, bit in ((GIVEN, rate + 3, True), ((b"", b""), 3, False)):
                self.calls.start(number, *given)
                self.calls.absorb(bytes(3 if bit else rate + 3))
                self.calls.set(SHAKE_BIT, bit)
                self.calls.set(ABSORBED, absorbed)
                self.answers((0, "absorb", b"x"), (0, "finalize"), (0, "squeeze", 40))
        self.hold(self.calls)

    def test_output_length(self):
        """Of plain KMAC: one before the close; none, one past the read limit or less than was read after it."""
        for number in KMAC:
            self.calls.start(number, *GIVEN)
            for length in (1, 32, READ_LIMIT, READ_LIMIT + 1, 1 << 63, BIG):
                self.write(ABSORBING, 3, 0, 2, length)
                self.refused_by_5()
            for squeezed in (0, 1, 33, READ_LIMIT):
                for length in {0, READ_LIMIT + 1, READ_LIMIT + 1 + squeezed, 1 << 63, BIG, max(0, squeezed - 1)}:
                    self.write(FINALIZED, 3, squeezed, 2, length)
                    self.refused_by_5()
                for length in (max(1, squeezed), READ_LIMIT):
                    self.write(FINALIZED, 3, squeezed, 2, length)
                    self.answers((0, "squeeze", 0))
        self.hold(self.calls)

    def test_tail_of_the_length(self):
        """What the close put after the message is counted by the output length: with one that has a byte less or more the count may be none."""
        found = 0
        for number in KMAC:
            rate, (least, most) = STARTED[number].rate, BLOCKS[number]
            self.calls.start(number, *GIVEN)
            for length, size in TAILS.items():
                for other, other_size in TAILS.items():
                    if abs(size - other_size) == 1:
                        # the longer one ends the block, the shorter does not
                        absorbed = rate - max(size, other_size)
                        self.write(FINALIZED, absorbed, 1, least if size < other_size else most, length)
                        self.answers((0, "squeeze", 0))
                        self.calls.set(OUTPUT_LENGTH, other)
                        self.refused_by_5()
                        found += 1
        self.assertGreater(found, 40, "the test itself is wrong")
        self.hold(self.calls)

    def test_fields(self):
        """Phases that are none, totals past their limits, positions that are not the totals', bytes read before the close."""
        for number, bit, (least, _) in self.kinds():
            rate, most = STARTED[number].rate, 600 if number in KMAC else READ_LIMIT
            length = {ABSORBING: 0, FINALIZED: most}
            self.calls.start(number, *GIVEN)
            for phase in (*range(2, 8), 127, 128, 254, 255):
                for written in (ABSORBING, FINALIZED):
                    self.write(written, 5, 0, least, length[written], bit)
                    self.calls.set(PHASE, phase)
                    self.refused_by_5()
            for over in (LIMIT + 1, LIMIT + 1 + rate, 1 << 63, BIG):
                for phase in (ABSORBING, FINALIZED):
                    self.write(phase, over, 0, least, length[phase], bit)
                    self.refused_by_5()
            for over in (most + 1, most + 1 + rate, READ_LIMIT + 1, 1 << 63, BIG):
                self.write(FINALIZED, 5, over, least, most, bit)
                self.refused_by_5()
            for squeezed in (1, 5, rate, READ_LIMIT):
                self.write(ABSORBING, squeezed, squeezed, least, 0, bit)
                self.refused_by_5()
        self.hold(self.calls)

    def test_lanes(self):
        """They are not looked at."""
        for number, bit, (least, most) in self.kinds():
            for value in (0, BIG):
                self.calls.start(number, *GIVEN)
                for lane in range(25):
                    self.calls.set(LANES + lane, value)
                self.write(ABSORBING, 7, 0, most, bit=bit)
                self.answers((0, "absorb", b""), (0, "absorb", b"abc"), (0, "finalize", 32 if number in KMAC else None), (0, "squeeze", 32))
                for lane in range(25):
                    self.calls.set(LANES + lane, value)
                self.answers((0, "squeeze", 0), (3, "absorb", b""))
        self.hold(self.calls)

    def test_positions(self):
        """Those that are not the totals'; of a start, before the first byte, 0."""
        for number, bit, (least, most) in self.kinds():
            rate = STARTED[number].rate
            self.calls.start(number, *GIVEN)
            for phase, absorbed, squeezed, length in self.totals(number, bit):
                self.write(phase, absorbed, squeezed, most, length, bit)
                right = self.calls.run.node.position
                for position in {0, 1, right + 1, rate - 1, rate, rate + 1, 200, (1 << 32) + right, BIG} - {right}:
                    self.calls.set(POSITION, position)
                    self.refused_by_5()
        self.hold(self.calls)


if __name__ == "__main__":
    unittest.main()
