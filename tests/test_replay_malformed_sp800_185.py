"""A record of request Q-14 that does not fit, or one that is none of a run which begins with a start: `bad record`, and nothing of what follows.

Needs crates/replay/out/replay, which `rt ci` leaves.
"""
import unittest

from malformed import BIG, FAR, PAST, Refused
from replay import ABSORBED, CUSTOMIZED, LANES, LEAF_LANES, LEAF_POSITION, MOST, OUTPUT_LENGTH, PERMUTATIONS, PHASE, POSITION, SHAKE_BIT, SQUEEZED
from replay import fips_record, kt_record, one_go_record, record, set_record
from sp800_185 import CSHAKE, KMAC, STARTED
from started_calls import length_record, start_record, started_record

OTHERS = (*range(11), 17, 18, 27, 0x8B, 0xFF)  # functions that have no start


def own_fields(number):
    """The fields of a run, but its lanes."""
    return {PHASE, ABSORBED, SQUEEZED, POSITION, PERMUTATIONS} | ({OUTPUT_LENGTH} if number in KMAC else {SHAKE_BIT} if number in CSHAKE else set())


def close(number):
    return length_record(32) if number in KMAC else record("F")


class Malformed(Refused):
    def refused_on_a_run(self, number, data):
        """With a run of a start in hand, and with records after it that would be answered."""
        run = [(start_record(number, b"first", b"custom"), "0"), (record("A", b"abc"), "0")]
        self.refused(run, data + record("A", b"abc") + start_record(number, b"", b"") + record("N", b"\1"))

    def phases(self, number):
        """Records that leave a run in each phase, and in one that there is not."""
        run = [(start_record(number, b"first", b""), "0"), (record("A", b"abc"), "0")]
        return run, [*run, (close(number), "0")], [*run, (set_record(PHASE, 2), "set")]

    def test_cut_short(self):
        whole = [start_record(13, b"key", b"abc"), started_record(11, b"N", b"abc", 2, b"xyz"), length_record(32), set_record(OUTPUT_LENGTH, 7)]
        for data in whole:
            for size in {*range(1, min(len(data), 20)), len(data) - 1}:
                with self.subTest(op=data[:1], size=size):
                    self.refused([(start_record(13, b"", b""), "0")], data[:size])

    def test_too_long(self):
        for n in FAR:
            for op in "nMF":
                with self.subTest(op=op, n=n):
                    self.refused_on_a_run(14, record(op, bytes(MOST + 1), n=n))
            self.refused_on_a_run(14, record("R", n=n))

    def test_functions(self):
        """A start and its call in one go are of 11 to 16 alone, and these are of no other op."""
        for number in OTHERS:
            with self.subTest(function=number):
                self.refused_in_a_list(start_record(number, b"first", b"custom"))
                self.refused_in_a_list(started_record(number, b"first", b"custom", 8, b"abc"))
        for number in STARTED:
            with self.subTest(function=number):
                self.refused_on_a_run(number, record("N", bytes([number])))
                self.refused_on_a_run(number, fips_record(number, 8, b"abc"))
                self.refused_on_a_run(number, one_go_record(number, 0x1F, 8, b"abc"))
                self.refused_on_a_run(number, kt_record(number, b"", 8, b"abc"))

    def test_inner_lengths_of_a_start(self):
        """Too short for its numbers; a string longer than what is left, or of which some is left over."""
        for number in STARTED:
            for size in range(9):
                self.refused_on_a_run(number, record("n", (bytes([number]) + bytes(8))[:size]))
            # the shortest of these strings leave some bytes, too few for the length of S
            for size in (1, 2, 3, 4, *PAST):
                with self.subTest(number=number, size=size):
                    self.refused_on_a_run(number, start_record(number, b"", b"", first_size=size))
                    self.refused_on_a_run(number, start_record(number, b"first", b"", custom_size=size))
            for left in (1, 2, 4, 9):
                self.refused_on_a_run(number, start_record(number, b"first", bytes(left), custom_size=0))
                self.refused_on_a_run(number, start_record(number, b"first", b"abc" + bytes(left), custom_size=3))

    def test_inner_lengths_in_one_go(self):
        """Too short for its three numbers, an output longer than the buffer, a string longer than what is left."""
        for number in STARTED:
            for size in range(13):
                self.refused_on_a_run(number, record("M", (bytes([number]) + bytes(12))[:size]))
            for size in FAR:
                self.refused_in_a_list(started_record(number, b"first", b"custom", size, b"abc"))
                self.refused_on_a_run(number, started_record(number, b"", b"", size, b""))
            for size in (1, 2, 3, 4, *PAST):
                with self.subTest(number=number, size=size):
                    self.refused_in_a_list(started_record(number, b"", b"", 8, b"", first_size=size))
                    self.refused_in_a_list(started_record(number, b"first", b"", 8, b"", custom_size=size))
            self.refused([(started_record(number, b"", b"", 0, b""), "7 "), (started_record(number, b"a", b"b", 0, b"c"), "7 ")], record("Z"))

    def test_close(self):
        """That of plain KMAC takes eight bytes, the others none, in any phase."""
        for number in STARTED:
            for before in self.phases(number):
                for size in (0, 1, 4, 7, 9, 16, MOST) if number in KMAC else (1, 2, 8, MOST):
                    with self.subTest(number=number, size=size):
                        self.refused(before, record("F", bytes(size)) + close(number) + record("N", b"\1"))

    def test_no_customization_phase(self):
        """Neither a customization piece nor the close after it is a call of these runs, whatever their phase."""
        for number in STARTED:
            for before in self.phases(number):
                for data in (record("C"), record("C", b"abc"), record("E"), record("E", b"\0")):
                    self.refused(before, data + record("N", b"\1"))

    def test_fields(self):
        """An output length has plain KMAC alone, the bit cSHAKE alone, and none of these a leaf or customization bytes."""
        for number in STARTED:
            others = {*range(12), LANES - 1, LANES + 25, LEAF_LANES - 1, LEAF_LANES, LEAF_LANES + 24, 255} - own_fields(number)
            self.assertLess({LEAF_POSITION, CUSTOMIZED}, others)
            for field in others:
                with self.subTest(number=number, field=field):
                    self.refused_on_a_run(number, set_record(field, 0))

    def test_values(self):
        """The phase is a byte, the bit 0 or 1, every other field takes all of 64 bits; a value of another length is none."""
        for number in STARTED:
            run = [(start_record(number, b"first", b"custom"), "0")]
            wide = own_fields(number) - {PHASE, SHAKE_BIT} | {LANES, LANES + 24}
            written = [(set_record(field, value), "set") for field in wide for value in (0, 1, 255, 256, 1 << 32, 1 << 63, BIG)]
            written += [(set_record(PHASE, value), "set") for value in (2, 255, 0)]
            written += [(set_record(SHAKE_BIT, value), "set") for value in (1, 0, 1) if number in CSHAKE]
            for value in (256, 257, 1 << 32, BIG):
                self.refused(run + written, set_record(PHASE, value) + record("N", b"\1"))
            for value in (2, 3, 128, 255, 256, 257, 1 << 32, (1 << 32) + 1, 1 << 63, BIG) if number in CSHAKE else ():
                self.refused(run + written, set_record(SHAKE_BIT, value) + record("N", b"\1"))
            for field in own_fields(number):
                for size in (0, 1, 7, 9):
                    self.refused(run, record("S", bytes([field]) + bytes(size)) + record("N", b"\1"))

    def test_no_run(self):
        """A start needs none, nor does a call in one go, which leaves none."""
        answered = [(started_record(number, b"", b"", 0, b""), "7 ") for number in STARTED]
        calls = record("A", b"ab"), record("F"), record("F", b"\x1f"), length_record(32), record("R", n=3), record("D")
        for data in (*calls, set_record(PHASE, 0), set_record(OUTPUT_LENGTH, 0), set_record(SHAKE_BIT, 0)):
            with self.subTest(op=data[:1]):
                self.refused([], data + start_record(13, b"", b""))
                self.refused(answered, data + start_record(11, b"", b""))
        self.refused([(start_record(16, b"", b""), "0"), (record("A", b"abc"), "0")], record("Z"))

    def begun(self):
        """A start of each kind, and its own field written."""
        begun = {number: [(start_record(number, b"first", b"custom"), "0")] for number in (11, 13, 15)}
        begun[11].append((set_record(SHAKE_BIT, 1), "set"))
        begun[13].append((set_record(OUTPUT_LENGTH, 7), "set"))
        return begun

    def none_of_the_others(self, others):
        begun = self.begun()
        for number, before in begun.items():
            for other, after in (begun | {number: [(record("N", bytes([number])), "fresh")] for number in others}).items():
                for field in own_fields(number) - own_fields(other):
                    self.refused(before + after, set_record(field, 0) + record("N", b"\1"))

    def test_fields_after_another_function(self):
        """The fields and the close are those of the run in hand, whatever the one before had."""
        self.none_of_the_others((0, 9))
        begun = self.begun()
        self.refused(begun[13] + begun[11], length_record(32) + record("F"))
        self.refused(begun[15] + begun[13], record("F") + length_record(32))

    def test_fields_after_a_tree(self):
        """The same of KT and of a day, before a start and after it."""
        self.none_of_the_others((2, 4))
        for tree in (2, 4):
            written = [(record("N", bytes([tree])), "fresh"), (set_record(LEAF_POSITION, 7), "set"), (set_record(CUSTOMIZED, 7), "set")]
            for after in self.begun().values():
                for data in (*(set_record(field, 0) for field in (LEAF_POSITION, CUSTOMIZED, LEAF_LANES)), record("C", b"a"), record("E")):
                    self.refused(written + after, data + record("N", b"\1"))


if __name__ == "__main__":
    unittest.main()
