"""A record that does not fit: the program `replay` writes the line `bad record`, and nothing of what follows.

Needs crates/replay/out/replay, which `rt ci` leaves.
"""
import unittest

from malformed import BIG, FAR, PAST, Refused
from replay import CUSTOMIZED, LANES, LEAF_LANES, LEAF_POSITION, MOST, PERMUTATIONS, PHASE
from replay import fips_record, hopmac_record, kt_record, one_go_record, permutation_record, play, record, set_record, verify_record
from sponge_functions import FIPS202, SPONGE, TURBOSHAKE


class Malformed(Refused):
    def test_no_record(self):
        self.assertEqual(play(b""), ([], 0))

    def test_cut_short(self):
        whole = [record("N", b"\1"), record("A", b"ab"), record("F", b"\x1f"), record("R", n=3), set_record(PHASE, 0), record("D")]
        whole += [one_go_record(0, 0x1F, 2, b"xyz"), kt_record(2, b"abc", 2, b"xyz"), record("A", bytes(MOST))]
        whole += [hopmac_record(0, b"key", b"abc", 2, b"xyz"), verify_record(1, b"tag", b"key", b"abc", b"xyz")]
        whole += [record("C", b"ab"), record("E"), record("F"), fips_record(5, 2, b"xyz")]
        whole += [permutation_record(12, bytes(200), op) for op in "PI"]
        for function in (0, 2, 4, 5):
            for data in whole:
                for size in {*range(1, min(len(data), 20)), len(data) - 1}:
                    with self.subTest(op=data[:1], size=size):
                        self.refused([(record("N", bytes([function])), "fresh")], data[:size])

    def test_unknown_op(self):
        for op in "\x00\n \xff09fthvcebpimZ":
            for n in (0, 1):
                with self.subTest(op=op, n=n):
                    self.refused_in_a_list(record(op, bytes(n)))

    def test_too_long(self):
        for n in FAR:
            of_others = [(op, function) for op in "AFCE" for function in (2, 3, 4)] + [(op, function) for op in "AF" for function in (5, 9)]
            for op, function in (*((op, 0) for op in "NAFSDTKHVBPI"), *of_others):
                with self.subTest(op=op, n=n, function=function):
                    self.refused_in_a_list(record(op, bytes(MOST + 1), n=n), function)
            for function in (0, 2, 4, 5, 10):
                self.refused_in_a_list(record("R", n=n), function)

    def test_inner_lengths(self):
        wrong = {"N": (0, 2), "F": (0, 2, 3), "S": (0, 1, 8, 10), "D": (1, 9), "T": range(6)}
        for op, sizes in wrong.items():
            for size in sizes:
                with self.subTest(op=op, size=size):
                    self.refused_in_a_list(record(op, bytes(size)))
        for size in FAR:
            self.refused_in_a_list(one_go_record(0, 0x1F, size, b"abc"))
            self.refused_in_a_list(one_go_record(0, 0x80, size, b"abc"))

    def test_inner_lengths_of_fips_202(self):
        """Too short for its number, and an output longer than the buffer, of which the digest's end is no part."""
        for function in FIPS202:
            for size in range(5):
                self.refused_in_a_list(record("B", (bytes([function]) + bytes(4))[:size]))
            for size in FAR:
                with self.subTest(function=function, size=size):
                    self.refused_in_a_list(fips_record(function, size, b"abc"), function)
                    self.refused_in_a_list(fips_record(function, size, b""))
            self.refused([(fips_record(function, 0, b""), "7 ")], record("Z"))

    def test_length_of_a_state(self):
        """200 bytes after the number of rounds, for every number, done or undone; neither fewer nor more."""
        for op in "PI":
            for rounds in (0, 12, 24, 25, 255):
                for size in (0, 1, 8, 192, 199, 201, 202, 208, 400, MOST - 1):
                    with self.subTest(op=op, rounds=rounds, size=size):
                        self.refused_in_a_list(permutation_record(rounds, bytes(size), op))
            self.refused_in_a_list(record(op))

    def test_close_of_fips_202_with_bytes(self):
        """It takes none, in any phase, not even the byte that it puts after the message."""
        for function in FIPS202:
            run = [(record("N", bytes([function])), "fresh"), (record("A", b"abc"), "0")]
            for before in (run, [*run, (record("F"), "0")], [*run, (set_record(PHASE, 2), "set")]):
                for payload in (b"\x06", b"\x1f", b"\0", b"ab", bytes(8), bytes(MOST)):
                    self.refused(before, record("F", payload) + record("F") + record("N", b"\1"))

    def test_new_close_with_bytes(self):
        """The close of the customization phase takes none, in any phase."""
        for function in (2, 3, 4):
            run = [(record("N", bytes([function])), "fresh")]
            for before in (run, [*run, (record("C", b"ab"), "0")], [*run, (record("F", b"ab"), "0")]):
                for size in (1, 2, 9, MOST):
                    self.refused(before, record("E", bytes(size)) + record("E") + record("N", b"\1"))

    def test_customization_phase_of_sponge_functions(self):
        """They have none: neither a customization piece nor the new close is a call of their runs, whatever their phase."""
        for function in SPONGE:
            closed = record("F", b"\x1f" if function in TURBOSHAKE else b"")
            run = [(record("N", bytes([function])), "fresh"), (record("A", b"abc"), "0")]
            for before in (run, [*run, (closed, "0")], [*run, (set_record(PHASE, 2), "set")]):
                for data in (record("C"), record("C", b"\x1f"), record("C", b"abc"), record("E"), record("E", b"\x1f")):
                    self.refused(before, data + record("N", b"\2"))

    def test_inner_lengths_of_kt(self):
        """Too short for its numbers, an output longer than the buffer, a customization string longer than what follows it."""
        for size in range(9):
            self.refused_in_a_list(record("K", (b"\2" + bytes(8))[:size]), 2)
        for function in (2, 3):
            for size in FAR:
                self.refused_in_a_list(kt_record(function, b"", size, b"abc"), 2)
                self.refused_in_a_list(kt_record(function, bytes(65_536), size, b"abc"))
            for custom_size in (4, 5, MOST - 8, MOST, (1 << 31) + 3, *FAR):
                with self.subTest(function=function, custom_size=custom_size):
                    self.refused_in_a_list(kt_record(function, b"", 32, b"abc", custom_size), function)

    def test_inner_lengths_of_hopmac(self):
        """Too short for its three numbers, an output longer than the buffer, a key or a C longer than what is left."""
        for size in range(13):
            self.refused_in_a_list(record("H", bytes(size)))
        for strength in (0, 1):
            for size in FAR:
                self.refused_in_a_list(hopmac_record(strength, b"key", b"ab", size, b"abc"))
                self.refused_in_a_list(hopmac_record(strength, b"", bytes(65_536), size, b""), 4)
            # the shortest of these keys leave some bytes, too few for the length of C
            for size in (1, 2, 3, 4, *PAST):
                with self.subTest(strength=strength, size=size):
                    self.refused_in_a_list(hopmac_record(strength, b"", b"", 32, b"", key_size=size))
                    self.refused_in_a_list(hopmac_record(strength, b"key", b"", 32, b"", custom_size=size), 2)

    def test_inner_lengths_of_the_tag_check(self):
        """Too short for its three numbers; a tag, a key or a C longer than what is left."""
        for size in range(13):
            self.refused_in_a_list(record("V", bytes(size)))
        for strength in (0, 1):
            # the shortest of these tags leave some bytes, too few for the lengths of key and C
            for size in (*range(1, 9), *PAST):
                with self.subTest(strength=strength, size=size):
                    self.refused_in_a_list(verify_record(strength, b"", b"", b"", b"", tag_size=size))
                    self.refused_in_a_list(verify_record(strength, b"tag", b"", b"", b"", key_size=size), 4)
                    self.refused_in_a_list(verify_record(strength, b"tag", b"key", b"", b"", custom_size=size), 2)

    def test_a_tag_that_is_too_long(self):
        """It is no fault of the record: the library answers."""
        for size in (65, 1000, MOST - 22):
            self.refused([(verify_record(0, bytes(size), b"key", b"abc", b"xyz"), "7 no")], record("Z"))

    def test_unknown_function(self):
        """11 to 255; each of the three one-go calls with a function of another or the journal's; strengths from 2 on."""
        for function in range(11, 256):
            with self.subTest(function=function):
                self.refused_in_a_list(record("N", bytes([function])))
        for function in {*range(18), 0x80, 0x85, 0xFF}:
            with self.subTest(function=function):
                if function not in (0, 1):
                    self.refused_in_a_list(one_go_record(function, 0x1F, 8, b"abc"))
                if function not in (2, 3):
                    self.refused_in_a_list(kt_record(function, b"", 8, b"abc"))
                if function not in FIPS202:
                    self.refused_in_a_list(fips_record(function, 8, b"\x1fabc"))
        for strength in range(2, 256):
            with self.subTest(strength=strength):
                self.refused_in_a_list(hopmac_record(strength, b"key", b"abc", 32, b"xyz"))
                self.refused_in_a_list(verify_record(strength, bytes(32), b"key", b"abc", b"xyz"))

    def test_no_run(self):
        answered = [(one_go_record(0, 0x1F, 0, b""), "7 "), (kt_record(3, b"", 0, b""), "7 ")]
        answered += [(hopmac_record(0, b"", b"", 0, b""), "7 "), (verify_record(1, b"", b"", b"", b""), "7 no")]
        answered += [(fips_record(5, 0, b""), "7 "), *((permutation_record(0, bytes(200), op), "0 " + 400 * "0") for op in "PI")]
        calls = record("A", b"ab"), record("A"), record("F", b"\x1f"), record("F"), record("C", b"ab"), record("C"), record("E"), record("R", n=3)
        for data in (*calls, set_record(PHASE, 0), record("D")):
            with self.subTest(op=data[:1]):
                self.refused([], data + record("N", b"\0"))
                self.refused(answered, data + record("N", b"\0"))

    def test_fields(self):
        """A phase is a byte; fields 4, 5, 7 to 63 and from 89 on are none of a run that is one sponge."""
        for value in (256, 257, 1 << 32, BIG):
            for function in range(11):
                self.refused_in_a_list(set_record(PHASE, value), function)
        for field in (LEAF_POSITION, CUSTOMIZED, *range(PERMUTATIONS + 1, LANES), *range(LANES + 25, 256)):
            with self.subTest(field=field):
                self.refused_in_a_list(set_record(field, 0))
                self.refused_in_a_list(set_record(field, 0), 5 + field % 6)
        for function in SPONGE:
            for field in (LEAF_POSITION, CUSTOMIZED, PERMUTATIONS + 1, PERMUTATIONS + 2, LANES - 1, LANES + 25, LEAF_LANES, 255):
                self.refused_in_a_list(set_record(field, 0), function)

    def test_fields_of_kt(self):
        """7 to 63, 89 to 95 and from 121 on are none of a KT run, nor of a day."""
        for field in (*range(PERMUTATIONS + 1, LANES), *range(LANES + 25, LEAF_LANES), *range(LEAF_LANES + 25, 256)):
            with self.subTest(field=field):
                self.refused_in_a_list(set_record(field, 0), 2 + field % 2)
                self.refused_in_a_list(set_record(field, 0), 4)

    def test_permutations(self):
        """Every run has the field, and it takes every number of 64 bits; a value of another length is none."""
        for function in range(11):
            run = [(record("N", bytes([function])), "fresh")]
            written = [(set_record(PERMUTATIONS, value), "set") for value in (0, 1, 255, 256, 1 << 32, 1 << 63, BIG)]
            for size in (0, 4, 7, 9):
                self.refused(run + written, record("S", bytes([PERMUTATIONS]) + bytes(size)) + record("N", b"\1"))

    def test_fields_after_another_function(self):
        """The fields are those of the run in hand, whatever the one before had."""
        for function in (b"\2", b"\4"):
            tree = [(record("N", function), "fresh"), (set_record(LEAF_POSITION, 7), "set"), (set_record(LEAF_LANES + 24, 7), "set")]
            tree += [(set_record(CUSTOMIZED, 7), "set"), (set_record(CUSTOMIZED, BIG), "set")]
            for field in (LEAF_POSITION, CUSTOMIZED, LEAF_LANES, LEAF_LANES + 24):
                for other in SPONGE:
                    self.refused(tree + [(record("N", bytes([other])), "fresh")], set_record(field, 7) + record("N", b"\2"))


if __name__ == "__main__":
    unittest.main()
