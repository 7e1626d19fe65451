"""The program `replay` gives what hashlib gives, for SHA3 and SHAKE, in one go and in pieces.

Needs crates/replay/out/replay, which `rt ci` leaves.
"""
import random
import unittest

import sponge_lists
import third_program
from replay import BEFORE, SEED, Held, fips_record, record
from sponge_functions import FIPS202, SHA3


class Hashlib(Held):
    def messages(self):
        """(function's number, message) of lengths around each function's blocks, from a fixed seed."""
        source = random.Random(SEED)
        for number, function in FIPS202.items():
            for size in third_program.sizes(source, function.rate):
                yield number, source.randbytes(size)

    def sizes(self, number):
        """Lengths of outputs: all of SHA3's, and one more; those around the ends of SHAKE's blocks."""
        function = FIPS202[number]
        if number in SHA3:
            return range(1, function.digest + 2)
        return *range(1, 70), *(blocks * function.rate + more for blocks in (1, 2, 3) for more in (-1, 0, 1)), 5000

    def line(self, number, message, size):
        digest = FIPS202[number].digest
        if digest is not None and size > digest:
            return f"6 {(BEFORE * size).hex()}"
        return f"0 {third_program.output(FIPS202[number], message, size).hex()}"

    def test_in_one_go(self):
        """Of every length; a shorter output is the beginning of a longer one."""
        due = [
            (fips_record(number, size, message), self.line(number, message, size))
            for number, message in self.messages()
            for size in self.sizes(number)
        ]
        self.hold_lines(due)

    def test_in_pieces(self):
        """The output in two reads, the first of each such length, or in many from the seed."""
        source, due = random.Random(SEED + 1), []
        for number, message in self.messages():
            function = FIPS202[number]
            whole = third_program.output(function, message, function.digest or 6000)
            ways = [(whole[:size], whole[size:]) for size in self.sizes(number) if size <= len(whole)]
            for reads in (*ways, sponge_lists.cut(source, function.rate, whole)):
                due.append((record("N", bytes([number])), "fresh"))
                due += [(record("A", piece), "0") for piece in sponge_lists.cut(source, function.rate, message)]
                due.append((record("F"), "0"))
                due += [(record("R", n=len(part)), f"0 {part.hex()}") for part in reads]
        self.hold_lines(due)

    def test_runs_of_one_function_after_another(self):
        """A run of one function leaves nothing to the next: each pair of functions, the first of which is left open, closed or read."""
        due = []
        for before in FIPS202:
            for number, function in FIPS202.items():
                for calls in ((), ((record("F"), "0"),), ((record("F"), "0"), (record("R", n=1), self.line(before, b"abc", 1)))):
                    due += [(record("N", bytes([before])), "fresh"), (record("A", b"abc"), "0"), *calls]
                    due += [(record("N", bytes([number])), "fresh"), (record("A", b"xyz"), "0"), (record("F"), "0")]
                    size = function.digest or 300
                    due.append((record("R", n=size), self.line(number, b"xyz", size)))
        self.hold_lines(due)


if __name__ == "__main__":
    unittest.main()
