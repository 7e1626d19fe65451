"""The program `replay` gives all 4,642 values of NIST's response files for FIPS 202, in one go, in pieces, and in the Monte Carlo chains; and
NIST's 16 sample values for SP 800-185, in one go and in pieces.

Needs crates/replay/out/replay, which `rt ci` leaves.
"""
import random
import unittest

import nist
import sponge_lists
import third_program
from replay import SEED, Held, fips_record, record
from sp800_185 import KMAC, STARTED
from sponge_functions import FIPS202, SHA3
from started_calls import length_record, start_record, started_record

# The number of values in each file. NIST's LongMsg and Monte files have 100 each, and ShortMsg all lengths up to one block, or two of SHAKE's.
SHORT = {"SHA3_224": 145, "SHA3_256": 137, "SHA3_384": 105, "SHA3_512": 73, "SHAKE128": 337, "SHAKE256": 273}
VARIABLE = {"SHAKE128": 1126, "SHAKE256": 1246}
COUNTS = {f"{name}ShortMsg": count for name, count in SHORT.items()} | {f"{name}VariableOut": count for name, count in VARIABLE.items()}
COUNTS |= {f"{name}{kind}": 100 for name in SHORT for kind in ("LongMsg", "Monte")}
TURNS = 1000  # of a chain for each of its values
MESSAGE = 16  # the bytes of an output of SHAKE that are the next message of its chain


class Files(unittest.TestCase):
    def test_counts(self):
        """Every file of the folder is read, and has as many values as NIST's."""
        messages = {file: len(list(nist.vectors(file))) for file in nist.files("ShortMsg", "LongMsg", "VariableOut")}
        chains = {file: len(nist.chain(file).values) for file in nist.files("Monte")}
        self.assertEqual(messages | chains, COUNTS)
        self.assertEqual(sorted(COUNTS), nist.files(""))
        self.assertEqual(sum(COUNTS.values()), 4642)

    def test_lengths(self):
        """ShortMsg has a message of every length from none to one or two blocks; the values of VariableOut have many lengths."""
        for file in nist.files("ShortMsg"):
            number = nist.function_of(file)
            most = FIPS202[number].rate * (1 if number in SHA3 else 2)
            self.assertEqual([len(vector.message) for vector in nist.vectors(file)], list(range(most + 1)))
        for file, shortest, longest in (("SHAKE128VariableOut", 16, 140), ("SHAKE256VariableOut", 2, 250)):
            self.assertEqual({len(vector.value) for vector in nist.vectors(file)}, set(range(shortest, longest + 1)))


class Vectors(Held):
    """The files that have messages: all values but the 600 of the chains."""

    def vectors(self):
        found = [vector for file in nist.files("ShortMsg", "LongMsg", "VariableOut") for vector in nist.vectors(file)]
        self.assertEqual(len(found), 4642 - 600)
        return found

    def test_in_one_go(self):
        self.hold_lines([(fips_record(function, len(value), message), f"0 {value.hex()}") for function, message, value in self.vectors()])

    def test_in_pieces(self):
        """Pieces and reads from a fixed seed, many around a block's end. Of some also the whole and then nothing, and byte by byte."""
        source, due = random.Random(SEED), []
        for n, (function, message, value) in enumerate(self.vectors()):
            rate = FIPS202[function].rate
            ways = [(sponge_lists.cut(source, rate, message), sponge_lists.cut(source, rate, value))]
            ways += [((message, b""), (value, b""))] if n % 4 == 0 else []
            ways += [([bytes([byte]) for byte in message], [bytes([byte]) for byte in value])] if n % 40 == 0 else []
            for pieces, reads in ways:
                due.append((record("N", bytes([function])), "fresh"))
                due += [(record("A", piece), "0") for piece in pieces]
                due.append((record("F"), "0"))
                due += [(record("R", n=len(part)), f"0 {part.hex()}") for part in reads]
        self.hold_lines(due)


class Monte(Held):
    """The chains whole: 100 values of each function, with 1,000 calls before each.

    The records need the outputs beforehand, so these come from hashlib. Each line must be that output, all of its bytes; so each message is
    what the program's own line before it says. The values are then looked for in the program's lines.
    """

    def next_call(self, chain, output):
        """SHA3: the digest is the next message. SHAKE: its first 16 bytes are, and the last two choose the next length."""
        if chain.function in SHA3:
            return output, len(output)
        number = int.from_bytes(output[-2:], "big")
        return output[:MESSAGE].ljust(MESSAGE, b"\0"), chain.shortest + number % (chain.longest - chain.shortest + 1)

    def calls(self, chain):
        """(message, bytes asked, output) of each call."""
        message, size = chain.seed, chain.longest
        for _ in range(TURNS * len(chain.values)):
            output = third_program.output(FIPS202[chain.function], message, size)
            yield message, size, output
            message, size = self.next_call(chain, output)

    def test_chains(self):
        held = 0
        for file in nist.files("Monte"):
            with self.subTest(file=file):
                chain = nist.chain(file)
                calls = self.calls(chain)
                lines = self.hold_lines([(fips_record(chain.function, size, message), f"0 {output.hex()}") for message, size, output in calls])
                ends = lines[TURNS - 1 :: TURNS]
                self.assertEqual(ends, [f"0 {value.hex()}" for value in chain.values])
                held += len(ends)
        self.assertEqual(held, 600)


class Samples(Held):
    def setUp(self):
        self.samples = list(nist.samples())
        self.assertEqual(len(self.samples), 16)

    def test_in_one_go(self):
        due = [(started_record(n, first, custom, len(value), message), f"0 {value.hex()}") for n, first, custom, message, value in self.samples]
        self.hold_lines(due)

    def test_in_pieces(self):
        """The whole and then nothing, byte by byte, and in 20 ways from a fixed seed. Plain KMAC is closed with the length of the value."""
        source, due = random.Random(SEED), []
        for function, first, custom, message, value in self.samples:
            rate = STARTED[function].rate
            ways = [((message, b""), (value, b"")), ([bytes([byte]) for byte in message], [bytes([byte]) for byte in value])]
            ways += [(sponge_lists.cut(source, rate, message), sponge_lists.cut(source, rate, value)) for _ in range(20)]
            for pieces, reads in ways:
                due.append((start_record(function, first, custom), "0"))
                due += [(record("A", piece), "0") for piece in pieces]
                due.append((length_record(len(value)) if function in KMAC else record("F"), "0"))
                due += [(record("R", n=len(part)), f"0 {part.hex()}") for part in reads]
        self.hold_lines(due)


if __name__ == "__main__":
    unittest.main()
