"""The programs write what expected.py says, and document 01's edges of a block hold by hand."""
import unittest

import expected
import make_replay_sample
import reference
import third_program
import transcript
from programs import ROOT, written
from sponge_functions import FIPS202, SPONGE


class Output(unittest.TestCase):
    def test_expected_files(self):
        for program, output in expected.OUTPUTS.items():
            with self.subTest(program=program):
                self.assertEqual((ROOT / "crates" / program / "stdout").read_text(), output())

    def test_what_was_written(self):
        """What each program wrote when `rt ci` ran it, as each compiler built it."""
        for program, output in expected.OUTPUTS.items():
            with self.subTest(program=program):
                for file, text in written(program).items():
                    self.assertEqual(text, output(), file)

    def test_replay_sample(self):
        """The list of calls that `rt ci` runs `replay` on, and its lines, are those of the script."""
        crate = ROOT / "crates/replay"
        self.assertEqual((crate / "stdin").read_bytes(), make_replay_sample.stdin())
        self.assertEqual((crate / "stdout").read_text(), make_replay_sample.stdout())

    def test_digest_sample(self):
        """`rt ci` runs `digest` on document 01's message."""
        crate = ROOT / "crates/digest"
        self.assertEqual((crate / "stdin").read_bytes(), reference.ptn(17**3))
        self.assertEqual((crate / "stdout").read_text(), reference.kt128(reference.ptn(17**3), b"", 32).hex() + "\n")

    def test_vectors(self):
        """The draft has 16 vectors of TurboSHAKE128 and 15 of TurboSHAKE256, and 18 of each KT. None is refused here.

        The last eight of each KT have their bytes three times, every other line once.
        """
        lines = [line.split(" ") for line in expected.vectors_output().splitlines()]
        names = [name for name, *_ in lines]
        self.assertEqual(names, ["TurboSHAKE128"] * 16 + ["TurboSHAKE256"] * 15 + ["KT128"] * 18 + ["KT256"] * 18)
        ways = [1] * 31 + 2 * ([1] * 10 + [3] * 8)
        self.assertEqual([len(line) for line in lines], [5 + count for count in ways])
        for line in lines:
            self.assertEqual(len(set(line[5:])), 1)
            self.assertGreaterEqual(len(bytes.fromhex(line[5])), 32)
        thrice = ["ptn 0 1", "ff 1 41", "ff 3 1681", "ff 7 68921", "ptn 8191 0", "ptn 8192 0", "ptn 8192 8189", "ptn 8192 8190"]
        self.assertEqual([" ".join(line[1:4]) for line in lines if len(line) == 8], 2 * thrice)

    def test_day(self):
        """Shift and clerk come to the same digits; the day's message, 9,066 bytes, and the name are two chunks."""
        shift, clerk = (line.split(" ") for line in expected.day_output().splitlines())
        self.assertEqual((shift[0], clerk[0], shift[1], len(shift[1])), ("shift", "clerk", clerk[1], 64))
        # 16, 23, 0, 9,000 and 17 bytes
        message = b"06:00 pump 3 on\n" + b"\x10\x01" + b"06:02 level 3 at 41 cm\n" + b"\x17\x01" + b"\x00"
        message += reference.ptn(9000) + b"\x23\x28\x02" + b"22:00 pump 3 off\n" + b"\x11\x01"
        s = message + b"Hanbeorit station 3" + b"\x13\x01"
        self.assertEqual((len(message), len(reference.chunks(s))), (9066, 2))
        self.assertEqual(shift[1], reference.turboshake(168, *reference.final_node(168, 32, s), 32).hex())

    def test_types(self):
        """A line for each function, and one of the same run on lent lanes. The read and the call in one go past SHA3's digest answer 6 and leave A5; the
        bytes of FIPS 202 are hashlib's."""
        rows = [line.split(" ") for line in expected.types_output().splitlines()]
        lines, in_place = rows[: len(SPONGE)], rows[len(SPONGE) :]
        self.assertEqual([name for name, *_ in lines], [function.name for function in SPONGE.values()])
        self.assertEqual(in_place, [[name, "in", "place", statuses[:8], run, more] for name, statuses, run, more, *_ in lines])
        self.assertEqual([statuses for _, statuses, *_ in lines], 2 * ["0300030000"] + 4 * ["0300030606"] + 2 * ["0300030000"])
        sizes = [32, 64, 28, 32, 48, 64, 32, 64]
        for (name, statuses, run, more, one, long), size in zip(lines, sizes):
            self.assertEqual((run, len(bytes.fromhex(run))), (one, size), name)
            self.assertEqual(long, (run + more) if statuses[-1] == "0" else "a5" * (size + 1), name)
            self.assertEqual(more == "a5", statuses[-1] == "6", name)
        for (_, statuses, run, *_, long), function in zip(lines[-len(FIPS202) :], FIPS202.values()):
            told = long if statuses[-1] == "0" else run
            self.assertEqual(told, third_program.output(function, reference.ptn(200), len(told) // 2).hex(), function.name)


class Nodes(unittest.TestCase):
    """The pairs of expected.KT_PAIRS give the nodes that they are there for."""

    def nodes(self, rate):
        """For each pair: the number of chunks, the length of the last one, and the length of the final node."""
        for size, custom in expected.KT_PAIRS[rate]:
            s = reference.merged(reference.ptn(size), reference.ptn(custom))
            parts = reference.chunks(s)
            yield len(parts), len(parts[-1]), len(reference.final_node(rate, transcript.CHAINING[rate], s)[0])

    def test_pairs(self):
        for rate in transcript.CHAINING:
            named, singles, leaves, others, final = (list(self.nodes(rate))[a:b] for a, b in ((0, 4), (4, 7), (7, 11), (11, 13), (13, 14)))
            self.assertEqual([count for count, _, _ in named], [1, 2, 2, 3])
            self.assertEqual([(count, last % rate) for count, last, _ in singles], [(1, rate - 1)] * 3)
            self.assertEqual([(count, last % rate) for count, last, _ in leaves], [(2, rate - 1)] * 3 + [(3, rate - 1)])
            self.assertEqual([(count, last) for count, last, _ in others], [(2, rate), (2, rate + 1)])
            self.assertEqual([(count > 1, length % rate) for count, _, length in final], [(True, rate - 4)])

    def test_no_final_node_is_one_byte_short(self):
        """None of several chunks is one byte short of whole blocks: all lengths are multiples of 8 but that of the end, 4 to 6 bytes."""
        longest = transcript.Limits.ABSORB_LIMIT + transcript.Limits.CUSTOM_LIMIT
        most = (longest + len(reference.length_encode(transcript.Limits.CUSTOM_LIMIT)) - 1) // reference.CHUNK
        ends = {len(reference.length_encode(n)) + 2 for n in (1, 255, 256, 65_535, 65_536, most)}
        self.assertEqual(ends, {4, 5, 6})
        for rate, chaining in transcript.CHAINING.items():
            self.assertEqual((rate % 8, chaining % 8, (reference.CHUNK + 8) % 8), (0, 0, 0))


class ByHand(unittest.TestCase):
    """The blocks are put together here byte by byte, not by the second program's padding."""

    def digest(self, *blocks):
        """The first 32 bytes after these blocks of 168 bytes."""
        lanes = [0] * 25
        for block in blocks:
            self.assertEqual(len(block), 168)
            lanes = reference.keccak_p([v ^ w for v, w in zip(lanes, reference.state_of(block + bytes(32)))], 12)
        return reference.bytes_of(lanes)[:32].hex()

    def holds(self, size, *blocks):
        """The lines of edges for a message of so many bytes, in one go and cut, say the digest of these blocks."""
        lines = [line for line in expected.edges_output().splitlines() if f" {size} 1f 32 0 " in line and "TurboSHAKE128" in line]
        self.assertEqual(lines, [f"TurboSHAKE128 {way} {size} 1f 32 0 {self.digest(*blocks)}" for way in ("one", "cut")])

    def test_167_bytes_are_one_block(self):
        """D and 80 share the last byte: 1F XOR 80 is 9F."""
        self.holds(167, reference.ptn(167) + b"\x9f")

    def test_168_bytes_are_two_blocks(self):
        self.holds(168, reference.ptn(168), b"\x1f" + bytes(166) + b"\x80")

    def holds_kt(self, size, custom, *blocks):
        digest = self.digest(*blocks)
        lines = {line for line in expected.edges_output().splitlines() if line.startswith(f"KT128 {size} {custom} 32 ")}
        self.assertEqual(lines, {f"KT128 {size} {custom} 32 one 0 {digest} cut 0 {digest}"})

    def test_166_bytes_of_kt_are_one_block(self):
        """S ends with the 00 of an empty C; 07 XOR 80 is 87."""
        self.holds_kt(166, 0, reference.ptn(166) + b"\x00\x87")

    def test_8191_bytes_of_kt_are_one_chunk(self):
        """8,191 bytes and 00 are 48 blocks and 128 bytes."""
        s = reference.ptn(8191) + b"\x00"
        blocks = [s[at : at + 168] for at in range(0, 48 * 168, 168)]
        self.holds_kt(8191, 0, *blocks, s[48 * 168 :] + b"\x07" + bytes(38) + b"\x80")

    def test_8192_bytes_of_kt_are_two_chunks(self):
        """The leaf is 00 alone; the final node is 49 blocks and 4 bytes: length_encode(1) and FF FF."""
        value = bytes.fromhex(self.digest(b"\x00\x0b" + bytes(165) + b"\x80"))
        node = reference.ptn(8192) + b"\x03\0\0\0\0\0\0\0" + value
        blocks = [node[at : at + 168] for at in range(0, len(node), 168)]
        self.assertEqual(len(node), 49 * 168)
        self.holds_kt(8192, 0, *blocks, b"\x01\x01\xff\xff\x06" + bytes(162) + b"\x80")


if __name__ == "__main__":
    unittest.main()
