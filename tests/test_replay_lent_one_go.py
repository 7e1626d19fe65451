"""The program `replay` answers KT calls in one go that lend words to the second engine (request Q-6, op k) as the plain ones, and 12 before all.

The bytes are those of the second program (reference.py). Needs crates/replay/out/replay, which `rt ci` leaves.
"""
import unittest

from kt_lists import CHUNK, CUSTOM, STREAMS
from lent_calls import MOST_WORDS, OTHERS, LentCalls, kt_lent_record
from replay import BEFORE, MOST, Held, kt_record, play
from transcript import KT

EDGES = sorted({max(0, chunks * CHUNK + more) for chunks in range(15) for more in range(-2, 3)})  # of 0 to 14 chunks


def customs(size):
    """Lengths of C after a message of so many bytes: none, a few, and those with which C, or the length after it, opens a chunk, or just does not."""
    rest = -size % CHUNK
    return sorted({0, 3, *(max(0, rest + more) for more in (-4, -3, -1, 0, 1))})


class OneGo(Held):
    def setUp(self):
        self.calls = LentCalls()

    def test_edges_of_the_chunks(self):
        """Messages of 0 to 14 chunks, and up to two bytes less and more, with C empty."""
        for function in KT:
            for size in EDGES:
                self.calls.kt_one_go_lent(function, STREAMS[0][:size], b"", 32)
        self.assertEqual((len(EDGES), self.calls.answers["k", 0]), (73, 2 * 73), "the test itself is wrong")
        self.hold(self.calls)

    def test_customization(self):
        """With a C that ends around a chunk's end. Leaves that lie whole in M and those with bytes of C then come in each number from 0 to 14."""
        for function in KT:
            for size in EDGES:
                for custom in customs(size):
                    self.calls.kt_one_go_lent(function, STREAMS[1][:size], CUSTOM[:custom], 40)
        self.hold(self.calls)

    def test_long_customization(self):
        """M alone decides which leaves lie whole in the message, though C has four chunks and more."""
        for function in KT:
            for size in (0, 1, CHUNK - 1, CHUNK, 2 * CHUNK + 1, 5 * CHUNK - 1, 5 * CHUNK, 5 * CHUNK + 1, 8 * CHUNK, 9 * CHUNK + 7):
                for custom in (4 * CHUNK, 5 * CHUNK - 1, 5 * CHUNK + 9):
                    self.calls.kt_one_go_lent(function, STREAMS[2][:size], CUSTOM[:custom], 32)
        self.hold(self.calls)

    def test_same_as_plain(self):
        """The line of the plain call, and `zero` after it: of each message, C and output length."""
        cases = [(size, custom, 32) for size in EDGES for custom in (0, 1, -size % CHUNK)]
        cases += [(size, 5, asked) for size in (0, CHUNK, 5 * CHUNK, 6 * CHUNK + 1) for asked in (0, 1, 64, 136, 137, 168, 169, 1000)]
        for function in KT:
            arguments = [(function, CUSTOM[:custom], asked, STREAMS[0][:size]) for size, custom, asked in cases]
            plain, status = play(b"".join(kt_record(*one) for one in arguments))
            self.assertEqual((status, len(plain)), (0, len(cases)))
            after = {"0": "zero", "7": "kept"}
            self.hold_lines([(kt_lent_record(100, *one), f"{line} {after[line[0]]}") for one, line in zip(arguments, plain)])

    def test_slices(self):
        """12 before 7 and before an answer of 0; the output and the words are then as they were. No record has what 2, 4 or 6 refuse."""
        for function in KT:
            for size in (0, 1, CHUNK, CHUNK + 1, 5 * CHUNK - 1, 5 * CHUNK, 6 * CHUNK + 1):
                for words in (*OTHERS, 100):
                    for asked in (0, 1, 32, 200):
                        self.calls.kt_one_go_lent(function, STREAMS[0][:size], b"abc", asked, words)
        counts = {status: self.calls.answers["k", status] for status in (0, 7, 12)}
        self.assertEqual(counts, {0: 2 * 7 * 3, 7: 2 * 7, 12: 2 * 7 * 5 * 4}, "the test itself is wrong")
        self.hold(self.calls)

    def test_lines(self):
        """As they are printed: the output after the status, though it has no bytes, and the words after the output."""
        kept = 3 * BEFORE.hex()
        for function in KT:
            due = [(kt_lent_record(words, function, b"", 0, b"abc"), "12  kept") for words in OTHERS]
            due += [(kt_lent_record(words, function, b"", 3, b"abc"), f"12 {kept} kept") for words in OTHERS]
            due += [(kt_lent_record(100, function, b"", 0, b"abc"), "7  kept")]
            self.hold_lines(due)
        # of ptn(17**3): document 01's
        message, digest = (bytes(range(251)) * 20)[: 17**3], "cb552e2ec77d9910701d578b457ddf772c12e322e4ee7fe417f92c758f0d59d0"
        self.hold_lines([(kt_lent_record(100, 2, b"", 32, message), f"0 {digest} zero")])

    def test_every_number_of_words(self):
        """0 to 300: every one but 100 is refused."""
        for words in range(MOST_WORDS + 1):
            self.calls.kt_one_go_lent(2 + words % 2, STREAMS[0][: 5 * CHUNK], b"", 32, words)
        self.assertEqual((self.calls.answers["k", 0], self.calls.answers["k", 12]), (1, 300), "the test itself is wrong")
        self.hold(self.calls)

    def test_run_in_hand(self):
        """It is left as it is, by a done call and by a refused one, in each phase."""
        calls = self.calls
        for function in KT:
            calls.fresh(function)
            for name, *arguments in (("absorb", STREAMS[0][: CHUNK + 700]), ("customize", b"abc"), ("finish",), ("squeeze", 9)):
                getattr(calls, name)(*arguments)
                before = calls.state
                for size in (0, 5 * CHUNK, 6 * CHUNK + 1):
                    for words, asked in ((100, 32), (100, 0), (99, 32)):
                        calls.kt_one_go_lent(5 - function, STREAMS[1][:size], b"d", asked, words)
                self.assertEqual(calls.state, before, "the test itself is wrong")
        self.hold(calls)

    def test_longest(self):
        """The most bytes that a record can have, two fewer than of K: as message, as C, and as output."""
        for function in KT:
            self.calls.kt_one_go_lent(function, CUSTOM[: MOST - 11], b"", 32)
            self.calls.kt_one_go_lent(function, b"", CUSTOM[: MOST - 11], 32)
            self.calls.kt_one_go_lent(function, CUSTOM[: 20 * CHUNK], CUSTOM[: MOST - 11 - 20 * CHUNK], 32)
        self.calls.kt_one_go_lent(2, CUSTOM[: 5 * CHUNK], b"", MOST)
        self.calls.kt_one_go_lent(3, b"", b"", MOST, 101)
        self.hold(self.calls)


if __name__ == "__main__":
    unittest.main()
