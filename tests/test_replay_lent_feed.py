"""The program `replay` feeds message pieces to KT runs with words lent to the second engine (request Q-6, op a) as it does plainly.

Pieces with four whole leaves and more, from every kind of place in a chunk; after every call the run's fields are compared with those of a run that is fed
plainly, the permutations with the book's. Which calls are refused is in test_replay_lent_refused.py. Needs crates/replay/out/replay, which
`rt ci` leaves.
"""
import unittest

import reference
from kt_lists import CHUNK, CUSTOM, LIMIT, STREAMS, fit
from lent_calls import LentCalls, lent_record
from replay import ABSORBED, LANES, LEAF_LANES, MOST, Held, difference, play, record
from transcript import CHAINING, KT

PIECES = *range(32_767, 32_771), *range(40_959, 40_962), 65_536, 131_072  # of around four whole leaves on, five, eight and sixteen


def places(rate):
    """How far into the message a piece begins: every kind of place in S_0, in S_1 and in a later chunk."""
    inside = 0, 1, rate - 1, rate, rate + 1, 20 * rate + 5, CHUNK - 1, CHUNK
    return sorted({start + at for start in (0, CHUNK, 2 * CHUNK) for at in inside})


class Feed(Held):
    def setUp(self):
        self.calls = LentCalls()

    def begun(self, function, size, stream=STREAMS[0]):
        """A run that was fed so many bytes plainly."""
        self.calls.fresh(function)
        self.calls.absorb(stream[:size])

    def test_pieces(self):
        """Each piece at each place, one more byte by either engine, both closes, and the first bytes of the output."""
        calls = self.calls
        for function, rate in KT.items():
            for at in places(rate):
                for size in PIECES:
                    self.begun(function, at)
                    calls.absorb_lent(STREAMS[0][at : at + size])
                    last = STREAMS[0][at + size : at + size + 1]
                    if size % 2:
                        calls.absorb(last)
                        calls.finalize(b"")
                    else:
                        calls.absorb_lent(last)
                        calls.customize(b"a")
                        calls.finish()
                    calls.squeeze(32)
        self.assertEqual(calls.answers["a", 0], 2 * 22 * (9 + 5), "the test itself is wrong")
        self.hold(calls)

    def test_same_as_plain(self):
        """The program's own dumps after a plain piece and after the same with words lent: at each place, to around each chunk's end."""
        around = {chunks * CHUNK + more for chunks in range(1, 14) for more in (-1, 0, 1)}
        for function, rate in KT.items():
            for at in places(rate):
                # the piece ends there, or with it what the chunk in hand had before
                sizes = {0, 1, *PIECES, *around, *(size - at % CHUNK for size in around if size > CHUNK)}
                self.hold_to_plain(function, at, [STREAMS[2][at : at + size] for size in sorted(sizes)])

    def hold_to_plain(self, function, at, pieces):
        """Two runs for each of these pieces, fed alike before it, and then the piece in either way."""
        begin = record("N", bytes([function])) + record("A", STREAMS[2][:at])
        records = [begin + feed + record("D") for piece in pieces for feed in (record("A", piece), lent_record(100, piece))]
        lines, status = play(b"".join(records))
        self.assertEqual((status, len(lines)), (0, 8 * len(pieces)))
        for number, piece in enumerate(pieces):
            (*said, plain), (*said_lent, lent) = lines[8 * number :][:4], lines[8 * number + 4 :][:4]
            where = f"function {function}, a piece of {len(piece)} bytes after {at}"
            self.assertEqual((said, said_lent), (["fresh", "0", "0"], ["fresh", "0", "0 zero"]), where)
            if lent != plain:
                self.fail(f"{where}: {difference(lent, plain)}")

    def test_fourth_leaf_stays_open(self):
        """A piece that ends with the fourth leaf, and with the eighth: no permutation is done for its end until the next byte comes."""
        calls = self.calls
        for function, rate in KT.items():
            leaf = 49 if rate == 168 else 61  # permutations of a leaf, of which the last is that of its end
            for leaves in (4, 8, 12):
                node = -(-(CHUNK + 8 + (leaves - 1) * CHAINING[rate]) // rate) - 1
                for before in (0, 1, CHUNK):
                    self.begun(function, before)
                    calls.absorb_lent(STREAMS[0][before : (1 + leaves) * CHUNK])
                    self.assertEqual(calls.run.permutations, node + leaves * leaf - 1, "the test itself is wrong")
                    self.assertEqual(calls.run.leaf.position, (CHUNK - 1) % rate + 1, "the test itself is wrong")
                    calls.absorb_lent(b"")
                    (calls.absorb if before else calls.absorb_lent)(b"a")
                    calls.finalize(CUSTOM[: CHUNK - 1])
                    calls.squeeze(40)
        self.hold(calls)

    def test_cut_in_any_way(self):
        """The same message in pieces of one length, by either engine in turn: one run, and one digest."""
        message = STREAMS[1][:150_000]
        for function in KT:
            states = set()
            for step in (CHUNK, 4 * CHUNK, 5 * CHUNK, 32_767, 40_961, 50_000, 75_001, len(message)):
                for plain in (0, 1, 2):
                    self.calls.fresh(function)
                    for number, at in enumerate(range(0, len(message), step)):
                        (self.calls.absorb if number % 3 == plain else self.calls.absorb_lent)(message[at : at + step])
                    states.add(self.calls.state)
                self.calls.finalize(b"abc")
                self.calls.squeeze(32)
            self.assertEqual(len(states), 1, "the test itself is wrong")
        self.hold(self.calls)

    def test_short_pieces(self):
        """Without four whole leaves: the words are zero all the same, also where the piece is empty."""
        for function, rate in KT.items():
            for at in (0, CHUNK, 2 * CHUNK + 5):
                self.begun(function, at)
                for size in (0, 1, rate - 1, rate, rate + 1, 4096, CHUNK - 1, CHUNK, CHUNK + 1, 2 * CHUNK, 3 * CHUNK, 4 * CHUNK - 1, 0):
                    self.calls.absorb_lent(STREAMS[0][self.calls.run.absorbed :][:size])
                self.calls.finalize(b"")
                self.calls.squeeze(32)
        self.hold(self.calls)

    def test_any_lanes(self):
        """A run that 5 does not refuse is worked on by the same rules, whatever its lanes, the leaf's too where no leaf is in hand."""
        calls = self.calls
        totals = 0, 1, 100, CHUNK - 1, CHUNK, CHUNK + 1, 2 * CHUNK - 1, 2 * CHUNK, 3 * CHUNK + 9, 999_999 * CHUNK, LIMIT - 100_000
        for function in KT:
            for total in totals:
                for size in (0, 50, 4 * CHUNK, 5 * CHUNK - total % CHUNK, 5 * CHUNK + 1, 9 * CHUNK):
                    calls.fresh(function)
                    calls.set(ABSORBED, total)
                    fit(calls)
                    for i, lane in enumerate(reference.state_of(STREAMS[1][:200])):
                        calls.set(LANES + i, lane)
                        calls.set(LEAF_LANES + i, lane ^ 1)
                    calls.absorb_lent(STREAMS[0][:size])
                    calls.absorb_lent(b"a")
        self.hold(calls)

    def test_longest(self):
        """The most bytes that a record can have, two fewer than of A."""
        for function in KT:
            for at in (0, 5, CHUNK):
                self.begun(function, at, CUSTOM)
                self.calls.absorb_lent(CUSTOM[: MOST - 2])
        self.hold(self.calls)


if __name__ == "__main__":
    unittest.main()
