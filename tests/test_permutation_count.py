"""The permutations of request Q-10: what runs and books count while they hash is what the request says, by its examples and its formula."""
import random
import unittest
from unittest import mock

import model_run
import permutation_formula
import reference
import transcript
from counted_hash import CountedSponge, CountedTree
from permutation_formula import ceil_of
from short_runs import fields
from sponge_functions import SPONGE, TURBOSHAKE
from transcript import CHAINING, CUSTOMIZING, DAY, FINALIZED, KT, NODES, RATES, Limits, read_limit

CHUNK = reference.CHUNK
BIG = (1 << 64) - 1
WHOLE_LEAF = {168: 49, 136: 61}  # the permutations of a leaf of 8,192 bytes: ceil(8,193 / rate), and its chaining value is less than a block


def closing(number):
    """The argument of the close: a domain byte, a C, or none."""
    return [0x1F] if number in TURBOSHAKE else [] if number in SPONGE else [b""]


class Counted(unittest.TestCase):
    def counts(self, number, *calls):
        """The permutations after each of these calls, which are done, by the run; the book's are the same."""
        book, run = transcript.book_of(number), model_run.run_of(number)
        found = []
        for name, *arguments in calls:
            for one in (book, run):
                answer = getattr(one, name)(*arguments)
                self.assertEqual(answer[0] if name == "squeeze" else answer, 0, (number, name))
            self.assertEqual(book.permutations, run.permutations, (number, name))
            found.append(run.permutations)
        return found


class Examples(Counted):
    def test_request(self):
        """KT128 with S of 8,193 bytes and 32 read counts 51: 50 blocks of the final node, and one of the leaf."""
        for message, custom in ((CHUNK, 0), (CHUNK - 2, 1), (0, CHUNK - 2)):
            m, c = reference.ptn(message), reference.ptn(custom)
            self.assertEqual(len(reference.merged(m, c)), 8193)
            self.assertEqual(self.counts(2, ("absorb", m), ("finalize", c), ("squeeze", 32))[1:], [51, 51])
            self.assertEqual(self.counts(2, ("absorb", m), ("customize", c), ("finish",), ("squeeze", 32))[2:], [51, 51])

    def test_full_block(self):
        """A full block is permuted when its next byte comes, or at the close, which then takes another block."""
        for number, rate in RATES.items():
            if number not in DAY:
                full = "absorb", bytes(rate)
                self.assertEqual(self.counts(number, full, ("absorb", b""), ("absorb", b"a"), ("absorb", bytes(rate - 1))), [0, 0, 1, 1])
                after = 0 if number in SPONGE else 1  # the 00 that KT's S has for an empty C
                self.assertEqual(self.counts(number, full, ("finalize", *closing(number))), [0, 2])
                self.assertEqual(self.counts(number, ("absorb", bytes(rate - 1 - after)), ("finalize", *closing(number))), [0, 1])
                self.assertEqual(self.counts(number, ("finalize", *closing(number))), [1])
        self.assertEqual(self.counts(0, ("absorb", bytes(168)))[-1], 0)
        self.assertEqual(self.counts(0, ("absorb", bytes(169)))[-1], 1)
        # the 167 bytes of an event of 165 with its length, and one byte more
        self.assertEqual(self.counts(4, ("absorb", bytes(165)), ("absorb", b""), ("absorb", b"")), [0, 0, 1])

    def test_full_leaf(self):
        """It is closed when the next chunk's first byte comes: its last block, with the pad, is permuted then. Leaf and node, in this order."""
        self.assertEqual(self.counts(2, ("absorb", bytes(2 * CHUNK)), ("absorb", b""), ("absorb", b"a")), [48 + 48, 96, 49 + 48])
        self.assertEqual(self.counts(3, ("absorb", bytes(2 * CHUNK)), ("absorb", b""), ("absorb", b"a")), [60 + 60, 120, 61 + 60])
        # with the chaining value the final node has 49 whole blocks: the next value's first byte permutes the last
        self.assertEqual(self.counts(2, ("absorb", bytes(3 * CHUNK)), ("absorb", b"a")), [49 + 48 + 48, 49 + 49 + 49])

    def test_custom_opens_a_chunk(self):
        """M of 8,192 bytes is one chunk until C's first byte comes, which then puts eight bytes into the node's block and opens the leaf."""
        calls = ("absorb", bytes(CHUNK)), ("customize", b""), ("customize", b"a"), ("customize", bytes(168)), ("finish",)
        self.assertEqual(self.counts(2, *calls), [48, 48, 48, 49, 50 + 2])
        self.assertEqual(self.counts(3, *calls), [60, 60, 60, 61, 61 + 2])
        # the full leaf of M and C is closed by C's next byte
        self.assertEqual(self.counts(2, ("absorb", bytes(CHUNK)), ("customize", bytes(CHUNK)), ("customize", b"a")), [48, 96, 97])

    def test_reads(self):
        """0, 1, a block, a byte more than a block: one permutation between full blocks of output, when the next byte is asked."""
        for number, rate in RATES.items():
            if number in SPONGE and SPONGE[number].digest:
                self.assertEqual(self.counts(number, ("finalize",), *(("squeeze", size) for size in (0, 1, 0, 27))), [1] * 5)
                continue
            closed = "finalize", *closing(number)
            for sizes, more in (((0, 0), 0), ((1,), 0), ((rate,), 0), ((rate - 1, 1, 0), 0), ((rate, 1), 1), ((rate + 1,), 1), ((3 * rate, 1), 3)):
                self.assertEqual(self.counts(number, closed, *(("squeeze", size) for size in sizes))[-1], 1 + more, (number, sizes))

    def test_limits(self):
        """The most bytes fed, read and of C: the numbers that are due, by hand; with them a run is taken."""
        fed, read = 2**34 - 1, 2**32 - 1
        for number, function in SPONGE.items():
            run = model_run.run_of(number)
            most = min(read, read_limit(function))
            run.phase, run.absorbed, run.squeezed = FINALIZED, fed, most
            run.node.position = model_run.position_after(run.rate, most)
            run.permutations = -(-(2**34) // run.rate) + -(-most // run.rate) - 1
            self.assertEqual([run.squeeze(0)[0], run.squeeze(1)[0], run.absorb(b"")], [0, 6, 3], number)
        for number, rate in (KT | DAY).items():
            run = model_run.run_of(number)
            run.phase, run.absorbed, run.squeezed, run.customized = FINALIZED, fed, read, 2**24 - 1
            run.node.position = model_run.position_after(rate, read)
            leaves = 2**21 + 2**11  # of S, 2^34 + 2^24 + 2 bytes; all but the last are whole, and that one has two bytes
            node = CHUNK + 8 + leaves * CHAINING[rate] + 4 + 2
            run.permutations = (leaves - 1) * WHOLE_LEAF[rate] + 1 + -(-(node + 1) // rate) + -(-read // rate) - 1
            self.assertEqual([run.squeeze(0)[0], run.squeeze(1)[0], run.finish()], [0, 6, 3], number)


class Formula(Counted):
    def test_sponge(self):
        """Byte by byte in, and after closes around the blocks' ends byte by byte out: run, book and formula have one number."""
        for number, function in SPONGE.items():
            rate = function.rate
            counts = self.counts(number, *[("absorb", b"a")] * (4 * rate + 2))
            self.assertEqual(counts, [ceil_of(m, rate) - 1 for m in range(1, 4 * rate + 3)])
            reads = min(3 * rate + 2, function.digest or BIG)
            for m in {0, 1, 2, *(blocks * rate + more for blocks in (1, 2, 3) for more in (-2, -1, 0, 1))}:
                calls = ("absorb", bytes(m)), ("finalize", *closing(number)), *[("squeeze", 1)] * reads
                due = [ceil_of(m + 1, rate) + (ceil_of(size, rate) - 1 if size else 0) for size in range(reads + 1)]
                self.assertEqual(self.counts(number, *calls)[1:], due, (number, m))

    def test_tree(self):
        """Any lengths of M, C and output, in pieces: each number is that of the formula for S so far."""
        source = random.Random(6)
        for number in (2, 3) * 40:
            rate, chaining = RATES[number], CHAINING[RATES[number]]
            near = [chunks * CHUNK + more for chunks in (1, 2, 3) for more in (-3, -2, -1, 0, 1)]
            sizes = [sorted(source.choice((0, 1, source.randrange(30_000), *near)) for _ in range(3)) for _ in range(2)]
            merged = [*sizes[0], *(sizes[0][-1] + size for size in sizes[1])]
            pieces = [bytes(b - a) for a, b in zip([0, *merged], merged)]
            calls = *(("absorb", piece) for piece in pieces[:3]), *(("customize", piece) for piece in pieces[3:])
            due = [permutation_formula.kt_open(rate, chaining, size) for size in merged]
            whole = merged[-1] + len(reference.length_encode(sizes[1][-1]))
            reads = [source.choice((0, 1, rate - 1, rate, rate + 1, 400)) for _ in range(3)]
            due += [permutation_formula.kt_closed(rate, chaining, whole, sum(reads[:end])) for end in range(4)]
            self.assertEqual(self.counts(number, *calls, ("finish",), *(("squeeze", size) for size in reads)), due, (number, merged))

    def test_definition(self):
        """The second program, in one go, permutes as often as the run that is fed and read so much, and so does the book's counted hash."""
        with mock.patch.object(reference, "permuted", wraps=reference.permuted) as permuted:
            for number, function in SPONGE.items():
                for m in (0, 1, function.rate - 1, function.rate, 700):
                    for size in (0, 1, function.digest or function.rate + 1):
                        permuted.reset_mock()
                        function.output(bytes(m), 0x1F, size)
                        made = permuted.call_count
                        counts = self.counts(number, ("absorb", bytes(m)), ("finalize", *closing(number)), ("squeeze", size))
                        self.assertEqual(counts[-1], made, (number, m, size))
            for number, rate in KT.items():
                for m, c in ((0, 0), (CHUNK - 1, 0), (CHUNK, 0), (2 * CHUNK - 1, 0), (2 * CHUNK, 7), (100, 3 * CHUNK)):
                    reference.chaining_value.cache_clear()
                    permuted.reset_mock()
                    parts = [source * size for source, size in ((b"m", m), (b"c", c))]
                    # chunks that are alike would be hashed once
                    with mock.patch.object(reference, "chaining_value", reference.chaining_value.__wrapped__):
                        reference.kangarootwelve(rate, CHAINING[rate], *parts, 200)
                    made = permuted.call_count
                    counts = self.counts(number, ("absorb", parts[0]), ("finalize", parts[1]), ("squeeze", 200))
                    self.assertEqual(counts[-1], made, (number, m, c))

    def test_counted_hash(self):
        """What the books count is a hash: its bytes are the definition's."""
        source = random.Random(7)
        for function in SPONGE.values():
            for m in (0, 1, function.rate - 1, function.rate, function.rate + 1, 1000):
                message, counted = source.randbytes(m), CountedSponge(function)
                for end in sorted(source.randrange(m + 1) for _ in range(3)):
                    counted.absorb(message[:end])
                counted.close(message, function.byte_after(0x1F))
                self.assertEqual([counted.read(size) for size in (1, 28, 500)], [function.output(message, 0x1F, size) for size in (1, 28, 500)])
        for rate in KT.values():
            for m in (0, CHUNK - 1, CHUNK, 2 * CHUNK, 2 * CHUNK + 9, 40_000):
                message, counted = source.randbytes(m), CountedTree(NODES[rate], CHAINING[rate])
                for end in sorted(source.randrange(m + 1) for _ in range(4)):
                    counted.absorb(message[:end])
                counted.close(reference.merged(message, b""))
                self.assertEqual(counted.read(500), reference.kangarootwelve(rate, CHAINING[rate], message, b"", 500))


class Refusals(unittest.TestCase):
    def runs(self, number):
        """Runs in every phase, each with a call that is done on it, and one that is refused by another number than 5."""
        close = "finalize", *closing(number)
        for size in (0, 1, RATES[number], CHUNK + 1):
            run = model_run.run_of(number)
            run.absorb(bytes(size))
            yield run, ("absorb", b""), ("squeeze", 0)
            if number not in SPONGE:
                run = model_run.run_of(number)
                run.absorb(bytes(size))
                run.customize(bytes(size))
                yield run, ("customize", b""), ("absorb", b"a")
            run = model_run.run_of(number)
            run.absorb(bytes(size))
            run.finalize(*close[1:])
            run.squeeze(min(size, 28))
            yield run, ("squeeze", 0), close

    def answer(self, run, name, *arguments):
        answer = getattr(run, name)(*arguments)
        return answer[0] if name == "squeeze" else answer

    def test_wrong_count(self):
        """One more, one less, the field's largest: every call answers 5 and changes nothing. With the right one back the run is taken."""
        phases = set()
        for number in RATES:
            calls = [("absorb", b""), ("absorb", b"a"), ("finalize", *closing(number)), ("squeeze", 0), ("squeeze", 1)]
            calls += [] if number in SPONGE else [("customize", b""), ("customize", b"a"), ("finish",)]
            for run, done, refused in self.runs(number):
                right = run.permutations
                for wrong in {right + 1, (right - 1) & BIG, BIG, right + (1 << 32)}:
                    run.permutations = wrong
                    before = fields(run)
                    self.assertEqual([self.answer(run, *call) for call in calls], [5] * len(calls), (number, run.phase, wrong))
                    self.assertEqual(fields(run), before)
                run.permutations = right
                self.assertEqual((self.answer(run, *refused), run.permutations), (3, right))
                self.assertEqual((self.answer(run, *done), run.permutations), (0, right), (number, run.phase))
                phases.add((number in SPONGE, run.phase))
        self.assertEqual(phases, {(True, 0), (True, FINALIZED), (False, 0), (False, FINALIZED), (False, CUSTOMIZING)})

    def refusable(self, number):
        """Calls, most of which are refused: by 3, by 8, by 1 or 4, and by 3 and 6 after the close."""
        close, long = ("finalize", *closing(number)), bytes(2**24)
        yield from (("absorb", bytes(700)), ("squeeze", 1000), ("absorb", bytes(65_536)))
        if number in TURBOSHAKE:
            yield "finalize", 0x80
        elif number not in SPONGE:
            yield from (("finalize", long), ("customize", long))
        yield from (close, ("absorb", bytes(700)), close, ("squeeze", 2**32))

    def test_refused_call(self):
        """1, 3, 4, 6 and 8 count nothing, in the run and in the book, however long the piece is; 2, at totals that are set, in the run."""
        for number in RATES:
            book, run = transcript.book_of(number), model_run.run_of(number)
            answers = set()
            for name, *arguments in self.refusable(number):
                before = run.permutations
                said, done = self.answer(book, name, *arguments), self.answer(run, name, *arguments)
                self.assertEqual((said, book.permutations), (done, run.permutations), (number, name))
                if done:
                    self.assertEqual(run.permutations, before, (number, name))
                answers.add(done)
            due = {0, 1, 3, 6} if number in TURBOSHAKE else {0, 3, 6} if number in SPONGE else {0, 3, 4, 6}
            self.assertEqual(answers, due | ({8} if number in DAY else set()), number)
            self.assertGreater(run.permutations, 0)
            run.phase, run.absorbed, run.squeezed = 0, Limits.ABSORB_LIMIT, 0
            if number not in SPONGE:
                run.customized = 0
            run.permutations = before = run.permutations_due()
            for sponge, position in zip(run.sponges(), run.positions_due()):
                sponge.position = position
            self.assertEqual((run.absorb(bytes(700)), run.permutations), (2, before))


if __name__ == "__main__":
    unittest.main()
