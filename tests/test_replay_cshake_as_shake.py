"""With both strings empty the program `replay` answers for cSHAKE what it answers for SHAKE: the same lists, line by line.

Needs crates/replay/out/replay, which `rt ci` leaves.
"""
import random
import unittest

import sponge_lists
import third_program
from replay import SEED, SHAKE_BIT, Calls, Held, fips_record, play, record, set_record
from sp800_185 import SHAKES
from sponge_functions import SHAKE
from started_calls import start_record, started_record

CALLS = 4000
CSHAKES = {shake: number for number, shake in SHAKES.items()}
BIT_AT = 4  # the place of the bit in the line of a run: behind the phase, two totals and the permutations


def records_of(data):
    """(op, n, payload) of each record."""
    at = 0
    while at < len(data):
        op, n = data[at : at + 1].decode(), int.from_bytes(data[at + 1 : at + 5], "big")
        size = 0 if op == "R" else n
        yield op, n, bytes(data[at + 5 : at + 5 + size])
        at += 5 + size


def as_cshake(op, n, payload):
    """The record for cSHAKE: a start in place of a fresh run, and its op in one go; the rest as it is."""
    if op == "N":
        return start_record(CSHAKES[payload[0]], b"", b"")
    if op == "B":
        return started_record(CSHAKES[payload[0]], b"", b"", int.from_bytes(payload[1:5], "big"), payload[5:])
    return record(op, payload, n)


def as_shake_line(op, line):
    """What SHAKE's line must be, by cSHAKE's: without the bit, which says SHAKE."""
    words = line.split(" ")
    if op == "D":
        return " ".join(words[:BIT_AT] + words[BIT_AT + 1 :]) if words[BIT_AT : BIT_AT + 1] == ["01"] else f"no bit: {line[:80]}"
    return "fresh" if (op, line) == ("N", "0") else line


class Same(Held):
    def same(self, calls):
        """The program gives for SHAKE what is due, and for cSHAKE the same."""
        self.hold(calls)
        records = list(records_of(calls.records))
        (given, status), (others, other_status) = play(calls.records), play(b"".join(as_cshake(*data) for data in records))
        self.assertEqual((len(given), status), (len(others), other_status))
        for number, ((op, *_), line, other) in enumerate(zip(records, given, others)):
            if as_shake_line(op, other) != line:
                self.fail(f"record {number + 1}, {op}: {other[:120]!r}, and of SHAKE {line[:120]!r}")

    def one_list(self, source, calls):
        """Pieces, a close and reads, some of them refused; or fields are overwritten, and then calls."""
        calls.fresh(source.choice(list(SHAKE)))
        calls.dump()
        for _ in range(source.choice((0, 1, 3, 8))):
            calls.absorb(source.randbytes(sponge_lists.length(source, calls.rate, calls.run.absorbed)))
        if source.randrange(3) == 0:
            calls.squeeze(source.randrange(3))
        if source.randrange(4):
            calls.finalize()
            for _ in range(source.choice((0, 1, 3, 8))):
                calls.squeeze(sponge_lists.asked(source, calls.function, calls.run.squeezed))
            calls.absorb(source.randbytes(source.randrange(3)))
            calls.finalize()
        if source.randrange(2):
            sponge_lists.overwrite(source, calls)
            for _ in range(source.randrange(2, 6)):
                sponge_lists.overwritten_call(source, calls)
        calls.one_go(calls.function, source.randbytes(sponge_lists.length(source, calls.rate, 0)), None, source.choice((0, 1, 32, 400)))

    def test_random_lists(self):
        """4,000 calls from a fixed seed, with every answer that SHAKE has."""
        source, calls = random.Random(SEED), Calls()
        while calls.answers.total() < CALLS:
            self.one_list(source, calls)
        for number in SHAKE:
            for op, statuses in {"A": (0, 2, 3, 5), "F": (0, 3, 5), "R": (0, 3, 5, 6), "B": (0, 7)}.items():
                for status in statuses:
                    self.assertGreater(calls.answers_of[number, op, status], 5, (number, op, status))
        self.same(calls)

    def test_fresh_run(self):
        """The start leaves what is fresh, whatever was in hand before, and the bit is 1."""
        calls = Calls()
        for number in SHAKE:
            for other in SHAKE:
                calls.fresh(other)
                calls.absorb(b"abc")
                calls.finalize()
                calls.squeeze(200)
                calls.fresh(number)
                calls.dump()
        self.same(calls)

    def test_hashlib(self):
        """In one go and in pieces the bytes are hashlib's SHAKE's; with the bit overwritten nothing is answered but 5."""
        source, due = random.Random(SEED + 1), []
        for number, shake in SHAKES.items():
            for message in map(source.randbytes, third_program.sizes(source, SHAKE[shake].rate)):
                out = third_program.output(SHAKE[shake], message, 400)
                due.append((started_record(number, b"", b"", 400, message), f"0 {out.hex()}"))
                due.append((fips_record(shake, 400, message), f"0 {out.hex()}"))
                due.append((start_record(number, b"", b""), "0"))
                due += [(record("A", piece), "0") for piece in sponge_lists.cut(source, SHAKE[shake].rate, message)]
                due += [(set_record(SHAKE_BIT, 0), "set"), (record("F"), "5"), (set_record(SHAKE_BIT, 1), "set"), (record("F"), "0")]
                due += [(record("R", n=len(part)), f"0 {part.hex()}") for part in sponge_lists.cut(source, SHAKE[shake].rate, out)]
                due += [(set_record(SHAKE_BIT, 0), "set"), (record("R", n=1), "5 a5")]
        self.hold_lines(due)


if __name__ == "__main__":
    unittest.main()
