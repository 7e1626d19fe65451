"""Writes lists of calls for the program `replay` and the lines that it must answer; runs it and compares.

A record is one byte op, four bytes n, and n bytes of payload (none for R), numbers most significant first. The program does one call
for each and writes one line. What the line must say is for transcript.py, model_run.py and one_go.py to decide. The program is
crates/replay/out/replay, which `rt ci` leaves, or the one that the variable REPLAY names.
"""
import os
import subprocess
import tempfile
import threading
import unittest
from collections import Counter
from pathlib import Path

import model_run
import one_go
import transcript
from programs import program
from sponge_functions import FIPS202, SPONGE, TURBOSHAKE
from transcript import KT, NOT_REACHED

PROGRAM = Path(os.environ.get("REPLAY") or program("replay"))
SEED = 20  # of every random list
MOST = 262_144  # the length of the program's buffers
BEFORE = b"\xa5"  # each byte of the buffer that a squeeze is given
# The fields that S writes. Lane i is 64 + i; the leaf's 96 + i. Only a run of KT or a day has a leaf and customization bytes, only one of plain
# KMAC an output length, only one of cSHAKE the bit that says SHAKE.
PHASE, ABSORBED, SQUEEZED, POSITION, LEAF_POSITION, CUSTOMIZED, PERMUTATIONS, OUTPUT_LENGTH, SHAKE_BIT, LANES, LEAF_LANES = *range(9), 64, 96
NAMES = {PHASE: "phase", ABSORBED: "absorbed", SQUEEZED: "squeezed", CUSTOMIZED: "customized", PERMUTATIONS: "permutations"}
NAMES |= {OUTPUT_LENGTH: "output_length", SHAKE_BIT: "is_shake"}
ON_STATE = {"P": one_go.permutation, "I": one_go.inverse}  # what the ops on 200 bytes answer
SECONDS = 300  # after which the program is ended


def counted(data, n=None):
    """A number of four bytes, the length of what follows where `n` is not given, and the bytes."""
    return (len(data) if n is None else n).to_bytes(4, "big") + data


def record(op, payload=b"", n=None):
    return op.encode("latin-1") + counted(payload, n)


def set_record(field, value):
    return record("S", bytes([field]) + value.to_bytes(8, "big"))


def one_go_record(function, domain, size, message):
    return record("T", bytes([function, domain]) + counted(message, size))


def fips_record(function, size, message):
    return record("B", bytes([function]) + counted(message, size))


def permutation_record(rounds, state, op="P"):
    """Of the inverse where the op is I."""
    return record(op, bytes([rounds]) + state)


def kt_record(function, custom, size, message, custom_size=None):
    return record("K", bytes([function]) + counted(b"", size) + counted(custom, custom_size) + message)


def hopmac_record(strength, key, custom, size, message, key_size=None, custom_size=None):
    return record("H", bytes([strength]) + counted(b"", size) + counted(key, key_size) + counted(custom, custom_size) + message)


def verify_record(strength, tag, key, custom, message, tag_size=None, key_size=None, custom_size=None):
    return record("V", bytes([strength]) + counted(tag, tag_size) + counted(key, key_size) + counted(custom, custom_size) + message)


def play(records):
    """The lines that the program writes for these records, and its exit status.

    The records come by a pipe, so that the program must put up with reads that give less than it asked.
    """
    with tempfile.TemporaryFile() as output:
        done = subprocess.run([str(PROGRAM)], input=bytes(records), stdout=output, timeout=SECONDS)
        output.seek(0)
        *lines, rest = output.read().decode("latin-1").split("\n")
    return lines + ([f"{rest} (no line end)"] if rest else []), done.returncode


class Session:
    """The program, asked a record at a time: a record can be made of the lines before it."""

    def __init__(self):
        self.program = subprocess.Popen([str(PROGRAM)], stdin=subprocess.PIPE, stdout=subprocess.PIPE)
        self.timer = threading.Timer(SECONDS, self.program.kill)
        self.timer.start()

    def ask(self, data):
        self.program.stdin.write(data)
        self.program.stdin.flush()
        return self.program.stdout.readline().decode("latin-1").removesuffix("\n")

    def bytes_of(self, data):
        """The bytes that the line of a done call gives."""
        status, _, out = self.ask(data).partition(" ")
        if status != "0":
            raise AssertionError(f"{data[:16]}.. of {len(data)} bytes answered {status}")
        return bytes.fromhex(out)

    def close(self):
        self.program.communicate()
        self.timer.cancel()
        if self.program.returncode != 0:
            raise AssertionError(f"the program ended with {self.program.returncode}")


def bytes_line(status, out, size):
    """The line of a squeeze: the buffer as a done call fills it, or as it was."""
    return f"{status} {(BEFORE * size if out is None else out).hex()}"


def numbers_line(phase, *numbers):
    """The phase is a byte, and so is a bit; every other number has 64 bits."""
    return f"{phase:02x} " + " ".join([f"{v:02x}" if isinstance(v, bool) else f"{v:016x}" for v in numbers])


def totals_of(one):
    """What a book and a run both have: phase, totals, permutations, and what a run that begins with a start has behind them."""
    return one.phase, *one.totals(), one.permutations, *one.after_count()


def dump_line(run):
    """Phase, totals, permutations, output length or bit, positions, lanes."""
    sponges = run.sponges()
    return numbers_line(*totals_of(run), *(s.position for s in sponges), *(lane for s in sponges for lane in s.lanes))


def difference(got, want):
    """Both lines from shortly before the place where they part."""
    same = next((i for i, (a, b) in enumerate(zip(got, want)) if a != b), min(len(got), len(want)))
    start = max(0, same - 20)
    return f"from character {start} on: got {got[start : start + 60]!r}, not {want[start : start + 60]!r}"


class Calls:
    """A list of records and, for each, what the line must be.

    `book` is the transcript of the run in hand, or None once a field was overwritten; `run` has the run's fields. A line is held
    to the book and to the run while both are there.
    """

    def __init__(self):
        self.records = bytearray()
        self.expected = []  # (number of the record, what it asks, the line); two of a record where book and run do not say the same
        self.lines = 0
        self.answers = Counter()  # of (op, status)
        self.answers_of = Counter()  # of (function of the run in hand, or of the hash in one go; op, status)
        self.wrong_counts = Counter()  # of the function: calls that were refused for the permutations of the run alone
        self.function = self.book = self.run = None
        self.answer = None  # the line of the last call
        self.state = None  # that of the dump after it; none once a field was overwritten

    @property
    def rate(self):
        return self.run.rate

    def add(self, what, data, *wanted):
        self.records += data
        self.expected += [(self.lines, what, line) for line in dict.fromkeys(wanted)]
        self.lines += 1

    def fresh(self, function):
        self.function, self.state = function, None
        self.book, self.run = transcript.book_of(function), model_run.run_of(function)
        self.add(f"N {function}", record("N", bytes([function])), "fresh")

    def call(self, what, data, *wanted, function=None):
        """Adds a call, whose line begins with its status. A dump follows, so that after every call all fields of the run are compared.

        `function` is that of a hash in one go, which need not be the run's.
        """
        self.add(what, data, *wanted)
        self.answer = wanted[-1]
        status = int(self.answer.split(" ", 1)[0])
        self.answers[what[0], status] += 1
        self.answers_of[self.function if function is None else function, what[0], status] += 1
        if status == NOT_REACHED and self.reached_but_for_the_count():
            self.wrong_counts[self.function] += 1
        self.dump()

    def reached_but_for_the_count(self):
        counted, self.run.permutations = self.run.permutations, self.run.permutations_due()
        reached, self.run.permutations = self.run.is_reached(), counted
        return reached

    def asked(self, name, *arguments):
        return [getattr(one, name)(*arguments) for one in (self.book, self.run) if one]

    def absorb(self, piece):
        self.call(f"A of {len(piece)} bytes", record("A", piece), *map(str, self.asked("absorb", piece)))

    def finalize(self, argument=None):
        what, payload = self.closing(argument)
        self.call(what, record("F", payload), *map(str, self.asked("finalize", argument)))

    def closing(self, argument):
        """With a domain byte, with KT's customization string, with the name of a day's station, or, in FIPS 202, with nothing."""
        if self.function in FIPS202:
            return "F", b""
        if self.function in TURBOSHAKE:
            return f"F {argument:02x}", bytes([argument])
        return f"F with C of {len(argument)} bytes", argument

    def customize(self, piece):
        self.call(f"C of {len(piece)} bytes", record("C", piece), *map(str, self.asked("customize", piece)))

    def finish(self):
        """The close that has no argument."""
        self.call("E", record("E"), *map(str, self.asked("finish")))

    def squeeze(self, size):
        lines = [bytes_line(*answer, size) for answer in self.asked("squeeze", size)]
        self.call(f"R of {size} bytes", record("R", n=size), *lines)

    def one_go(self, function, message, domain, size):
        """Of TurboSHAKE; or of FIPS 202, where the domain byte is None."""
        answer = one_go.sponge(SPONGE[function], message, domain, size)
        what, data = f"B {function}", fips_record(function, size, message)
        if function in TURBOSHAKE:
            what, data = f"T {function} {domain:02x}", one_go_record(function, domain, size, message)
        self.call(f"{what} of {len(message)} bytes, {size} asked", data, bytes_line(*answer, size), function=function)

    def permute(self, rounds, state, op="P"):
        """Or, where the op is I, undoes these rounds."""
        status, after = ON_STATE[op](rounds, state)
        self.call(f"{op} {rounds} of {state[:8].hex()}..", permutation_record(rounds, state, op), bytes_line(status, after, len(state)))

    def kt_one_go(self, function, message, custom, size):
        answer = one_go.kt(KT[function], message, custom, size)
        what = f"K {function} of {len(message)} bytes with C of {len(custom)}, {size} asked"
        self.call(what, kt_record(function, custom, size, message), bytes_line(*answer, size), function=function)

    def hopmac(self, strength, key, message, custom, size):
        answer = one_go.hopmac(strength, key, message, custom, size)
        what = f"H {strength} with a key of {len(key)} bytes, M of {len(message)} and C of {len(custom)}, {size} asked"
        self.call(what, hopmac_record(strength, key, custom, size, message), bytes_line(*answer, size))

    def verify(self, strength, key, message, custom, tag):
        status, said = one_go.verify(strength, key, message, custom, tag)
        what = f"V {strength} of a tag of {len(tag)} bytes with a key of {len(key)}, M of {len(message)} and C of {len(custom)}"
        self.call(what, verify_record(strength, tag, key, custom, message), f"{status} {'yes' if said else 'no'}")

    def set(self, field, value):
        """Overwrites a field of the run in hand; the book has nothing to say of it from here on."""
        self.book = self.state = None
        if field >= LEAF_LANES:
            self.run.leaf.lanes[field - LEAF_LANES] = value
        elif field >= LANES:
            self.run.node.lanes[field - LANES] = value
        elif field in NAMES:
            setattr(self.run, NAMES[field], value)
        else:
            self.run.sponges()[field - POSITION].position = value
        self.add(f"S {field} {value:x}", set_record(field, value), "set")

    def dump(self):
        if not self.run:  # one-go calls need no run
            return
        self.state = said = dump_line(self.run)
        if self.book:  # the positions and the lanes only the run has
            totals = numbers_line(*totals_of(self.book))
            said = totals + said[len(totals) :]
        self.add("D", record("D"), said, self.state)

    def rebuild(self, order):
        """A fresh run, every field of which is written as the run in hand has it, is that run: its book goes on."""
        book, run = self.book, self.run
        self.begin_again()
        fields = [(field, getattr(run, name)) for field, name in NAMES.items() if hasattr(run, name)]
        for sponge, position, lanes in zip(run.sponges(), (POSITION, LEAF_POSITION), (LANES, LEAF_LANES)):
            fields += [(position, sponge.position), *((lanes + i, v) for i, v in enumerate(sponge.lanes))]
        for field, value in order(fields):
            self.set(field, value)
        self.book = book

    def begin_again(self):
        self.fresh(self.function)

    def faults(self):
        """Runs the program, and says in a line each what is wrong, the first few."""
        got, status = play(self.records)
        found = [f"exit status {status}"] if status else []
        if len(got) != self.lines:
            found.append(f"{len(got)} lines for {self.lines} records")
        for number, what, want in self.expected:
            if len(found) == 3:
                break
            if number < len(got) and got[number] != want:
                found.append(f"record {number + 1}, {what}, {difference(got[number], want)}; {self.before(number)}")
        return found

    def before(self, number):
        """The records since the last fresh run, shortly."""
        whats = dict((n, what) for n, what, _ in self.expected[: 2 * number + 2])
        since = max((n for n in range(number) if whats[n][0] in "Nn"), default=0)
        return "after " + "; ".join([whats[since], *(whats[n] for n in range(max(since + 1, number - 8), number))])


class Held(unittest.TestCase):
    """A test whose lists are held to what the program answers."""

    def hold(self, calls):
        faults = calls.faults()
        if faults:
            self.fail(f"seed {SEED}: " + "\n".join(faults))

    def hold_lines(self, due):
        """Of records whose lines are told without a book: pairs of the two. Gives the lines."""
        got, status = play(b"".join(data for data, _ in due))
        self.assertEqual((status, len(got)), (0, len(due)), f"exit status and number of lines; the last one: {got[-1:]}")
        for number, ((data, want), line) in enumerate(zip(due, got)):
            if line != want:
                self.fail(f"record {number + 1}, {data[:16]}.. of {len(data)} bytes, {difference(line, want)}")
        return got
