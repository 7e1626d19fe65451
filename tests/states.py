"""The states that the tests of Keccak-p and of its inverse share, and the tests of the program `replay` that are the same for both."""
import random

import reference
from replay import SEED, Calls, permutation_record, play

ALL = 24
MORE = 25, 26, 31, 32, 48, 64, 127, 128, 255
SOURCE = random.Random(SEED)
STATES = [bytes(200), b"\xff" * 200, reference.ptn(200), *(SOURCE.randbytes(200) for _ in range(20))]
SINGLE_BITS = [bytes(at) + bytes([1 << at % 8]) + bytes(199 - at) for at in range(200)]


def begun(rounds, state):
    """What the second program makes of a state by the rounds that are not among the last so many."""
    return reference.bytes_of(reference.rounds_of(reference.state_of(state), reference.CONSTANTS[: ALL - rounds]))


def after(op, rounds, *states):
    """What the program makes of these states."""
    lines, _ = play(b"".join(permutation_record(rounds, state, op) for state in states))
    return [bytes.fromhex(line.removeprefix("0 ")) for line in lines]


class OnStates:
    """The tests that both ops have."""

    OP = None

    def test_every_number(self):
        calls = Calls()
        for rounds in range(ALL + 1):
            for state in STATES:
                calls.permute(rounds, state, self.OP)
        self.assertEqual(calls.answers, {(self.OP, 0): 25 * len(STATES)})
        self.hold(calls)

    def test_too_many(self):
        """They answer 16, whatever the state, and its bytes come back as they were."""
        calls = Calls()
        for rounds in range(ALL + 1, 256):
            for state in STATES[:5] if rounds in MORE else STATES[-1:]:
                calls.permute(rounds, state, self.OP)
        self.assertEqual(set(calls.answers), {(self.OP, 16)})
        self.hold(calls)

    def test_each_byte(self):
        """Each byte of the state goes to its place: after no round it is there, and after one it has gone where it should."""
        calls = Calls()
        for state in SINGLE_BITS:
            for rounds in (0, 1, 12):
                calls.permute(rounds, state, self.OP)
        self.hold(calls)

    def test_runs_are_left_alone(self):
        """A run in hand is as it was, whether the call is done or refused; and the call needs none."""
        calls = Calls()
        calls.permute(ALL, STATES[3], self.OP)
        for number in (0, 2, 4, 5, 8, 9):
            calls.fresh(number)
            calls.absorb(reference.ptn(500))
            for rounds in (0, 12, 24, 25, 255):
                calls.permute(rounds, STATES[4], self.OP)
            calls.finalize({0: 0x1F, 2: b"abc", 4: b"abc"}.get(number))
            for rounds in (0, 12, 24, 25, 255):
                calls.permute(rounds, STATES[4], self.OP)
                calls.squeeze(5)
        self.hold(calls)
