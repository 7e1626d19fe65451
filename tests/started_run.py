"""Runs that begin with a start (request Q-14), with their fields: what each call answers and does to them.

A run of cSHAKE has the bit that says SHAKE, one of plain KMAC the output length, which is 0 before the close; one of KMACXOF has neither.
Written from documents 01 and 02 and the standard, never from the Rattle sources.
"""
import permutation_formula
from model_run import Run, position_after
from sp800_185 import CSHAKE_BYTE, SHAKE_BYTE, STARTED
from started_transcript import length_status
from transcript import ABSORBING, FINALIZED


class StartedRun(Run):
    """One that a start answered 0 with these strings hands over."""

    def __init__(self, function, first, custom):
        super().__init__(function)
        if function.has_bit:
            self.is_shake = not first and not custom
        if function.has_length:
            self.output_length = 0
        self.node.absorb(function.prefix(first, custom))

    def after_count(self):
        function = self.function
        return (self.output_length,) if function.has_length else (self.is_shake,) if function.has_bit else ()

    def most_read(self):
        return self.output_length if self.function.has_length else super().most_read()

    def has_prefix(self):
        return not (self.function.has_bit and self.is_shake)

    def argument_status(self, length):
        return length_status(self.function, length, self)

    def tail(self):
        return self.function.tail(self.output_length if self.function.has_length else None)

    def positions_due(self):
        """Before the close that of the whole blocks of a prefix, one as well as many, and of the message."""
        if self.phase != ABSORBING:
            return (position_after(self.rate, self.squeezed),)
        return (position_after(self.rate, self.absorbed + (self.rate if self.has_prefix() else 0)),)

    def permutations_after(self, blocks):
        """The permutations of such a run, by the formula, where the prefix has so many blocks."""
        before = blocks * self.rate + self.absorbed
        if self.phase == ABSORBING:
            return permutation_formula.sponge_open(self.rate, before)
        return permutation_formula.sponge_closed(self.rate, before + len(self.tail()), self.squeezed)

    def blocks_due(self):
        """How many blocks the prefix can have."""
        return self.function.blocks if self.has_prefix() else range(1)

    def permutations_due(self):
        """The least."""
        return self.permutations_after(self.blocks_due()[0])

    def counts_due(self):
        """A block more of the prefix is a permutation more."""
        return range(self.permutations_due(), self.permutations_after(self.blocks_due()[-1]) + 1)

    def length_is_reached(self):
        """Whether the output length is one of this phase."""
        if not self.function.has_length:
            return True
        return 0 < self.output_length <= self.SQUEEZE_LIMIT if self.phase == FINALIZED else self.output_length == 0

    def is_reached(self):
        return self.length_is_reached() and super().is_reached()

    def close(self, length):
        if self.function.has_length:
            self.output_length = length
        self.node.absorb(self.tail())
        self.node.pad(CSHAKE_BYTE if self.has_prefix() else SHAKE_BYTE)


def run_of(number, first, custom):
    return StartedRun(STARTED[number], first, custom)
