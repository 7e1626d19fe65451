"""Runs with their fields: what each call answers and does to them.

`Run`, `KtRun` and `DayRun` also answer for a run whose fields were overwritten, of which the book (transcript.py) says nothing. `Run` is that
of every function that is the sponge alone (sponge_functions.py); started_run.py has the run that begins with a start. Written from documents
01 and 02 and the draft, never from the Rattle sources.
"""
import permutation_formula
import reference
from sponge_functions import SPONGE
from transcript import ABSORBING, CHAINING, CUSTOMIZING, DAY, DONE, EVENT_TOO_LONG, FINALIZED, KT, NODES, NOT_REACHED, TOO_LONG, TOO_MUCH
from transcript import WRONG_PHASE, Limits, custom_status, domain_status, read_limit

SINGLE_NODE, INTERMEDIATE_NODE, FINAL_NODE = 0x07, 0x0B, 0x06
FIRST_CHUNK_END = b"\x03" + bytes(7)
FINAL_NODE_END = b"\xff\xff"


def position_after(rate, total):
    """A full block is permuted only when its next byte comes, or is asked: so the position after n > 0 bytes is 1 to the rate."""
    return (total - 1) % rate + 1 if total else 0


class Count:
    """The permutations of a run, which all its sponges add to."""

    permutations = 0


class Sponge:
    """25 lanes and a position."""

    def __init__(self, rate, rounds, count):
        self.rate = rate
        self.rounds = rounds
        self.count = count
        self.position = 0
        self.lanes = [0] * 25

    def permute(self):
        self.lanes = self.permuted_lanes()
        self.position = 0
        self.count.permutations += 1

    def permuted_lanes(self):
        return list(reference.permuted(tuple(self.lanes), self.rounds))

    def mix(self, start, part):
        """XORs bytes into the state from byte `start` on."""
        block = reference.state_of((bytes(start) + part).ljust(200, b"\0"))
        self.lanes = [v ^ w for v, w in zip(self.lanes, block)]

    def absorb(self, data):
        taken = 0
        while taken < len(data):
            if self.position == self.rate:
                self.permute()
            part = data[taken : taken + self.rate - self.position]
            self.mix(self.position, part)
            self.position += len(part)
            taken += len(part)

    def pad(self, last):
        if self.position == self.rate:
            self.permute()
        self.mix(self.position, bytes([last]))
        self.mix(self.rate - 1, b"\x80")
        self.permute()

    def squeeze(self, size):
        out = b""
        while len(out) < size:
            if self.position == self.rate:
                self.permute()
            part = reference.bytes_of(self.lanes)[self.position : self.rate][: size - len(out)]
            self.position += len(part)
            out += part
        return out


class Run(Limits):
    """The fields of a run, and what each call does to them."""

    SPONGE = Sponge
    PHASES = ABSORBING, FINALIZED

    def __init__(self, function):
        self.function = function
        self.rate = function.rate
        self.phase = ABSORBING
        self.absorbed = 0
        self.squeezed = 0
        self.count = Count()
        self.node = self.fresh_sponge()  # the final node of a KT run; the only sponge of another

    def fresh_sponge(self):
        return self.SPONGE(self.rate, self.function.rounds, self.count)

    @property
    def permutations(self):
        return self.count.permutations

    @permutations.setter
    def permutations(self, number):
        self.count.permutations = number

    def totals(self):
        return self.absorbed, self.squeezed

    def after_count(self):
        """What a dump has behind the permutations."""
        return ()

    def sponges(self):
        return (self.node,)

    def most_read(self):
        return read_limit(self.function, self.SQUEEZE_LIMIT)

    def argument_status(self, domain):
        return domain_status(self.function, domain)

    def positions_due(self):
        """The position of each sponge of a run that has this phase and these totals."""
        return (position_after(self.rate, self.absorbed if self.phase == ABSORBING else self.squeezed),)

    def permutations_due(self):
        """The permutations of such a run: by the formula, so that what was counted is held to it."""
        if self.phase == ABSORBING:
            return permutation_formula.sponge_open(self.rate, self.absorbed)
        return permutation_formula.sponge_closed(self.rate, self.absorbed, self.squeezed)

    def counts_due(self):
        """Every number of permutations that goes with the phase and the totals: one, for a run that was fresh."""
        due = self.permutations_due()
        return range(due, due + 1)

    def is_reached(self):
        """Whether calls from a fresh run reach this phase, these totals, positions and permutations together. The lanes are not looked at."""
        if self.absorbed > self.ABSORB_LIMIT or self.squeezed > self.most_read():
            return False
        if self.phase not in self.PHASES or (self.phase != FINALIZED and self.squeezed):
            return False
        if self.permutations not in self.counts_due():
            return False
        return tuple(sponge.position for sponge in self.sponges()) == self.positions_due()

    def refusal(self, *phases):
        """The answers that come before all others, for a call that belongs to these phases; 0 where neither is due."""
        if not self.is_reached():
            return NOT_REACHED
        return DONE if self.phase in phases else WRONG_PHASE

    def absorb(self, piece):
        status = self.refusal(ABSORBING)
        if status == DONE and self.absorbed + len(piece) > self.ABSORB_LIMIT:
            status = TOO_LONG
        if status == DONE:
            self.take(piece)
            self.absorbed += len(piece)
        return status

    def finalize(self, argument=None):
        status = self.refusal(ABSORBING) or self.argument_status(argument)
        if status == DONE:
            self.close(argument)
            self.phase = FINALIZED
        return status

    def squeeze(self, size):
        """The status, and the bytes that a done squeeze gives."""
        status = self.refusal(FINALIZED)
        if status == DONE and self.squeezed + size > self.most_read():
            status = TOO_MUCH
        if status != DONE:
            return status, None
        self.squeezed += size
        return DONE, self.node.squeeze(size)

    def take(self, piece):
        self.node.absorb(piece)

    def close(self, domain):
        self.node.pad(self.function.byte_after(domain))


class KtRun(Run):
    """The fields of a KT run: a third total, the customization bytes, and a second sponge for the leaf in hand."""

    CHUNK = reference.CHUNK
    PHASES = ABSORBING, FINALIZED, CUSTOMIZING

    def __init__(self, rate):
        super().__init__(NODES[rate])
        self.customized = 0  # in the message phase; the length of C once the run is closed, by either close
        self.leaf = self.fresh_sponge()
        self.chaining = CHAINING[rate]

    def totals(self):
        return *super().totals(), self.customized

    def sponges(self):
        return self.node, self.leaf

    def argument_status(self, custom):
        return custom_status(len(custom), self.CUSTOM_LIMIT)

    def merged(self):
        """The number of bytes of S so far; once the run is closed, of the whole."""
        if self.phase == ABSORBING:
            return self.absorbed
        return self.absorbed + self.customized + (0 if self.phase == CUSTOMIZING else len(reference.length_encode(self.customized)))

    def positions_due(self):
        if self.phase not in (ABSORBING, CUSTOMIZING):
            return position_after(self.rate, self.squeezed), 0
        merged = self.merged()
        if merged <= self.CHUNK:
            return position_after(self.rate, merged), 0
        closed = (merged - 1) // self.CHUNK  # the chunk in hand is closed only when the next one's first byte comes
        node = self.CHUNK + len(FIRST_CHUNK_END) + (closed - 1) * self.chaining
        return position_after(self.rate, node), position_after(self.rate, merged - closed * self.CHUNK)

    def permutations_due(self):
        if self.phase in (ABSORBING, CUSTOMIZING):
            return permutation_formula.kt_open(self.rate, self.chaining, self.merged(), self.CHUNK)
        return permutation_formula.kt_closed(self.rate, self.chaining, self.merged(), self.squeezed, self.CHUNK)

    def is_reached(self):
        if self.customized > self.CUSTOM_LIMIT or (self.phase == ABSORBING and self.customized):
            return False
        return super().is_reached()

    def customize(self, piece):
        status = self.refusal(ABSORBING, CUSTOMIZING) or custom_status(self.customized + len(piece), self.CUSTOM_LIMIT)
        if status == DONE:
            self.phase = CUSTOMIZING
            self.take_custom(piece)
        return status

    def finish(self):
        status = self.refusal(CUSTOMIZING)
        if status == DONE:
            self.end()
            self.phase = FINALIZED
        return status

    def take(self, piece):
        self.feed(self.absorbed, piece)

    def take_custom(self, piece):
        self.feed(self.absorbed + self.customized, piece)
        self.customized += len(piece)

    def feed(self, start, data):
        """Takes the bytes of S from byte `start` on."""
        taken = 0
        while taken < len(data):
            at = start + taken
            if at and at % self.CHUNK == 0:
                self.close_chunk(at // self.CHUNK - 1)
            part = data[taken : taken + self.CHUNK - at % self.CHUNK]
            (self.node if at < self.CHUNK else self.leaf).absorb(part)
            taken += len(part)

    def close_chunk(self, number):
        """The leaf is fresh after each chunk's end, chunk 0's too, which looks at nothing of it."""
        if number == 0:
            self.node.absorb(FIRST_CHUNK_END)
        else:
            self.leaf.pad(INTERMEDIATE_NODE)
            self.node.absorb(self.leaf.squeeze(self.chaining))
        self.leaf = self.fresh_sponge()

    def close(self, custom):
        self.take_custom(custom)
        self.end()

    def end(self):
        """What follows C. The leaf is fresh afterwards, so that in a finalized run its position says nothing."""
        start, rest = self.absorbed + self.customized, reference.length_encode(self.customized)
        self.feed(start, rest)
        last = (start + len(rest) - 1) // self.CHUNK
        if last == 0:
            self.node.pad(SINGLE_NODE)
        else:
            self.close_chunk(last)
            self.node.absorb(reference.length_encode(last) + FINAL_NODE_END)
            self.node.pad(FINAL_NODE)
        self.leaf = self.fresh_sponge()


class DayRun(KtRun):
    """The fields of a day are those of a KT run. An event is taken with its length or not at all."""

    def absorb(self, event):
        status = self.refusal(ABSORBING)
        if status == DONE and len(event) > self.EVENT_LIMIT:
            status = EVENT_TOO_LONG
        return status or super().absorb(reference.with_length(event))


# the run of each function, and what it is made of
KINDS = {number: (Run, function) for number, function in SPONGE.items()}
KINDS |= {number: (KtRun, rate) for number, rate in KT.items()}
KINDS |= {number: (DayRun, rate) for number, rate in DAY.items()}


def run_of(number):
    run, made_of = KINDS[number]
    return run(made_of)
