"""Random lists of calls on KT runs, and what the tests of such runs share. The days' lists are these with events in place of pieces."""
import random

import reference
from replay import ABSORBED, CUSTOMIZED, LANES, LEAF_LANES, LEAF_POSITION, MOST, PERMUTATIONS, PHASE, POSITION, SEED, SQUEEZED, Calls
from sponge_functions import SPONGE, TURBOSHAKE
from sponge_lists import write_count
from transcript import ABSORBING, CUSTOMIZING, FINALIZED, KT, Limits

CHUNK = reference.CHUNK
LIMIT = Limits.ABSORB_LIMIT
SQUEEZE_LIMIT = Limits.SQUEEZE_LIMIT
CUSTOM_LIMIT = Limits.CUSTOM_LIMIT
BIG = (1 << 64) - 1
# A message is the beginning of one of these, a C that of CUSTOM: the states after its blocks are then worked out once, and kept.
STREAMS = [random.Random(SEED + i).randbytes(210_000) for i in range(3)]
CUSTOM = random.Random(SEED + 3).randbytes(MOST)


def near(total, unit):
    """A choice of lengths after which `total` is at, one before or one past a multiple of `unit`."""
    return [max(0, -total % unit + more) for more in (-1, 0, 1)]


def length(source, rate, total):
    """A length for a piece: none, some, or one that ends at the edge of a block of the chunk in hand, or of the chunk."""
    kind = source.randrange(100)
    if kind < 8:
        return 0
    if kind < 30:
        return source.randrange(1, 4)
    if kind < 50:
        return source.randrange(1, 601)
    if kind < 65:
        return source.choice(near(total % CHUNK, rate))
    if kind < 95:
        return source.choice(near(total, CHUNK)) + CHUNK * (source.randrange(6) == 0)
    return source.randrange(1000, 10_000)


def event_of(size):
    """The length of the longest event that adds at most so many bytes to a day; 0 where not even an empty one does."""
    return max([0, *(n for n in range(size - 3, size) if n + len(reference.length_encode(n)) <= size)])


def custom(source, total):
    """A whole customization string: of a length of document 01, some, one with which S ends around a chunk's end, or a long one."""
    kind = source.randrange(100)
    if kind < 55:
        return CUSTOM[: source.choice((0, 0, 1, 255, 256))]
    if kind < 70:
        return CUSTOM[: source.randrange(5000)]
    if kind < 98:
        return CUSTOM[: max(0, -total % CHUNK - source.randrange(-1, 6))]
    return CUSTOM[: source.choice((65_535, 65_536))]


def asked(source, rate, total):
    return source.choice((0, 1, 32, source.randrange(600), *near(total, rate)))


def total(source, rate, limit):
    """A number of bytes: around a chunk's or a block's end, around the limit, seldom one past it."""
    chunk = CHUNK * source.choice((1, 2, 3, source.randrange(1, limit // CHUNK)))
    block = rate * source.randrange(1, 5)
    some = source.choice((0, 1, source.randrange(700)))
    inside = (0, some, chunk - 1, chunk, chunk + 1, chunk + some, block, chunk + block, limit, limit - some)
    return source.choice((*inside, limit + 1 + some, BIG - some))


def custom_total(source, rate, absorbed):
    """A number of customization bytes: one of those, one below the limit, or one with which S so far ends around a chunk's or a block's end."""
    kind = source.randrange(5)
    if kind < 2:
        return total(source, rate, CUSTOM_LIMIT)
    if kind == 2:
        return CUSTOM_LIMIT - source.randrange(700)
    some = source.choice((0, source.randrange(CUSTOM_LIMIT - 2 * CHUNK)))
    return some + source.choice(near(absorbed + some, source.choice((rate, CHUNK))))


def fit(calls):
    """Writes the positions and the permutations that go with the phase and the totals."""
    for field, position in zip((POSITION, LEAF_POSITION), calls.run.positions_due()):
        calls.set(field, position)
    calls.set(PERMUTATIONS, calls.run.permutations_due())


def overwrite(source, calls):
    """Writes the fields, often so that answer 5 lets them pass, and some lanes of both sponges."""
    rate, run = calls.rate, calls.run
    calls.set(PHASE, source.choice((*4 * (ABSORBING, FINALIZED, CUSTOMIZING), 3, source.randrange(256))))
    calls.set(ABSORBED, total(source, rate, LIMIT))
    calls.set(SQUEEZED, 0 if run.phase != FINALIZED and source.randrange(8) else total(source, rate, SQUEEZE_LIMIT))
    calls.set(CUSTOMIZED, 0 if run.phase == ABSORBING and source.randrange(8) else custom_total(source, rate, run.absorbed))
    for field, right in zip((POSITION, LEAF_POSITION), run.positions_due()):
        wrong = (right + 1, abs(right - 1), 0, rate, rate + 1, 200, BIG, source.getrandbits(64))
        calls.set(field, right if source.randrange(12) else source.choice(wrong))
    write_count(source, calls, 12)
    for lanes in (LANES, LEAF_LANES):
        for lane in source.sample(range(25), source.choice((0, 1, 25))):
            calls.set(lanes + lane, source.getrandbits(64))


class KtLists:
    """Lists from a fixed seed, one after another in `calls`."""

    FUNCTIONS = 2, 3
    LONGEST = 45_000  # of the messages: six chunks
    LONGEST_CUSTOM = 30_000  # of the customization strings that come in pieces
    KINDS = {"reached_list": 20, "overwritten_list": 30, "steps_list": 3, "other_list": 2, "one_go": 10}  # how often each comes

    def __init__(self):
        self.source, self.calls = random.Random(SEED), Calls()

    def made(self, count):
        """The lists with `count` calls or somewhat more."""
        while self.calls.answers.total() < count:
            getattr(self, self.source.choices(list(self.KINDS), self.KINDS.values())[0])()
        return self.calls

    def fresh(self):
        self.calls.fresh(self.source.choice(self.FUNCTIONS))

    def filling(self, size):
        """The length of a piece that adds so many bytes to the total."""
        return size

    def piece(self, stream):
        """The next bytes of the stream."""
        at = self.calls.run.absorbed
        return stream[at : at + min(self.filling(length(self.source, self.calls.rate, at)), self.LONGEST - at)]

    def one_go(self):
        """In one go by KT; seldom by TurboSHAKE, which must leave no trace."""
        source, function = self.source, self.source.choice(list(KT))
        rate = KT[function]
        if source.randrange(12) == 0:
            self.calls.one_go(function - 2, STREAMS[0][: source.randrange(300)], 0x1F, 40)
        message = STREAMS[source.randrange(3)][: source.choice((0, 1, CHUNK, 2 * CHUNK)) + length(source, rate, 0)]
        self.calls.kt_one_go(function, message, custom(source, len(message)), 0 if source.randrange(6) == 0 else asked(source, rate, 0))

    def small(self, data):
        """The first bytes, few or none, for a call that is to be refused."""
        return data[: self.source.choice((0, 1, 32, self.source.randrange(400)))]

    def absorbing(self, stream):
        """One call, seldom one that the phase refuses."""
        kind = self.source.randrange(100)
        if kind < 86:
            self.calls.absorb(self.piece(stream))
        elif kind < 92:
            self.calls.squeeze(len(self.small(stream)))
        elif kind < 96:
            self.calls.finish()
        else:
            self.one_go()

    def customizing(self, stream):
        """A customization piece, often one that ends at the edge of a block or of a chunk of S; seldom a call that the phase refuses."""
        source, calls = self.source, self.calls
        at = calls.run.customized
        kind = source.randrange(100)
        if kind < 70:
            size = length(source, calls.rate, calls.run.absorbed + at)
            calls.customize(CUSTOM[at : at + min(size, self.LONGEST_CUSTOM - at)])
        elif kind < 80:
            calls.absorb(self.small(stream))
        elif kind < 90:
            calls.finalize(self.small(CUSTOM))
        elif kind < 97:
            calls.squeeze(len(self.small(stream)))
        else:
            self.one_go()

    def squeezing(self, stream):
        source, calls = self.source, self.calls
        kind = source.randrange(100)
        if kind < 76:
            calls.squeeze(asked(source, calls.rate, calls.run.squeezed))
        elif kind < 82:
            calls.absorb(self.small(stream))
        elif kind < 87:
            calls.finalize(self.small(CUSTOM))
        elif kind < 92:
            calls.customize(self.small(CUSTOM))
        elif kind < 97:
            calls.finish()
        else:
            self.one_go()

    def many(self, step, stream, counts):
        """Some calls, and seldom a fresh run that is given the fields of the one in hand."""
        for _ in range(self.source.choice(counts)):
            step(stream)
            if self.source.randrange(60) == 0:
                self.calls.rebuild(lambda fields: self.source.sample(fields, len(fields)))
                self.calls.dump()

    def closed(self, stream):
        """Closes the run: with a whole C or, after a phase of pieces, the first of which is often empty, by the new close."""
        source, calls = self.source, self.calls
        if source.randrange(2):
            return calls.finalize(custom(source, calls.run.absorbed))
        first = custom(source, calls.run.absorbed) if source.randrange(2) else b""
        calls.customize(first[: self.LONGEST_CUSTOM])
        self.many(self.customizing, stream, (0, 1, 2, 4, 8))
        calls.finish()

    def reached_list(self):
        """A list from a fresh run, never overwritten."""
        stream = self.source.choice(STREAMS)
        self.fresh()
        self.calls.dump()
        self.many(self.absorbing, stream, (0, 1, 2, 5, 10, 20))
        if self.source.randrange(20):
            self.closed(stream)
            self.many(self.squeezing, stream, (0, 2, 4, 8))

    def steps_list(self):
        """Byte by byte over the end of a chunk; the last bytes are the message's or, after some, C's."""
        source, calls = self.source, self.calls
        stream = source.choice(STREAMS)
        self.fresh()
        start = source.choice((1, 2, 3)) * CHUNK - 3
        calls.absorb(stream[: self.filling(start)])
        for at in range(start, start + source.randrange(2, 7)):
            calls.absorb(stream[at : at + self.filling(1)])
        if source.randrange(2):
            calls.finalize(CUSTOM[: source.randrange(4)])
        else:
            for at in range(source.randrange(1, 7)):
                calls.customize(CUSTOM[at : at + source.choice((0, 1, 1))])
            calls.finish()
        calls.squeeze(32)

    def other_list(self):
        """A short list of the other functions: the fields of a run are those of its function."""
        calls, number = self.calls, self.source.choice(list(SPONGE))
        calls.fresh(number)
        calls.absorb(STREAMS[0][: self.source.randrange(400)])
        calls.finalize(0x1F if number in TURBOSHAKE else None)
        calls.squeeze(28)

    def overwritten_call(self):
        """A call on such a run: one of its phase that just reaches the limit or passes it, or any other."""
        source, calls, run = self.source, self.calls, self.calls.run
        if run.phase == ABSORBING:
            kind, left, size = "absorb", LIMIT - run.absorbed, length(source, calls.rate, run.absorbed)
        elif run.phase == CUSTOMIZING:
            kind, left, size = "customize", CUSTOM_LIMIT - run.customized, length(source, calls.rate, run.absorbed + run.customized)
        else:
            kind, left, size = "squeeze", SQUEEZE_LIMIT - run.squeezed, asked(source, calls.rate, run.squeezed)
        if 0 <= left < 1000 and source.randrange(3):
            size = left + source.choice((0, 0, 1, 1, 2, 600))
        else:
            kind = source.choice(("finalize", "finish", *4 * ("absorb", "customize", "squeeze")))
        if kind == "absorb":
            calls.absorb(STREAMS[0][: self.filling(size)])
        elif kind == "customize":
            calls.customize(CUSTOM[:size])
        elif kind == "squeeze":
            calls.squeeze(size)
        elif kind == "finalize":
            calls.finalize(custom(source, run.absorbed))
        else:
            calls.finish()

    def overwritten_list(self):
        source, calls = self.source, self.calls
        self.fresh()
        if source.randrange(3) == 0:
            calls.absorb(STREAMS[0][: length(source, calls.rate, 0)])
        if source.randrange(3) == 0:
            self.closed(STREAMS[0])
        for _ in range(source.randrange(1, 4)):
            overwrite(source, calls)
            for _ in range(source.randrange(2, 6)):
                self.overwritten_call()
