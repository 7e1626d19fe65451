"""Random lists of calls on KT runs in which message pieces are fed plainly and with words lent (request Q-6), at will: kt_lists.py's lists."""
import random

from kt_lists import CHUNK, LIMIT, STREAMS, KtLists, near
from lent_calls import OTHERS, LentCalls
from replay import SEED
from transcript import LENT_WORDS


class MixedCalls(LentCalls):
    """Each message piece and each KT call in one go takes one of the two engines, seldom with a slice that is refused."""

    def __init__(self, source):
        super().__init__()
        self.source = source

    def words(self):
        """None for the plain call."""
        kind = self.source.randrange(10)
        return None if kind < 4 else LENT_WORDS if kind < 8 else self.source.choice((*OTHERS, self.source.randrange(301)))

    def absorb(self, piece):
        words = self.words()
        return super().absorb(piece) if words is None else self.absorb_lent(piece, words)

    def kt_one_go(self, function, message, custom, size):
        words = self.words()
        if words is None:
            return super().kt_one_go(function, message, custom, size)
        self.kt_one_go_lent(function, message, custom, size, words)


def long_length(source, total):
    """A length of four chunks or more, often one that ends at, one before or one past a chunk's end."""
    whole = CHUNK * source.choice((4, 4, 4, 5, 6, 8, 12))
    return whole + source.choice((*2 * near(total, CHUNK), 0, 1, source.randrange(CHUNK)))


class LentLists(KtLists):
    LONGEST = len(STREAMS[0])  # 25 chunks
    KINDS = KtLists.KINDS | {"reached_list": 30, "overwritten_list": 24, "other_list": 0}

    def __init__(self):
        super().__init__()
        self.source = random.Random(SEED + 6)
        self.calls = MixedCalls(self.source)

    def piece(self, stream):
        """The next bytes of the stream, in every fourth piece through at least four chunks."""
        if self.source.randrange(4):
            return super().piece(stream)
        at = self.calls.run.absorbed
        return stream[at : at + long_length(self.source, at)]

    def one_go(self):
        if self.source.randrange(3):
            return super().one_go()
        message = self.source.choice(STREAMS)[: long_length(self.source, 0) + self.source.choice((0, CHUNK))]
        self.calls.kt_one_go(self.source.choice(self.FUNCTIONS), message, b"", self.source.choice((0, 32, 40)))

    def overwritten_call(self):
        """Seldom a long piece; where the limit is near, often one that just reaches it, or passes it."""
        source, run = self.source, self.calls.run
        if source.randrange(4):
            return super().overwritten_call()
        left, size = LIMIT - run.absorbed, long_length(source, run.absorbed)
        if 0 <= left < len(STREAMS[0]):
            size = source.choice((left, left + 1, size))
        self.calls.absorb(STREAMS[0][:size])
