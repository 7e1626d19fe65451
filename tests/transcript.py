"""What any list of calls must answer: document 01's book.

`Transcript`, `KtTranscript` and `DayTranscript` get the arguments of each call alone, and say its status and its bytes, and how many
permutations the definition takes for the bytes so far (request Q-10). `Transcript` is that of every function that is the sponge alone
(sponge_functions.py). started_transcript.py has the book that begins with a start, model_run.py has runs with their fields, one_go.py the
calls in one go. Written from documents 01 and 02 and the draft, never from the Rattle sources.

A KT run and a day have a customization phase (request Q-2): `customize` takes a piece of C, `finish` closes the run with the C so taken,
`finalize` closes a run in the message phase with a whole C. `lending` is for a call that lends words to KT's second engine (request Q-6).
"""
import reference
from counted_hash import CountedSponge, CountedTree
from sponge_functions import SPONGE, TURBOSHAKE

KT = {2: 168, 3: 136}  # the rates of functions 2 and 3: KT128 and KT256
DAY = {4: 168}  # that of 4: the journal, which is KT128's
RATES = {number: function.rate for number, function in SPONGE.items()} | KT | DAY
CHAINING = {168: 32, 136: 64}  # the chaining length of each strength, by its rate
NODES = {function.rate: function for function in TURBOSHAKE.values()}  # what the nodes of each strength are hashed by
ABSORBING, FINALIZED, CUSTOMIZING = 0, 1, 2  # the last is KT's and a day's
DONE, BAD_DOMAIN, TOO_LONG, WRONG_PHASE, CUSTOM_TOO_LONG, NOT_REACHED, TOO_MUCH, BAD_SIZE, EVENT_TOO_LONG = range(9)
LENT_WORDS = 100  # of 64 bits: the four states of KT's second engine
WRONG_LENT = 12  # the answer to any other number of them


def domain_status(function, domain):
    """Answer 1: the domain byte is 00 or 80 to FF. A function with a byte of its own after the message has no such answer."""
    return DONE if function.last is not None or 0x01 <= domain <= 0x7F else BAD_DOMAIN


class Limits:
    """The most bytes that a run takes and gives, and that a customization string and an event have. A test may lower them to reach them."""

    ABSORB_LIMIT = 17_179_869_183
    SQUEEZE_LIMIT = 4_294_967_295
    CUSTOM_LIMIT = 16_777_215
    EVENT_LIMIT = 65_535


def read_limit(function, limit=Limits.SQUEEZE_LIMIT):
    """The most bytes that are read of a run, or asked in one go: of SHA3 the digest's."""
    return limit if function.digest is None else function.digest


def custom_status(size, limit=Limits.CUSTOM_LIMIT):
    """Answer 4: the customization string is longer than its limit."""
    return CUSTOM_TOO_LONG if size > limit else DONE


def lent_status(words):
    """Answer 12: the lent slice has not the words of four states."""
    return DONE if words == LENT_WORDS else WRONG_LENT


def lending(words, call, *arguments):
    """What a call of a book, or of a run, answers where so many words are lent: 12 before all other numbers, 5 too, and else as the plain call."""
    return lent_status(words) or call(*arguments)


def lent_after(status):
    """What the lent words hold after a call: a done one leaves them zero, any other, which has changed nothing, as they were."""
    return "zero" if status == DONE else "kept"


class Transcript(Limits):
    """The book of one run: the bytes fed, the phase, the argument of the finalize, the number of bytes read."""

    def __init__(self, function):
        self.function = function
        self.fed = bytearray()
        self.phase = ABSORBING
        self.argument = None
        self.read = 0
        self.output = b""  # the first bytes of the published output, as many as were worked out
        self.counted = CountedSponge(function)

    def totals(self):
        return len(self.fed), self.read

    def after_count(self):
        """What the run has behind the permutations: none of these but the runs that begin with a start."""
        return ()

    def most_read(self):
        return read_limit(self.function, self.SQUEEZE_LIMIT)

    @property
    def permutations(self):
        """Counted while the joined bytes are hashed, never by a formula: the runs' answer 5 has that one, and is held to this.

        Only what came since it was last asked is hashed, else lists of calls would take too long.
        """
        if self.phase != FINALIZED:
            self.counted.absorb(self.joined())
        else:
            if not self.counted.output:
                self.close_counted()
            self.counted.read(self.read)
        return self.counted.permutations

    def joined(self):
        return self.fed

    def close_counted(self):
        self.counted.close(self.fed, self.function.byte_after(self.argument))

    def argument_status(self, domain):
        return domain_status(self.function, domain)

    def absorb(self, piece):
        if self.phase != ABSORBING:
            return WRONG_PHASE
        if len(self.fed) + len(piece) > self.ABSORB_LIMIT:
            return TOO_LONG
        self.fed += piece
        return DONE

    def finalize(self, argument=None):
        """TurboSHAKE's argument is the domain byte; FIPS 202's functions have none."""
        if self.phase != ABSORBING:
            return WRONG_PHASE
        status = self.argument_status(argument)
        if status == DONE:
            self.phase, self.argument = FINALIZED, argument
        return status

    def squeeze(self, size):
        """The status, and the bytes that a done squeeze gives."""
        if self.phase != FINALIZED:
            return WRONG_PHASE, None
        if self.read + size > self.most_read():
            return TOO_MUCH, None
        start, self.read = self.read, self.read + size
        return DONE, self.first(self.read)[start:]

    def first(self, size):
        """The first `size` bytes of the published output. More are kept than asked, so that many small squeezes stay cheap."""
        if len(self.output) < size:
            self.output = self.published(max(size, 2 * len(self.output), self.function.rate))
        return self.output[:size]

    def published(self, size):
        return self.function.output(self.fed, self.argument, size)


class KtTranscript(Transcript):
    """The book of a KT run: the argument of the finalize is the customization string C, which may also come before it in pieces."""

    def __init__(self, rate):
        super().__init__(NODES[rate])
        self.argument = bytearray()
        self.counted = CountedTree(self.function, CHAINING[rate])

    def totals(self):
        return *super().totals(), len(self.argument)

    def joined(self):
        return self.fed + self.argument

    def close_counted(self):
        self.counted.close(reference.merged(self.fed, self.argument))

    def argument_status(self, custom):
        return custom_status(len(custom), self.CUSTOM_LIMIT)

    def customize(self, piece):
        if self.phase == FINALIZED:
            return WRONG_PHASE
        if len(self.argument) + len(piece) > self.CUSTOM_LIMIT:
            return CUSTOM_TOO_LONG
        self.phase = CUSTOMIZING
        self.argument += piece
        return DONE

    def finish(self):
        if self.phase != CUSTOMIZING:
            return WRONG_PHASE
        self.phase = FINALIZED
        return DONE

    def published(self, size):
        rate = self.function.rate
        return reference.kangarootwelve(rate, CHAINING[rate], self.fed, self.argument, size)


class DayTranscript(KtTranscript):
    """The book of a day: events, each with its length, in place of pieces, and the station's name as customization string."""

    def absorb(self, event):
        if self.phase == ABSORBING and len(event) > self.EVENT_LIMIT:
            return EVENT_TOO_LONG
        return super().absorb(reference.with_length(event))


# the book of each function, and what it is made of
KINDS = {number: (Transcript, function) for number, function in SPONGE.items()}
KINDS |= {number: (KtTranscript, rate) for number, rate in KT.items()}
KINDS |= {number: (DayTranscript, rate) for number, rate in DAY.items()}


def book_of(number):
    book, made_of = KINDS[number]
    return book(made_of)
