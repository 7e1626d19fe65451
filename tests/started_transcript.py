"""The book of a run that begins with a start (request Q-14), and what a start and the close of plain KMAC answer.

It holds the strings and the output length too. Written from documents 01 and 02 and the standard, never from the Rattle sources.
"""
from sp800_185 import CSHAKE_BYTE, SHAKE_BYTE, STARTED
from transcript import BAD_SIZE, CUSTOM_TOO_LONG, DONE, TOO_LONG, TOO_MUCH, Limits, Transcript


def start_status(function, first_size, custom_size, limits=Limits):
    """2 for a key past the limit of a message, then 4 for N or S past that of a customization string."""
    if function.is_keyed and first_size > limits.ABSORB_LIMIT:
        return TOO_LONG
    strings = (custom_size,) if function.is_keyed else (first_size, custom_size)
    return CUSTOM_TOO_LONG if max(strings) > limits.CUSTOM_LIMIT else DONE


def length_status(function, length, limits=Limits):
    """What the close of plain KMAC answers by the output length: 7, then 6. The other closes have no argument."""
    if not function.has_length:
        return DONE
    if length == 0:
        return BAD_SIZE
    return TOO_MUCH if length > limits.SQUEEZE_LIMIT else DONE


class StartedTranscript(Transcript):
    """The book after a start answered 0. The argument of the close is plain KMAC's output length."""

    def __init__(self, function, first, custom):
        super().__init__(function)
        self.strings = bytes(first), bytes(custom)
        self.prefix = function.prefix(*self.strings)

    @property
    def is_shake(self):
        return self.function.has_bit and not any(self.strings)

    @property
    def output_length(self):
        """0 until the close has fixed it."""
        return self.argument or 0

    def after_count(self):
        function = self.function
        return (self.output_length,) if function.has_length else (self.is_shake,) if function.has_bit else ()

    def most_read(self):
        return self.output_length if self.function.has_length else super().most_read()

    def argument_status(self, length):
        return length_status(self.function, length, self)

    def joined(self):
        return self.prefix + self.fed

    def close_counted(self):
        self.counted.close(self.joined() + self.function.tail(self.output_length), SHAKE_BYTE if self.is_shake else CSHAKE_BYTE)

    def published(self, size):
        return self.function.output(*self.strings, self.fed, self.output_length, size)


def book_of(number, first, custom):
    return StartedTranscript(STARTED[number], first, custom)
