"""Lists of calls for the program `replay` that also have runs which begin with a start: replay.py's, with the ops of request Q-14."""
import one_go
import started_run
import started_transcript
from replay import SHAKE_BIT, Calls, bytes_line, counted, record
from sp800_185 import KMAC, STARTED


def start_record(function, first, custom, first_size=None, custom_size=None):
    return record("n", bytes([function]) + counted(first, first_size) + counted(custom, custom_size))


def started_record(function, first, custom, size, message, first_size=None, custom_size=None):
    """Of a call in one go."""
    return record("M", bytes([function]) + counted(b"", size) + counted(first, first_size) + counted(custom, custom_size) + message)


def length_record(length):
    """The close of plain KMAC."""
    return record("F", length.to_bytes(8, "big"))


class StartedCalls(Calls):
    def start(self, number, first, custom):
        """Of records whose strings are as short as theirs no start is refused."""
        status = started_transcript.start_status(STARTED[number], len(first), len(custom))
        self.function, self.strings = number, (first, custom)
        self.book, self.run = started_transcript.book_of(number, first, custom), started_run.run_of(number, first, custom)
        self.call(f"n {number} with {len(first)} bytes and S of {len(custom)}", start_record(number, first, custom), str(status))

    def begin_again(self):
        """Any start does: every field is then written."""
        if self.function not in STARTED:
            return super().begin_again()
        self.start(self.function, *self.strings[::-1])

    def closing(self, argument):
        if self.function not in STARTED:
            return super().closing(argument)
        if self.function in KMAC:
            return f"F {argument}", argument.to_bytes(8, "big")
        return "F", b""

    def set(self, field, value):
        super().set(field, bool(value) if field == SHAKE_BIT else value)

    def started_one_go(self, number, first, custom, message, size):
        answer = one_go.started(STARTED[number], first, custom, message, size)
        what = f"M {number} of {len(message)} bytes with {len(first)} bytes and S of {len(custom)}, {size} asked"
        self.call(what, started_record(number, first, custom, size, message), bytes_line(*answer, size), function=number)
