"""Lists of calls for the program `replay` that also lend words to KT's second engine: replay.py's, with the ops of request Q-6.

Op `a` is a message piece on a KT run, `k` is KT in one go. Their payload begins with the number of words lent, two bytes, at most 300; all else is
as of `A` and `K`. The words hold A5 in every byte before the call. The line ends with what they hold after it: `zero`, `kept` or `other`.
Where no words are lent both of the first two are so, and the line says `kept`: the call was refused.
"""
import one_go
from replay import Calls, bytes_line, kt_record, record
from transcript import KT, LENT_WORDS, lending, lent_after

MOST_WORDS = 300  # that a record can lend
OTHERS = 0, 99, 101, 200, 300  # numbers of words that are refused


def lent_payload(words, payload):
    return words.to_bytes(2, "big") + payload


def lent_record(words, piece):
    return record("a", lent_payload(words, piece))


def kt_lent_record(words, *arguments, **sizes):
    """The arguments are those of the plain call's record, whose head has five bytes."""
    return record("k", lent_payload(words, kt_record(*arguments, **sizes)[5:]))


class LentCalls(Calls):
    def absorb_lent(self, piece, words=LENT_WORDS):
        statuses = [lending(words, one.absorb, piece) for one in (self.book, self.run) if one]
        lines = [f"{status} {lent_after(status)}" for status in statuses]
        self.call(f"a of {len(piece)} bytes, {words} words lent", lent_record(words, piece), *lines)

    def kt_one_go_lent(self, function, message, custom, size, words=LENT_WORDS):
        status, out = one_go.kt_lent(words, KT[function], message, custom, size)
        what = f"k {function} of {len(message)} bytes with C of {len(custom)}, {size} asked, {words} words lent"
        line = f"{bytes_line(status, out, size)} {lent_after(status)}"
        self.call(what, kt_lent_record(words, function, custom, size, message), line, function=function)
