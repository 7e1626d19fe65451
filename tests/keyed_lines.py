"""What the program `keyed` must write: the functions of SP 800-185 in one go and in pieces, by the book and the second program.

    FUNCTION FIRST S X ASKED one STATUS BYTES cut STATUS BYTES more STATUS BYTE

with one space between, lengths and statuses in decimal, bytes in lower-case hex. FIRST is the length of N or of the key. `one` is the call in one
go; `cut` a run, closed for as many bytes as are asked in plain KMAC; `more` a read of one byte after it. The buffers hold A5 before the calls.

First NIST's sample values, whose bytes are those that NIST prints. Then for each function lengths on both sides of an edge, of strings that are
parts of ptn. Last for plain KMAC what a close answers to an output length, and a read of 32 bytes after it:

    FUNCTION close LENGTH STATUS STATUS BYTES
"""
import nist
import one_go
from reference import ptn
from sp800_185 import KMAC, STARTED
from started_transcript import book_of
from transcript import DONE

BEFORE = b"\xa5"
FIRST, CUSTOM = 64, 128  # where in ptn N or the key begins, and S; a message begins at 0
# 32 and 8,192 bytes are the first whose bits have two and three bytes; 256 is the first length that has two bytes itself
LENGTHS = 0, 1, 31, 32, 33, 255, 256, 257, 8191, 8192, 8193
# output lengths whose bits have one to five bytes, on both sides; the least and the most
CLOSES = 0, 1, 31, 32, 2**13 - 1, 2**13, 2**21 - 1, 2**21, 2**29 - 1, 2**29, 2**32 - 1, 2**32


def part(start, size):
    return ptn(start + size)[start:]


def answer(status, given, size):
    return f"{status} {(BEFORE * size if given is None else given).hex()}"


def closed(number, first, custom, message, length):
    """The book after the close, and what that answered."""
    book = book_of(number, first, custom)
    book.absorb(message)
    return book, book.finalize(length if number in KMAC else None)


def line(number, first, custom, message, asked):
    one = one_go.started(STARTED[number], first, custom, message, asked)
    book, status = closed(number, first, custom, message, asked)
    cut = book.squeeze(asked) if status == DONE else (status, None)
    lengths = " ".join(str(n) for n in (len(first), len(custom), len(message), asked))
    return f"{STARTED[number].name} {lengths} one {answer(*one, asked)} cut {answer(*cut, asked)} more {answer(*book.squeeze(1), 1)}"


def sample_line(sample):
    """The second program's bytes must be NIST's."""
    written = line(sample.function, sample.first, sample.custom, sample.message, len(sample.value))
    if written.count(f" 0 {sample.value.hex()} ") != 2:
        raise ValueError(f"not NIST's value: {written}")
    return written


def edges_of(rate):
    """The lengths of N or the key, of S, of the message and of the output.

    A bytepad ends with its block at a key of rate - 5 bytes, at S of rate - 11 bytes after a name of four, as KMAC is, and at a name of rate - 7
    bytes before an empty S. The close of KMAC puts three bytes after the message here.
    """
    for n in (*LENGTHS, *range(rate - 12, rate + 6)):
        yield n, 0, 3, 32
        yield 4, n, 3, 32
        yield 4, 5, n, 32
    for asked in (0, 1, *range(rate - 1, rate + 2), *range(2 * rate - 1, 2 * rate + 2)):
        yield 4, 5, 3, asked


def edge_lines(number):
    for first, custom, message, asked in edges_of(STARTED[number].rate):
        yield line(number, part(FIRST, first), part(CUSTOM, custom), ptn(message), asked)


def close_line(number, length):
    book, status = closed(number, part(FIRST, 32), b"", ptn(3), length)
    return f"{STARTED[number].name} close {length} {status} {answer(*book.squeeze(32), 32)}"


def output():
    lines = [sample_line(sample) for sample in nist.samples()]
    lines += [written for number in STARTED for written in edge_lines(number)]
    lines += [close_line(number, length) for number in KMAC for length in CLOSES]
    return "\n".join(lines) + "\n"
