#!/usr/bin/env python3
"""What the programs over the library must write.

  expected.py vectors     the draft's vectors as it prints them; nothing is worked out here
  expected.py edges       both sides of each edge of document 01, by the second program
  expected.py day         the digest of a day, by the journal's book and by the second program in one go
  expected.py types       each type of a function that is the sponge, on a run and in one go, by the book and by the second program
  expected.py keyed       the functions of SP 800-185 on NIST's sample values and at their edges, by the book and by the second program
"""
import functools
import sys

import keyed_lines
import one_go
import reference
import transcript
import vectors
from sponge_functions import SPONGE, TURBOSHAKE

BEFORE = b"\xa5"  # each byte of the program's output buffer before the calls
CHUNK = reference.CHUNK
CUSTOMS = (0, 1, 255, 256, 65_535, 65_536)  # both sides of a length of one byte, and of one of two
STATION = b"Hanbeorit station 3"
# of the day; the third is empty, the fourth what a sensor gave, without a line end
EVENTS = (b"06:00 pump 3 on\n", b"06:02 level 3 at 41 cm\n", b"", reference.ptn(9000), b"22:00 pump 3 off\n")


def vectors_output():
    """A line for each vector: function, kind and length of the message, domain byte, length asked, the bytes that the draft prints.

    The KT vectors follow in the draft's order, KT128's and then KT256's. In place of the domain byte they have the length of C, in decimal;
    C is ptn. The last eight of each, those with a C and those around a chunk's end, have the bytes three times with a space between: from a
    run closed with the whole C, from one that took C in pieces before the new close, and from the call in one go. Source document 003 adds
    none to these: test_reference.py holds each of its vectors to be among them.
    """
    lines = [f"{v.function} {v.kind} {v.size} {v.domain:02x} {v.length} {v.digest.hex()}" for v in vectors.turboshake()]
    for v in vectors.kt():
        ways = 3 if v.custom or v.size in (CHUNK - 1, CHUNK) else 1
        lines.append(f"{v.function} {v.kind} {v.size} {v.custom} {v.length} {' '.join(ways * [v.digest.hex()])}")
    return "\n".join(lines) + "\n"


def edges_of(rate):
    """(message length, domain byte, bytes asked) of each line, for one strength."""
    for size in (0, 1, rate - 2, rate - 1, rate, rate + 1, 2 * rate - 1, 2 * rate, 2 * rate + 1):
        yield size, 0x1F, 32
    for asked in outputs_of(rate):
        for size in (0, rate):
            yield size, 0x1F, asked
    for domain in (0x01, 0x7F, 0x00, 0x80, 0xFF):
        yield 3, domain, 32


def outputs_of(rate):
    return 1, rate - 1, rate, rate + 1, 2 * rate - 1, 2 * rate, 2 * rate + 1


# The message lengths that meet every customization string, for both strengths: around the first block's end of either, and around the
# ends of three chunks.
KT_SIZES = (
    *(0, 1),
    *range(133, 138),
    *range(165, 170),
    *range(CHUNK - 2, CHUNK + 3),
    *range(2 * CHUNK - 2, 2 * CHUNK + 3),
    *range(3 * CHUNK - 1, 3 * CHUNK + 2),
)

# (length of M, length of C) of the lines that follow, by the rate. With C empty S is one byte longer than M; with C of 1 to 255 bytes
# two bytes longer than M and C.
KT_PAIRS = {
    168: (
        # document 01's four: one chunk, two, two, three
        (8191, 0),
        (8192, 0),
        (8192, 8189),
        (8192, 8190),
        # a single node one byte short of a whole number of blocks, so that 07 and 80 share a byte: S of 167, 167 and 8,063 bytes
        (166, 0),
        (0, 165),
        (8062, 0),
        # a last leaf of 167, 167 and 335 bytes, and a second leaf of 167: 0B and 80 share a byte; then leaves of 168 and 169
        (8358, 0),
        (8192, 165),
        (8526, 0),
        (16_550, 0),
        (8359, 0),
        (8360, 0),
        # a final node of 8,396 bytes, 164 more than whole blocks: 06 and 80 share the last lane, the nearest that a final node can come
        (49_152, 0),
    ),
    136: (
        (8191, 0),
        (8192, 0),
        (8192, 8189),
        (8192, 8190),
        # S of 135, 135 and 8,159 bytes
        (134, 0),
        (0, 133),
        (8158, 0),
        # a last leaf of 135, 135 and 271 bytes, and a second leaf of 135; then leaves of 136 and 137
        (8326, 0),
        (8192, 133),
        (8462, 0),
        (16_518, 0),
        (8327, 0),
        (8328, 0),
        # a final node of 8,972 bytes, 132 more than whole blocks
        (32_767, 65_535),
    ),
}


def kt_edges_of(rate):
    """(message length, length of C, bytes asked) of each KT line, for one strength."""
    for size in KT_SIZES:
        for custom in CUSTOMS:
            yield size, custom, 32
    for size, custom in KT_PAIRS[rate]:
        yield size, custom, 32
    for asked in outputs_of(rate):
        yield CHUNK, 0, asked


def digits_of(out, asked):
    return (BEFORE * asked if out is None else out).hex()


@functools.cache
def edges_output():
    """TurboSHAKE: two lines for each, in one go, and cut into pieces, which must make no difference.

    The message is ptn. The status of a cut one is that of the finalize; no squeeze can follow a refused one, so the buffer stays.

    KT: one line for each, KT128's and then KT256's, in the order of kt_edges_of:

        FUNCTION M C ASKED one STATUS BYTES cut STATUS BYTES

    with one space between, lengths and statuses in decimal, bytes in lower-case hex. M is the first M bytes of ptn, C the first C bytes
    of ptn. `one` is the one-go call; `cut` a run that absorbs M in pieces, is finalized with C and squeezed in pieces. Each has a buffer of
    its own of ASKED bytes, all A5 before the calls, and prints it after them.
    """
    lines = []
    for function in TURBOSHAKE.values():
        for size, domain, asked in edges_of(function.rate):
            status, out = one_go.sponge(function, reference.ptn(size), domain, asked)
            lines += [f"{function.name} {way} {size} {domain:02x} {asked} {status} {digits_of(out, asked)}" for way in ("one", "cut")]
    for function, rate in (("KT128", 168), ("KT256", 136)):
        for size, custom, asked in kt_edges_of(rate):
            status, out = one_go.kt(rate, reference.ptn(size), reference.ptn(custom), asked)
            answer = f"{status} {digits_of(out, asked)}"
            lines.append(f"{function} {size} {custom} {asked} one {answer} cut {answer}")
    return "\n".join(lines) + "\n"


def day_output():
    """Two lines: `shift` and the digest of a journal that took the events one by one; `clerk` and that of the day's message in one go.

    Both are KT128 of the events, each with its length (request Q-1), with the station's name as customization string: 32 bytes, in
    lower-case hex.
    """
    day = transcript.book_of(4)
    for event in EVENTS:
        day.absorb(event)
    day.finalize(STATION)
    _, shift = day.squeeze(32)
    clerk = reference.kt128(reference.day_message(EVENTS), STATION, 32)
    return f"shift {shift.hex()}\nclerk {clerk.hex()}\n"


def types_output():
    """A line for each function that is the sponge: its name, the statuses of the calls on a run of ptn(200) and of two calls in one go, and bytes.

    The run gets a piece, is read too early, gets the other piece and the close, gives 10 bytes, is fed too late, and gives the rest of `size` bytes and
    one byte more. In one go `size` bytes are asked, and one more. SHA3's digest has a length; of the others 32 bytes are asked at the rate 168 and 64 at
    the rate 136. TurboSHAKE's D is 1F. Then for each the line of that run on lent lanes, which answers alike; it has no call in one go.
    """
    message, lines, in_place = reference.ptn(200), [], []
    for number, function in SPONGE.items():
        domain = 0x1F if number in TURBOSHAKE else None
        size = function.digest or transcript.CHAINING[function.rate]
        run = transcript.book_of(number)
        statuses = [run.absorb(message[:67]), run.squeeze(1)[0], run.absorb(message[67:]), run.finalize(domain)]
        reads = [(run.squeeze(10), 10)]
        late = run.absorb(message[67:])
        reads += [(run.squeeze(asked), asked) for asked in (size - 10, 1)]
        (given, _), *more = (answer for answer, _ in reads)
        statuses += [given, late, *(status for status, _ in more)]
        in_place.append(f"{function.name} in place {''.join(map(str, statuses))} {bytes_of(reads)}")
        reads += [(one_go.sponge(function, message, domain, asked), asked) for asked in (size, size + 1)]
        statuses += [status for (status, _), _ in reads[3:]]
        lines.append(f"{function.name} {''.join(map(str, statuses))} {bytes_of(reads)}")
    return "\n".join(lines + in_place) + "\n"


def bytes_of(reads):
    """The digits of the bytes of each read, or of what the buffer held before; the first two joined."""
    first, *rest = ((BEFORE * asked if given is None else given).hex() for (_, given), asked in reads)
    return f"{first}{' '.join(rest)}"


OUTPUTS = {"vectors": vectors_output, "edges": edges_output, "day": day_output, "types": types_output, "keyed": keyed_lines.output}

if __name__ == "__main__":
    if len(sys.argv) != 2 or sys.argv[1] not in OUTPUTS:
        sys.exit(__doc__)
    sys.stdout.write(OUTPUTS[sys.argv[1]]())
