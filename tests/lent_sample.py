"""The calls of request Q-6 in the list that make_replay_sample.py writes, and the lines that they must be answered with.

Each status is written out here, by the request, and so are the positions and the permutations; the bytes and the lanes are the second program's.
"""
import reference
from sample_lines import counted, field, lanes_after, record, run_line

CHUNK = reference.CHUNK
MESSAGE = reference.ptn(5 * CHUNK + 1)
CUSTOM = b"ab"
DIGEST = reference.kt128(MESSAGE, CUSTOM, 32).hex()
# After five chunks: S_0, the eight bytes and three chaining values are 8,296 bytes, 49 permutations; three leaves are closed, 49 each; the fourth
# is full and open, 48.
FIRST, *LEAVES = reference.chunks(MESSAGE[:-1])
NODE = FIRST + b"\x03" + bytes(7) + b"".join(reference.turboshake(168, leaf, 0x0B, 32) for leaf in LEAVES[:3])
FIVE_CHUNKS = run_line(0, 40_960, 0, 0, 49 + 3 * 49 + 48, 64, 128, *lanes_after(NODE), *lanes_after(LEAVES[3]))


def feed(words, piece):
    return record("a", words.to_bytes(2, "big") + piece)


def one_go(words, function, custom, size, message):
    return record("k", words.to_bytes(2, "big") + bytes([function]) + counted(b"", size) + counted(custom) + message)


SAMPLE = [
    # a piece that begins in the middle of S_0 and ends with S_4: four whole leaves, the last of which stays open
    (record("N", b"\2"), "fresh"),
    (feed(100, b""), "0 zero"),
    (record("A", MESSAGE[:99]), "0"),
    (feed(100, MESSAGE[99:100]), "0 zero"),
    *((feed(words, MESSAGE[100:-1]), "12 kept") for words in (99, 101)),
    (feed(100, MESSAGE[100:-1]), "0 zero"),
    (record("D"), FIVE_CHUNKS),
    (feed(0, b""), "12 kept"),
    (record("D"), FIVE_CHUNKS),
    (record("A", MESSAGE[-1:]), "0"),
    (record("C", CUSTOM), "0"),
    (feed(100, b""), "3 kept"),
    (feed(300, b""), "12 kept"),
    (record("E"), "0"),
    (record("R", n=32), "0 " + DIGEST),
    (feed(100, b"a"), "3 kept"),
    (feed(200, b"a"), "12 kept"),
    # in a phase that is none
    (field(0, 3), "set"),
    (feed(100, b"a"), "5 kept"),
    (feed(101, b"a"), "12 kept"),
    # in one go, with one chunk left over; then no bytes asked, and slices of other lengths
    (one_go(100, 2, CUSTOM, 32, MESSAGE), f"0 {DIGEST} zero"),
    (one_go(100, 3, b"", 37, MESSAGE[:-1]), f"0 {reference.kt256(MESSAGE[:-1], b'', 37).hex()} zero"),
    (one_go(100, 3, b"", 0, b"abc"), "7  kept"),
    (one_go(99, 2, b"", 4, b"abc"), "12 a5a5a5a5 kept"),
    (one_go(0, 2, b"", 0, b"abc"), "12  kept"),
]
