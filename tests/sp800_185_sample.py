"""The calls of request Q-14 in the list that make_replay_sample.py writes, and the lines that they must be answered with.

Each status is written out here, by the request, and so are the blocks and the small numbers of permutations; the bytes are NIST's where they are
its samples', else the second program's.
"""
import reference
from permutation_formula import sponge_closed, sponge_open
from sample_lines import counted, field, record, run_line

LIMIT, READ_LIMIT, MOST_BLOCKS = 17_179_869_183, 4_294_967_295, 102_360_992  # the last: of KMAC128's prefixes
KEY = bytes(range(0x40, 0x60))
SHORT, LONG = bytes(range(4)), bytes(range(200))
SIGNATURE, TAGGED = b"Email Signature", b"My Tagged Application"
# NIST's samples: cSHAKE 1, KMAC 1 and 6, KMACXOF 1
CSHAKE_1 = "c1c36925b6409a04f1b504fcbca9d82b4017277cb5ed2b2065fc1d3814d5aaf5"
KMAC_1 = "e5780b0d3ea6f7d3a429c5706aa43a00fadbd7d49628839e3187243f456ee14e"
KMAC_6 = (
    "b58618f71f92e1d56c1b8c55ddd7cd188b97b4ca4d99831eb2699a837da2e4d9"
    "70fbacfde50033aea585f1a2708510c32d07880801bd182898fe476876fc8965"
)
KMACXOF_1 = "cd83740bbd92ccc8cf032b1481a0f4460e7ca9dd12b08a0c4031178bacd6ec35"
# The blocks of cSHAKE 1 and of KMAC 1, put together by hand: at the rate 168 each prefix is one.
SIGNED = bytes.fromhex("01a8 0100 0178") + SIGNATURE + bytes(147)
NAMED = bytes.fromhex("01a8 0120") + b"KMAC" + bytes.fromhex("0100") + bytes(158)
KEYED = bytes.fromhex("01a8 020100") + KEY + bytes(131)
TOLD = bytes.fromhex("010002")  # 256 bits
SHAKE = reference.shake(128, b"abc", 40).hex()
FULL = reference.ptn(161)  # an S with which the bytepad of cSHAKE128 is a block and has no zeros
OTHER = reference.cshake(128, b"", 8, b"", FULL).hex()


def start(function, first, custom):
    return record("n", bytes([function]) + counted(first) + counted(custom))


def one_go(function, first, custom, size, message):
    return record("M", bytes([function]) + counted(b"", size) + counted(first) + counted(custom) + message)


def close(length):
    return record("F", length.to_bytes(8, "big"))


def lanes_of(*blocks):
    """The lanes once these blocks of 168 bytes are in; the last is not yet permuted."""
    lanes = [0] * 25
    for number, block in enumerate(blocks):
        if number:
            lanes = reference.keccak_p(lanes, 24)
        lanes = [v ^ w for v, w in zip(lanes, reference.state_of(block.ljust(200, b"\0")))]
    return lanes


def bit_line(phase, absorbed, squeezed, permutations, bit, position, lanes):
    """The line of a cSHAKE run: the bit is a byte, behind the permutations."""
    return f"{run_line(phase, absorbed, squeezed, permutations)} {bit:02x} " + " ".join(f"{v:016x}" for v in (position, *lanes))


SIGNED_CLOSED = reference.keccak_p(lanes_of(SIGNED, SHORT + b"\x04" + bytes(162) + b"\x80"), 24)
KEYED_CLOSED = reference.keccak_p(lanes_of(NAMED, KEYED, SHORT + TOLD + b"\x04" + bytes(159) + b"\x80"), 24)

SAMPLE = [
    # cSHAKE128 with an S: its prefix is a block, which waits for the message's first byte
    (start(11, b"", SIGNATURE), "0"),
    (record("D"), bit_line(0, 0, 0, 0, 0, 168, lanes_of(SIGNED))),
    (record("A", SHORT[:1]), "0"),
    (record("D"), bit_line(0, 1, 0, 1, 0, 1, lanes_of(SIGNED, SHORT[:1]))),
    (record("A", SHORT[1:]), "0"),
    (record("R", n=1), "3 a5"),
    # it is no SHAKE run, nor one behind a block more than the most that a prefix has
    (field(8, 1), "set"),
    (record("F"), "5"),
    (field(8, 0), "set"),
    (field(6, 199_730), "set"),
    (record("F"), "5"),
    (field(6, 1), "set"),
    (record("F"), "0"),
    (record("F"), "3"),
    (record("R", n=32), "0 " + CSHAKE_1),
    (record("D"), bit_line(1, 4, 32, 2, 0, 32, SIGNED_CLOSED)),
    # with both strings empty it is SHAKE128
    (start(11, b"", b""), "0"),
    (record("D"), bit_line(0, 0, 0, 0, 1, 0, [0] * 25)),
    (record("A", b"abc"), "0"),
    (field(8, 0), "set"),
    (record("A", b""), "5"),
    (field(8, 1), "set"),
    (record("F"), "0"),
    (record("R", n=40), "0 " + SHAKE),
    (one_go(11, b"", b"", 40, b"abc"), "0 " + SHAKE),
    # a bytepad that ends with its block
    (start(11, b"", FULL), "0"),
    (record("D"), bit_line(0, 0, 0, 0, 0, 168, lanes_of(bytes.fromhex("01a8 0100 020508") + FULL))),
    (record("F"), "0"),
    (record("R", n=8), "0 " + OTHER),
    # KMAC128: the close fixes the output length
    (start(13, KEY, b""), "0"),
    (record("D"), run_line(0, 0, 0, 1, 0, 168, *lanes_of(NAMED, KEYED))),
    (record("A", SHORT), "0"),
    (close(0), "7"),
    (close(READ_LIMIT + 1), "6"),
    (close(32), "0"),
    (close(0), "3"),
    (record("A", b""), "3"),
    (record("R", n=33), "6 " + 33 * "a5"),
    (record("R", n=20), "0 " + KMAC_1[:40]),
    (record("R", n=13), "6 " + 13 * "a5"),
    (record("R", n=12), "0 " + KMAC_1[40:]),
    (record("R", n=1), "6 a5"),
    (record("R", n=0), "0 "),
    (record("D"), run_line(1, 4, 32, 3, 32, 32, *KEYED_CLOSED)),
    # no closed run has no output length, nor one that is less than what was read
    (field(7, 0), "set"),
    (record("R", n=0), "5 "),
    (field(7, 31), "set"),
    (record("R", n=0), "5 "),
    (field(7, READ_LIMIT + 1), "set"),
    (record("R", n=0), "5 "),
    (field(7, 32), "set"),
    (record("R", n=0), "0 "),
    # at the limits, behind the most blocks that a prefix has, and one more
    (start(13, KEY, b""), "0"),
    (field(1, LIMIT), "set"),
    (field(3, (LIMIT - 1) % 168 + 1), "set"),
    (field(6, sponge_open(168, MOST_BLOCKS * 168 + LIMIT)), "set"),
    (record("A", b""), "0"),
    (record("A", b"a"), "2"),
    (field(6, sponge_open(168, (MOST_BLOCKS + 1) * 168 + LIMIT)), "set"),
    (record("A", b"a"), "5"),
    (close(0), "5"),
    # KMACXOF128: the close has no argument, and the read limit is the common one
    (start(15, KEY, b""), "0"),
    (record("A", SHORT), "0"),
    (record("F"), "0"),
    (record("R", n=32), "0 " + KMACXOF_1),
    (record("R", n=1), "0 " + reference.kmacxof(128, KEY, SHORT, 33, b"").hex()[64:]),
    (field(2, READ_LIMIT), "set"),
    (field(3, (READ_LIMIT - 1) % 168 + 1), "set"),
    (field(6, sponge_closed(168, 2 * 168 + 4 + 2, READ_LIMIT)), "set"),
    (record("R", n=0), "0 "),
    (record("R", n=1), "6 a5"),
    # in one go: samples, other functions, no byte asked, an empty key
    (one_go(11, b"", SIGNATURE, 32, SHORT), "0 " + CSHAKE_1),
    (one_go(13, KEY, b"", 32, SHORT), "0 " + KMAC_1),
    (one_go(14, KEY, TAGGED, 64, LONG), "0 " + KMAC_6),
    (one_go(15, KEY, b"", 32, SHORT), "0 " + KMACXOF_1),
    (one_go(12, b"N", b"", 8, b"abc"), "0 " + reference.cshake(256, b"abc", 8, b"N", b"").hex()),
    (one_go(16, b"", b"S", 8, b"abc"), "0 " + reference.kmacxof(256, b"", b"abc", 8, b"S").hex()),
    (one_go(14, b"", b"", 1, b""), "0 " + reference.kmac(256, b"", b"", 1, b"").hex()),
    *((one_go(number, b"a", b"b", 0, b"c"), "7 ") for number in range(11, 17)),
]
