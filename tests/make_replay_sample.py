#!/usr/bin/env python3
"""Writes crates/replay/stdin, a short list of calls, and crates/replay/stdout, the lines that the program `replay` must answer.

Each status is written out here, by document 01's table and requests Q-2, Q-5, Q-10 and Q-13, and so are the small numbers of permutations; those at
the limits are the formula's, the bytes and the lanes the second program's. sp800_185_sample.py has the calls of request Q-14, lent_sample.py those of Q-6.
"""
from pathlib import Path

import inverse
import lent_sample
import reference
import sp800_185_sample
from permutation_formula import kt_open, sponge_closed, sponge_open
from sample_lines import counted, field, lanes_after, record, run_line

CRATE = Path(__file__).resolve().parent.parent / "crates/replay"
LIMIT, READ_LIMIT, CUSTOM_LIMIT = 17_179_869_183, 4_294_967_295, 16_777_215
DIGEST = reference.turboshake(168, b"abc", 0x1F, 37).hex()
BLOCK = b"abc\x1f" + bytes(163) + b"\x80" + bytes(32)  # the whole state: abc, D and 80 in the block of 168 bytes
CLOSED = reference.keccak_p(reference.state_of(BLOCK), 12)
SHA3_224 = reference.sha3(224, b"abc").hex()
SHA3_BLOCK = b"abc\x06" + bytes(139) + b"\x80" + bytes(56)  # of 144 bytes
SHA3_CLOSED = reference.keccak_p(reference.state_of(SHA3_BLOCK), 24)
SHAKE_BLOCK = b"\x1f" + bytes(166) + b"\x80" + bytes(32)  # of no message
SHAKE_NEXT = reference.keccak_p(reference.keccak_p(reference.state_of(SHAKE_BLOCK), 24), 24)  # after the second block of output is asked
SHA3_NUMBERS = {5: 224, 6: 256, 7: 384, 8: 512}
SHAKE_NUMBERS = {9: 128, 10: 256}
CHUNK = reference.CHUNK
MESSAGE = reference.ptn(CHUNK + 1)
STATE = MESSAGE[:200]
CUSTOM = b"abc"
KT_DIGEST = reference.kt128(MESSAGE, CUSTOM, 37).hex()
KEY = b"key"
TAG = reference.hopmac128(KEY, MESSAGE, CUSTOM, 64)
TAG_256 = reference.hopmac256(KEY, b"abc", b"", 64)
EVENTS = (b"06:00 pump 3 on\n", b"", b"22:00 pump 3 off\n")
DAY = reference.day_message(EVENTS)
STATION = b"Hanbeorit station 3"
DAY_DIGEST = reference.kt128(DAY, STATION, 37).hex()
# At the limit of what is absorbed the chunk in hand is number 2,097,151, one byte short of its end: the final node has 2,097,150 chaining
# values. This is its position in KT128; in KT256 they have 64 bytes.
LAST_NODE = (CHUNK + 8 + 2_097_150 * 32 - 1) % 168 + 1
# The final node and the leaf of a message of no bytes once one byte is left of C: 16,777,214 bytes of S, so that chunk 2,047 lacks two.
CUSTOM_NODE, CUSTOM_LEAF = (CHUNK + 8 + 2_046 * 32 - 1) % 168 + 1, (CHUNK - 2 - 1) % 168 + 1


def one_go(function, domain, size, message):
    return record("T", bytes([function, domain]) + counted(message, size))


def fips_one_go(function, size, message):
    return record("B", bytes([function]) + counted(message, size))


def rounds(number, state, op="P"):
    return record(op, bytes([number]) + state)


def permuted(number, state, made=reference.keccak_p):
    return reference.bytes_of(made(reference.state_of(state), number))


def undone(number, state):
    return permuted(number, state, inverse.keccak_p_undone)


def kt_one_go(function, custom, size, message):
    return record("K", bytes([function]) + counted(b"", size) + counted(custom) + message)


def hopmac(strength, key, custom, size, message):
    return record("H", bytes([strength]) + counted(b"", size) + counted(key) + counted(custom) + message)


def tag_check(strength, tag, key, custom, message):
    return record("V", bytes([strength]) + counted(tag) + counted(key) + counted(custom) + message)


def lanes_closed(node, domain):
    """The lanes after the final node, whose last block has room for the domain byte before its last byte."""
    padded = node + bytes([domain]) + bytes(-len(node) % 168 - 2) + b"\x80"
    return reference.keccak_p(lanes_after(padded), 12)


LONG_CUSTOM = reference.ptn(65_536)


def kt_closed_line(message, custom, read, permutations):
    """The dump of a KT128 run that was closed and of which less than a block was read."""
    lanes = lanes_closed(*reference.final_node(168, 32, reference.merged(message, custom)))
    return run_line(1, len(message), read, len(custom), permutations, read, 0, *lanes, *[0] * 25)


KT_CLOSED = kt_closed_line(MESSAGE, CUSTOM, 37, 51)

SAMPLE = [
    (record("N", b"\0"), "fresh"),
    (record("D"), run_line(0, 0, 0, 0, 0, *[0] * 25)),
    (record("A", b"ab"), "0"),
    (record("A", b""), "0"),
    (record("A", b"c"), "0"),
    (record("D"), run_line(0, 3, 0, 0, 3, 0x636261, *[0] * 24)),
    (record("R", n=4), "3 a5a5a5a5"),
    (record("F", b"\x00"), "1"),
    (record("F", b"\x1f"), "0"),
    (record("F", b"\x1f"), "3"),
    (record("A", b"d"), "3"),
    (record("R", n=0), "0 "),
    (record("R", n=32), "0 " + DIGEST[:64]),
    (record("R", n=5), "0 " + DIGEST[64:]),
    (record("D"), run_line(1, 3, 37, 1, 37, *CLOSED)),
    # the close took one permutation: with another number every call is refused
    (field(6, 2), "set"),
    (record("R", n=0), "5 "),
    (record("A", b"d"), "5"),
    (record("F", b"\x1f"), "5"),
    (record("D"), run_line(1, 3, 37, 2, 37, *CLOSED)),
    (field(6, 0), "set"),
    (record("R", n=1), "5 a5"),
    (field(6, 1), "set"),
    (record("R", n=0), "0 "),
    (record("D"), run_line(1, 3, 37, 1, 37, *CLOSED)),
    (one_go(0, 0x1F, 37, b"abc"), "0 " + DIGEST),
    (one_go(1, 0x1F, 8, b""), "0 " + reference.turboshake(136, b"", 0x1F, 8).hex()),
    (one_go(1, 0x80, 4, b"abc"), "1 a5a5a5a5"),
    (one_go(1, 0x1F, 0, b"abc"), "7 "),
    # one byte more than the most that are squeezed, and than the most that are absorbed
    (field(2, READ_LIMIT), "set"),
    (field(3, (READ_LIMIT - 1) % 168 + 1), "set"),
    (record("R", n=1), "5 a5"),
    (field(6, sponge_closed(168, 3, READ_LIMIT)), "set"),
    (record("R", n=1), "6 a5"),
    (record("N", b"\1"), "fresh"),
    (field(1, LIMIT), "set"),
    (field(3, (LIMIT - 1) % 136 + 1), "set"),
    (field(6, sponge_open(136, LIMIT)), "set"),
    (record("A", b"a"), "2"),
    (record("A", b""), "0"),
    # no run that was reached has this position
    (field(3, 0), "set"),
    (record("A", b""), "5"),
    # a full block is permuted when its next byte comes
    (record("N", b"\0"), "fresh"),
    (record("A", MESSAGE[:168]), "0"),
    (record("D"), run_line(0, 168, 0, 0, 168, *lanes_after(MESSAGE[:168]))),
    (record("A", b""), "0"),
    (record("A", MESSAGE[168:169]), "0"),
    (record("D"), run_line(0, 169, 0, 1, 1, *lanes_after(MESSAGE[:169]))),
    # KT128: a full first chunk stays open until the next byte comes, which ends it and opens the leaf
    (record("N", b"\2"), "fresh"),
    (record("D"), run_line(0, 0, 0, 0, 0, 0, 0, *[0] * 50)),
    (record("A", MESSAGE[:100]), "0"),
    (record("A", MESSAGE[100:CHUNK]), "0"),
    (record("D"), run_line(0, CHUNK, 0, 0, 48, 128, 0, *lanes_after(MESSAGE[:CHUNK]), *[0] * 25)),
    (record("A", MESSAGE[CHUNK:]), "0"),
    (record("D"), run_line(0, CHUNK + 1, 0, 0, 48, 136, 1, *lanes_after(MESSAGE[:CHUNK] + b"\3" + bytes(7)), MESSAGE[CHUNK], *[0] * 24)),
    (record("R", n=4), "3 a5a5a5a5"),
    # the new close is not for the message phase
    (record("E"), "3"),
    (record("F", CUSTOM), "0"),
    (record("F", CUSTOM), "3"),
    (record("E"), "3"),
    (record("C", b"d"), "3"),
    (record("A", b"d"), "3"),
    (record("R", n=32), "0 " + KT_DIGEST[:64]),
    (record("R", n=5), "0 " + KT_DIGEST[64:]),
    (record("D"), KT_CLOSED),
    (kt_one_go(2, CUSTOM, 37, MESSAGE), "0 " + KT_DIGEST),
    (kt_one_go(3, b"", 8, b""), "0 " + reference.kt256(b"", b"", 8).hex()),
    (kt_one_go(3, b"", 0, b"abc"), "7 "),
    (kt_one_go(2, LONG_CUSTOM, 8, b"abc"), "0 " + reference.kt128(b"abc", LONG_CUSTOM, 8).hex()),
    # S of 8,193 bytes with 32 read: 51 permutations
    (record("N", b"\2"), "fresh"),
    (record("A", MESSAGE[:CHUNK]), "0"),
    (record("F"), "0"),
    (record("R", n=32), "0 " + reference.kt128(MESSAGE[:CHUNK], b"", 32).hex()),
    (record("D"), kt_closed_line(MESSAGE[:CHUNK], b"", 32, 51)),
    # the same in pieces: the first, an empty one, ends the message phase, and the first byte of C ends the full chunk of the message
    (record("N", b"\2"), "fresh"),
    (record("A", MESSAGE[:CHUNK]), "0"),
    (record("C", b""), "0"),
    (record("D"), run_line(2, CHUNK, 0, 0, 48, 128, 0, *lanes_after(MESSAGE[:CHUNK]), *[0] * 25)),
    (record("A", b""), "3"),
    (record("A", b"d"), "3"),
    (record("F", b""), "3"),
    (record("R", n=0), "3 "),
    (record("C", b"a"), "0"),
    (record("C", b""), "0"),
    (record("D"), run_line(2, CHUNK, 0, 1, 48, 136, 1, *lanes_after(MESSAGE[:CHUNK] + b"\3" + bytes(7)), ord("a"), *[0] * 24)),
    (field(6, 49), "set"),
    (record("C", b""), "5"),
    (record("E"), "5"),
    (field(6, 48), "set"),
    (record("E"), "0"),
    (record("R", n=37), "0 " + reference.kt128(MESSAGE[:CHUNK], b"a", 37).hex()),
    (record("D"), kt_closed_line(MESSAGE[:CHUNK], b"a", 37, 51)),
    # both closes leave the same run
    (record("N", b"\2"), "fresh"),
    (record("A", MESSAGE), "0"),
    (record("C", CUSTOM[:2]), "0"),
    (record("R", n=1), "3 a5"),
    (record("C", CUSTOM[2:]), "0"),
    (record("E"), "0"),
    (record("E"), "3"),
    (record("C", b""), "3"),
    (record("R", n=37), "0 " + KT_DIGEST),
    (record("D"), KT_CLOSED),
    # S goes past the limit with C, M does not
    (record("N", b"\3"), "fresh"),
    (field(1, LIMIT), "set"),
    (field(3, (CHUNK + 8 + 2_097_150 * 64 - 1) % 136 + 1), "set"),
    (field(4, (CHUNK - 1 - 1) % 136 + 1), "set"),
    (field(6, kt_open(136, 64, LIMIT)), "set"),
    (record("A", b"a"), "2"),
    (record("A", b""), "0"),
    (record("C", b"ab"), "0"),
    (record("A", b""), "3"),
    # no run that was reached has this position of the leaf, and none has customization bytes in the message phase
    (field(4, 0), "set"),
    (record("C", b""), "5"),
    (record("E"), "5"),
    (record("N", b"\3"), "fresh"),
    (field(5, 1), "set"),
    (record("A", b""), "5"),
    (field(5, 0), "set"),
    (record("A", b""), "0"),
    # one byte below the limit of C: two bytes are refused, one is taken, and no more after it
    (record("N", b"\2"), "fresh"),
    (field(0, 2), "set"),
    (field(5, CUSTOM_LIMIT - 1), "set"),
    (field(3, CUSTOM_NODE), "set"),
    (field(4, CUSTOM_LEAF), "set"),
    (field(6, kt_open(168, 32, CUSTOM_LIMIT - 1)), "set"),
    (record("C", b"ab"), "4"),
    (record("C", b"\0"), "0"),
    (record("C", b"\0"), "4"),
    (record("C", b""), "0"),
    (record("D"), run_line(2, 0, 0, CUSTOM_LIMIT, kt_open(168, 32, CUSTOM_LIMIT), CUSTOM_NODE, CUSTOM_LEAF + 1, *[0] * 50)),
    (record("E"), "0"),
    (record("C", b"\0"), "3"),
    # one byte past it, in a closed run
    (field(5, CUSTOM_LIMIT + 1), "set"),
    (record("R", n=0), "5 "),
    # HopMAC, and tags: right, the beginning of a right one, wrong in one bit, for another message, of no byte, too long
    (hopmac(0, KEY, CUSTOM, 64, MESSAGE), "0 " + TAG.hex()),
    (hopmac(1, KEY, b"", 64, b"abc"), "0 " + TAG_256.hex()),
    (hopmac(0, KEY, b"", 0, b"abc"), "7 "),
    (hopmac(1, KEY, LONG_CUSTOM, 4, b"abc"), "0 " + reference.hopmac256(KEY, b"abc", LONG_CUSTOM, 4).hex()),
    (tag_check(0, TAG, KEY, CUSTOM, MESSAGE), "0 yes"),
    (tag_check(0, TAG[:1], KEY, CUSTOM, MESSAGE), "0 yes"),
    (tag_check(1, TAG_256[:32], KEY, b"", b"abc"), "0 yes"),
    (tag_check(1, TAG_256[:31] + bytes([TAG_256[31] ^ 0x80]), KEY, b"", b"abc"), "0 no"),
    (tag_check(1, TAG_256[:32], KEY, b"", b"abd"), "0 no"),
    (tag_check(0, b"", KEY, b"", b"abc"), "7 no"),
    (tag_check(1, TAG_256 + b"\0", KEY, b"", b"abc"), "7 no"),
    # a day
    (record("N", b"\4"), "fresh"),
    *((record("A", event), "0") for event in EVENTS),
    (record("D"), run_line(0, len(DAY), 0, 0, 0, len(DAY), 0, *lanes_after(DAY), *[0] * 25)),
    (record("R", n=1), "3 a5"),
    (record("F", STATION), "0"),
    (record("A", b"d"), "3"),
    (record("R", n=32), "0 " + DAY_DIGEST[:64]),
    (record("R", n=5), "0 " + DAY_DIGEST[64:]),
    (record("D"), kt_closed_line(DAY, STATION, 37, 1)),
    (kt_one_go(2, STATION, 37, DAY), "0 " + DAY_DIGEST),
    # its name in pieces, after which no event is taken, not even an empty one, and 3 wins over 8
    (record("N", b"\4"), "fresh"),
    *((record("A", event), "0") for event in EVENTS),
    (record("C", STATION[:10]), "0"),
    (record("A", b""), "3"),
    (record("A", bytes(65_536)), "3"),
    (record("D"), run_line(2, len(DAY), 0, 10, 0, len(DAY) + 10, 0, *lanes_after(DAY + STATION[:10]), *[0] * 25)),
    (record("C", STATION[10:]), "0"),
    (record("E"), "0"),
    (record("R", n=37), "0 " + DAY_DIGEST),
    # one byte below the limit of what is absorbed: an event of one byte needs three, an empty one the byte that is left
    (record("N", b"\4"), "fresh"),
    (field(1, LIMIT - 1), "set"),
    (field(3, LAST_NODE), "set"),
    (field(4, (CHUNK - 2 - 1) % 168 + 1), "set"),
    (record("A", b""), "5"),
    (field(6, kt_open(168, 32, LIMIT - 1)), "set"),
    (record("A", b"b"), "2"),
    (record("D"), run_line(0, LIMIT - 1, 0, 0, kt_open(168, 32, LIMIT - 1), LAST_NODE, 126, *[0] * 50)),
    (record("A", b""), "0"),
    (record("D"), run_line(0, LIMIT, 0, 0, kt_open(168, 32, LIMIT), LAST_NODE, 127, *[0] * 50)),
    # at the limit, an event that is too long as well
    (record("A", bytes(65_536)), "8"),
    (record("A", b"a"), "2"),
    (record("A", b""), "2"),
    # SHA3-224: the close has no argument, and nothing is read beyond the digest's 28 bytes
    (record("N", b"\5"), "fresh"),
    (record("A", b"ab"), "0"),
    (record("A", b"c"), "0"),
    (record("D"), run_line(0, 3, 0, 0, 3, 0x636261, *[0] * 24)),
    (record("R", n=2), "3 a5a5"),
    (record("F"), "0"),
    (record("F"), "3"),
    (record("A", b""), "3"),
    (record("R", n=29), "6 " + 29 * "a5"),
    (record("R", n=20), "0 " + SHA3_224[:40]),
    (record("R", n=9), "6 " + 9 * "a5"),
    (record("R", n=8), "0 " + SHA3_224[40:]),
    (record("R", n=1), "6 a5"),
    (record("R", n=0), "0 "),
    (record("D"), run_line(1, 3, 28, 1, 28, *SHA3_CLOSED)),
    (field(6, (1 << 64) - 1), "set"),
    (record("R", n=0), "5 "),
    (field(6, 1), "set"),
    (record("R", n=0), "0 "),
    # no SHA3-224 run has read 29 bytes
    (field(2, 29), "set"),
    (field(3, 29), "set"),
    (record("R", n=0), "5 "),
    # but one of SHAKE128 has; a block of it ends after 168 bytes
    (record("N", b"\x09"), "fresh"),
    (record("F"), "0"),
    (record("R", n=29), "0 " + reference.shake(128, b"", 29).hex()),
    (record("R", n=200), "0 " + reference.shake(128, b"", 229)[29:].hex()),
    (record("D"), run_line(1, 0, 229, 2, 229 - 168, *SHAKE_NEXT)),
    # each in one go, a digest's first bytes, one byte more than it has, and none
    *((fips_one_go(number, bits // 8, MESSAGE), "0 " + reference.sha3(bits, MESSAGE).hex()) for number, bits in SHA3_NUMBERS.items()),
    *((fips_one_go(number, 200, MESSAGE), "0 " + reference.shake(strength, MESSAGE, 200).hex()) for number, strength in SHAKE_NUMBERS.items()),
    (fips_one_go(8, 5, b"abc"), "0 " + reference.sha3(512, b"abc").hex()[:10]),
    (fips_one_go(7, 49, b"abc"), "6 " + 49 * "a5"),
    (fips_one_go(6, 0, b"abc"), "7 "),
    (fips_one_go(10, 0, b"abc"), "7 "),
    # one byte less than a block, so that 06 and 80 share a byte, and a full block
    (fips_one_go(8, 64, MESSAGE[:71]), "0 " + reference.sha3(512, MESSAGE[:71]).hex()),
    (fips_one_go(8, 64, MESSAGE[:72]), "0 " + reference.sha3(512, MESSAGE[:72]).hex()),
    # the last rounds of 24, and one too many
    *((rounds(number, STATE), "0 " + permuted(number, STATE).hex()) for number in (0, 1, 12, 23, 24)),
    (rounds(24, bytes(200)), "0 " + permuted(24, bytes(200)).hex()),
    (rounds(25, STATE), "16 " + STATE.hex()),
    (rounds(255, bytes(200)), "16 " + bytes(200).hex()),
    # the same rounds undone, of a state that no round made and of one that they made
    *((rounds(number, STATE, "I"), "0 " + undone(number, STATE).hex()) for number in (0, 1, 12, 23, 24)),
    *((rounds(number, permuted(number, STATE), "I"), "0 " + STATE.hex()) for number in (1, 12, 24)),
    (rounds(12, undone(12, STATE)), "0 " + STATE.hex()),
    (rounds(24, bytes(200), "I"), "0 " + undone(24, bytes(200)).hex()),
    (rounds(25, STATE, "I"), "16 " + STATE.hex()),
    (rounds(255, bytes(200), "I"), "16 " + bytes(200).hex()),
    *sp800_185_sample.SAMPLE,
    *lent_sample.SAMPLE,
    (record("Z"), "bad record"),
    # nothing is answered after that
    (record("N", b"\0"), None),
]


def stdin():
    return b"".join(data for data, _ in SAMPLE)


def stdout():
    return "".join(line + "\n" for _, line in SAMPLE if line is not None)


if __name__ == "__main__":
    (CRATE / "stdin").write_bytes(stdin())
    (CRATE / "stdout").write_text(stdout())
