"""Random lists of calls on runs that begin with a start, and what the tests of such runs share."""
import random

import sponge_lists
from reference import encode_string, left_encode
from replay import ABSORBED, LANES, OUTPUT_LENGTH, PERMUTATIONS, PHASE, POSITION, SEED, SHAKE_BIT, SQUEEZED
from sp800_185 import CSHAKE, KMAC, NAME, STARTED
from sponge_functions import SPONGE, TURBOSHAKE
from sponge_lists import BIG, LIMIT, length
from transcript import ABSORBING, Limits

READ_LIMIT = Limits.SQUEEZE_LIMIT
LENGTHS = 0, 1, 31, 32, 33, 255, 256, 257, 8191, 8192, 8193  # of strings: bit lengths of one, two and three bytes, and both sides of each
# Output lengths whose number of bits has one to five bytes; those that the close refuses, by 6 and by 7. Eight times the last three are 0, 32 and
# 64, if but 64 bits are kept.
OUTPUTS = 1, 31, 32, 33, 8191, 8192, 2_097_151, 2_097_152, 536_870_911, 536_870_912, READ_LIMIT - 1, READ_LIMIT
BAD_OUTPUTS = 0, READ_LIMIT + 1, READ_LIMIT + 33, BIG, 1 << 63, 1 << 61, (1 << 61) + 4, (1 << 62) + 8
# A string is a piece of this, from one of few places: the states after its blocks are then worked out once, and kept.
STREAM = random.Random(SEED).randbytes(20_000)


def string_of(size, place=0):
    return STREAM[1000 * place : 1000 * place + size]


def fitting(rate, before, blocks):
    """The length of a string that ends so many blocks, where its encoding follows so many bytes."""
    return next(size for size in range(blocks * rate) if before + len(encode_string(bytes(size))) == blocks * rate)


def before_first(number):
    """The bytes of a bytepad before the encoding of N or of the key."""
    return len(left_encode(STARTED[number].rate))


def before_custom(number, first):
    """Those before the encoding of S."""
    return before_first(number) + len(encode_string(NAME if STARTED[number].is_keyed else first))


def string(source, rate, before):
    """Empty, of a length from the list, some, or one that ends a block of its bytepad, or one byte off."""
    kind = source.randrange(100)
    if kind < 30:
        size = 0
    elif kind < 55:
        size = source.choice(LENGTHS[1:6])
    elif kind < 70:
        size = source.randrange(1, 400)
    elif kind < 99:
        size = fitting(rate, before, source.choice((1, 1, 1, 2, 3)) if before < rate - 40 else 4) + source.choice((-1, 0, 1))
    else:
        size = source.choice(LENGTHS[5:])
    return string_of(size, source.randrange(4))


def strings(source, number):
    """N or the key, and S; of cSHAKE both are often empty."""
    if number in CSHAKE and source.randrange(4) == 0:
        return b"", b""
    rate = STARTED[number].rate
    first = string(source, rate, before_first(number))
    return first, string(source, rate, before_custom(number, first) % rate)


def start(source, calls):
    number = source.choice(list(STARTED))
    calls.start(number, *strings(source, number))


def output_length(source, calls):
    """What the close of plain KMAC is asked, and no other: often one of a few blocks, so that its end is read."""
    if calls.function in KMAC:
        rate = calls.rate
        some = rate * source.randrange(1, 4) + source.choice((-1, 0, 1))
        return source.choice((source.choice(OUTPUTS), source.randrange(1, 600), some, some))


def bad_output_length(source, calls):
    if calls.function in KMAC:
        return source.choice((0, source.choice(BAD_OUTPUTS), source.randrange(READ_LIMIT + 1, BIG)))


def close(source, calls):
    calls.finalize(output_length(source, calls))


def asked(source, run):
    """A length for a squeeze: of plain KMAC often one that comes to the end of the output, one less or one more."""
    some = length(source, run.rate, run.squeezed)
    left = run.most_read() - run.squeezed
    return source.choice((some, some, max(0, left - 1), left, left + 1)) if 0 <= left < 700 else some


def one_go(source, calls):
    number = source.choice(list(STARTED))
    rate = STARTED[number].rate
    message = source.randbytes(length(source, rate, 0))
    size = source.choice((0, length(source, rate, 0), length(source, rate, 0), source.choice((1, 31, 32, 33))))
    calls.started_one_go(number, *strings(source, number), message, size)


def absorbing(source, calls):
    """One call, seldom one that the phase or the output length refuses."""
    kind = source.randrange(100)
    if kind < 80:
        calls.absorb(source.randbytes(length(source, calls.rate, calls.run.absorbed)))
    elif kind < 87 or (kind < 97 and calls.function not in KMAC):
        calls.squeeze(source.choice((0, 1, 32, source.randrange(400))))
    elif kind < 97:
        calls.finalize(bad_output_length(source, calls))
    else:
        one_go(source, calls)


def squeezing(source, calls):
    kind = source.randrange(100)
    if kind < 85:
        calls.squeeze(asked(source, calls.run))
    elif kind < 91:
        calls.absorb(source.randbytes(source.choice((0, 1, source.randrange(400)))))
    elif kind < 97:
        calls.finalize(source.choice((output_length, bad_output_length))(source, calls))
    else:
        one_go(source, calls)


def reached_list(source, calls):
    """A list from a start, never overwritten."""
    start(source, calls)
    sponge_lists.many(source, calls, absorbing)
    if source.randrange(20):
        close(source, calls)
        sponge_lists.many(source, calls, squeezing)


def small_list(source, calls):
    """Many small pieces and many small squeezes."""
    start(source, calls)
    for _ in range(60):
        calls.absorb(source.randbytes(source.randrange(8)))
    close(source, calls)
    for _ in range(60):
        calls.squeeze(source.randrange(6))


def other_list(source, calls):
    """A short list of the functions that are the sponge: the fields of a run are those of its function."""
    number = source.choice(list(SPONGE))
    calls.fresh(number)
    calls.absorb(source.randbytes(source.randrange(300)))
    calls.finalize(0x1F if number in TURBOSHAKE else None)
    calls.squeeze(28)


def write_length(source, calls):
    """The output length where the run has one; seldom one that is not of its phase."""
    if calls.function in KMAC:
        right = 0 if calls.run.phase == ABSORBING else output_length(source, calls)
        wrong = source.choice((0, 1, READ_LIMIT, READ_LIMIT + 1, BIG))
        calls.set(OUTPUT_LENGTH, right if source.randrange(9) else wrong)


def write_count(source, calls, seldom=9):
    """The permutations after a prefix of some blocks; once in so many times a number that no prefix gives."""
    run = calls.run
    blocks = run.blocks_due()
    due = run.counts_due()
    wrong = (due[0] - 1, due[-1] + 1, due[-1] + 2, 0, BIG, due[0] ^ 1 << 32, source.getrandbits(64))
    right = run.permutations_after(source.choice((blocks[0], blocks[-1], source.choice(blocks))))
    calls.set(PERMUTATIONS, (right if source.randrange(seldom) else source.choice(wrong)) & BIG)


def write_position(source, calls, seldom=9):
    rate, (right,) = calls.rate, calls.run.positions_due()
    wrong = (right + 1, abs(right - 1), 0, rate, rate - right, rate + 1, 200, BIG, source.getrandbits(64))
    calls.set(POSITION, right if source.randrange(seldom) else source.choice(wrong))


def overwrite(source, calls):
    """Writes the fields, often so that answer 5 lets them pass, and some lanes."""
    calls.set(PHASE, source.choice((0, 0, 0, 0, 1, 1, 1, 1, 2, source.randrange(256))))
    if calls.function in CSHAKE:
        calls.set(SHAKE_BIT, source.randrange(2))
    calls.set(ABSORBED, source.choice((sponge_lists.total(source, calls.rate, LIMIT), LIMIT - source.randrange(300))))
    write_length(source, calls)
    most = min(max(1, calls.run.most_read()), READ_LIMIT)
    calls.set(SQUEEZED, 0 if calls.run.phase == ABSORBING and source.randrange(8) else sponge_lists.total(source, calls.rate, most))
    write_position(source, calls)
    write_count(source, calls)
    for lane in source.sample(range(25), source.choice((0, 1, 25))):
        calls.set(LANES + lane, source.getrandbits(64))


def overwritten_call(source, calls):
    """A call on such a run: one that just reaches the limit, one that passes it, or any other."""
    run = calls.run
    left = LIMIT - run.absorbed if run.phase == ABSORBING else run.most_read() - run.squeezed
    size = length(source, calls.rate, run.node.position)
    kind = source.randrange(10)
    if 0 <= left < 1000 and source.randrange(3):
        size = left + source.choice((0, 0, 1, 1, 2, 600))
        kind = 9 if run.phase else 5
    if kind < 2:
        calls.finalize(source.choice((output_length, bad_output_length))(source, calls))
    elif kind < 6:
        calls.absorb(source.randbytes(size))
    else:
        calls.squeeze(size)


def overwritten_list(source, calls):
    start(source, calls)
    if source.randrange(3) == 0:
        calls.absorb(source.randbytes(length(source, calls.rate, 0)))
    if source.randrange(3) == 0:
        close(source, calls)
    for _ in range(source.randrange(1, 4)):
        overwrite(source, calls)
        for _ in range(source.randrange(2, 7)):
            overwritten_call(source, calls)


KINDS = {reached_list: 24, overwritten_list: 34, small_list: 1, other_list: 4, one_go: 25}  # how often each comes


def made(source, calls, count):
    """Lists with `count` calls or somewhat more."""
    while calls.answers.total() < count:
        source.choices(list(KINDS), KINDS.values())[0](source, calls)
