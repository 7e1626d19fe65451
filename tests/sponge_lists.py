"""Random lists of calls on runs of the functions that are the sponge, and what the tests of such runs share."""
from model_run import position_after
from replay import ABSORBED, LANES, PERMUTATIONS, PHASE, POSITION, SQUEEZED
from sponge_functions import SPONGE, TURBOSHAKE
from transcript import ABSORBING, Limits, read_limit

LIMIT = Limits.ABSORB_LIMIT
BIG = (1 << 64) - 1
BAD_DOMAINS = (0x00, 0x80, 0x81, 0x9F, 0xFF)
NUMBERS = tuple(SPONGE)


def length(source, rate, total):
    """A length for a piece or a squeeze: none, some, or one after which `total` is at, one before or one past a multiple of the rate."""
    kind = source.randrange(100)
    if kind < 8:
        return 0
    if kind < 35:
        return source.randrange(1, 9)
    if kind < 60:
        return source.randrange(1, 601)
    if kind < 99:
        return max(0, -total % rate + rate * source.choice((0, 0, 0, 1, 2)) + source.choice((-1, 0, 1)))
    return source.randrange(1000, 4000)


def asked(source, number, total):
    """A length for a squeeze: of SHA3 often one after which `total` is at, one before or one past the digest's end, or before it."""
    function = SPONGE[number]
    some = length(source, function.rate, total)
    if function.digest is None:
        return some
    left = max(0, function.digest - total)
    return source.choice((some, 0, 1, source.randrange(1, 9), source.randrange(1, function.digest + 1), max(0, left - 1), left, left + 1))


def cut(source, rate, data):
    """The data in pieces, some of which are empty; many end around the end of a block."""
    at = 0
    while at < len(data):
        size = length(source, rate, at)
        yield data[at : at + size]
        at += size


def domain(source):
    return source.choice((0x01, 0x1F, 0x7F, source.randrange(0x01, 0x80)))


def bad_domain(source):
    return source.choice((*BAD_DOMAINS, source.randrange(0x80, 0x100)))


def closing(source, number, *kinds):
    """A domain byte of one of these kinds, for a function that has one."""
    return source.choice(kinds or (domain,))(source) if number in TURBOSHAKE else None


def one_go(source, calls):
    """A call that needs no run: a hash, of any function, or seldom some rounds."""
    if source.randrange(12) == 0:
        calls.permute(source.choice((12, 24, 25, source.randrange(256))), source.randbytes(200))
    number = source.choice(NUMBERS)
    message = source.randbytes(length(source, SPONGE[number].rate, 0))
    last = closing(source, number, bad_domain if source.randrange(5) == 0 else domain)
    calls.one_go(number, message, last, 0 if source.randrange(5) == 0 else asked(source, number, 0))


def absorbing(source, calls):
    """One call, seldom one that the phase or the domain byte refuses."""
    kind = source.randrange(100)
    if kind < 85:
        calls.absorb(source.randbytes(length(source, calls.rate, calls.run.absorbed)))
    elif kind < 91 or (kind < 97 and calls.function not in TURBOSHAKE):
        calls.squeeze(source.choice((0, 1, 32, source.randrange(400))))
    elif kind < 97:
        calls.finalize(bad_domain(source))
    else:
        one_go(source, calls)


def squeezing(source, calls):
    kind = source.randrange(100)
    if kind < 85:
        calls.squeeze(asked(source, calls.function, calls.run.squeezed))
    elif kind < 91:
        calls.absorb(source.randbytes(source.choice((0, 1, source.randrange(400)))))
    elif kind < 97:
        calls.finalize(closing(source, calls.function, domain, bad_domain))
    else:
        one_go(source, calls)


def many(source, calls, step):
    """Some calls, and seldom a fresh run that is given the fields of the one in hand."""
    for _ in range(source.choice((0, 1, 2, 5, 10, 20))):
        step(source, calls)
        if source.randrange(60) == 0:
            calls.rebuild(lambda fields: source.sample(fields, len(fields)))
            calls.dump()


def reached_list(source, calls):
    """A list from a fresh run, never overwritten."""
    calls.fresh(source.choice(NUMBERS))
    calls.dump()
    many(source, calls, absorbing)
    if source.randrange(20):
        calls.finalize(closing(source, calls.function))
        many(source, calls, squeezing)


def small_list(source, calls):
    """Many small pieces and many small squeezes."""
    calls.fresh(source.choice(NUMBERS))
    for _ in range(100):
        calls.absorb(source.randbytes(source.randrange(8)))
    calls.finalize(closing(source, calls.function))
    for _ in range(100):
        calls.squeeze(source.randrange(6))


def total(source, rate, limit):
    """A number of bytes absorbed or squeezed, seldom one past the limit."""
    near = source.choice((0, 1, source.randrange(min(700, limit))))
    inside = (0, near, rate, limit, limit - near, limit - rate, rate * source.randrange(1, 5))
    return source.choice((*(min(max(0, size), limit) for size in inside), limit + 1 + near, BIG - near))


def write_count(source, calls, seldom):
    """Writes the permutations that go with the phase and the totals; once in so many times a wrong number."""
    right = calls.run.permutations_due()
    wrong = ((right + 1) & BIG, (right - 1) & BIG, 0, BIG, right ^ 1 << 32, source.getrandbits(64))
    calls.set(PERMUTATIONS, right if source.randrange(seldom) else source.choice(wrong))


def overwrite(source, calls):
    """Writes the fields, often so that answer 5 lets them pass, and some lanes."""
    rate = calls.rate
    calls.set(PHASE, source.choice((0, 0, 0, 0, 1, 1, 1, 1, 2, source.randrange(256))))
    calls.set(ABSORBED, total(source, rate, LIMIT))
    most = read_limit(SPONGE[calls.function])
    squeezed = 0 if calls.run.phase == ABSORBING and source.randrange(8) else total(source, rate, most)
    calls.set(SQUEEZED, squeezed)
    right = position_after(rate, calls.run.absorbed if calls.run.phase == ABSORBING else squeezed)
    wrong = (right + 1, abs(right - 1), 0, rate, rate + 1, 200, BIG, source.getrandbits(64))
    calls.set(POSITION, right if source.randrange(9) else source.choice(wrong))
    write_count(source, calls, 9)
    for lane in source.sample(range(25), source.choice((0, 1, 25))):
        calls.set(LANES + lane, source.getrandbits(64))


def overwritten_call(source, calls):
    """A call on such a run: one that just reaches the limit, one that passes it, or any other."""
    run = calls.run
    left = LIMIT - run.absorbed if run.phase == ABSORBING else read_limit(SPONGE[calls.function]) - run.squeezed
    size = length(source, calls.rate, run.node.position)
    if 0 <= left < 1000 and source.randrange(2):
        size = left + source.choice((0, 0, 1, 1, 2, 600))
    kind = source.randrange(10)
    if kind == 0:
        calls.finalize(closing(source, calls.function, domain, bad_domain))
    elif kind < 6:
        calls.absorb(source.randbytes(size))
    else:
        calls.squeeze(size)


def overwritten_list(source, calls):
    calls.fresh(source.choice(NUMBERS))
    if source.randrange(3) == 0:
        calls.absorb(source.randbytes(length(source, calls.rate, 0)))
    if source.randrange(3) == 0:
        calls.finalize(closing(source, calls.function))
    for _ in range(source.randrange(1, 4)):
        overwrite(source, calls)
        for _ in range(source.randrange(2, 7)):
            overwritten_call(source, calls)


KINDS = {reached_list: 25, overwritten_list: 30, small_list: 1, one_go: 25}  # how often each comes


def made(source, calls, count):
    """Lists with `count` calls or somewhat more."""
    while calls.answers.total() < count:
        source.choices(list(KINDS), KINDS.values())[0](source, calls)
