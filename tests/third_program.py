"""FIPS 202's functions by Python's hashlib, whose code is neither the library's nor the second program's."""
import hashlib


def output(function, message, size):
    """The first bytes, of SHA3 at most the digest's. hashlib's names are sha3_224, .., shake_256."""
    if function.digest is not None:
        return hashlib.new(function.name.lower().replace("-", "_"), message).digest()[:size]
    return hashlib.new(function.name.lower().replace("shake", "shake_"), message).digest(size)


def sizes(source, rate):
    """Lengths of messages: around the ends of the first two blocks, and some longer ones."""
    edges = (0, 1, *range(rate - 2, rate + 2), *range(2 * rate - 1, 2 * rate + 2))
    return *edges, *(source.randrange(3 * rate, 12 * rate) for _ in range(4))
