"""The number of permutations of a run by request Q-10, from lengths alone and in its own words.

This is what answer 5 asks of a run's phase and totals (model_run.py). Runs and books count while they hash; test_permutation_count.py holds
that counting to the numbers here.
"""
from reference import CHUNK, length_encode

FIRST_CHUNK_END = 8  # the bytes between S_0 and the first chaining value
FINAL_NODE_END = 2  # FF FF


def ceil_of(total, size):
    return -(-total // size)


def further(rate, total):
    """Of blocks after the first, fed or read: one is begun, and the one before it permuted, when its first byte comes."""
    return ceil_of(total, rate) - 1 if total else 0


def sponge_open(rate, fed):
    """A full block is permuted when its next byte arrives."""
    return further(rate, fed)


def sponge_closed(rate, fed, read):
    """ceil((m + 1) / rate) at the close, plus ceil(L / rate) - 1, or plus 0 when L is 0."""
    return ceil_of(fed + 1, rate) + further(rate, read)


def kt_open(rate, chaining, merged, chunk=CHUNK):
    """After so many bytes of S. A finished leaf is closed when the next chunk's first byte arrives."""
    chunks = ceil_of(merged, chunk)
    if chunks <= 1:
        return sponge_open(rate, merged)
    closed = chunks - 2  # neither S_0 nor the leaf in hand
    leaves = closed * sponge_closed(rate, chunk, chaining) + sponge_open(rate, merged - (chunks - 1) * chunk)
    return leaves + sponge_open(rate, chunk + FIRST_CHUNK_END + closed * chaining)


def kt_closed(rate, chaining, merged, read, chunk=CHUNK):
    """Of S of so many bytes, with so many read."""
    chunks = ceil_of(merged, chunk)
    if chunks == 1:
        return sponge_closed(rate, merged, read)
    leaves = (chunks - 2) * sponge_closed(rate, chunk, chaining) + sponge_closed(rate, merged - (chunks - 1) * chunk, chaining)
    node = chunk + FIRST_CHUNK_END + (chunks - 1) * chaining + len(length_encode(chunks - 1)) + FINAL_NODE_END
    return leaves + sponge_closed(rate, node, read)
