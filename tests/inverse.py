"""The second program's inverse of Keccak-p[1600]: the last n rounds undone, each step map by itself.

Written from FIPS 202 (sections 3.2 and 3.3), never from the Rattle sources. No formula of an inverse is used: theta's equations are solved, and
the other maps are tables read the other way. Standard library only.
"""
import itertools

from reference import CONSTANTS, OFFSETS, SOURCES, rotl

COLUMNS = 5 * 64


def column(x, z):
    """The number of column (x, z), whose parity is that bit of the parities as one number: 64 bits for each x."""
    return 64 * (x % 5) + z % 64


def solved():
    """Theta's equations, solved for the parities before it: for each of them the set, as bits, of parities after it that add up to it.

    By Algorithm 1, D[x, z] = C[x - 1, z] + C[x + 1, z - 1] is added to each of the five bits of column (x, z), so that its parity becomes
    C[x, z] + C[x - 1, z] + C[x + 1, z - 1]. Gaussian elimination: an equation has its unknowns below bit 320, and what it equals from there on.
    """
    rows = [
        1 << column(x, z) | 1 << column(x - 1, z) | 1 << column(x + 1, z - 1) | 1 << COLUMNS + column(x, z)
        for x in range(5)
        for z in range(64)
    ]
    for i in range(COLUMNS):
        pivot = next(j for j in range(i, COLUMNS) if rows[j] >> i & 1)
        rows[i], rows[pivot] = rows[pivot], rows[i]
        rows = [row ^ rows[i] if row >> i & 1 and j != i else row for j, row in enumerate(rows)]
    return [row >> COLUMNS for row in rows]


def chi_of(row):
    """Algorithm 4, on the five bits of a row."""
    return tuple(row[x] ^ ((row[(x + 1) % 5] ^ 1) & row[(x + 2) % 5]) for x in range(5))


def digits(row):
    return tuple(map(str, row))


PARITIES = solved()
ROWS = {digits(chi_of(row)): digits(row) for row in itertools.product((0, 1), repeat=5)}


def theta_undone(a):
    after = sum((a[x] ^ a[x + 5] ^ a[x + 10] ^ a[x + 15] ^ a[x + 20]) << 64 * x for x in range(5))
    before = [(after & needed).bit_count() & 1 for needed in PARITIES]
    c = [sum(before[column(x, z)] << z for z in range(64)) for x in range(5)]
    return [v ^ c[(i - 1) % 5] ^ rotl(c[(i + 1) % 5], 1) for i, v in enumerate(a)]


def rho_pi_undone(a):
    """Each lane goes back to the place that it came from, and is rotated by what is left of 64."""
    before = [None] * 25
    for v, source in zip(a, SOURCES):
        before[source] = rotl(v, 64 - OFFSETS[source])
    return before


def chi_undone(a):
    before = []
    for y in range(5):
        rows = zip(*(f"{v:064b}" for v in a[5 * y : 5 * y + 5]))
        before += [int("".join(lane), 2) for lane in zip(*(ROWS[row] for row in rows))]
    return before


def round_undone(a, constant):
    return theta_undone(rho_pi_undone(chi_undone([a[0] ^ constant, *a[1:]])))


def keccak_p_undone(lanes, rounds):
    """The lanes of which Keccak-p[1600, rounds] makes these."""
    a = list(lanes)
    for constant in reversed(CONSTANTS[24 - rounds :]):
        a = round_undone(a, constant)
    return a
