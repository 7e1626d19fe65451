#!/usr/bin/env python3
"""The independent second program: Keccak-p[1600], TurboSHAKE, SHA-3, SHAKE, cSHAKE, KMAC, KangarooTwelve, HopMAC and a day's message in
Python, from the papers alone.

Written from FIPS 202 (sections 3.2 to 3.4, 5 and 6), SP 800-185 (sections 2.3, 3 and 4), draft-irtf-cfrg-kangarootwelve-16 (sections 2 to 4)
and request Q-1, never from the Rattle sources. Both tables are computed from the standard's own rules. Standard library only.

  reference.py permutation     what the program `permutation` writes
"""
import functools
import sys

MASK = (1 << 64) - 1
CHUNK = 8192


def offsets():
    """Algorithm 2: the rotation offset of lane (x, y), at x + 5 y."""
    table = [0] * 25
    x, y = 1, 0
    for t in range(24):
        table[x + 5 * y] = (t + 1) * (t + 2) // 2 % 64
        x, y = y, (2 * x + 3 * y) % 5
    return table


def rc(t):
    """Algorithm 5: the bit rc(t), by the shift register R."""
    if t % 255 == 0:
        return 1
    r = [1, 0, 0, 0, 0, 0, 0, 0]
    for _ in range(t % 255):
        r = [0] + r
        for i in (0, 4, 5, 6):
            r[i] ^= r[8]
        r = r[:8]
    return r[0]


def round_constant(i):
    """Algorithm 6, steps 2 and 3: RC of round i, for lanes of 2^6 bits."""
    return sum(rc(j + 7 * i) << (2**j - 1) for j in range(7))


OFFSETS = offsets()
CONSTANTS = [round_constant(i) for i in range(24)]
# pi: lane (x, y) comes from lane (x + 3 y, x), already rotated by that lane's offset.
SOURCES = [((x + 3 * y) % 5) + 5 * x for y in range(5) for x in range(5)]


def rotl(v, n):
    return (v << n | v >> (64 - n)) & MASK


def rounds_of(lanes, constants):
    """A round for each of these constants."""
    a = list(lanes)
    for constant in constants:
        c = [a[x] ^ a[x + 5] ^ a[x + 10] ^ a[x + 15] ^ a[x + 20] for x in range(5)]
        d = [c[x - 1] ^ rotl(c[(x + 1) % 5], 1) for x in range(5)]
        b = [rotl(a[i] ^ d[i % 5], OFFSETS[i]) for i in SOURCES]
        a = [b[i] ^ ((b[i - i % 5 + (i + 1) % 5] ^ MASK) & b[i - i % 5 + (i + 2) % 5]) for i in range(25)]
        a[0] ^= constant
    return a


def keccak_p(lanes, rounds):
    """Keccak-p[1600, rounds]: the last `rounds` of the 24 rounds of Keccak-f[1600]."""
    return rounds_of(lanes, CONSTANTS[24 - rounds :])


@functools.lru_cache(maxsize=1 << 15)  # the tests come to the same states in more than one way, and a permutation takes 0.3 ms
def permuted(lanes, rounds):
    return tuple(keccak_p(lanes, rounds))


def state_of(data):
    """200 bytes as 25 lanes: lane (x, y) is bytes 8 (x + 5 y) on, the least significant first."""
    return [int.from_bytes(data[8 * i : 8 * i + 8], "little") for i in range(25)]


def bytes_of(lanes):
    return b"".join(v.to_bytes(8, "little") for v in lanes)


def sponge(rounds, rate, message, last, length):
    """The message and the byte `last`, zeros to a multiple of the rate, 80 XORed into the last byte; blocks in, blocks out."""
    data = bytearray(message) + bytes([last])
    data += bytes(-len(data) % rate)
    data[-1] ^= 0x80
    state = (0,) * 25
    for at in range(0, len(data), rate):
        block = state_of(bytes(data[at : at + rate]).ljust(200, b"\0"))
        state = permuted(tuple(v ^ w for v, w in zip(state, block)), rounds)
    out = bytes_of(state)[:rate]
    while len(out) < length:
        state = permuted(state, rounds)
        out += bytes_of(state)[:rate]
    return out[:length]


def turboshake(rate, message, domain, length):
    """TurboSHAKE128 (rate 168) and TurboSHAKE256 (rate 136), section 2.2."""
    return sponge(12, rate, message, domain, length)


def keccak(capacity, message, suffix, length):
    """FIPS 202, section 5.2: KECCAK[c] on M and the bits of the suffix, of which the padding's first bit makes a whole byte.

    The capacity is in bits, and the rate what it leaves of 1600. The least significant bit of a byte comes first.
    """
    last = sum(int(bit) << i for i, bit in enumerate(suffix + "1"))
    return sponge(24, (1600 - capacity) // 8, message, last, length)


def sha3(bits, message):
    """FIPS 202, section 6.1: SHA3-224, 256, 384 and 512, by the digest's length in bits."""
    return keccak(2 * bits, message, "01", bits // 8)


def shake(strength, message, length):
    """FIPS 202, section 6.2: SHAKE128 and SHAKE256."""
    return keccak(2 * strength, message, "1111", length)


def least_bytes(x):
    """The bytes of x, the most significant first, as few as it has but at least one."""
    digits = bytes([x % 256])
    while x >= 256:
        x //= 256
        digits = bytes([x % 256]) + digits
    return digits


def left_encode(x):
    """SP 800-185, section 2.3.1: the bytes of x, and before them their number. Of 0: 01 00."""
    return bytes([len(least_bytes(x))]) + least_bytes(x)


def right_encode(x):
    """The same with the number after the bytes. Of 0: 00 01, where length_encode has 00 alone."""
    return least_bytes(x) + bytes([len(least_bytes(x))])


def encode_string(s):
    """Section 2.3.2: the length in bits, then the string."""
    return left_encode(8 * len(s)) + bytes(s)


def bytepad(x, w):
    """Section 2.3.3: w, then x, and zeros up to a multiple of w bytes; none where it is one."""
    padded = left_encode(w) + bytes(x)
    while len(padded) % w:
        padded += b"\0"
    return padded


def rate_of(strength):
    return 200 - 2 * strength // 8


def cshake_prefix(rate, name, custom):
    """What cSHAKE has before the message. It is none where N and S are both empty, for that is SHAKE."""
    return bytepad(encode_string(name) + encode_string(custom), rate) if name or custom else b""


def cshake(strength, message, length, name, custom):
    """Section 3.3: cSHAKE128 and cSHAKE256 of X, L, N and S."""
    if not name and not custom:
        return shake(strength, message, length)
    return keccak(2 * strength, cshake_prefix(rate_of(strength), name, custom) + bytes(message), "00", length)


def kmac_message(rate, key, message, told):
    """The message of KMAC's cSHAKE: the key, X, and the number of bits that is told of the output."""
    return bytepad(encode_string(key), rate) + bytes(message) + right_encode(told)


def kmac(strength, key, message, length, custom):
    """Section 4.3: KMAC128 and KMAC256 of K, X, L and S."""
    return cshake(strength, kmac_message(rate_of(strength), key, message, 8 * length), length, b"KMAC", custom)


def kmacxof(strength, key, message, length, custom):
    """Section 4.3.1: the same with 0 told, whatever the length."""
    return cshake(strength, kmac_message(rate_of(strength), key, message, 0), length, b"KMAC", custom)


def length_encode(x):
    """The draft, section 3.3: the bytes of x, the most significant first and no leading zero, then their number."""
    digits = b""
    while x > 0:
        digits = bytes([x % 256]) + digits
        x //= 256
    return digits + bytes([len(digits)])


def merged(message, custom):
    """Section 3.2: S."""
    return bytes(message) + bytes(custom) + length_encode(len(custom))


def chunks(s):
    """S_0 to S_(n-1)."""
    return [s[at : at + CHUNK] for at in range(0, len(s), CHUNK)]


@functools.lru_cache(maxsize=2048)  # the same chunks come again and again in the tests, 15 ms each
def chaining_value(rate, chaining, chunk):
    return turboshake(rate, chunk, 0x0B, chaining)


def final_node(rate, chaining, s):
    """The final node of S, and the domain byte that goes with it."""
    first, *rest = chunks(s)
    if not rest:
        return first, 0x07
    values = b"".join(chaining_value(rate, chaining, chunk) for chunk in rest)
    return first + b"\x03" + bytes(7) + values + length_encode(len(rest)) + b"\xff\xff", 0x06


def kangarootwelve(rate, chaining, message, custom, length):
    """KT128 (rate 168, chaining values of 32 bytes) and KT256 (136 and 64), sections 3.2 and 3.4."""
    return turboshake(rate, *final_node(rate, chaining, merged(message, custom)), length)


def kt128(message, custom, length):
    return kangarootwelve(168, 32, message, custom, length)


def kt256(message, custom, length):
    return kangarootwelve(136, 64, message, custom, length)


def hopmac(kt, inner, key, message, custom, length):
    """Section 4: the key stands as message, a digest of `inner` bytes of the message as customization string."""
    return kt(key, kt(message, custom, inner), length)


def hopmac128(key, message, custom, length):
    return hopmac(kt128, 32, key, message, custom, length)


def hopmac256(key, message, custom, length):
    return hopmac(kt256, 64, key, message, custom, length)


def with_length(event):
    """What an event adds to a day (request Q-1): its bytes, and length_encode of their number. An empty event adds 00."""
    return bytes(event) + length_encode(len(event))


def day_message(events):
    """Request Q-1: each event followed by length_encode of its length, in order."""
    return b"".join(map(with_length, events))


def ptn(n):
    """The draft's test pattern: 00 to FA, over and over, n bytes."""
    return (bytes(range(251)) * (n // 251 + 1))[:n]


def permutation_output():
    """What the program `permutation` writes: both states, a line for each y."""
    lines = []
    for heading, lanes in (("zero", [0] * 25), ("ptn(200)", state_of(ptn(200)))):
        after = keccak_p(lanes, 12)
        lines.append(heading)
        lines += [" ".join(f"{v:016x}" for v in after[5 * y : 5 * y + 5]) for y in range(5)]
    return "\n".join(lines) + "\n"


if __name__ == "__main__":
    if sys.argv[1:] != ["permutation"]:
        sys.exit(__doc__)
    sys.stdout.write(permutation_output())
