"""The functions of SP 800-185 by their numbers: what request Q-14 says of each.

A run of one begins with a start, which takes two strings: N or the key, called `first` here, and S, called `custom`. What a start puts before
the message, whole blocks, is its prefix.
"""
from typing import NamedTuple

import reference

SHAKE_BYTE, CSHAKE_BYTE = 0x1F, 0x04
NAME = b"KMAC"  # the N of KMAC


class Started(NamedTuple):
    name: str
    rate: int
    blocks: range  # how many the prefixes have of the starts within the limits; cSHAKE with both strings empty has none, and is not counted here

    rounds = 24
    digest = None  # none of these has one
    is_keyed = False  # whether it starts with a key, not with N
    has_bit = False  # whether its run has the bit that says SHAKE
    has_length = False  # whether its close fixes the output length

    @property
    def strength(self):
        return 4 * (200 - self.rate)

    def tail(self, length):
        """What the close puts after the message, by the output length that it fixes."""
        return b""


class Cshake(Started):
    has_bit = True

    def prefix(self, first, custom):
        return reference.cshake_prefix(self.rate, first, custom)

    def output(self, first, custom, message, length, size):
        """The first bytes of the output. Those of plain KMAC are of so long an output; the others have no such length."""
        return reference.cshake(self.strength, message, size, first, custom)


class Kmacxof(Started):
    is_keyed = True

    def told(self, length):
        return 0

    def prefix(self, first, custom):
        return reference.cshake_prefix(self.rate, NAME, custom) + reference.bytepad(reference.encode_string(first), self.rate)

    def tail(self, length):
        return reference.right_encode(self.told(length))

    def output(self, first, custom, message, length, size):
        return reference.cshake(self.strength, reference.kmac_message(self.rate, first, message, self.told(length)), size, NAME, custom)


class Kmac(Kmacxof):
    has_length = True

    def told(self, length):
        return 8 * length


CSHAKE = {11: Cshake("cSHAKE128", 168, range(1, 199_729 + 1)), 12: Cshake("cSHAKE256", 136, range(1, 246_724 + 1))}
KMAC_BLOCKS = {168: range(2, 99_865 + 102_261_127 + 1), 136: range(2, 123_362 + 126_322_568 + 1)}  # of "KMAC" and S, and of the key
KMAC = {13: Kmac("KMAC128", 168, KMAC_BLOCKS[168]), 14: Kmac("KMAC256", 136, KMAC_BLOCKS[136])}
KMACXOF = {15: Kmacxof("KMACXOF128", 168, KMAC_BLOCKS[168]), 16: Kmacxof("KMACXOF256", 136, KMAC_BLOCKS[136])}
KEYED = KMAC | KMACXOF
STARTED = CSHAKE | KEYED
SHAKES = {11: 9, 12: 10}  # the number of the SHAKE that each cSHAKE is, with both strings empty
