"""The functions that are the sponge alone, by their numbers: what documents 01 and 02 say of each."""
from typing import NamedTuple, Optional

import reference


class Function(NamedTuple):
    name: str
    rate: int
    rounds: int
    last: Optional[int] = None  # the byte after the message; None where a call gives it, TurboSHAKE's D
    digest: Optional[int] = None  # the length of SHA3's digest, the most that is read of it; None where there is no digest

    def byte_after(self, domain):
        """The byte after the message: the function's own, or the one that the call gives."""
        return domain if self.last is None else self.last

    def output(self, message, domain, size):
        return reference.sponge(self.rounds, self.rate, message, self.byte_after(domain), size)


TURBOSHAKE = {0: Function("TurboSHAKE128", 168, 12), 1: Function("TurboSHAKE256", 136, 12)}
SHA3 = {
    5: Function("SHA3-224", 144, 24, 0x06, 28),
    6: Function("SHA3-256", 136, 24, 0x06, 32),
    7: Function("SHA3-384", 104, 24, 0x06, 48),
    8: Function("SHA3-512", 72, 24, 0x06, 64),
}
SHAKE = {9: Function("SHAKE128", 168, 24, 0x1F), 10: Function("SHAKE256", 136, 24, 0x1F)}
FIPS202 = SHA3 | SHAKE
SPONGE = TURBOSHAKE | FIPS202
