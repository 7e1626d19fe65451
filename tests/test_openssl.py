"""The program `replay` and the second program give what openssl's KMAC gives: an outside program, on 200 random inputs.

Needs crates/replay/out/replay, which `rt ci` leaves, and openssl from version 3 on (Debian's package openssl). Where that is not installed
the test is skipped, and says so.
"""
import random
import re
import shutil
import subprocess
import unittest

from replay import SEED, Held
from sp800_185 import KEYED, KMACXOF
from started_calls import started_record
from started_lists import before_custom, before_first, fitting

INPUTS = 200
KEY_SIZES, CUSTOM_SIZES = range(4, 513), range(513)  # that openssl takes


def openssl(*words, data=b""):
    return subprocess.run(["openssl", *words], input=data, stdout=subprocess.PIPE, check=True, timeout=60).stdout.decode()


def is_installed():
    if not shutil.which("openssl"):
        return False
    found = re.match(r"OpenSSL (\d+)\.", openssl("version"))
    return bool(found) and int(found[1]) >= 3 and "KMAC128" in openssl("list", "-mac-algorithms")


def kmac(number, key, custom, message, size):
    words = [f"hexkey:{key.hex()}", f"size:{size}"]
    words += [f"hexcustom:{custom.hex()}"] if custom else []
    words += ["xof:1"] if number in KMACXOF else []
    options = [word for option in words for word in ("-macopt", option)]
    return bytes.fromhex(openssl("mac", *options, f"KMAC{KEYED[number].strength}", data=message).strip())


@unittest.skipUnless(is_installed(), "openssl 3 is not installed: its KMAC is not compared")
class Openssl(Held):
    def sizes(self, source, number):
        """Of the key, S, the message and the output: some, and such as end a block of their bytepad, or around it."""
        rate = KEYED[number].rate
        near = source.choice((-1, 0, 1))
        fits = [fitting(rate, before, source.choice((1, 2))) + near for before in (before_first(number), before_custom(number, b""))]
        key = source.choice((fits[0], source.choice(KEY_SIZES), source.choice((4, 31, 32, 33, 255, 256, 257, 512))))
        custom = source.choice((fits[1], source.choice(CUSTOM_SIZES), source.choice((0, 1, 31, 32, 33, 255, 256, 257, 512))))
        block = rate * source.choice((1, 2))
        message = source.choice((0, 1, block + near, block - source.randrange(6), source.randrange(1000)))
        return key, custom, message, source.choice((1, 31, 32, 33, block + near, source.randrange(1, 500)))

    def test_random_inputs(self):
        source, due = random.Random(SEED), []
        for n in range(INPUTS):
            number = list(KEYED)[n % len(KEYED)]
            *sizes, size = self.sizes(source, number)
            key, custom, message = map(source.randbytes, sizes)
            value = kmac(number, key, custom, message, size)
            self.assertEqual(KEYED[number].output(key, custom, message, size, size), value, (number, *sizes, size))
            due.append((started_record(number, key, custom, size, message), f"0 {value.hex()}"))
        self.hold_lines(due)


if __name__ == "__main__":
    unittest.main()
