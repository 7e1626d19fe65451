"""What the tests of records that do not fit share: the program `replay` writes the line `bad record`, and nothing of what follows."""
import unittest

from replay import MOST, play, record

BIG = (1 << 64) - 1
FAR = MOST + 1, 1 << 24, (1 << 32) - 1  # more than the buffers hold
PAST = 9, MOST - 13, MOST, (1 << 31) + 3, (1 << 32) - 13, (1 << 32) - 4, *FAR  # more than the rest of a short payload


class Refused(unittest.TestCase):
    def refused(self, before, data):
        """`before` is a list of records with their lines; nothing after `data` may be answered."""
        records = b"".join(r for r, _ in before) + data
        lines, status = play(records)
        self.assertEqual(lines, [line for _, line in before] + ["bad record"], data[:40])
        self.assertGreaterEqual(status, 0, "ended by a signal")

    def refused_in_a_list(self, data, function=0):
        """With a run in hand, and with records after it that would be answered."""
        run = [(record("N", bytes([function])), "fresh"), (record("A", b"abc"), "0")]
        self.refused(run, data + 3 * record("A", b"abc") + record("N", b"\1"))
