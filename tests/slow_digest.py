#!/usr/bin/env python3
"""The longest input that the program `digest` takes, 17,179,869,183 bytes, and one byte more; by hand, as it takes minutes.

  slow_digest.py                    the line is the one that bench/kt128sum.rs, KT128 in ordinary Rust, writes for the same bytes
  slow_digest.py Slow.by_python     the line is the second program's too, which takes some minutes more

Needs crates/digest/out/digest, which `rt ci` leaves, and rustc.
"""
import subprocess
import tempfile
import unittest
from pathlib import Path

import reference
import test_digest
from transcript import Limits

LIMIT = Limits.ABSORB_LIMIT
SOURCE = Path(__file__).resolve().parent.parent / "bench/kt128sum.rs"


class Slow(test_digest.Piped):
    SECONDS = 1800

    @classmethod
    def setUpClass(cls):
        folder = tempfile.TemporaryDirectory()
        cls.addClassCleanup(folder.cleanup)
        program = str(Path(folder.name) / "kt128sum")
        subprocess.run(["rustc", "--edition", "2021", "-O", "-o", program, str(SOURCE)], check=True)
        cls.rust = (program,)

    def test_rust_program(self):
        """It writes what the second program says, for inputs of few chunks and for one that 32 bits do not count."""
        for size in (0, 1, 17**3, 8190, 8191, 8192, 8193, 16_383, 16_384, 16_385, 100_000):
            with self.subTest(size=size):
                self.assertEqual(self.from_pipe(test_digest.pattern_to(size), self.rust), test_digest.line_of(reference.ptn(size)))
        pieces = [reference.ptn(size) for size in (1, 7, 8191, 8192, 8193, 1, 5000, 65_536, 3)]
        self.assertEqual(self.from_pipe(test_digest.pieces_to(pieces, 0.01), self.rust), test_digest.line_of(b"".join(pieces)))
        long = test_digest.LONG
        self.assertEqual(self.from_pipe(test_digest.pattern_to(long), self.rust), test_digest.long_line(long))

    def test_longest(self):
        feed = test_digest.pattern_to(LIMIT)
        line = self.from_pipe(feed)
        self.assertEqual(line, self.from_pipe(feed, self.rust))
        self.assertRegex(line, r"\A[0-9a-f]{64}\n\Z")

    def test_too_long(self):
        self.assertEqual(self.from_pipe(test_digest.pattern_to(LIMIT + 1)), "too long\n")

    def by_python(self):
        """The final node has 67 MB, of which Python takes 168 bytes in 0.3 ms."""
        self.assertEqual(self.from_pipe(test_digest.pattern_to(LIMIT)), test_digest.long_line(LIMIT))


if __name__ == "__main__":
    unittest.main(verbosity=2)
