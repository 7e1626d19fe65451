#!/usr/bin/env python3
"""Runs every comparison of tests/ and ends with 'N passed, M failed'. Some run the programs that `rt ci` leaves, or read what these wrote: run it first.

Each file of tests is a process of its own, as many at a time as there are processors; its lines are printed once it has ended. A test that
was skipped, for what it needs is not installed, is neither passed nor failed; a line before the last one says which, and why.
"""
import io
import os
import sys
import unittest
from concurrent.futures import ProcessPoolExecutor
from pathlib import Path

FOLDER = Path(__file__).resolve().parent


class Counted(unittest.TextTestResult):
    """A test with a failed subtest counts as one that failed."""

    passed = 0

    def addSuccess(self, test):
        super().addSuccess(test)
        self.passed += 1

    def failed(self):
        return len({test.id().split(" ")[0] for test, _ in self.failures + self.errors}) + len(self.unexpectedSuccesses)


def run(name):
    """What the tests of one file print, how many passed and how many failed, and which were skipped."""
    lines = io.StringIO()
    suite = unittest.defaultTestLoader.discover(str(FOLDER), pattern=name)
    result = unittest.TextTestRunner(stream=lines, verbosity=2, resultclass=Counted).run(suite)
    return lines.getvalue(), result.passed, result.failed(), [f"{test.id()}: {why}" for test, why in result.skipped]


if __name__ == "__main__":
    # the longest first
    names = sorted((path.name for path in FOLDER.glob("test_*.py")), key=lambda name: (name not in ("test_digest.py", "test_must_fail.py"), name))
    passed, failed, skipped = 0, 0, []
    with ProcessPoolExecutor(os.cpu_count()) as pool:
        for name, (lines, good, bad, not_run) in zip(names, pool.map(run, names)):
            print(f"-- {name}\n{lines}", flush=True)
            # a file of which nothing was found counts as one that failed
            passed, failed, skipped = passed + good, failed + (bad if good or not_run else max(1, bad)), skipped + not_run
    for test in skipped:
        print(f"skipped: {test}")
    print(f"{passed} passed, {failed} failed")
    sys.exit(1 if failed or not passed else 0)
