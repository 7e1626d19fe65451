"""The two ways to say what a list of calls answers agree."""
import random
import unittest

import model_run
import reference
from short_runs import CUSTOM_LIMIT, ShortDayRun, ShortDayTranscript, ShortKtRun, ShortKtTranscript, ShortRun, ShortTranscript, fields
from sponge_functions import SPONGE, TURBOSHAKE
from transcript import DAY, KT


class Agreement(unittest.TestCase):
    def both(self, book, run, name, *arguments):
        """The two say the same and have the same phase, totals and permutations; a run that refuses is as it was."""
        before = fields(run)
        said, done = getattr(book, name)(*arguments), getattr(run, name)(*arguments)
        self.assertEqual(said, done, (name, arguments))
        self.assertEqual((book.phase, book.totals(), book.permutations), (run.phase, run.totals(), run.permutations))
        self.assertTrue(run.is_reached())
        status = said[0] if name == "squeeze" else said
        if status:
            self.assertEqual(fields(run), before)
        return status

    def test_random_lists(self):
        """Of every function that is the sponge. Only TurboSHAKE's close has an argument, and so the answer 1."""
        source = random.Random(3)
        for number, function in SPONGE.items():
            rate, seen = function.rate, set()
            last = function.digest or 2 * rate
            for _ in range(60):
                book, run = ShortTranscript(function), ShortRun(function)
                for _ in range(12):
                    name = source.choice(("absorb", "absorb", "finalize", "squeeze", "squeeze", "squeeze"))
                    size = source.choice((0, 1, rate - 1, rate, rate + 1, *map(source.randrange, (400, 700))))
                    asked = source.choice((size, source.randrange(last), last - run.squeezed % last))
                    closing = [source.randrange(0x90)] if number in TURBOSHAKE else []
                    arguments = {"absorb": [source.randbytes(size)], "squeeze": [asked], "finalize": closing}
                    seen.add((name, self.both(book, run, name, *arguments[name])))
            due = {"absorb": (0, 2, 3), "finalize": (0, 1, 3) if number in TURBOSHAKE else (0, 3), "squeeze": (0, 3, 6)}
            self.assertEqual(seen, {(name, status) for name, statuses in due.items() for status in statuses}, function.name)

    def test_random_kt_lists(self):
        """Through up to six chunks; a piece of the message or of C often ends at, one before or one past a chunk's end."""
        self.chunked_lists(ShortKtTranscript, ShortKtRun, KT, (0, 2, 3), range(-1, 2))

    def test_random_day_lists(self):
        """So does an event, with or without its length, of at most three bytes."""
        self.chunked_lists(ShortDayTranscript, ShortDayRun, DAY, (0, 2, 3, 8), range(-4, 2))

    def chunked_lists(self, book_kind, run_kind, rates, absorbed, ends):
        """`absorbed` has the answers that pieces are to meet, `ends` how far from a chunk's end they often end."""
        source = random.Random(4)
        seen = set()
        for rate in 100 // len(rates) * list(rates.values()):
            book, run = book_kind(rate), run_kind(rate)
            for _ in range(20):
                name = source.choice((*8 * ("absorb",), "finalize", "customize", "customize", "finish", *3 * ("squeeze",)))
                merged = run.absorbed + run.customized
                size = source.choice((0, 1, 2, source.randrange(9000), max(0, -merged % 8192 + source.choice(ends))))
                chunk = max(0, -merged % 8192 - source.randrange(4))
                custom = reference.ptn(source.choice((0, 1, 255, 256, source.randrange(9000), chunk, CUSTOM_LIMIT, CUSTOM_LIMIT + 1)))
                arguments = {"absorb": [reference.ptn(size)], "squeeze": [size % 500], "finalize": [custom], "customize": [custom], "finish": []}
                seen.add((name, self.both(book, run, name, *arguments[name])))
        due = {"absorb": absorbed, "finalize": (0, 3, 4), "customize": (0, 3, 4), "finish": (0, 3), "squeeze": (0, 3, 6)}
        self.assertEqual(seen, {(name, status) for name, statuses in due.items() for status in statuses})

    def test_equal_books_leave_equal_runs(self):
        for number, function in SPONGE.items():
            self.cut_in_any_way(number, 0x1F if number in TURBOSHAKE else None, 700, (1, 7, 168, 169, 700), function.digest or 500)
        self.cut_in_any_way(2, b"abc", 17_000, (97, 168, 8191, 8192, 17_000), 500)

    def cut_in_any_way(self, number, argument, size, steps, asked):
        message = reference.ptn(size)
        runs = []
        for step, part in zip(steps, (1, 5, 168, 167, 500)):
            run = model_run.run_of(number)
            for at in range(0, size, step):
                self.assertEqual(run.absorb(message[at : at + step]), 0)
            self.assertEqual(run.finalize(argument), 0)
            for at in range(0, asked, part):
                self.assertEqual(run.squeeze(min(part, asked - at))[0], 0)
            runs.append(fields(run))
        self.assertEqual(runs, [runs[0]] * 5)


if __name__ == "__main__":
    unittest.main()
