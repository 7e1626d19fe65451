"""A record of request Q-6 that does not fit, or one that is none of the run in hand: `bad record`, and nothing of what follows.

Needs crates/replay/out/replay, which `rt ci` leaves.
"""
import unittest

from lent_calls import MOST_WORDS, kt_lent_record, lent_payload, lent_record
from malformed import FAR, Refused
from replay import MOST, PHASE, kt_record, record, set_record
from sp800_185 import STARTED
from started_calls import start_record
from transcript import KT

# More words than a record can lend, among them those whose low byte, or whose bytes in the other order, say 100.
TOO_MANY = MOST_WORDS + 1, 356, 400, 512, 612, 0x6400, 0x8064, 0xFFFF
OTHERS = (0, 1, *range(4, 11))  # functions that N begins and that are not KT


class Malformed(Refused):
    def phases(self, function):
        """Records that leave a run of KT in each phase, and in one that there is not."""
        run = [(record("N", bytes([function])), "fresh"), (lent_record(100, b"abc"), "0 zero")]
        return run, [*run, (record("C", b"a"), "0")], [*run, (record("F", b"a"), "0")], [*run, (set_record(PHASE, 3), "set")]

    def refused_in_every_phase(self, data):
        for function in KT:
            for before in self.phases(function):
                self.refused(before, data + lent_record(100, b"abc") + record("N", b"\2"))

    def test_cut_short(self):
        for data in (lent_record(100, b"abc"), lent_record(0, b""), kt_lent_record(100, 2, b"abc", 2, b"xyz"), lent_record(100, bytes(MOST - 2))):
            for size in {*range(1, min(len(data), 20)), len(data) - 1}:
                with self.subTest(op=data[:1], size=size):
                    self.refused([(record("N", b"\2"), "fresh")], data[:size])

    def test_too_long(self):
        for n in FAR:
            for op in "ak":
                with self.subTest(op=op, n=n):
                    self.refused_in_a_list(record(op, bytes([0, 100]) + bytes(MOST - 1), n=n), 3)

    def test_too_short(self):
        """The two bytes of the number of words, and in one go the nine after them."""
        for size in (0, 1):
            self.refused_in_every_phase(record("a", bytes(size)))
        for function in KT:
            payload = lent_payload(100, bytes([function]) + bytes(8))
            for size in range(11):
                self.refused_in_a_list(record("k", payload[:size]), function)
            self.refused([(record("k", payload), "7  kept")], record("Z"))

    def test_number_of_words(self):
        """301 and more are none, whatever the call would answer. 300 are no fault of the record: the library answers."""
        for words in TOO_MANY:
            with self.subTest(words=words):
                for piece in (b"", b"abc", bytes(5 * 8192)):
                    self.refused_in_every_phase(lent_record(words, piece))
                for function in KT:
                    for size in (0, 32):
                        self.refused_in_a_list(kt_lent_record(words, function, b"", size, b"abc"), function)
        answered = [(lent_record(300, b"abc"), "12 kept"), (kt_lent_record(300, 3, b"", 0, b"abc"), "12  kept")]
        self.refused([(record("N", b"\3"), "fresh"), *answered], record("Z"))

    def test_inner_lengths_in_one_go(self):
        """An output longer than the buffer, a customization string longer than what follows it; with any number of words."""
        for function in KT:
            for words in (100, 99):
                for size in FAR:
                    self.refused_in_a_list(kt_lent_record(words, function, b"", size, b"abc"), 2)
                    self.refused_in_a_list(kt_lent_record(words, function, bytes(65_536), size, b"abc"))
                for custom_size in (4, 5, MOST - 10, MOST - 8, MOST, (1 << 31) + 3, *FAR):
                    with self.subTest(function=function, custom_size=custom_size):
                        self.refused_in_a_list(kt_lent_record(words, function, b"", 32, b"abc", custom_size=custom_size), function)

    def test_functions_in_one_go(self):
        """2 and 3 alone. The record of K, which has no number of words before the function, is none of k."""
        for function in {*range(18), 0x64, 0x80, 0x82, 0xFF} - {*KT}:
            with self.subTest(function=function):
                for words in (100, 99):
                    self.refused_in_a_list(kt_lent_record(words, function, b"", 8, b"abc"), 2)
        for function in KT:
            self.refused_in_a_list(record("k", kt_record(function, b"", 8, b"abc")[5:]), 2)

    def test_run_of_another_function(self):
        """The feed is KT's alone: neither a day nor a run of another function has it, before or after one of KT, whatever the words."""
        for words in (0, 99, 100, 300):
            feed = lent_record(words, b"abc")
            for function in OTHERS:
                run = [(record("N", bytes([function])), "fresh"), (record("A", b"abc"), "0")]
                with self.subTest(function=function):
                    self.refused(run, feed + record("N", b"\2"))
                    self.refused([(record("N", b"\2"), "fresh"), (lent_record(100, b"abc"), "0 zero"), *run], feed + record("N", b"\2"))
            for number in STARTED:
                self.refused([(start_record(number, b"first", b"custom"), "0")], feed + record("N", b"\2"))

    def test_no_run(self):
        """The feed needs one; the call in one go does not, and leaves none."""
        answered = [(kt_lent_record(words, 3, b"", 0, b""), f"{status}  kept") for words, status in ((100, 7), (0, 12))]
        for words in (100, 99):
            for before in ([], answered):
                self.refused(before, lent_record(words, b"abc") + record("N", b"\2"))


if __name__ == "__main__":
    unittest.main()
