"""The program `digest` writes KT128 of its standard input, or why not; it is really run, on pipes, files and inputs that cannot be read.

Needs crates/digest/out/digest, which `rt ci` leaves.
"""
import fcntl
import os
import subprocess
import tempfile
import threading
import time
import tty
import unittest

import reference
from programs import program

PROGRAM = program("digest")
USAGE = b"usage: digest < FILE\n"
LONG = 4_294_967_296  # more bytes than a number of 32 bits counts; the limit itself is slow_digest.py's


def line_of(message):
    return reference.kt128(message, b"", 32).hex() + "\n"


def long_line(size):
    """What is due for ptn(size), a chunk or more: its chunks begin at 251 places of the pattern, so there are no more chaining values than that."""
    pattern = reference.ptn(reference.CHUNK + 251)
    whole, rest = divmod(size, reference.CHUNK)
    *starts, last = (reference.CHUNK * i % 251 for i in range(1, whole + 1))
    values = {start: reference.chaining_value(168, 32, pattern[start:][: reference.CHUNK]) for start in set(starts)}
    node = bytearray(pattern[: reference.CHUNK] + b"\x03" + bytes(7))
    for start in starts:
        node += values[start]
    # S is the message and 00, which the last chunk ends with
    node += reference.chaining_value(168, 32, pattern[last:][:rest] + b"\0")
    node += reference.length_encode(whole) + b"\xff\xff"
    return reference.turboshake(168, node, 0x06, 32).hex() + "\n"


def write_all(file, data):
    while data:
        data = data[os.write(file, data) :]


def pattern_to(size):
    """Writes ptn(size) into a pipe, in large pieces."""

    def feed(pipe):
        fcntl.fcntl(pipe, fcntl.F_SETPIPE_SZ, 1 << 20)
        pattern = memoryview(reference.ptn(251 * 4096))
        left = size
        while left:
            piece = pattern[:left]
            left -= len(piece)
            write_all(pipe, piece)

    return feed


def pieces_to(pieces, pause):
    """Writes each piece once the program had time to read the one before, so that its reads give less than they could."""

    def feed(pipe):
        for piece in pieces:
            write_all(pipe, piece)
            time.sleep(pause)

    return feed


class Piped(unittest.TestCase):
    """A test that runs a program on an input and looks at what it writes."""

    SECONDS = 300  # for one run of the program; the longest of the gate takes seconds

    def output(self, process, errors=b""):
        """What the program wrote, once it has ended; on standard error just this."""
        stop = threading.Timer(self.SECONDS, process.kill)
        stop.start()
        try:
            out, told = process.stdout.read(), process.stderr.read()
            process.wait()
        finally:
            stop.cancel()
            process.stdout.close()
            process.stderr.close()
        self.assertEqual(told, errors)
        self.assertGreaterEqual(process.returncode, 0, "ended by a signal")
        return out.decode("latin-1")

    def started(self, stdin, command=(str(PROGRAM),)):
        return subprocess.Popen(command, stdin=stdin, stdout=subprocess.PIPE, stderr=subprocess.PIPE)

    def from_pipe(self, feed, command=(str(PROGRAM),)):
        """The program may stop reading once it knows its answer."""
        reading, writing = os.pipe()
        process = self.started(reading, command)
        os.close(reading)

        def write():
            try:
                feed(writing)
            except BrokenPipeError:
                pass
            finally:
                os.close(writing)

        writer = threading.Thread(target=write)
        writer.start()
        out = self.output(process)
        writer.join()
        return out


class Digest(Piped):
    def test_empty(self):
        self.assertEqual(self.from_pipe(lambda pipe: None), line_of(b""))
        with open(os.devnull, "rb") as nothing:
            self.assertEqual(self.output(self.started(nothing)), line_of(b""))

    def test_scope(self):
        """Document 01 prints this line."""
        line = "cb552e2ec77d9910701d578b457ddf772c12e322e4ee7fe417f92c758f0d59d0\n"
        self.assertEqual(self.from_pipe(pattern_to(17**3)), line)
        with tempfile.TemporaryFile() as file:
            file.write(reference.ptn(17**3))
            file.seek(0)
            self.assertEqual(self.output(self.started(file)), line)

    def test_around_a_chunk(self):
        for size in (1, 8190, 8191, 8192, 8193, 16_383, 16_384, 16_385, 100_000):
            with self.subTest(size=size):
                self.assertEqual(self.from_pipe(pattern_to(size)), line_of(reference.ptn(size)))

    def test_odd_pieces(self):
        """Reads that give less than they could, and ends of pieces around the ends of chunks."""
        sizes = (1, 7, 8191, 8192, 8193, 1, 1, 8190, 2, 5000, 3192, 1, 16_384, 65_535, 65_536, 3, 167, 168, 169)
        message = reference.ptn(sum(sizes))
        ends = [sum(sizes[: i + 1]) for i in range(len(sizes))]
        pieces = [message[end - size : end] for size, end in zip(sizes, ends)]
        self.assertEqual(b"".join(pieces), message)
        for pause in (0.0, 0.01):
            self.assertEqual(self.from_pipe(pieces_to(pieces, pause)), line_of(message))

    def test_byte_by_byte(self):
        message = reference.ptn(300)
        self.assertEqual(self.from_pipe(pieces_to([message[i : i + 1] for i in range(300)], 0.001)), line_of(message))

    def test_long(self):
        """4,294,967,296 bytes are taken. The limit, one byte less than four times as many, and one byte more are slow_digest.py's."""
        self.assertEqual(self.from_pipe(pattern_to(LONG)), long_line(LONG))

    def test_how_the_long_line_is_worked_out(self):
        for size in (8192, 8193, 16_383, 16_384, 100_000, 300 * 8192 + 1):
            self.assertEqual(long_line(size), line_of(reference.ptn(size)))

    def test_no_read(self):
        """A directory, a file that is open for writing only, and no standard input at all. The reason is told on standard error."""
        folder = os.open("/", os.O_RDONLY | os.O_DIRECTORY)
        self.assertEqual(self.output(self.started(folder), b"read failed: Is a directory\n"), "read failed\n")
        os.close(folder)
        with tempfile.NamedTemporaryFile() as file:
            unreadable = os.open(file.name, os.O_WRONLY)
            self.assertEqual(self.output(self.started(unreadable), b"read failed: Bad file descriptor\n"), "read failed\n")
            os.close(unreadable)
        closed = self.started(subprocess.DEVNULL, ("sh", "-c", 'exec "$0" <&-', str(PROGRAM)))
        self.assertEqual(self.output(closed, b"read failed: Bad file descriptor\n"), "read failed\n")

    def test_no_read_no_write(self):
        """Neither the input can be read nor the line written: both are told, each with its own reason."""
        folder = os.open("/", os.O_RDONLY | os.O_DIRECTORY)
        with open("/dev/full", "wb") as full:
            done = subprocess.run([str(PROGRAM)], stdin=folder, stdout=full, stderr=subprocess.PIPE, timeout=self.SECONDS)
        os.close(folder)
        self.assertEqual(done.stderr, b"read failed: Is a directory\nwrite failed: No space left on device\n")

    def test_arguments(self):
        """Any argument, an empty one too: a usage line on standard error, nothing on standard output, and nothing is read.

        The first input has bytes, to see that none is read; the second never ends, as in a terminal.
        """
        for words in (["day.log"], [""], ["-"], ["--help"], ["day.log", "night.log"], ["x" * 100_000]):
            with self.subTest(words=[word[:10] for word in words]):
                with tempfile.TemporaryFile() as file:
                    file.write(reference.ptn(17**3))
                    file.seek(0)
                    self.assertEqual(self.output(self.started(file, (str(PROGRAM), *words)), USAGE), "")
                    self.assertEqual(os.lseek(file.fileno(), 0, os.SEEK_CUR), 0)
                reading, writing = os.pipe()
                self.assertEqual(self.output(self.started(reading, (str(PROGRAM), *words)), USAGE), "")
                os.close(reading)
                os.close(writing)

    def test_full_disk(self):
        """A line that cannot be written is told on standard error: the kit's programs have no exit status of their own."""
        with open("/dev/full", "wb") as full:
            done = subprocess.run([str(PROGRAM)], input=b"", stdout=full, stderr=subprocess.PIPE, timeout=self.SECONDS)
        self.assertEqual(done.stderr, b"write failed: No space left on device\n")

    def test_read_fails_later(self):
        """The master of a terminal gives what was written to the other end, and an error once that end is closed."""
        for size in (1, 8192, 100_000):
            with self.subTest(size=size):
                master, slave = os.openpty()
                tty.setraw(slave)
                process = self.started(master)
                os.close(master)
                write_all(slave, reference.ptn(size))
                time.sleep(0.1)
                os.close(slave)
                self.assertEqual(self.output(process, b"read failed: Input/output error\n"), "read failed\n")


if __name__ == "__main__":
    unittest.main()
