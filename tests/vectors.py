"""Reads the vectors of the drafts, kept in tests/vectors/ in the drafts' own notation."""
import re
from collections import namedtuple
from pathlib import Path

import reference

FOLDER = Path(__file__).parent / "vectors"
ASKED = r"(\d+)\)(?:, last (\d+) bytes)?: `([0-9A-F ]+)`"
TURBOSHAKE = re.compile(r"(\w+)\(M=(.+?), D=`(\w\w)`, " + ASKED)
KT = re.compile(r"(\w+)\((?:M=)?(.+?), C=(.+?), " + ASKED)
PATTERN = re.compile(r"ptn\((\d+)(?:\*\*(\d))?(?: bytes)?\)")

# what is asked of the function, and the bytes printed: the whole output, or its last ones; the kind of the message is ptn or ff
Vector = namedtuple("Vector", "function kind size message domain length digest")
# the same of KT: `custom` is the length of the customization string, which is ptn in every one
KtVector = namedtuple("KtVector", "function kind size message custom length digest")


def message_of(text):
    """(kind, length, a function that makes the bytes) of a message in the drafts' notation; the empty one counts as ptn."""
    pattern = PATTERN.fullmatch(text)
    if pattern:
        base, power = pattern.groups()
        size = int(base) ** int(power or 1)
        return "ptn", size, lambda: reference.ptn(size)
    if text == "`00`^0":
        return "ptn", 0, lambda: b""
    data = bytes.fromhex(text.strip("`"))
    if data.strip(b"\xff"):
        raise ValueError(f"a message of no known kind: {text}")
    return "ff", len(data), lambda: data


def custom_of(text):
    kind, size, _ = message_of(text)
    if kind != "ptn":
        raise ValueError(f"a customization string of no known kind: {text}")
    return size


def lines_of(file, form):
    """The parts of each vector in a file; the length asked and the bytes printed come last."""
    for line in (FOLDER / file).read_text().splitlines():
        if line.startswith("#"):
            continue
        found = form.fullmatch(line)
        if not found:
            raise ValueError(f"not a vector: {line}")
        *parts, length, last, digest = found.groups()
        digest = bytes.fromhex(digest)
        if len(digest) != int(last or length):
            raise ValueError(f"a digest of another length than it says: {line}")
        yield *parts, int(length), digest


def turboshake():
    for function, message, domain, length, digest in lines_of("turboshake.txt", TURBOSHAKE):
        yield Vector(function, *message_of(message), int(domain, 16), length, digest)


def kt():
    """The KT128 and KT256 vectors of draft-irtf-cfrg-kangarootwelve-16."""
    for function, message, custom, length, digest in lines_of("kt.txt", KT):
        yield KtVector(function, *message_of(message), custom_of(custom), length, digest)


def kangarootwelve():
    """The vectors of draft-viguier-kangarootwelve-01, whose KangarooTwelve is KT128."""
    for _, message, custom, length, digest in lines_of("kangarootwelve.txt", KT):
        yield KtVector("KT128", *message_of(message), custom_of(custom), length, digest)
