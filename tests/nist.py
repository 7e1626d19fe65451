"""Reads NIST's response files for FIPS 202, kept in tests/vectors/nist/ as published, compressed with xz; and NIST's sample values for SP
800-185, in tests/vectors/sp800-185-samples.json, which says what they are.

A line of a response file is empty, a comment, or `name = value`; some stand in brackets, before the vectors that they are true of. Lengths are in
bits. A line of no known form, or a value that does not fit its vector, is an error: nothing is passed over.
"""
import json
import lzma
import re
from pathlib import Path
from typing import NamedTuple

from sp800_185 import STARTED
from sponge_functions import FIPS202

SAMPLES = Path(__file__).resolve().parent / "vectors/sp800-185-samples.json"
FOLDER = Path(__file__).resolve().parent / "vectors/nist"
ASSIGNMENT = re.compile(r"(\[?)([A-Z][\w ()]*?) = (\w+)(\]?)")
REMARK = "[Tested for Output of byte-oriented messages]"
NUMBERS = {function.name.replace("-", "_"): number for number, function in FIPS202.items()}  # SHA3_224, .., SHAKE256
OUTPUTS = "MD", "Output"  # what the expected value is called, of SHA3 and of SHAKE
SHORTEST, LONGEST = "Minimum Output Length (bits)", "Maximum Output Length (bits)"


class Vector(NamedTuple):
    function: int  # its number
    message: bytes
    value: bytes


class Chain(NamedTuple):
    """A Monte Carlo file: the first message, the bounds of SHAKE's output lengths in bytes, and the value of each COUNT."""

    function: int
    seed: bytes
    shortest: int
    longest: int
    values: list


def files(*kinds):
    """The names of the files of these kinds (ShortMsg, LongMsg, VariableOut, Monte), sorted."""
    return sorted(path.name.removesuffix(".rsp.xz") for kind in kinds for path in FOLDER.glob(f"*{kind}.rsp.xz"))


def function_of(file):
    return next(number for name, number in NUMBERS.items() if file.startswith(name))


def assignments(file):
    """(whether in brackets, name, value) of each line that has one."""
    for line in lzma.open(FOLDER / f"{file}.rsp.xz", "rt").read().splitlines():
        if not line.strip() or line.startswith("#") or line == REMARK:
            continue
        found = ASSIGNMENT.fullmatch(line.strip())
        if not found or bool(found[1]) != bool(found[4]):
            raise ValueError(f"{file}: no line of a response file: {line[:60]}")
        yield bool(found[1]), found[2], found[3]


def whole_bytes(file, bits):
    if int(bits) % 8:
        raise ValueError(f"{file}: {bits} bits are no whole bytes")
    return int(bits) // 8


def groups(file):
    """The names and values that end with each expected value, those in brackets and all since the last expected value."""
    standing, since = {}, {}
    for in_brackets, name, value in assignments(file):
        (standing if in_brackets else since)[name] = value
        if name in OUTPUTS:
            yield standing | since
            since = {}
    if since:
        raise ValueError(f"{file}: ends with {sorted(since)}")


def value_of(file, group):
    """The expected value, which must be as long as the file says: L of SHA3, Outputlen of SHAKE; a Monte file of SHA3 has L too."""
    (value,) = (bytes.fromhex(group[name]) for name in OUTPUTS if name in group)
    if len(value) != whole_bytes(file, group["L" if "L" in group else "Outputlen"]):
        raise ValueError(f"{file}: a value of another length than it says")
    return value


def vectors(file):
    """Of ShortMsg, LongMsg and VariableOut. A message of no bits is written as one byte, 00."""
    for group in groups(file):
        message = bytes.fromhex(group["Msg"])
        size = whole_bytes(file, group["Len" if "Len" in group else "Input Length"])
        if len(message) != (size or 1) or (size == 0 and message != b"\0"):
            raise ValueError(f"{file}: a message of another length than it says")
        yield Vector(function_of(file), message[:size], value_of(file, group))


def chain(file):
    found = list(groups(file))
    if [int(group["COUNT"]) for group in found] != list(range(len(found))):
        raise ValueError(f"{file}: COUNT does not go up one by one")
    values = [value_of(file, group) for group in found]
    seed, *lengths = (found[0].get(name) for name in ("Seed", SHORTEST, LONGEST))
    if seed:  # SHA3
        return Chain(function_of(file), bytes.fromhex(seed), len(values[0]), len(values[0]), values)
    return Chain(function_of(file), bytes.fromhex(found[0]["Msg"]), *(whole_bytes(file, bits) for bits in lengths), values)


class Sample(NamedTuple):
    """A sample value of SP 800-185."""

    function: int
    first: bytes  # N, or the key
    custom: bytes
    message: bytes
    value: bytes


def samples():
    """Strings are in hex, L is in bytes and the length of the value."""
    numbers = {function.name: number for number, function in STARTED.items()}
    for entry in json.loads(SAMPLES.read_text())["vectors"]:
        number = numbers[entry["function"]]
        first = "K" if STARTED[number].is_keyed else "N"
        if set(entry) != {"function", first, "X", "S", "L", "expected"}:
            raise ValueError(f"no sample value: {sorted(entry)}")
        sample = Sample(number, *(bytes.fromhex(entry[name]) for name in (first, "S", "X", "expected")))
        if len(sample.value) != entry["L"]:
            raise ValueError(f"a value of {len(sample.value)} bytes for an L of {entry['L']}")
        yield sample
